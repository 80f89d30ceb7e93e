# Reads portable.c, then the module as portable.sed leaves it, and writes the module with the functions that portable.c declares,
# fir_.._at: each takes slices and its answer behind pointers and calls the proved function, fir_.._code, which takes a slice as two
# values and gives an answer of two numbers as such, as no convention of C does on every machine. A slice that lies nowhere has no
# element; it is handed on as one that lies at 4096, as the functions for x86-64 do.

# A declaration of portable.c, over several lines.
FNR == NR {
    if ($0 ~ /^(void|uint64_t) fir_[a-z_]*_at\(/) declaration = $0
    else if (declaration != "") declaration = declaration " " $0
    if (declaration ~ /\);$/) {
        declared[++count] = declaration
        declaration = ""
    }
    next
}

# What a proved function gives.
/^define internal .*@fir_[a-z_]*_code\(/ {
    name = $0
    sub(/^[^@]*@/, "", name)
    sub(/_code\(.*/, "", name)
    given = $0
    sub(/^define internal /, "", given)
    sub(/^noundef /, "", given)
    sub(/ @.*/, "", given)
    gives[name] = given
}

{ print }

# The type in LLVM's words of a parameter in C.
function type_of(parameter) {
    if (parameter ~ /\*/) return "ptr"
    if (parameter ~ /uint8_t/) return "i8"
    if (parameter ~ /uint32_t/) return "i32"
    if (parameter ~ /uint64_t/) return "i64"
    print "dist: portable.awk does not know " parameter > "/dev/stderr"
    exit 1
}

# The function fir_.._at of a declaration.
function write_at(declaration,    name, words, parameters, n, i, takes, body, hands, has_answer, given, sizes, numbers) {
    name = declaration
    sub(/^[^ ]* /, "", name)
    sub(/_at\(.*/, "", name)
    words = declaration
    sub(/^[^(]*\(/, "", words)
    sub(/\);$/, "", words)
    n = words == "void" ? 0 : split(words, parameters, /, */)
    if (!(name in gives)) {
        print "dist: the module has no function " name > "/dev/stderr"
        exit 1
    }
    given = gives[name]
    has_answer = n > 0 && parameters[1] ~ /\*to$/
    for (i = 1; i <= n; i++) {
        takes = takes (i > 1 ? ", " : "") type_of(parameters[i]) " noundef %p" i
        if (i == 1 && has_answer && given != "void") continue
        hands = hands (hands != "" ? ", " : "")
        if (parameters[i] !~ /slice \*/) {
            hands = hands type_of(parameters[i]) " %p" i
            continue
        }
        body = body "  %first" i " = load ptr, ptr %p" i ", align 8\n"
        body = body "  %behind" i " = getelementptr i8, ptr %p" i ", i64 8\n"
        body = body "  %length" i " = load i64, ptr %behind" i ", align 8\n"
        body = body "  %nowhere" i " = icmp eq ptr %first" i ", null\n"
        body = body "  %there" i " = select i1 %nowhere" i ", ptr inttoptr (i64 4096 to ptr), ptr %first" i "\n"
        hands = hands "ptr %there" i ", i64 %length" i
    }
    printf "\ndefine %s @%s_at(%s) #0 {\nstart:\n%s", has_answer ? "void" : given, name, takes, body
    if (given == "void") {
        printf "  call void @%s_code(%s)\n  ret void\n}\n", name, hands
    } else if (given ~ /^\{/) {
        sizes = given
        gsub(/[{}i ]/, "", sizes)
        if (split(sizes, numbers, ",") != 2 || numbers[2] > numbers[1] || !has_answer) {
            print "dist: portable.awk does not know the answer " given " of " name > "/dev/stderr"
            exit 1
        }
        printf "  %%answer = call %s @%s_code(%s)\n", given, name, hands
        printf "  %%one = extractvalue %s %%answer, 0\n  %%other = extractvalue %s %%answer, 1\n", given, given
        printf "  store i%d %%one, ptr %%p1, align 1\n", numbers[1]
        printf "  %%second = getelementptr i8, ptr %%p1, i64 %d\n", numbers[1] / 8
        printf "  store i%d %%other, ptr %%second, align 1\n  ret void\n}\n", numbers[2]
    } else {
        printf "  %%answer = call %s @%s_code(%s)\n  ret %s %%answer\n}\n", given, name, hands, given
    }
}

END {
    for (it = 1; it <= count; it++) write_at(declared[it])
}
