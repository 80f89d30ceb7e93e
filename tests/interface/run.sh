#!/usr/bin/env bash
# Tries the C interface: its header as C99 and as C++ and the examples in it, the symbols of the archive, the layout of what
# crosses it, the bytes of states, the stack that each function takes, what a search, a position and a watch answer, steps back, eight
# runs in a pool, texts, images loaded, one moved there and back, two joined, mends, bounds, levels, calls from several threads, and the
# examples controller, update, stored, standby, stepper, service and stairwells, whose output stands beside them; and prints what each
# call costs. It builds the library, by tools/dist/module.sh, and needs a C and a C++ compiler with nm, and valgrind. Its last line is
# `interface: N passed, 0 failed`; where something fails, it says what and its status is 1.
#
# With the name of another machine, as tools/dist/target.sh gives it, the library for that machine is tried: by its compiler, under
# qemu, and without C++ and valgrind.
set -euo pipefail
cd "$(dirname "$0")/../.."

target=${1-}
library=target/staticlib/libabi.a
out=target/interface
cc="cc"
nm="nm"
run=()
if [ -n "$target" ]; then
    library=target/$target/libfir.a
    out=target/$target/interface
    cc=$target-gcc
    nm=$target-nm
    run=("qemu-${target%%-*}" -L "/usr/$target")
fi
strict=(-Wall -Wextra -Werror -pedantic -Iinclude)
tally=interface
. tests/interface/tally.sh

mkdir -p "$out"
[ -z "$target" ] || [ -f "$library" ] || fail "$library is missing; tools/dist/target.sh $target makes it"
if [ -z "$target" ]; then
    tools/dist/module.sh >"$out/library.txt" 2>&1 || { cat "$out/library.txt"; fail "the library is not built"; }
    echo '#include "fir.h"' >"$out/empty.cc"
    c++ -x c++ -std=c++98 -Wall -Wextra -Werror -Iinclude -c "$out/empty.cc" -o "$out/empty_cc.o" || fail "the header as C++98"
    ok "the header is C++98"
    c++ -x c++ -std=c++17 "${strict[@]}" -c "$out/empty.cc" -o "$out/empty_cc.o" || fail "the header as C++17"
    ok "the header is C++17"
fi

# The symbols of the archive that nm prints with an option, those of some letters alone, in order.
symbols() {
    "$nm" "$1" "$library" | awk -v letters="$2" 'NF > 1 && $(NF - 1) ~ letters { print $NF }' | sort | paste -sd ' '
}

declared=$(sed -n 's/^[a-z][a-z0-9_]* \(fir_[a-z_]*\)(.*/\1/p' include/fir.h | sort | paste -sd ' ')
[ "$(symbols --defined-only '^T$')" = "$declared" ] || fail "the archive has other functions than the header declares"
ok "the archive has the functions that the header declares"
case $target in
"" | aarch64-* | riscv64-*) needs="memcpy memmove memset" ;;
*) needs="__aeabi_uldivmod memcpy memmove memset" ;; # the first is libgcc's
esac
[ "$(symbols --undefined-only '^U$')" = "$needs" ] || fail "the archive needs $(symbols --undefined-only '^U$')"
ok "the archive needs $needs alone"
[ -z "$(symbols --defined-only '^[bBcCdD]$')" ] || fail "the archive has variables"
ok "the archive has no variable"

awk -f tests/interface/examples.awk include/fir.h >"$out/examples.inc"
for host in layout bytes loads stack search where watch back pool texts moves join mend bounds levels threads costs examples; do
    "$cc" -std=c99 -O2 "${strict[@]}" -I"$out" "tests/interface/$host.c" "$library" -lpthread -o "$out/$host" || fail "$host does not compile"
    "${run[@]}" "$out/$host" || fail "$host"
    ok "$host"
done

# Compiles an example and compares what its runs print with the text beside it, also under valgrind. The function of its name
# does its runs, each under the command that it is given, if any.
example() {
    local name=$1
    "$cc" -std=c99 -O2 "${strict[@]}" "examples/$name.c" "$library" -o "$out/$name" || fail "the $name does not compile"
    "$name" "${run[@]}" >"$out/$name.txt"
    diff "examples/$name.txt" "$out/$name.txt" || fail "the $name prints something else"
    ok "the $name prints what is stored"
    [ -z "$target" ] || return 0
    "$name" valgrind -q --error-exitcode=99 >"$out/$name.txt" 2>"$out/valgrind.txt" || fail "valgrind"
    diff "examples/$name.txt" "$out/$name.txt" || fail "the $name under valgrind: $(head -n 5 "$out/valgrind.txt")"
    [ ! -s "$out/valgrind.txt" ] || fail "valgrind says: $(head -n 5 "$out/valgrind.txt")"
    ok "the $name under valgrind"
}

# Prints what a command prints, and its status.
with_status() {
    "$@" && echo "status 0" || echo "status $?"
}

# The controller with its own image, and with one that is cut short.
printf '\013\000\001' >"$out/short.fir"
controller() {
    with_status "$@" "$out/controller"
    with_status "$@" "$out/controller" "$out/short.fir"
}

update() {
    with_status "$@" "$out/update"
}

stored() {
    with_status "$@" "$out/stored"
}

standby() {
    with_status "$@" "$out/standby"
}

# The stepper by keys that are stored beside it, and with an image that is cut short.
stepper() {
    with_status "$@" "$out/stepper" <examples/stepper.keys
    with_status "$@" "$out/stepper" "$out/short.fir" </dev/null
}

# The service screen with its own image, and with one that is cut short.
service() {
    with_status "$@" "$out/service"
    with_status "$@" "$out/service" "$out/short.fir"
}

# The block of stairwells with its own image, and with one that is cut short.
stairwells() {
    with_status "$@" "$out/stairwells"
    with_status "$@" "$out/stairwells" "$out/short.fir"
}

example controller
example update
example stored
example standby
example stepper
example service
example stairwells

all_passed
