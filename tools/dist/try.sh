#!/usr/bin/env bash
# Tries a folder that make.sh has made: tools/dist/try.sh FOLDER. In a copy of it elsewhere, with nothing else at hand, its
# checksums are compared, its programs run, and each C example is built with cc alone and, where there is pkg-config, with that
# and by the lines of the folder's README, and prints what stands beside it. The conformance kit is played by the lines of its own
# README: natively, and under an emulator for each other machine that the folder has a library for and whose tools are at hand.
set -euo pipefail

folder=$(cd "$1" && pwd)
place=$(mktemp -d)
trap 'rm -rf "$place"' EXIT
cp -r "$folder" "$place/fir"
cd "$place"

fail() {
    echo "dist: $*"
    exit 1
}

# Asserts what a command prints.
prints() {
    local wanted=$1 printed
    shift
    printed=$("$@") || fail "$* fails"
    [ "$printed" = "$wanted" ] || fail "$* prints $printed"
}

# Runs a host that was built in this way, with the keys of its example if it has some, and compares what it prints with the
# example's text.
compare() {
    local host=$1 example=$2 way=$3 wanted keys=/dev/null
    wanted=$(sed '/^status/q' "fir/examples/$example.txt")
    [ ! -f "fir/examples/$example.keys" ] || keys=fir/examples/$example.keys
    # shellcheck disable=SC2016
    prints "$wanted" sh -c '"$0"; echo "status $?"' "$host" <"$keys"
    echo "dist: $example, built by $way"
}

(cd fir && sha256sum --quiet -c SHA256SUMS) || fail "the checksums differ"
identity='\013\0\001\0\0\0\001\001\002\001\002\005\0\003\0\0\007\0\002\0\0\0\0'
prints $'0.0 1 0 0 0\naccepted 1' sh -c "printf '$identity' | fir/bin/check"
fir/bin/check <fir >said.txt 2>/dev/null && fail "check has a verdict on a folder"
[ ! -s said.txt ] || fail "check prints $(cat said.txt) of a folder"
prints "DONE 1 after 24 steps" fir/bin/fir run fir/examples/defrost.fir 0.0 15 -75 55

for source in fir/examples/*.c; do
    example=$(basename "$source" .c)
    cc -std=c99 -Ifir/include "$source" fir/lib/libfir.a -o host
    compare ./host "$example" cc
    if command -v pkg-config >/dev/null; then
        # shellcheck disable=SC2046
        cc -std=c99 "$source" $(PKG_CONFIG_PATH=fir/lib/pkgconfig pkg-config --cflags --libs fir) -o host
        compare ./host "$example" pkg-config
    fi
done

if command -v pkg-config >/dev/null; then
    sed -n '/^## Build a host$/,/^## Other/s/^    //p' fir/README.md >lines.sh
    (cd fir && bash -e ../lines.sh)
    compare fir/controller controller "the lines of the README"
fi

# Runs those lines of a section of the kit's README that begin with certain words, which are for a machine, inside the kit's folder;
# all cases pass.
conforms() {
    local machine=$1 section=$2 words=$3
    sed -n "/^## $section/,/^## /s/^    //p" fir/conformance/README.md | grep -E "^($words)" >lines.sh
    [ "$(wc -l <lines.sh)" -eq 2 ] || fail "the README of the kit has not two lines for $machine"
    (cd fir/conformance && bash -e ../../lines.sh) >said.txt || fail "the kit for $machine: $(cat said.txt)"
    tail -n 1 said.txt | grep -Eq '^[1-9][0-9]* passed, 0 failed$' || fail "the kit for $machine prints $(cat said.txt)"
    echo "dist: the kit for $machine, by the lines of its README: $(tail -n 1 said.txt)"
}

conforms x86-64 "Natively" 'cc |\./replay '
for library in fir/lib/*/libfir.a; do
    [ -f "$library" ] || continue
    target=$(basename "$(dirname "$library")")
    emulator=qemu-${target%%-*}
    if command -v "$target-gcc" >/dev/null && command -v "$emulator" >/dev/null; then
        conforms "$target" "For another machine" "$target-gcc |$emulator "
    else
        echo "dist: the kit was not tried for $target: $target-gcc or $emulator is not on the path"
    fi
done
