#!/usr/bin/env bash
# Asks whether a folder that make.sh has made holds what is proved here: tools/dist/compare.sh FOLDER. Run it in a checkout of
# the commit that the folder's MADE-FROM names, with the kit that it names, after `rt ci`, which proves all from nothing.
# Built here and compared byte for byte are the library, the module that it is compiled from, the libraries for other machines, the
# programs `fir_check` and `fir` and the cases of the conformance kit; the header and replay.c are compared with this checkout's. What
# MADE-FROM says of compilers and flags is compared too: with others the bytes of `fir` and of other machines' libraries may differ, those
# of the kit's own not. The status is 0 where all are the same, 1 where something differs, 2 where something could not be built.
set -euo pipefail

[ $# -eq 1 ] || { echo "usage: tools/dist/compare.sh FOLDER" >&2; exit 2; }
folder=$(cd "$1" && pwd)
cd "$(dirname "$0")/../.."

log=$(mktemp)
trap 'rm -f "$log"' EXIT
status=0

# Says whether a thing is the same here, by the status of a command.
same() {
    local what=$1
    shift
    if "$@" >/dev/null 2>&1; then
        echo "dist: the same $what"
    else
        echo "dist: not the same $what"
        [ "$status" = 2 ] || status=1
    fi
}

# Runs a command, and shows what it prints where it fails.
build() {
    "$@" >"$log" 2>&1 && return
    cat "$log"
    echo "dist: $* fails"
    status=2
    return 1
}

# The value of a line of MADE-FROM.
made_from() {
    sed -n "s/^$1: //p" "$folder/MADE-FROM"
}

# Whether MADE-FROM has each line of a file.
has_lines() {
    local line
    while read -r line; do grep -qxF -e "$line" "$folder/MADE-FROM" || return 1; done <"$1"
}

same "commit" test "$(made_from commit)" = "$(git rev-parse HEAD)"
same "kit" test "$(made_from kit)" = "$(rt version)"
if [ -n "$(git status --porcelain)" ]; then
    echo "dist: this checkout has changes that are not committed"
    status=1
fi
build tools/dist/module.sh || exit 2
same "module" grep -q "^module: .* sha256 $(sha256sum <target/staticlib/abi.bc | cut -d ' ' -f 1)\$" "$folder/MADE-FROM"
same "compiler and flags of the library" has_lines target/staticlib/MADE-BY
same "library" cmp target/staticlib/libabi.a "$folder/lib/libfir.a"
for library in "$folder"/lib/*/libfir.a; do
    [ -f "$library" ] || continue
    target=$(basename "$(dirname "$library")")
    build tools/dist/build.sh "$target" || continue
    same "compilers and flags for $target" has_lines "target/$target/MADE-BY"
    same "library for $target" cmp "target/$target/libfir.a" "$library"
done
if build tools/dist/program.sh; then same "program fir_check" cmp crates/fir_check/out/fir_check "$folder/bin/fir_check"; fi
if build tools/dist/fir.sh; then
    same "compilers and flags of fir" has_lines target/cargo/MADE-BY
    same "program fir" cmp target/cargo/release/fir "$folder/bin/fir"
fi
if build tools/dist/conformance.sh; then same "recorded cases" cmp target/conformance/cases.bin "$folder/conformance/cases.bin"; fi
same "replay.c" cmp tests/interface/replay.c "$folder/conformance/replay.c"
same "header" cmp include/fir.h "$folder/include/fir.h"
exit "$status"
