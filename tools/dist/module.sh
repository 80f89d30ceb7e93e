#!/usr/bin/env bash
# Proves and builds the library as library.sh does, and keeps the LLVM module that it is compiled from, as
# target/staticlib/abi.bc. A folder of links stands in for the kit, with a copy of its command `rt`, which takes the kit to be where
# it stands itself; only its clang is another one, which copies the module that it is handed and then calls the kit's. That the module
# is the library's is seen afterwards: compiled once more by the kit's own clang, it gives the archive's object byte for byte;
# target/staticlib/abi.sha256 has the checksums of both, and MADE-BY there says by which compiler and flags. It needs the kit alone, of
# which nothing is changed.
set -euo pipefail
cd "$(dirname "$0")/../.."

# Says what is missing, and ends.
missing() {
    echo "dist: $*" >&2
    exit 2
}

command -v rt >/dev/null || missing "rt, the kit's command, is not on the path"
kit=$(dirname "$(rt doc)")
own=$kit/toolchain
out=$PWD/target/staticlib
for tool in clang ld.lld llvm-ar; do
    [ -x "$own/bin/$tool" ] || missing "the kit has no $own/bin/$tool, which is where this script looks for it"
done
for part in rt rtlib.py; do
    [ -f "$kit/bin/$part" ] || missing "the kit has no $kit/bin/$part, which is where this script looks for it"
done
tools/dist/library.sh
place=$(mktemp -d)
trap 'rm -rf "$place"' EXIT

# Links to what stands in a folder, in another folder.
links() {
    local part
    for part in "$1"/*; do ln -s "$part" "$2"; done
}

home=$place/kit
mkdir -p "$home" "$place/bin" "$place/toolchain/bin"
links "$kit" "$home"
rm "$home/bin" "$home/toolchain"
mv "$place/bin" "$place/toolchain" "$home"
links "$kit/bin" "$home/bin"
for part in rt rtlib.py; do
    rm "$home/bin/$part"
    cp "$kit/bin/$part" "$home/bin/$part"
done
ln -s "$own/lib" "$home/toolchain/lib"
links "$own/bin" "$home/toolchain/bin"
rm "$home/toolchain/bin/clang"
cat >"$home/toolchain/bin/clang" <<WORDS
#!/bin/sh
cp module.bc '$place/module.bc' && printf '%s\n' "\$@" >'$place/words' && exec '$own/bin/clang' "\$@"
WORDS
chmod +x "$home/toolchain/bin/clang"
(cd crates/abi_c && "$home/bin/rt" lib)
[ -f "$place/words" ] || missing "rt lib has not called the clang of $home/toolchain/bin"
cmp "$out/libabi.a" crates/abi_c/out/libabi_c.a || { echo "dist: the library is another one when it is built once more"; exit 1; }

cd "$place"
mapfile -t words <words
"$own/bin/clang" "${words[@]}"
"$own/bin/llvm-ar" p "$out/libabi.a" | cmp - module.o || { echo "dist: the module kept is not the library's"; exit 1; }
mv module.bc "$out/abi.bc"
(cd "$out" && sha256sum libabi.a abi.bc >abi.sha256)
{
    echo "the kit's clang: $("$own/bin/clang" --version | head -n 1)"
    echo "x86-64 module: the kit's clang, ${words[*]}" | sed 's/ --sysroot=[^ ]*//'
} >"$out/MADE-BY"
echo "dist: target/staticlib/abi.bc is the module of target/staticlib/libabi.a"
