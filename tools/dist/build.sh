#!/usr/bin/env bash
# Makes the library for another machine from the module that module.sh has kept: tools/dist/build.sh TARGET, as needs.sh knows them.
# The library is target/TARGET/libfir.a; target/TARGET/MADE-BY says by which compilers and flags. The status is 2 where something is
# missing. target.sh tries it too.
set -euo pipefail
cd "$(dirname "$0")/../.."

[ $# -eq 1 ] || { echo "usage: tools/dist/build.sh TARGET" >&2; exit 2; }
target=$1
tools/dist/needs.sh "$target"

# A machine in the words of clang: ARMv7 without NEON, as gcc has it there; aarch64 as the kit has it.
case $target in
aarch64-linux-gnu) machine=("--target=$target" -march=armv8-a -mllvm -aarch64-load-store-renaming=false) ;;
arm-linux-gnueabihf) machine=(--target=armv7-linux-gnueabihf -march=armv7-a -mfpu=vfpv3-d16) ;;
*) machine=("--target=$target") ;;
esac
clang=$(dirname "$(rt doc)")/toolchain/bin/clang
out=target/$target
module=target/staticlib/abi.bc
[ -x "$clang" ] || { echo "dist: the kit has no $clang" >&2; exit 2; }
[ -f "$module" ] || { echo "dist: $module is missing; run tools/dist/module.sh" >&2; exit 2; }
if ! (cd target/staticlib && sha256sum --status -c abi.sha256); then
    echo "dist: $module is not the module of target/staticlib/libabi.a; run tools/dist/module.sh" >&2
    exit 2
fi

# The same flags as the kit's for x86-64, but for the machine; and those of portable.c.
module_flags=("${machine[@]}" --no-default-config -Werror -Wno-override-module -O3 -fPIC -ffunction-sections -fdata-sections
    -mllvm -trap-unreachable -mllvm -no-trap-after-noreturn -mllvm -disable-machine-licm -mllvm -disable-postra-machine-licm
    -mllvm -sink-common-insts=false)
portable_flags=(-std=c99 -Wall -Wextra -Werror -pedantic -O2 -Iinclude -fPIC -ffunction-sections)

mkdir -p "$out"
"$clang" --no-default-config -S -emit-llvm -x ir "$module" -Xclang -disable-llvm-passes -o - |
    sed -f tools/dist/portable.sed |
    awk -f tools/dist/portable.awk tools/dist/portable.c - >"$out/fir.ll"
"$clang" "${module_flags[@]}" -c -x ir "$out/fir.ll" -o "$out/module.o"
"$target-gcc" "${portable_flags[@]}" -c tools/dist/portable.c -o "$out/portable.o"
# One object, in which the functions behind the interface are not seen from outside.
"$target-ld" -r "$out/portable.o" "$out/module.o" -o "$out/fir.o"
"$target-objcopy" --wildcard --localize-symbol='fir_*_at' "$out/fir.o"
rm -f "$out/libfir.a"
"$target-ar" rcsD "$out/libfir.a" "$out/fir.o"
{
    echo "$target module: the kit's clang, ${module_flags[*]}"
    echo "$target portable.c: $("$target-gcc" --version | head -n 1), ${portable_flags[*]}"
    echo "$target linker: $("$target-ld" --version | head -n 1)"
} >"$out/MADE-BY"
echo "dist: built $out/libfir.a"
