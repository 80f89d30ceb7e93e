#!/usr/bin/env bash
# Makes the library for another machine from the module that module.sh has kept, and tries it: tools/dist/target.sh TARGET.
# TARGET is aarch64-linux-gnu, arm-linux-gnueabihf (ARMv7) or riscv64-linux-gnu; needs.sh says what has to be at hand for it. The
# library is target/TARGET/libfir.a. Under an emulator it is tried by tests/interface and by the conformance kit, which is made for it;
# with --kit as the second word by the kit alone. The status is 1 where the library fails, 2 where something is missing.
set -euo pipefail
cd "$(dirname "$0")/../.."

[ $# -eq 1 ] || [ "$#:${2-}" = 2:--kit ] || { echo "usage: tools/dist/target.sh TARGET [--kit]" >&2; exit 2; }
target=$1
tools/dist/build.sh "$target"
[ $# -eq 2 ] || tests/interface/run.sh "$target"

kit=target/conformance
tools/dist/conformance.sh
"$target-gcc" -std=c99 -Wall -Wextra -Werror -pedantic -O2 -Iinclude "$kit/replay.c" "target/$target/libfir.a" -o "target/$target/replay"
"qemu-${target%%-*}" -L "/usr/$target" "target/$target/replay" "$kit/cases.bin" ||
    { echo "dist: $target answers otherwise than x86-64"; exit 1; }
echo "dist: made target/$target/libfir.a, which answers as that for x86-64"
