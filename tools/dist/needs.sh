#!/usr/bin/env bash
# Asks whether all is at hand by which the library for another machine is made and tried: tools/dist/needs.sh TARGET. TARGET is
# aarch64-linux-gnu, arm-linux-gnueabihf (ARMv7) or riscv64-linux-gnu, as Debian names its compilers. Where something is missing, a line
# says what and how Debian installs it, and the status is 2.
set -euo pipefail

target=${1-}
case $target in
aarch64-linux-gnu) library=libc6-dev-arm64-cross ;;
arm-linux-gnueabihf) library=libc6-dev-armhf-cross ;;
riscv64-linux-gnu) library=libc6-dev-riscv64-cross ;;
*)
    echo "dist: TARGET is aarch64-linux-gnu, arm-linux-gnueabihf or riscv64-linux-gnu, and not \"$target\"" >&2
    exit 2
    ;;
esac

for tool in rt cargo cc; do
    command -v "$tool" >/dev/null || { echo "dist: $tool is not on the path" >&2; exit 2; }
done

missing=()
for tool in "$target-gcc" "$target-ld" "$target-ar" "$target-nm" "$target-objcopy" "qemu-${target%%-*}"; do
    command -v "$tool" >/dev/null || missing+=("$tool")
done
[ -f "/usr/$target/include/stdio.h" ] || missing+=("the C library for $target")
if [ ${#missing[@]} -gt 0 ]; then
    echo "dist: missing: $(printf '%s, ' "${missing[@]}" | sed 's/, $//'); on Debian: apt-get install gcc-$target $library qemu-user" >&2
    exit 2
fi
