#!/usr/bin/env bash
# Makes the folder dist/ for those who build controllers and prove nothing themselves, and tries it: tools/dist/make.sh [TARGET..].
# What is not yet proved is proved first. An older dist/ is replaced. Each TARGET, as needs.sh knows them, adds the library for
# another machine than x86-64.
set -euo pipefail
cd "$(dirname "$0")/../.."

out=dist
pages="LANGUAGE TEXT-FORM CHANGES"
for target in "$@"; do tools/dist/needs.sh "$target"; done

# The number that a name stands for in the header.
defined() {
    sed -n "s/^#define $1 \([0-9]*\).*/\1/p" include/fir.h
}

# What the folder was made from.
made_from() {
    local changed="" target
    [ -z "$(git status --porcelain)" ] || changed=", with changes that are not committed"
    echo "commit: $(git rev-parse HEAD)$changed"
    echo "kit: $(rt version)"
    echo "interface: $(defined FIR_INTERFACE)"
    echo "layout of a state: $(defined FIR_STATE_LAYOUT)"
    echo "licence: Apache-2.0"
    echo "targets: $(printf '%s ' x86-64 "$@" | sed 's/ $//')"
    echo "module: abi.bc, of which every library is compiled, sha256 $(sha256sum <target/staticlib/abi.bc | cut -d ' ' -f 1)"
    cat target/staticlib/MADE-BY
    for target in "$@"; do
        cat "target/$target/MADE-BY"
        echo "$target tried under: $("qemu-${target%%-*}" --version | head -n 1)"
    done
    cat target/cargo/MADE-BY
    echo "conformance: $(sed -n 's/^replay: //p' target/conformance/played)"
}

tools/dist/module.sh
tools/dist/conformance.sh
for target in "$@"; do tools/dist/target.sh "$target"; done
tools/dist/program.sh
tools/dist/fir.sh

rm -rf "$out"
mkdir -p "$out/bin" "$out/conformance" "$out/docs" "$out/include" "$out/lib/pkgconfig"
cp include/fir.h "$out/include/fir.h"
cp target/staticlib/libabi.a "$out/lib/libfir.a"
version=$(sed -n 's/^version = "\(.*\)"$/\1/p' Cargo.toml)
sed "s/@VERSION@/$version/" tools/dist/fir.pc >"$out/lib/pkgconfig/fir.pc"
for target in "$@"; do
    mkdir -p "$out/lib/$target/pkgconfig"
    cp "target/$target/libfir.a" "$out/lib/$target/libfir.a"
    sed -e "s/@VERSION@/$version/" -e 's|^prefix=.*|&/..|' -e "s|^libdir=.*|&/$target|" tools/dist/fir.pc >"$out/lib/$target/pkgconfig/fir.pc"
done
cp check crates/fir_check/out/fir_check target/cargo/release/fir "$out/bin"
cp target/conformance/README.md target/conformance/replay.c target/conformance/cases.bin "$out/conformance"
cp -r examples "$out/examples"
cp tools/dist/README.md "$out/README.md"
for page in $pages; do
    cp "docs/$page.md" "$out/docs"
done
cp LICENSE "$out/LICENSE"
made_from "$@" >"$out/MADE-FROM"
(cd "$out" && find . -type f ! -name SHA256SUMS | sort | xargs sha256sum >SHA256SUMS)

tools/dist/try.sh "$out"
echo "dist: made $out/ from $(head -n 1 "$out/MADE-FROM")"
