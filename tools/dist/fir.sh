#!/usr/bin/env bash
# Builds the tool `fir` on the library of target/staticlib, as target/cargo/release/fir: the same sources and the same tools give the
# same bytes, in whatever folder they stand. target/cargo/MADE-BY says by which compilers and flags.
set -euo pipefail
cd "$(dirname "$0")/../.."

flags=(--release --offline --locked)
cargo build "${flags[@]}" -p fir
{
    echo "bin/fir: $(rustc --version), cargo build ${flags[*]}"
    echo "bin/fir linker: $(cc --version | head -n 1), $(ld --version | head -n 1)"
} >target/cargo/MADE-BY
