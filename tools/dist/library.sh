#!/usr/bin/env bash
# Proves the library and builds it, with the header ../../include/fir.h as its interface: target/staticlib/libabi.a. What is proved
# already is not proved again.
set -euo pipefail
cd "$(dirname "$0")/../.."

(cd crates/abi_c && rt lib)
mkdir -p target/staticlib
# A copy that is the same stays as it is, so that nothing is linked anew for it.
cmp -s crates/abi_c/out/libabi_c.a target/staticlib/libabi.a || cp crates/abi_c/out/libabi_c.a target/staticlib/libabi.a
