#!/usr/bin/env bash
# Proves the program `fir_check` and builds it: crates/fir_check/out/fir_check. What is proved already is not proved again.
set -euo pipefail
cd "$(dirname "$0")/../../crates/fir_check"

# Built, it runs once, on an empty image.
rt run </dev/null >/dev/null
