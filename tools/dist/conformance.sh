#!/usr/bin/env bash
# Makes the conformance kit in target/conformance, by which a maker tries the library on his own box: replay.c, the cases that it
# plays, as the proved library target/staticlib/libabi.a answers them here, and a README. Fewer than 20,000 events, a function, a
# refusal or an answer that is missing, and 5,000,000 bytes or more are a failure, and so is a case that does not pass here.
# CASES says how many cases there are of the kinds that are most, 200 if it is not set.
set -euo pipefail
cd "$(dirname "$0")/../.."

out=target/conformance
library=target/staticlib/libabi.a
[ -f "$library" ] || { echo "dist: $library is missing; run tools/dist/library.sh" >&2; exit 2; }
rm -rf "$out"
mkdir -p "$out"

cargo run -q --release --offline --locked -p generator --bin recorded -- "${CASES:-200}" >"$out/scripts"
cp tests/interface/replay.c "$out/replay.c"
cc -std=c99 -Wall -Wextra -Werror -pedantic -O2 -Iinclude "$out/replay.c" "$library" -o "$out/replay"
"$out/replay" --record "$out/scripts" "$out/cases.bin"
"$out/replay" "$out/cases.bin" | tee "$out/played"
counted=$(sed -n 's/^replay: \([0-9]*\) events in \([0-9]*\) cases$/s,@EVENTS@,\1,;s,@CASES@,\2,/p' "$out/played")
sed "$counted" tools/dist/conformance.md >"$out/README.md"
echo "dist: made $out"
