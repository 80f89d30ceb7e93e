#!/usr/bin/env bash
# Tries the conformance kit, which tools/dist/conformance.sh makes: that it asks for every function of the header and needs stdio alone,
# that it passes, under valgrind too, and that it fails where it has to: with wrong libraries, each with the field that is wrong, and
# with files that are damaged or cut. Needs target/staticlib/libabi.a with its module abi.bc, as tools/dist/module.sh makes them, cc,
# nm, objcopy and valgrind. Its last line is `kit: N passed, 0 failed`; where something fails, it says what and its status is 1.
set -euo pipefail
cd "$(dirname "$0")/../.."

library=target/staticlib/libabi.a
module=target/staticlib/abi.bc
kit=target/conformance
cases=$kit/cases.bin
out=target/kit
strict=(-std=c99 -Wall -Wextra -Werror -pedantic -O2 -Iinclude)
tally=kit
. tests/interface/tally.sh

# Plays a file with a program, for five minutes at the most: what it prints to played.txt, and its status.
play() {
    status=0
    timeout 300 "$@" >"$out/played.txt" 2>&1 || status=$?
}

mkdir -p "$out"
tools/dist/conformance.sh || fail "it is not made"
ok "it is recorded, and passes"

[ "$(sed -n 's/^#include //p' "$kit/replay.c" | paste -sd ' ')" = '<stdio.h> "fir.h"' ] || fail "replay.c includes more than stdio and the header"
ok "it needs stdio alone"
cc "${strict[@]}" -c "$kit/replay.c" -o "$out/replay.o"
declared=$(sed -n 's/^[a-z][a-z0-9_]* \(fir_[a-z_]*\)(.*/\1/p' include/fir.h | sort | paste -sd ' ')
called=$(nm --undefined-only "$out/replay.o" | awk '$NF ~ /^fir_/ { print $NF }' | sort | paste -sd ' ')
[ "$called" = "$declared" ] || fail "it calls other functions than the header declares"
ok "it calls every function of the header"

cc "${strict[@]}" "$out/replay.o" "$library" -o "$out/replay"
play valgrind -q --error-exitcode=99 "$out/replay" "$cases"
[ "$status" = 0 ] || fail "under valgrind: $(head -n 5 "$out/played.txt")"
ok "it passes under valgrind"

# A wrong library: what is said first of it, as an extended expression, and a program that is linked with it.
noticed() {
    local fault=$1 expected=$2
    play "$out/wrong" "$cases"
    [ "$status" = 1 ] || fail "$fault ends with status $status"
    head -n 1 "$out/played.txt" | grep -Eq "^replay: case [0-9]+ \(.*\), event [0-9]+, $expected" ||
        fail "$fault is noticed otherwise: $(head -n 1 "$out/played.txt")"
    tail -n 1 "$out/played.txt" | grep -Eq '^[0-9]+ passed, [1-9][0-9]* failed$' || fail "$fault: $(tail -n 1 "$out/played.txt")"
    ok "$fault: $(head -n 1 "$out/played.txt")"
}

# A function in the place of the library's own.
while read -r fault function expected; do
    cp "$library" "$out/right.a"
    objcopy --redefine-sym "$function=right_$function" "$out/right.a"
    cc "${strict[@]}" "-D$fault" "$out/replay.o" tests/interface/wrong.c "$out/right.a" -o "$out/wrong"
    noticed "$fault" "$function: $expected"
done <<'WORDS'
SUM_WRAPS fir_step code is 0, recorded is 3$
STATE_BYTE_ORDER fir_begin state.numbers\[0\] is
IMAGE_BYTE_ORDER fir_narrow out\[[0-9]+\] is
HEAD_OF_32_BITS fir_begin question is 0, recorded is 12$
VALUE_OF_32_BITS fir_budget value is
BOUND_OF_32_BITS fir_bounds steps\[[0-9]+\] is
BACK_NOT_COUNTED fir_trail_back trail.steps is
POOL_NOT_WRITTEN fir_pool_step pool.has\[[0-9]+\] is
WORDS

# The module with instructions exchanged, as a wrong back end would.
tools=$(dirname "$(rt doc)")/toolchain/bin
"$tools/clang" --no-default-config -S -emit-llvm -x ir "$module" -Xclang -disable-llvm-passes -o "$out/right.ll"
while IFS='|' read -r fault from to expected; do
    # A difference has no sign of its own: those of the crate that computes with integers and of the checked ones that it calls are meant.
    sed -E "/^define .*@\"(integers|core::int::checked::i64)::/,/^}/s/ = $from / = $to /" "$out/right.ll" >"$out/wrong.ll"
    ! cmp -s "$out/right.ll" "$out/wrong.ll" || fail "the module has no $from"
    "$tools/clang" --no-default-config -w -O2 -c -x ir "$out/wrong.ll" -o "$out/wrong.o"
    cc "${strict[@]}" "$out/replay.o" "$out/wrong.o" -o "$out/wrong"
    noticed "$fault" "$expected"
done <<'WORDS'
quotients without a sign|sdiv i64|udiv i64|fir_step: state.numbers\[2\] is
comparisons without a sign|icmp slt i64|icmp ult i64|fir_step: code is
differences that are sums|sub i64|add i64|fir_step: state.numbers\[2\] is
WORDS

# Changes a byte of the cases into another.
change() {
    local at=$1 byte
    cp "$cases" "$out/damaged.bin"
    byte=$(od -An -tu1 -j "$at" -N 1 "$cases")
    # shellcheck disable=SC2059
    printf "\\$(printf '%o' $((255 - byte)))" | dd of="$out/damaged.bin" bs=1 seek="$at" conv=notrunc status=none
}

# Asserts that a file is named as damaged or cut, and no case of it as failed.
refused() {
    local what=$1 words=$2
    play "$out/replay" "$out/damaged.bin"
    [ "$status" = 2 ] || fail "$what ends with status $status"
    grep -Eq "^replay: $out/damaged.bin is ($words), behind case [0-9]+\$" "$out/played.txt" || fail "$what: $(tail -n 1 "$out/played.txt")"
    ! grep -q 'failed$' "$out/played.txt" || fail "$what has failed cases"
}

size=$(wc -c <"$cases")
for at in 0 7 8 9 10 100 $((size / 7)) $((size / 3)) $((size / 2)) $((size - 3)) $((size - 2)) $((size - 1)); do
    change "$at"
    refused "byte $at changed" "damaged|cut"
done
ok "a changed byte is damage"
for length in 0 5 8 9 200 $((size / 5)) $((size / 2)) $((size - 9)) $((size - 2)) $((size - 1)); do
    head -c "$length" "$cases" >"$out/damaged.bin"
    refused "$length bytes of $size" cut
done
ok "a file that ends too early is cut"
(cat "$cases" && echo) >"$out/damaged.bin"
refused "a byte too many" damaged
ok "a byte behind the end is damage"
play "$out/replay" "$out/none.bin"
[ "$status" = 2 ] && grep -q "^replay: $out/none.bin cannot be read\$" "$out/played.txt" || fail "no file: $(cat "$out/played.txt")"
ok "a file that is not there cannot be read"

all_passed
