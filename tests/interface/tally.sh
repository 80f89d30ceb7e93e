# shellcheck shell=bash
# Counts what passes, for a script that sources it and says its own name in `tally`.
passed=0

fail() {
    echo "${tally:?}: $passed passed, 1 failed: $*"
    exit 1
}

ok() {
    passed=$((passed + 1))
    echo "${tally:?}: $*"
}

# The last line of a script in which nothing failed.
all_passed() {
    echo "${tally:?}: $passed passed, 0 failed"
}
