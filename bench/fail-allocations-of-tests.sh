#!/usr/bin/env bash
# Runs the tests of one crate once for each N, with the N-th request for memory of each test refused.
#
# Usage: bench/fail-allocations-of-tests.sh CRATE [FIRST [LAST]]
#
# A test that asks for memory then fails by its memory error. A test that fails by a wrong answer instead is listed as
# WRONG. It ends at the first N at which each test passes, and its own status is 0 only if no test was wrong.
set -u
crate=${1:?usage: bench/fail-allocations-of-tests.sh CRATE [FIRST [LAST]]}
first=${2:-1}
last=${3:-200}
here=$(cd "$(dirname "$0")" && pwd)
cd "$here/../crates/$crate" || exit 3
out=$(mktemp)
trap 'rm -f "$out"' EXIT

wrong=0
for ((n = first; n <= last; n++)); do
    rt try --test --fail-alloc "$n" > "$out" 2>&1
    total=$(grep -c '^test .* \.\.\. ' "$out")
    failed=$(grep -c '\.\.\. FAILED$' "$out")
    [ "$total" -gt 0 ] || { echo "$n: no test ran"; cat "$out"; exit 3; }
    # The line below the name of a failed test says why it failed.
    bad=$(awk '/\.\.\. FAILED$/ { name = $0; getline
        if (tolower($0) !~ /allocerror|allocfailed|out of memory|outofmemory/) print "    WRONG: " name " " $0 }' "$out")
    echo "$n: $total tests, $failed failed"
    if [ -n "$bad" ]; then
        wrong=$((wrong + 1))
        echo "$bad"
    fi
    if [ "$failed" -eq 0 ]; then
        echo "no test makes request $n; wrong at $wrong of them"
        [ "$wrong" = 0 ]
        exit
    fi
done
echo "stopped after $last; wrong at $wrong of them"
exit 3
