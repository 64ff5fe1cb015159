#!/usr/bin/env bash
# Runs each test of a crate once for each of its requests for memory, and has that one refused.
#
# Usage, after `rt test` in crates/CRATE: bench/refuse-in-tests.sh CRATE [WORD..]
#
# With words only the tests whose names contain one of them: others may make more requests than can be refused one by one.
# It does what `fail-allocations-of-tests.sh` does, on the built tests, so that thousands of requests take some seconds. A test
# may pass in spite of a refusal, where it is about one; it may fail by its memory error, and by nothing else.
set -u
crate=${1:?usage: bench/refuse-in-tests.sh CRATE [WORD..]}
shift
here=$(cd "$(dirname "$0")" && pwd)
tests="$here/../crates/$crate/out/${crate}_tests"
place=$(mktemp -d)
trap 'rm -rf "$place"' EXIT
rustc -O --edition 2024 --crate-type cdylib -o "$place/librefuse.so" "$here/queues/refuse.rs" || exit 3

wrong=0
words=$(printf '%s\n' "$@")
names=$("$tests" --list | sed -n 's/: test$//p' | grep -F -- "$words")
[ -n "$names" ] || { echo "no test ran"; exit 3; }
for name in $names; do
    requests=$(LD_PRELOAD="$place/librefuse.so" "$tests" "$name" 2>&1 | sed -n 's/^requests: //p')
    if [ -z "$requests" ]; then
        wrong=$((wrong + 1))
        echo "$name: its requests can't be counted"
        continue
    fi
    failed=0
    for ((n = 1; n <= requests; n++)); do
        # The braces keep back what the shell says of a test that aborts.
        if { REFUSE=$n LD_PRELOAD="$place/librefuse.so" "$tests" "$name" > "$place/said" 2>&1; } 2> /dev/null; then
            continue
        fi
        failed=$((failed + 1))
        if ! grep -qiE 'allocerror|allocfailed|out of memory|outofmemory' "$place/said"; then
            wrong=$((wrong + 1))
            echo "$name, request $n: WRONG"
            cat "$place/said"
        fi
    done
    echo "$name: $requests requests, $failed runs failed"
done
echo "wrong: $wrong"
[ "$wrong" = 0 ]
