#!/bin/sh
# Runs the program hits on each stored input and compares what it prints, byte
# for byte, with the stored output beside it, and once where it cannot write. Takes the program from
# QUORUM_HITS or else from target/bin; a relative path is taken from the
# repository's top.
set -eu
cd "$(dirname "$0")/../.."
program=${QUORUM_HITS:-target/bin/hits}
case $program in /*) ;; *) program=./$program ;; esac
if [ ! -x "$program" ]; then
    echo "$program is missing: run 'make run'" >&2
    exit 1
fi

printed=$(mktemp)
trap 'rm -f "$printed"' EXIT
runs=0
failed=0
for input in examples/hits/*.txt; do
    expected=${input%.txt}.out
    status=0
    "$program" <"$input" >"$printed" || status=$?
    if [ "$status" -ne 0 ]; then
        echo "$input: the program ended with status $status" >&2
        failed=$((failed + 1))
    elif ! cmp "$expected" "$printed" >&2; then
        echo "$input: printed was" >&2
        head -n 20 "$printed" >&2
        failed=$((failed + 1))
    fi
    runs=$((runs + 1))
done
# Where its text cannot be written, it ends with 1 and tells so on standard error.
if [ -c /dev/full ]; then
    status=0
    "$program" <examples/hits/listing.txt 2>"$printed" >/dev/full || status=$?
    if [ "$status" -ne 1 ] || [ ! -s "$printed" ]; then
        echo "hits ends with status $status where its text cannot be written" >&2
        failed=$((failed + 1))
    fi
fi
for expected in examples/hits/*.out; do
    if [ ! -f "${expected%.out}.txt" ]; then
        echo "$expected has no input beside it" >&2
        failed=$((failed + 1))
    fi
done

if [ "$runs" -eq 0 ] || [ "$failed" -ne 0 ]; then
    echo "hits: $runs stored runs, $failed failed" >&2
    exit 1
fi
echo "hits prints what it should in each of $runs stored runs"
