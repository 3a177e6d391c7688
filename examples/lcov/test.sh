#!/bin/sh
# Runs the example program lcov and compares what it prints, byte for byte:
#
#   SOURCE.THRESHOLD.out   what it prints for src/SOURCE and all tracefiles beside it
#   broken/NAME.err        its error for src/frame.c and broken/NAME.info
#   help.txt               what it prints for --help
#
# and for each source and each threshold with what awk counts in the same
# tracefiles. Takes the program from QUORUM_LCOV or else from rust/target; a
# relative path is taken from the repository's top.
set -eu
cd "$(dirname "$0")/../.."
program=${QUORUM_LCOV:-rust/target/release/examples/lcov}
case $program in /*) ;; *) program=./$program ;; esac
if [ ! -x "$program" ]; then
    echo "$program is missing: run 'cargo build --release --example lcov' in rust" >&2
    exit 1
fi

here=examples/lcov
work=$(mktemp -d)
trap 'rm -rf "$work"' EXIT
runs=0
failed=0

# expect STATUS OUTPUT ERRORS ARGUMENT..: the program ends with the status, and what
# it prints is in the two files
expect() {
    status=$1 output=$2 errors=$3
    shift 3
    ended=0
    "$program" "$@" >"$work/out" 2>"$work/err" || ended=$?
    if [ "$ended" -ne "$status" ] || ! cmp "$output" "$work/out" >&2 || ! cmp "$errors" "$work/err" >&2; then
        echo "lcov $*: status $ended, and printed was" >&2
        head -n 20 "$work/out" "$work/err" >&2
        failed=$((failed + 1))
    fi
    runs=$((runs + 1))
}

# fails STATUS MESSAGE ARGUMENT..: the program prints the message alone
fails() {
    fails_with=$1
    printf 'lcov: %s\n' "$2" >"$work/message"
    shift 2
    expect "$fails_with" /dev/null "$work/message" "$@"
}

# counted SOURCE THRESHOLD TRACEFILE..: what the program is to print
counted() {
    opening=SF:$1 least=$2
    shift 2
    awk -F '[:,]' -v opening="$opening" -v least="$least" '
      /^SF:/ { named = $0 == opening }
      named && /^DA:/ && $3 > 0 && !seen[FILENAME, $2]++ { count[$2]++ }
      END { for (line in count) if (count[line] >= least) print line, count[line] }
    ' "$@" | sort -n
}

# The question of the README and its error, to the letter.
awk '/--example lcov/ { seen = 1 } on && /^```$/ { exit } on; seen && /^```text$/ { on = 1 }' README.md >"$work/readme"
expect 0 "$work/readme" /dev/null $(sed -n 's/.*--example lcov -- //p' README.md)
grep "^lcov: $here/broken/repeated_line.info:" README.md >"$work/readme"
expect 1 /dev/null "$work/readme" 1 src/frame.c "$here/broken/repeated_line.info"

set -- "$here"/*.info
for output in "$here"/*.out; do
    name=$(basename "$output" .out)
    expect 0 "$output" /dev/null "${name##*.}" "src/${name%.*}" "$@"
done
for source in src/checksum.h src/commands.c src/frame.c src/main.c; do
    for threshold in 1 2 3 4 5 6 7; do
        counted "$source" "$threshold" "$@" >"$work/counted"
        expect 0 "$work/counted" /dev/null "$threshold" "$source" "$@"
    done
done
for broken in "$here"/broken/*.info; do
    expect 1 /dev/null "${broken%.info}.err" 1 src/frame.c "$broken"
done

expect 0 "$here/help.txt" /dev/null --help
usage='
usage: lcov THRESHOLD SOURCE TRACEFILE...'
fails 2 "too few arguments$usage" 1
fails 2 "no tracefile is named$usage" 1 src/frame.c
fails 2 "the threshold one is no 32-bit number$usage" one src/frame.c "$@"
fails 2 "the threshold 4294967296 is no 32-bit number$usage" 4294967296 src/frame.c "$@"
fails 1 "the threshold is 0 or above the number of tracefiles, $#" 0 src/frame.c "$@"
fails 1 "the threshold is 0 or above the number of tracefiles, $#" 8 src/frame.c "$@"
fails 1 "$here/none.info: No such file or directory (os error 2)" 1 src/frame.c "$@" "$here/none.info"
fails 1 "$here: Is a directory (os error 21)" 1 src/frame.c "$here"

# The shortest records, then a line that only begins as the end of a section does.
{ echo SF:a && printf 'DA:%d,1\n' 1 2 3 4 5 6 7 8 9 && echo end_of_record; } >"$work/edges.info"
printf 'SF:b\nDA:1,1\nend_of_record \nSF:c\nDA:2,1\nend_of_record\nSF:c\nDA:3,1\nend_of_record' >>"$work/edges.info"
printf '%d 1\n' 1 2 3 4 5 6 7 8 9 >"$work/counted"
expect 0 "$work/counted" /dev/null 1 a "$work/edges.info"
echo 3 1 >"$work/counted"
expect 0 "$work/counted" /dev/null 1 c "$work/edges.info"

# At most 64 tracefiles.
set --
while [ $# -lt 64 ]; do
    set -- "$@" "$here/ping.info"
done
counted src/frame.c 1 "$here/ping.info" | sed 's/ 1$/ 64/' >"$work/counted"
expect 0 "$work/counted" /dev/null 64 src/frame.c "$@"
fails 1 '65 tracefiles are more than a question takes, 64' 1 src/frame.c "$@" "$here/ping.info"

# At most 1,048,576 lines hit in all.
awk 'BEGIN { for (i = 1; i <= 1048576; i++) print i, 1 }' >"$work/counted"
{ echo SF:a && sed 's/^/DA:/; s/ /,/' "$work/counted" && echo end_of_record; } >"$work/most.info"
expect 0 "$work/counted" /dev/null 1 a "$work/most.info"
cat "$work/most.info" "$work/most.info" >"$work/twice.info"
expect 0 "$work/counted" /dev/null 1 a "$work/twice.info"
printf 'SF:a\nDA:1,1\nend_of_record\n' >"$work/one.info"
fails 1 '1048577 lines hit in all are more than a question takes, 1048576' 1 a "$work/most.info" "$work/one.info"

if [ "$failed" -ne 0 ]; then
    echo "lcov: $runs runs, $failed failed" >&2
    exit 1
fi
echo "lcov prints what it should in each of $runs runs"
