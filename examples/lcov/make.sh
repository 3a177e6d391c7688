#!/bin/sh
# Makes the tracefiles beside this script: compiles the program of src/ with
# counters, and captures each of its runs with geninfo. It needs gcc, gcov and
# lcov; the stored files are those of gcc 12.2 and lcov 1.16. Nothing else here
# runs it, so the tests need none of these. What Perl warns of while geninfo
# starts is harmless.
set -eu
here=$(cd "$(dirname "$0")" && pwd)
work=$(mktemp -d)
trap 'rm -rf "$work"' EXIT
cp -R "$here/src" "$work"
cd "$work"
for source in main frame commands; do
    gcc -std=c99 -Wall -Wextra -Werror -O0 --coverage -c "src/$source.c" -o "$source.o"
done
gcc --coverage main.o frame.o commands.o -o frames

# geninfo writes the sections in Perl's order of their names, so for the same files
# each time the names must not have this folder's in them. It reads the sources
# from a folder of its own in TMPDIR: from there they are in ../src.
export PERL_HASH_SEED=0 PERL_PERTURB_KEYS=0 TMPDIR="$work"
branches='--rc lcov_branch_coverage=1'

# capture TEST OPTIONS FRAME..: TEST.info, of a run of these frames with counters
# that begin at 0. The names of the sources begin at src/.
capture() {
    test=$1 options=$2
    shift 2
    rm -f ./*.gcda
    ./frames "$@" >/dev/null || true
    geninfo --quiet $options --rc geninfo_adjust_src_path="$work => .." --test-name "$test" \
        --output-filename captured main.gcda frame.gcda commands.gcda
    sed 's|^SF:\.\./|SF:|' captured >"$test.info"
}

# join OUTPUT OPTIONS TEST..: the tracefiles of the tests as one, with the
# totals that lcov writes: FNF, FNH, BRF, BRH, LF and LH. A test's sections of one
# source are joined to one, those of different tests are not.
join() {
    output=$1 options=$2
    shift 2
    for test in "$@"; do
        set -- "$@" --add-tracefile "$test.info"
        shift
    done
    lcov --quiet $options "$@" --output-file joined
    mv joined "$output.info"
}

capture ping '' 7e0102cafe97 7e01005e
capture write_and_read --checksum 7e0302052ab7 7e0201052e
capture no_such_register "$branches" 7e02011045
capture no_such_command "--checksum $branches" 7e0900f6

capture wrong_checksum '' 7e0102cafe00 7e0102cafe97
join wrong_checksum '' wrong_checksum

capture wrong_length "--checksum $branches" 7e010500 7e01005e
join wrong_length "--checksum $branches" wrong_length

capture no_frame ''
capture no_start '' 00000000 7e
join two_tests '' no_frame no_start
rm no_frame.info no_start.info

cp ./*.info "$here"
