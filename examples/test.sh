#!/bin/sh
# Compiles the header by itself and with the specification's declarations, runs
# query.c against expected.txt, and compiles and runs the C lines of the README
# and of the header's examples, each as C and as C++. A comment in those lines
# such as `// result: 0, 0, 84` is tested: the row begins with these numbers.
# Takes the library from QUORUM_LIB_DIR or else from target/staticlib; a
# relative folder is taken from the repository's top.
set -eu
cd "$(dirname "$0")/.."
library_dir=${QUORUM_LIB_DIR:-target/staticlib}
if [ ! -f "$library_dir/libquorum.a" ]; then
    echo "$library_dir/libquorum.a is missing: run 'make lib'" >&2
    exit 1
fi

out=$(mktemp -d)
trap 'rm -rf "$out"' EXIT
flags='-Wall -Wextra -Wpedantic -Werror -Iinclude'
c="${CC:-cc} $flags -std=c99 -x c"
cxx="${CXX:-c++} $flags -std=c++11 -x c++"

# build COMPILER SOURCE PROGRAM
build() {
    $1 "$2" -x none -L"$library_dir" -lquorum -o "$out/$3"
}

# A program of the lines on standard input, which counts their rows that are tested.
program_of() {
    cat <<'END'
#include <stdio.h>
#include "quorum.h"
#define EXPECT(row, ...) \
    do { \
        const unsigned long long expected[] = {__VA_ARGS__}; \
        size_t i; \
        for (i = 0; i < sizeof expected / sizeof *expected; i++) { \
            if (row[i] != expected[i]) { \
                fprintf(stderr, #row "[%d] is %llu and not %llu\n", (int)i, (unsigned long long)row[i], expected[i]); \
                return 1; \
            } \
        } \
        tested++; \
    } while (0)
int main(void) {
    int tested = 0;
END
    awk '
      !/^ *\/\/ / { print; next }
      {
        sub(/^ *\/\/ /, "")
        gsub(/\([^)]*\)/, "")
        count = split($0, rows, ";")
        for (i = 1; i <= count; i++) {
          split(rows[i], row, ":")
          printf "EXPECT(%s, %s);\n", row[1], row[2]
        }
      }'
    printf 'printf("%%d\\n", tested);\nreturn 0;\n}\n'
}

# run_lines NAME ROWS: the lines on standard input, in which so many rows are tested
run_lines() {
    program_of >"$out/$1.c"
    for compiler in "$c" "$cxx"; do
        build "$compiler" "$out/$1.c" lines
        rows=$("$out/lines")
        if [ "$rows" -ne "$2" ]; then
            echo "of the C lines of $1 $rows rows are tested, and not $2" >&2
            exit 1
        fi
    done
    echo "the C lines of $1 do what they say, in $2 rows"
}

# c_lines PAGE: the page's lines of C
c_lines() {
    awk '/^```$/ { on = 0 } on; /^```c$/ { on = 1 }' "$1"
}

echo '#include "quorum.h"' >"$out/header.c"
{ cat "$out/header.c" && c_lines docs/SPECIFICATION.md; } >"$out/declarations.c"
for compiler in "$c" "$cxx"; do
    $compiler -fsyntax-only "$out/header.c" "$out/declarations.c"
    build "$compiler" examples/query.c query
    "$out/query" >"$out/printed.txt"
    diff examples/expected.txt "$out/printed.txt"
done
echo "examples/query.c prints what it should"

c_lines README.md | run_lines README.md 17
awk '/^ \*\// { on = 0 } on && sub(/^ \*     /, ""); /^ \* Example/ { on = 1 }' include/quorum.h | run_lines quorum.h 25
