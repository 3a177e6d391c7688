#!/usr/bin/env bash
# Tests that the other scripts do what the README says, `make run` to the letter, and that they fail where they should: without rt, with a crate that is not
# proved, with a file or a benchmark's case that is not there, with an answer that is not whole, and with a division in the code. What fails for want of a proof, or
# with another source, is tried in a copy.
set -euo pipefail
cd "$(dirname "$0")/.."

work=$(mktemp -d)
trap 'rm -rf "$work"' EXIT
copy=$work/copy
mkdir "$copy" "$work/tools"
tar -cf - --exclude='crates/*/out' Makefile crates.txt crates docs examples scripts | tar -xf - -C "$copy"
for tool in awk bash cat cp dirname make mkdir mktemp od rm sed sh tail tee; do
  ln -s "$(command -v "$tool")" "$work/tools/$tool"
done

# fails TEXT COMMAND..: the command fails, says the text on standard error and prints nothing on standard output
fails() {
  local text=$1
  shift
  if "$@" >"$work/out" 2>"$work/err"; then
    echo "does not fail: $*" >&2
    exit 1
  fi
  if ! grep -qF -- "$text" "$work/err" || [ -s "$work/out" ]; then
    echo "$* says" >&2
    cat "$work/out" "$work/err" >&2
    exit 1
  fi
}

# The first block of a page after a line that has a text, without its indent.
block() { # PAGE TEXT
  awk -v text="$2" '
    !seen { seen = index($0, text) > 0; next }
    on && /^ *```$/ { exit }
    on { print substr($0, indent + 1) }
    /^ *```text$/ { on = 1; indent = index($0, "`") - 1 }
  ' "$1"
}

make --no-print-directory run >"$work/out" 2>"$work/err"
diff "$work/out" <(block README.md 'Printed is')
diff "$work/out" <(block docs/SPECIFICATION.md 'The program prints for the lines')
diff examples/hits/listing.txt <(block README.md 'The question is')
make --no-print-directory claims >"$work/out" 2>"$work/err"
diff <(head -n 1 "$work/out") <(echo '## The three demands')

# rt is not there
for target in run lib claims bench; do
  fails 'rt is missing' env PATH="$work/tools" make -C "$copy" --no-print-directory "$target"
done

# a file is not named, or not there
fails 'no file is named' make -C "$copy" --no-print-directory run INPUT=
fails "$copy/no_such_file cannot be read" make -C "$copy" --no-print-directory run INPUT=no_such_file

# a benchmark's case is not there; one that is prints its heading and its row alone
fails 'no case has `no such case` in its name' make --no-print-directory bench ONLY='no such case'
make --no-print-directory bench ONLY='blocks k=64 t=64' REPS=1 >"$work/out" 2>"$work/err"
if ! awk 'NR == 1 { heading = /^case / } NR == 2 { row = /^blocks +64 +64 / } END { exit !(heading && row && NR == 2) }' "$work/out"; then
  echo "the benchmark prints" >&2
  cat "$work/out" >&2
  exit 1
fi

# a division is planted: in a loop, in a function that a loop calls, outside of functions, in a program and after a clause; a listed function does not divide; a
# string does not end
with() { # FILE OLD NEW COMMAND..: the command, while the copy's file has one text in place of another
  local file=$copy/$1 script="s|$2|$3|"
  shift 3
  cp "$file" "$work/kept"
  sed -i "$script" "$file"
  if cmp -s "$file" "$work/kept"; then
    echo "$file is as it was after $script" >&2
    exit 1
  fi
  "$@"
  cp "$work/kept" "$file"
}
division=(bash "$copy/scripts/check_division.sh")
"${division[@]}" >"$work/out"
with crates/walk_search/src/lib.rt 'arith::half(hi - lo)' '(hi - lo) / 2' fails 'halved divides' "${division[@]}"
with crates/check_cursor/src/lib.rt 'cursor & LAST_PLACE' 'cursor % PLACES' fails 'place_of divides' "${division[@]}"
with crates/check_cursor/src/lib.rt 'PLACES - 1;' 'PLACES / 2;' fails ': divides: const LAST_PLACE' "${division[@]}"
with crates/hits/src/main.rt 'fn main(rt: HostRuntime) -> io::Result<()> {' 'fn main(rt: HostRuntime) -> io::Result<()> ghost { ℕ } { let half = 8 / 2;' fails 'main divides' "${division[@]}"
with crates/text_write/src/lib.rt 'x [/%] 10' 'x \& 10' fails 'put_number is listed and does not divide' "${division[@]}"
with crates/hits_render/src/lib.rt 'b"refuse",' 'b"refuse,' fails 'it ends in a string' "${division[@]}"
# a comment, a contract and a string are no code
with crates/hits_render/src/lib.rt 'b"refuse",' 'b"100% a/b", // a / b' "${division[@]}" >"$work/out"
with crates/check_cursor/src/lib.rt 'place_of cursor }' '(cursor % 2) / 3 }' "${division[@]}" >"$work/out"

# a crate is not proved: a bin less than the definitions say
sed -i 's/^last_bin = 4294967295$/last_bin = 4294967294/' "$copy/crates/model/specs/Runs.antt"
fails 'rt check quorum failed' make -C "$copy" --no-print-directory claims
fails 'rt run hits failed' make -C "$copy" --no-print-directory run

# the program's text is cut short; an rt that proves nothing stands for the kit's
cat >"$work/tools/rt" <<'END'
#!/bin/sh
exit 0
END
chmod +x "$work/tools/rt"
mkdir -p "$copy/crates/hits/out"
answers() { # FORMAT: make run, where the program prints this
  printf '#!/bin/sh\nprintf "%s"\n' "$1" >"$copy/crates/hits/out/hits"
  chmod +x "$copy/crates/hits/out/hits"
  env PATH="$work/tools:$PATH" make -C "$copy" --no-print-directory run >"$work/out" 2>"$work/err"
}
for whole in 'done 2 6 3 0\n' 'gap 1 1 3\ndone 2 6 3 0\n' 'refuse 12 4\n'; do
  answers "$whole" || { echo "fails for a whole answer: $whole" >&2 && exit 1; }
done
for cut in '' 'gap 1 1 3\n' 'gap 1 1 3\ndone 2 6' 'done 2 6 3 0\ngap 1 1 3\n' 'refuse' 'doner\n'; do
  if answers "$cut" || ! grep -q 'did not print a whole answer' "$work/err"; then
    echo "does not fail for an answer that is cut short: $cut" >&2
    exit 1
  fi
done
echo "the scripts do what they should, and fail where they should"
