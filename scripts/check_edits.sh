#!/usr/bin/env bash
# Looks, after `rt ci`, at why each must-fail edit was refused: check_edits.sh LOG, what `rt ci` said. If a proof only names what the edited code no longer has, the
# edit shows nothing; nor does one that is bad, or that a limit of the prover refuses. Each edit begins with a line that states the wrong behaviour.
set -euo pipefail
cd "$(dirname "$0")/.."
shopt -s nullglob
log=$1

edits=0 faults=0

fault() { # TEXT
  printf '%s\n' "$1" >&2
  faults=$((faults + 1))
}

for edit in crates/*/must-fail/*.edit; do
  edits=$((edits + 1))
  if ! head -n 1 "$edit" | grep -v '^\(file\|old\|new\):' | grep -q '[[:alpha:]]'; then
    fault "$edit: its first line does not state the wrong behaviour"
  fi
done
while IFS= read -r line; do
  fault "it shows nothing: $line"
done < <(grep 'must-fail [^ ]*: .*\(only because a proof file names\|only by a limit\|BAD EDIT\)' "$log" || true)
if ! grep -q '^rt: ok' "$log" || grep -q '^rt: ok.*, [0-9]* bad' "$log"; then
  fault "rt ci does not say that all is well"
fi
refused=$(sed -n 's/^rt: ok.*must-fail edits: \([0-9]*\) refused.*/\1/p' "$log")
if [ "$refused" != "$edits" ]; then
  fault "$refused must-fail edits are refused, and not $edits"
fi
echo "$edits must-fail edits looked at, $faults at fault"
[ "$faults" -eq 0 ]
