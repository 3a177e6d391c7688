#!/usr/bin/env bash
# Proves and builds the program hits, and prints its answer to the question in a file. A relative file is taken from the repository's top. What the prover
# says goes to standard error, the answer alone to standard output. Fails where the answer is not whole; a refusal is a whole answer.
set -euo pipefail
cd "$(dirname "$0")/.."
input=${1-examples/hits/listing.txt}

if [ -z "$input" ]; then
  echo "no file is named: make run INPUT=file" >&2
  exit 1
fi
tried=$input
case $tried in /*) ;; *) tried=$PWD/$tried ;; esac
if [ ! -r "$tried" ] || [ -d "$tried" ]; then
  echo "$tried cannot be read" >&2
  exit 1
fi
bash scripts/prove.sh run hits

printed=$(mktemp)
trap 'rm -f "$printed"' EXIT
status=0
target/bin/hits <"$tried" >"$printed" || status=$?
cat "$printed"

# A refusal is a whole answer too, with status 0: the text is whole if the last line begins with done or refuse, and has its end.
last_line=$(tail -n 1 "$printed")
last_byte=$(tail -c 1 "$printed" | od -An -tu1)
if [ "$status" -ne 0 ] || [ $((last_byte)) -ne 10 ] || ! [[ $last_line =~ ^(done|refuse)\  ]]; then
  echo "hits did not print a whole answer (status $status)" >&2
  exit 1
fi
