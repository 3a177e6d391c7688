#!/usr/bin/env bash
# Proves and builds the library, and times it: bench.sh [CASE [REPETITIONS]], all cases if none or an empty one is named. The tables alone go to standard output.
set -euo pipefail
cd "$(dirname "$0")/.."
words=()
if [ -n "${1-}" ]; then words+=(--only "$1"); fi
if [ -n "${2-}" ]; then words+=(--reps "$2"); fi
bash scripts/prove.sh lib quorum
cd rust
exec cargo run --release --offline --quiet -p bench -- "${words[@]}"
