#!/usr/bin/env bash
# The whole test: where definitions lie, the names in docs/CLAIMS.md and docs/SPECIFICATION.md and the sections that files cite, divisions, proofs with their
# must-fail edits and programs, then the program hits on stored and on many generated inputs, the static library from C and from Rust, and the scripts. The last line
# is the prover's own tally, printed again only if everything else passed too.
set -euo pipefail
cd "$(dirname "$0")/.."

bash scripts/check_layout.sh
bash scripts/check_claims.sh docs/CLAIMS.md
bash scripts/check_claims.sh docs/SPECIFICATION.md
bash scripts/check_citations.sh
bash scripts/check_division.sh

log=$(mktemp)
trap 'rm -f "$log"' EXIT
rt ci 2>&1 | tee "$log"
tally=$(tail -n 1 "$log")
case "$tally" in
  *" passed, 0 failed") ;;
  *) exit 1 ;;
esac
bash scripts/check_edits.sh "$log"

bash scripts/prove.sh lib quorum
bash scripts/prove.sh run hits
sh examples/test.sh
sh examples/hits/test.sh
(cd rust && cargo fmt --check && cargo test --release --offline --quiet)
sh examples/lcov/test.sh
bash scripts/test_scripts.sh

printf '%s\n' "$tally"
