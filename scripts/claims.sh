#!/usr/bin/env bash
# Proves the library and prints the claims that then hold. Prints none where the proof fails.
set -euo pipefail
cd "$(dirname "$0")/.."
bash scripts/prove.sh check quorum
awk '/^## / { on = /^## The three demands$/ } on { print; lines++ } END { exit !lines }' docs/CLAIMS.md
