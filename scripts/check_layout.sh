#!/usr/bin/env bash
# What a contract cites is in specs/: no `ghost use` in the sources, and no `use` in specs/, names a module in proofs/ of a crate here. (Words of the library lie
# in its proofs/ too.)
set -euo pipefail
cd "$(dirname "$0")/.."
shopt -s globstar nullglob

awk '
  / Rattle\.std\.proofs\./ { next }
  FILENAME ~ /\/src\// ? /^ *(pub )?ghost use .*\.proofs[. ;]/ : /^ *(pub )?use .*\.proofs([. ]|$)/ {
    printf "%s:%d: a contract cites what is in proofs/: %s\n", FILENAME, FNR, $0 >"/dev/stderr"
    faults++
  }
  END { exit faults > 0 }
' crates/*/src/**/*.rt crates/*/specs/**/*.antt </dev/null
