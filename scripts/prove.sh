#!/usr/bin/env bash
# Proves a crate and all below it, and builds it, for any x86-64 processor: prove.sh check CRATE proves alone, prove.sh run hits gives target/bin/hits and
# prove.sh lib quorum target/staticlib/libquorum.a. A line for each crate goes to standard error as soon as it is checked; all that the prover says is in target/log.
# Fails where rt is missing or does not succeed.
set -euo pipefail
cd "$(dirname "$0")/.."
verb=$1 crate=$2
words=("$verb")
# (a library is only proved where nothing is built, so `check` takes no processor)
if [ "$verb" != check ]; then words+=(--cpu x86-64); fi

if ! command -v rt >/dev/null; then
  echo "rt is missing: the Rattle kit's command has to be on the PATH" >&2
  exit 1
fi
if [ ! -d target ]; then
  echo "nothing is proved yet: this takes some minutes the first time" >&2
  mkdir target
fi
# `rt run` runs the program once it is built, here on an empty input
if ! (cd "crates/$crate" && rt "${words[@]}" 2>&1 </dev/null) | tee target/log | sed -un '/^crate /p; /^rt: note/d; /^rt: /p' >&2; then
  echo "rt $verb $crate failed: target/log has what the prover says" >&2
  exit 1
fi
case $verb in
  run) mkdir -p target/bin && cp "crates/$crate/out/$crate" target/bin ;;
  lib) mkdir -p target/staticlib && cp "crates/$crate/out/lib$crate.a" target/staticlib ;;
esac
