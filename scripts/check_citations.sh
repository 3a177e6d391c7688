#!/usr/bin/env bash
# Sees that each section of docs/SPECIFICATION.md that a file cites, as in SPECIFICATION.md, 'The walk', is a heading of that page, and so is each link there to
# one of its own sections.
set -euo pipefail
cd "$(dirname "$0")/.."
page=docs/SPECIFICATION.md

find README.md Makefile crates docs examples include rust scripts \( -path rust/target -o -path 'crates/*/out' \) -prune -o -type f -print0 | xargs -0 awk -v page="$page" '
  FILENAME == page && /^##+ / {
    name = $0
    sub(/^#+ /, "", name)
    headings[name]
    anchor = tolower(name)
    gsub(/ /, "-", anchor)
    anchors[anchor]
  }
  {
    rest = $0
    while (match(rest, /SPECIFICATION\.md, \047[^\047]+\047/)) {
      cited = substr(rest, RSTART + 19, RLENGTH - 20)
      where[FILENAME ":" FNR ": " cited] = cited
      rest = substr(rest, RSTART + RLENGTH)
    }
  }
  FILENAME == page {
    rest = $0
    while (match(rest, /\]\(#[^)]+\)/)) {
      linked[substr(rest, RSTART + 3, RLENGTH - 4)] = FNR
      rest = substr(rest, RSTART + RLENGTH)
    }
  }
  END {
    for (place in where) {
      citations++
      if (!(where[place] in headings)) {
        print place " is no section of " page >"/dev/stderr"
        faults++
      }
    }
    for (anchor in linked) {
      if (!(anchor in anchors)) {
        print page ":" linked[anchor] ": #" anchor " is no section" >"/dev/stderr"
        faults++
      }
    }
    printf "%d citations of %s, %d at fault\n", citations, page, faults
    exit faults > 0 || !citations
  }
'
