#!/usr/bin/env bash
# Sees that no `/` and no `%` stands in the code of the crates, but for the functions that docs/DECISIONS.md lists under 'Where the code divides', and that each of
# these does divide. A function that a loop calls is part of the loop, so the rule is for every function, whoever calls it. Comments to the end of a line, strings
# and contracts are no code.
set -euo pipefail
cd "$(dirname "$0")/.."
shopt -s globstar nullglob

awk '
  function fault(text) {
    print text >"/dev/stderr"
    faults++
  }

  # A `/` or a `%` in the code.
  function divides(    path, called) {
    split(FILENAME, path, "/")
    called = path[2] "::" name
    if (called in listed) found[called]
    else fault(FILENAME ":" FNR ": " (name == "" ? "" : name " ") "divides: " $0)
  }

  # What stands in a line after the end of the string, of the clause of a contract or of the `ghost use` that it is in; nothing if that goes on.
  function after_string(line) {
    in_string = !match(line, /^([^"\\]|\\.)*"/)
    return in_string ? "" : substr(line, RLENGTH + 1)
  }

  function after_clause(line) {
    while (in_clause && match(line, /[{}]/)) {
      in_clause += substr(line, RSTART, 1) == "{" ? 1 : -1
      line = substr(line, RSTART + 1)
    }
    return in_clause ? "" : line
  }

  function after_use(line) {
    in_use = !match(line, /;/)
    return in_use ? "" : substr(line, RSTART + 1)
  }

  # A file that ends in one of these, or in a function, was not read as it is meant.
  function file_ends() {
    if (in_string || in_clause || in_use || depth) fault(file ": it ends in a string, a contract or a function")
  }

  FILENAME == "docs/DECISIONS.md" {
    if (/^## /) listing = $0 == "## Where the code divides"
    if (listing && match($0, /^\| `[a-z0-9_]+::[a-z0-9_]+` \|/)) listed[substr($0, 4, RLENGTH - 6)]
    next
  }

  FNR == 1 {
    file_ends()
    files++
    file = FILENAME
    name = ""
    in_string = in_clause = in_use = depth = 0
  }
  {
    rest = $0
    if (in_string) rest = after_string(rest)
    if (in_clause) rest = after_clause(rest)
    if (in_use) rest = after_use(rest)
    while (match(rest, /\/\/|["\047{}\/%]|[A-Za-z_][A-Za-z0-9_]*/)) {
      token = substr(rest, RSTART, RLENGTH)
      rest = substr(rest, RSTART + RLENGTH)
      if (token == "//") break
      if (token == "/" || token == "%") divides()
      else if (token == "\"") rest = after_string(rest)
      else if (token == "\047") sub(/^([^\\]|\\.)\047/, "", rest)
      else if (token == "{") depth++
      else if (token == "}" && --depth == level) name = ""
      else if (token == "fn" && match(rest, /^ +[A-Za-z0-9_]+/)) {
        name = substr(rest, 2, RLENGTH - 1)
        level = depth
        functions++
      } else if (token == "ghost" && rest ~ /^ +use /) rest = after_use(rest)
      else if (token ~ /^(requires|ensures|ghost)$/ && match(rest, /^ *[A-Za-z0-9_]* *\{/)) {
        in_clause = 1
        rest = after_clause(substr(rest, RLENGTH + 1))
      }
    }
  }

  END {
    file_ends()
    for (called in listed) {
      exceptions++
      if (!(called in found)) fault("docs/DECISIONS.md: " called " is listed and does not divide")
    }
    if (faults || !functions) exit 1
    printf "%d functions in %d files looked at for a division, %d listed\n", functions, files, exceptions
  }
' docs/DECISIONS.md crates/*/src/**/*.rt
