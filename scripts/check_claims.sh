#!/usr/bin/env bash
# Sees that what docs/CLAIMS.md, or the page given, names is there. In backticks stand
#   model/specs/Walk.antt   a file under crates/, or one from the top in crates/, docs/, examples/, include/, rust/ or scripts/
#   walk/step_by_two        an edit, crates/walk/must-fail/step_by_two.edit
#   walk::begin             a function of a crate
#   enough_head              a name declared in a file that the same paragraph, list item or table row names; a function names the sources of its crate. A row
#                           whose first cell is empty goes on with the row above
#   specs/                  a folder from the top, or one that crates have
# and otherwise code with a space, a dot or an operator in it, which is passed over.
set -euo pipefail
cd "$(dirname "$0")/.."
page=${1:-docs/CLAIMS.md}

find crates docs examples include rust scripts \( -path rust/target -o -path 'crates/*/out' \) -prune -o -print | awk -v page="$page" '
  function fault(line, text) {
    printf "%s:%d: %s\n", page, line, text >"/dev/stderr"
    faults++
  }

  # Reads which names a file declares. In a module of definitions that is at depth 0, or directly in a data type, a record or a module.
  function load(path,    line, word, count, i, called, clause, depth, opens) {
    if (path in loaded) return
    loaded[path]
    while ((getline line <path) > 0) {
      if (path ~ /\.rt$/) {
        sub(/\/\/.*/, "", line)
        gsub(/[({;<]/, " & ", line)
        count = split(line, word, " ")
        for (i = 1; i < count; i++) {
          called = word[i] == "fn" && word[i + 2] ~ /^[(<]$/
          clause = word[i] == "ensures" && word[i + 2] == "{"
          if (called) functions[path, word[i + 1]]
          if (called || clause || word[i] ~ /^(enum|struct)$/) declared[path, word[i + 1]]
        }
      } else if (path ~ /\.antt$/ && line !~ /^ *(--|$)/) {
        match(line, /^ */)
        depth = RLENGTH
        split(line, word, " ")
        i = 1
        while (word[i] ~ /^(unfoldable|abbrev|opaque|pub)$/) i++
        opens[depth] = word[i] ~ /^(data|record|module)$/
        if (opens[depth]) declared[path, word[i + 1]]
        else if (word[i + 1] == ":" && (depth == 0 || opens[depth - 2])) declared[path, word[i]]
      }
    }
    close(path)
  }

  function names_file(path,    i) {
    for (i = 1; i <= file_count; i++) if (files[i] == path) return
    files[++file_count] = path
  }

  # A token in backticks: what stands at a place of its own is looked for at once, a name at the end of its paragraph.
  function token_ends(token, line,    bare, word, path, i, found) {
    bare = token
    gsub(/\047/, "", bare)
    if (bare ~ /^[A-Za-z_][A-Za-z0-9_-]*$/) {
      names[++name_count] = token
      lines[name_count] = line
      looked++
    } else if (bare ~ /^[A-Za-z0-9_]+::[A-Za-z0-9_]+$/) {
      looked++
      split(token, word, "::")
      found = 0
      for (i = 1; (word[1], i) in source; i++) {
        path = source[word[1], i]
        load(path)
        if ((path, word[2]) in functions) found = 1
        names_file(path)
      }
      if (!found) fault(line, token " is not in crates/" word[1] "/src")
    } else if (bare ~ /^[A-Za-z0-9_.-]+(\/[A-Za-z0-9_.-]+)*\/?$/ && bare ~ /\//) {
      looked++
      path = token
      if (path ~ /^(src|specs|proofs|must-fail)\/$/) return
      sub(/\/$/, "", path)
      if (path !~ /^(crates|docs|examples|include|rust|scripts)(\/|$)/) {
        if (path ~ /\.[a-z]+$/) path = "crates/" path
        else if (token ~ /^[^\/]+\/[^\/]+$/) path = "crates/" substr(token, 1, index(token, "/")) "must-fail" substr(token, index(token, "/")) ".edit"
        else path = ""
      }
      if (path == "") fault(line, token " is neither a file nor an edit")
      else if (!(path in there)) fault(line, token " is not at " path)
      else if (path ~ /\.(antt|rt)$/) names_file(path)
    }
  }

  # A paragraph, list item or table row ends: each of its names is declared in one of its files.
  function block_ends(    i, j, found, list) {
    if (inside) fault(opened, "a backtick has no partner")
    for (i = 1; i <= name_count; i++) {
      found = 0
      list = ""
      for (j = 1; j <= file_count; j++) {
        load(files[j])
        if ((files[j], names[i]) in declared) found = 1
        list = list (j > 1 ? ", " : "") files[j]
      }
      if (!file_count) fault(lines[i], names[i] " stands beside no file")
      else if (!found) fault(lines[i], names[i] " is not in " list)
    }
    inside = name_count = file_count = 0
    token = ""
  }

  NR == FNR {
    there[$0]
    if ($0 ~ /^crates\/[^\/]+\/src\/.*\.rt$/) {
      split($0, word, "/")
      source[word[2], ++sources[word[2]]] = $0
    }
    next
  }

  /^ *```/ { fenced = !fenced }
  /^ *```/ || fenced || /^ *$/ { block_ends(); row = 0; next }
  {
    was_row = row
    row = /^ *\|/
    if (row ? !(was_row && /^ *\| *\|/) : was_row || was_heading || /^(#| *([-*+]|[0-9]+[.)]) )/) block_ends()
    was_heading = /^#/
    count = split($0, piece, "`")
    for (i = 1; i <= count; i++) {
      if (i > 1) {
        if (inside) token_ends(token, FNR)
        inside = !inside
        opened = FNR
        token = ""
      }
      token = token piece[i]
    }
    token = token " "
  }

  END {
    block_ends()
    printf "%s: %d names looked up, %d not found\n", page, looked, faults
    exit faults > 0
  }
' - "$page"
