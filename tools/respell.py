#!/usr/bin/env python3
"""Gives the definitions and lemmas of the crates the spelling of today's Rattle: words in snake case.

usage: python3 tools/respell.py [FOLDER]     the top of a checkout, by default the one that this file is in

It goes by what the files of specs/ and proofs/ declare (definitions, lemmas, fields, constructors), and turns those names wherever they stand: in specs/, proofs/,
contracts, must-fail edits and in the backticks of the pages. What a proof of a function declares for itself (proofs/F/) it leaves. Names of the library that a
file imports it leaves in that file. Two names that would fall together get the names in APART.
"""

import collections
import os
import re
import sys

# Names that would fall together with another one in a file that has both. (`ended_by` is one as it stands, where `endedBy` is there too.)
APART = {
    "after-length": "after_length_law",
    "all-parts": "all_parts_law",
    "bit-and": "bit_of_and",
    "bit-or": "bit_of_or",
    "check-is": "check_agrees",
    "chosen-checks": "chosen_checks_law",
    "count-is": "count_agrees",
    "counts-after": "counts_after_law",
    "counts-more": "counts_more_law",
    "ended_by": "ended_by_law",
    "first-bin": "first_bin_law",
    "gap-events": "gap_events_law",
    "head-of": "head_of_law",
    "leading-value": "leading_value_law",
    "mask-of-all": "mask_of_all_law",
    "named-weight": "named_weight_law",
    "no-heading": "no_heading_law",
    "on-first": "on_first_law",
    "other-mask": "other_mask_law",
    "outcome-is": "outcome_agrees",
    "read-field": "read_field_law",
    "refuse-at": "refuse_at_law",
    "refuse-if": "refuse_if_law",
    "row-weight": "row_weight_law",
    "run-at": "run_at_law",
    "runs-are": "runs_are_law",
    "sum-from": "sum_from_law",
    "unrisen-run": "unrisen_run_law",
    "weighted-run": "weighted_run_law",
}
TOKEN = re.compile(r"[A-Za-z][\w'-]*")
HEAD = r"^(\s*)(?:(?:unfoldable|abbrev|opaque|pub)\s+)*"
TYPE = re.compile(HEAD + r"(?:record|data)\s+([^\s(){}:]+)")
NAME = re.compile(HEAD + r"([^\s(){}:,;=]+)\s+:(?=\s|$)")
USE = re.compile(r"^\s*(?:pub )?(?:ghost )?use\s+([\w.'-]+?)\.\{([^}]*)\}")


def spelled(name):
    if name in APART:
        return APART[name]
    if name[:1].isupper():
        return name
    return re.sub(r"(?<=[a-z0-9])[A-Z]", lambda m: "_" + m.group(0).lower(), name.replace("-", "_"))


def sources(top, ending):
    for folder, dirs, files in os.walk(os.path.join(top, "crates")):
        dirs[:] = sorted(d for d in dirs if d != "out")
        for f in sorted(files):
            if f.endswith(ending):
                yield os.path.join(folder, f)


def read(path):
    with open(path, encoding="utf-8") as f:
        return f.read()


def declared(top):
    """The names that specs/ and proofs/ declare, each with its spelling."""
    names = {}
    for path in sources(top, ".antt"):
        if os.path.basename(path) == "Proof.antt":
            continue
        for line in read(path).splitlines():
            if re.match(r"(pub )?use ", line):
                names.update((a, spelled(a)) for a in re.findall(r" as \u25cc?([A-Za-z][\w'-]*)", line))
            if line.lstrip().startswith("--") or re.match(r"(pub )?use ", line):
                continue
            found = TYPE.match(line) or NAME.match(line)
            if found:
                names[found.group(2)] = spelled(found.group(2))
    if "endedBy" not in names:
        names.pop("ended_by", None)
    return names


def imported(top, text):
    """The names that a text takes from libraries that are not crates of this repository."""
    names = set()
    for line in text.splitlines():
        found = USE.match(line)
        if found:
            parts = found.group(1).split(".")
            if not (parts[0] == "Rattle" and os.path.isdir(os.path.join(top, "crates", parts[1]))):
                names.update(n.split(" as ")[0].strip() for n in found.group(2).split(","))
    return names


def turn(text, turned):
    return TOKEN.sub(lambda m: turned.get(m.group(0), m.group(0)), text)


def turn_code(text, turned, comment):
    """Code whole; in a comment what no English word can be, and what stands in backticks."""
    lines = []
    for line in text.split("\n"):
        at = line.find(comment)
        while at > 0 and line[at - 1] not in " \t":
            at = line.find(comment, at + 1)
        code, said = (line, "") if at < 0 else (line[:at], line[at:])
        lines.append(turn(code, turned) + turn_page(said, turned))
    return "\n".join(lines)


def turn_page(text, turned):
    camel = {a: b for a, b in turned.items() if "-" not in a}
    parts = re.split(r"(`[^`]*`)", text)
    return "".join(turn(p, turned) if p.startswith("`") else turn(p, camel) for p in parts)


def turn_files(top):
    names = declared(top)
    turned = {a: b for a, b in names.items() if a != b}
    falls = collections.defaultdict(set)
    for a, b in names.items():
        falls[b].add(a)
    changed = 0
    work = [(p, "--") for p in sources(top, ".antt")] + [(p, "//") for p in sources(top, ".rt")] + [(p, None) for p in sources(top, ".edit")]
    work += [(os.path.join(top, "docs", p), "") for p in ("CLAIMS.md", "DECISIONS.md", "SPECIFICATION.md", "PERFORMANCE.md")] + [(os.path.join(top, "README.md"), "")]
    for path, comment in work:
        text = read(path)
        here = {a: b for a, b in turned.items() if a not in imported(top, text)} if comment else turned
        if comment:
            tokens = set(TOKEN.findall(text))
            for b, olds in falls.items():
                if len(olds & tokens) > 1:
                    print(f"look: {os.path.relpath(path, top)}: {', '.join(sorted(olds & tokens))} fall together")
        if comment == "":
            new = turn_page(text, here)
        elif comment is None:
            new = "\n".join(turn(l, here) if re.match(r"(old|new):", l) else turn_page(l, here) for l in text.split("\n"))
        else:
            new = turn_code(text, here, comment)
        if new != text:
            with open(path, "w", encoding="utf-8") as f:
                f.write(new)
            changed += 1
    print(f"{len(turned)} names turned in {changed} files")


if __name__ == "__main__":
    turn_files(os.path.abspath(sys.argv[1] if len(sys.argv) > 1 else os.path.join(os.path.dirname(os.path.abspath(__file__)), "..")))
