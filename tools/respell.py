#!/usr/bin/env python3
"""Brings the repository's own antt names to today's spelling, once, after port.py: words in snake case, with '_' in place of a dash.

usage: tools/respell.py        at the top of the repository

A name with a capital inside, as bitsIn, becomes bits_in; a dash that joins it to another name stays (bitsIn-append: bits_in-append), any
other dash of an own name becomes '_'. Where a lemma would then have its definition's name it gets _lem. Types, modules and facts keep
theirs. Rewrites crates/ (sources, specs, proofs, must-fail edits) and the names in README, CHANGELOG, docs/ and tests/tests/documents.rs.
"""
import collections
import glob
import os
import re

WORD = re.compile(r"[^\s(){}\[\],;:=.`'\"«»@]+(?:'+)?")
SIGNATURE = re.compile(r"^(\s*)((?:abbrev |unfoldable |pub |private |data |record )*)([^\s(){}\[\],;:=λ.]+)(?: .*)? :\s*(.*)$")
CAPITAL = re.compile(r"[a-z0-9][A-Z]")


def files(pattern):
    return sorted(p for p in glob.glob(pattern, recursive=True) if "/out/" not in p)


def read(path):
    with open(path, encoding="utf-8") as f:
        return f.read()


def own_names():
    found = collections.defaultdict(set)
    for path in files("crates/**/*.antt"):
        for line in read(path).splitlines():
            m = SIGNATURE.match(line)
            if not m or line.lstrip().startswith("--"):
                continue
            name, kind = m.group(3), m.group(4)
            if path.endswith("/Proof.antt") and re.match(r"tie\.|\{M : Type 1\} → ", line.split(" : ", 1)[1]):
                continue
            found[name].add(path)
    return found


def snake(name):
    turned = re.sub(r"([a-z0-9])([A-Z])", lambda m: m.group(1) + "_" + m.group(2).lower(), name)
    return turned if turned != name else name.replace("-", "_")


def library_names():
    """The names that some file takes from a module that is not of this repository."""
    crates = {os.path.basename(c) for c in glob.glob("crates/*")}
    found = set()
    for path in files("crates/**/*.antt") + files("crates/**/*.rt"):
        for m in re.finditer(r"use ([^\s{]+)\.\{([^}]*)\}", read(path)):
            parts = m.group(1).split(".")
            if parts[0] != "Rattle" or parts[1] not in crates:
                found |= {n.split(" as ")[0].strip() for n in m.group(2).split(",")}
    return found


def table(found):
    library = library_names()
    names = {n for n in found if n[0].islower() and re.fullmatch(r"[A-Za-z0-9_-]+'*", n) and n not in library}
    turn = {n: snake(n) for n in names if snake(n) != n}
    definitions = {snake(n) for n in names if CAPITAL.search(n) and "-" not in n}
    for n in sorted(names):
        if not CAPITAL.search(n) and snake(n) in definitions and n not in ("part_in", "one_by_one"):
            turn[n] = snake(n) + "_lem"
        elif n in turn and turn[n] in library:
            turn[n] += "_lem"
    return turn


def turned_code(text, turn):
    def one(m):
        return turn.get(m.group(0), m.group(0))

    lines = []
    for line in text.split("\n"):
        code, dash, comment = line, "", ""
        at = re.search(r"(^|\s)(--|//|#)\s", line)
        if at:
            code, comment = line[: at.start()], line[at.start() :]
        if re.match(r"(mod|pub mod) ", code.strip()) or "clang" in code:
            lines.append(line)
            continue
        lines.append(WORD.sub(one, code) + turned_prose(comment, turn))
    return "\n".join(lines)


def turned_prose(text, turn):
    """In prose a name with a capital is turned wherever it stands, any other between backticks alone."""
    text = re.sub(r"`([^`\n]*)`", lambda m: "`" + WORD.sub(lambda w: turn.get(w.group(0), w.group(0)), m.group(1)) + "`", text)
    return WORD.sub(lambda w: turn[w.group(0)] if CAPITAL.search(w.group(0)) and w.group(0) in turn else w.group(0), text)


def main():
    turn = table(own_names())
    for path in files("crates/**/*.antt") + files("crates/**/*.rt") + files("crates/*/must-fail/*.edit"):
        text = read(path)
        if path.endswith(".rt"):
            new = "\n".join(
                turned_code(l, {k: v for k, v in turn.items() if CAPITAL.search(k) or re.match(r"\s*(ghost|requires|ensures)\b", l)})
                for l in text.split("\n")
            )
        else:
            new = turned_code(text, turn)
        if new != text:
            with open(path, "w", encoding="utf-8") as f:
                f.write(new)
    for path in ["README.md", "CHANGELOG.md", "tests/tests/documents.rs"] + files("docs/**/*.md"):
        text = read(path)
        new = turned_prose(text, turn)
        if new != text:
            with open(path, "w", encoding="utf-8") as f:
                f.write(new)
    for old, new in sorted(turn.items()):
        print(old, new)


if __name__ == "__main__":
    main()
