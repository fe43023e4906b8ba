#!/usr/bin/env python3
"""Respells the names that the repository's own specs/ and proofs/ define: functions and lemmas in snake case, facts and records in camel case.

usage: python3 tools/respell_names.py      at the top of the repository

`kind-of` becomes `kind_of`, `Only-even-below-limit` becomes `OnlyEvenBelowLimit`. Names that the checker makes (a goal's, a step's) and names of the
library keep theirs. In prose, a name is respelled only between backticks. It changes text alone, and a second run changes nothing.
"""
import os
import re

WORD = re.compile(r"(?<![\w'-])[A-Za-z_][\w']*(?:-[\w']+)+")
SIGNATURE = re.compile(r"^\s*(?:abbrev |unfoldable )?(?:pub )?([^\s(){}:;,]+(?: [^\s(){}:;,]+)*) :(?: (goal\.)?|$)", re.M)
TYPE = re.compile(r"^\s*(?:pub )?(?:record|data) (\S+)", re.M)
# parameters and names of a `let`, which no signature shows
LOCAL = {
    "Free-in", "b-is", "fetched-2", "has-card", "left-lawful", "memory-meaning", "n-is", "not-it", "now-stored", "open-takes", "r-is", "right-lawful",
    "shelf-meaning", "whole-start", "yes-ok",
}
QUOTED = re.compile(r"`[^`\n]*`")


def files():
    for top in ("crates", "docs"):
        for folder, dirs, names in os.walk(top):
            dirs[:] = sorted(d for d in dirs if d not in ("out", "must-fail"))
            for name in sorted(names):
                if name.endswith((".antt", ".rt", ".md")):
                    yield os.path.join(folder, name)
    yield "README.md"


def code_of(text):
    return re.sub(r"--.*", "", text)


def defined():
    """The names with a dash that a file of specs/ or proofs/ defines, but for the answers to the checker's goals, and the local ones."""
    names = set(LOCAL)
    for path in files():
        if not path.endswith(".antt"):
            continue
        code = code_of(open(path, encoding="utf-8").read())
        for found in SIGNATURE.finditer(code):
            if not found.group(2):
                names.update(found.group(1).split())
        names.update(TYPE.findall(code))
    return {n for n in names if WORD.fullmatch(n)}


def respelled(name):
    if name[0].isupper() and name not in LOCAL:
        return "".join(part[0].upper() + part[1:] for part in name.split("-"))
    return name.replace("-", "_").lower()


def turned(text, names):
    return WORD.sub(lambda m: respelled(m.group(0)) if m.group(0) in names else m.group(0), text)


def turned_quotes(text, names):
    return QUOTED.sub(lambda m: turned(m.group(0), names), text)


def turned_code(text, names, comment):
    """Names in the code alone: a comment has them between backticks, and a text is left. Rust's own code has no name with a dash, but its clauses do."""
    out = []
    for part in re.split(rf'({comment}[^\n]*|"(?:\\.|[^"\\])*")', text):
        if part.startswith(comment):
            out.append(turned_quotes(part, names))
        elif part.startswith('"'):
            out.append(part)
        else:
            out.append(turned(part, names))
    return "".join(out)


def main():
    names = defined()
    for path in files():
        old = open(path, encoding="utf-8").read()
        comment = "--" if path.endswith(".antt") else "//"
        new = turned_quotes(old, names) if path.endswith(".md") else turned_code(old, names, comment)
        if new != old:
            with open(path, "w", encoding="utf-8") as f:
                f.write(new)
    print(f"{len(names)} names respelled")


main()
