#!/usr/bin/env python3
"""Counts the places in crates/*/src that are written in an older form, point by point.

    python3 tools/design_places.py          a line for each search: its point, how many places, what it looks for
    python3 tools/design_places.py --list   and below it each place

A search only says where to look: whether a place is older in form is judged by reading it.
"""
import pathlib
import re
import sys
from collections import defaultdict

ROOT = pathlib.Path(__file__).resolve().parent.parent
FILES = sorted((ROOT / "crates").glob("*/src/**/*.rt"))
TEXTS = {f: re.sub(r"//[^\n]*", "", f.read_text()) for f in FILES}


def place(file, offset):
    line = TEXTS[file].count("\n", 0, offset) + 1
    return f"{file.relative_to(ROOT)}:{line}"


def matching(pattern):
    found = []
    for file, text in TEXTS.items():
        for m in re.finditer(pattern, text, re.M | re.S):
            start = m.start() + len(m.group()) - len(m.group().lstrip())
            found.append((place(file, start), " ".join(m.group().split())[:90]))
    return found


def enums_of_two_sorts():
    """Enums some of whose variants hold a value and some of which do not, and those that hold a refusal."""
    found = []
    for file, text in TEXTS.items():
        for m in re.finditer(r"enum (\w+) \{(.*?)\n\}", text, re.S):
            variants = re.findall(r"^    (\w+)( \{|\(|,| =)", m.group(2), re.M)
            held = [after in (" {", "(") for _, after in variants]
            if any(held) and not all(held):
                found.append((place(file, m.start()), m.group(1)))
    return found


def functions():
    """Each function with a body: its place, name, parameters and clauses."""
    for file, text in TEXTS.items():
        for m in re.finditer(r"\bfn (\w+)[^({;]*\((.*?)\)((?:(?!\bfn ).)*?)(?:\n *\{\n|;\n)", text, re.S):
            yield place(file, m.start()), m.group(1), m.group(2), m.group(3)


def numbered_twins():
    """Methods of one body on several types."""
    bodies = defaultdict(list)
    for file, text in TEXTS.items():
        for m in re.finditer(r"\bfn (\w+)[<(](?:(?!\bfn ).)*?\n *\{\n((?:(?!\bfn ).)*?)\n *\}\n", text, re.S):
            body = re.sub(r"\b[A-Z]\w*::\w+|\b[A-Z]\w*|self\.\w+\b|\"[^\"]*\"|\b\d\w*", "_", m.group(2))
            if len(body.strip()) > 8:
                bodies[" ".join(body.split())].append((place(file, m.start()), m.group(1)))
    return [p for group in bodies.values() if len(group) > 1 for p in group]


def travelling_together():
    """Three parameters or more, or a shelf with its pack, in three functions or more."""
    groups = defaultdict(list)
    for where, name, params, _ in functions():
        names = re.findall(r"(?:^|,)\s*(?:mut )?(\w+):", params)
        for i in range(len(names)):
            for j in range(i + 1, len(names)):
                groups[(names[i], names[j])].append((where, name))
    return [(v[0][0], f"{k[0]}, {k[1]}: in {len(v)} functions") for k, v in groups.items() if len(v) >= 3]


def repeated_clauses():
    """A clause that stands, but for names of values, in three functions or more."""
    facts = defaultdict(list)
    for where, name, _, rest in functions():
        for m in re.finditer(r"(?:ensures|requires)(?: \w+)? \{ (.*?) \}(?=;|\n|$)", rest, re.S):
            facts[" ".join(m.group(1).split())].append((where, name))
    return [(v[0][0], f"in {len(v)} functions: {k[:80]}") for k, v in facts.items() if len(v) >= 3]


SEARCHES = [
    ("1", "an enum whose variants hold a value or hold none", enums_of_two_sorts),
    ("1", "a kind, or kinds, as a number", r"\b(?:kind|kinds|drives|Drives)\b(?:: |\()(?:Option<)?&?\[?u(?:8|32)\b"),
    ("1", "a refusal as a number", r"\w*Refus\w*(?:Text)?\((?:pub\(crate\) )?u\d+\)"),
    ("1", "a number that stands for none", r"const \w+: u\d+ = 255;"),
    ("2", "functions with one body but for names", numbered_twins),
    ("2", "a check that stands in several functions", r"if buffer\.len\(\) != SECTOR_WORDS|if !self\.has\(pack, block\)|match narrowed\("),
    ("2", "a struct that has the fields of another", r"pub struct Card \{"),
    ("3", "a loop with an index or a counter beside it", r"^ *for \(\w+, \w+\) in [^{]*enumerate\(\)|^ *for _\w+ in [^{]*|^ *\w+ \+= 1;|^ *\w+ = \w+\.(?:saturating|wrapping)_add\([12]\);"),
    ("3", "a loop that searches, counts or collects", r"^ *for [^{]*\{\n(?: *let [^\n]*\n)? *(?:if [^\n]*\{\n *(?:return|break)|\w+\.push\()"),
    ("3", "a `while`", r"^ *while [^{]*"),
    ("3", "an array taken element by element", r"\w+\[0\][^;]*\w+\[3\]"),
    ("4", "a conversion by a method", r"fn (?:number|from_number|word|from_word|lower_if|from_disk_address|at|from_block|from_header)\((?:self|[a-z_]+: u\d+)"),
    ("4", "a plain type with no derived comparison", r"#\[derive\(Clone, Copy\)\]\n(?:pub(?:\(crate\))? )?(?:enum|struct) \w+"),
    ("4", "a comparison written out", r"fn same\(|matches!\(\s*self\.state|match self\.pack \{"),
    ("4", "a result handed on arm by arm", r"Ok\((\w+|\(\))\) => Ok\(\1\),\s*Err\(\w+\) => Err\([^\n]*"),
    ("4", "a condition that only makes an error", r"(?:\} else \{\n *Err\([^\n]*\)\n *\}|_ => Err\([^\n]*|None => Err\([^\n]*|return Err\(\w+::\w+\(\w+::\w+\)\);)"),
    ("5", "a clause in three functions or more", repeated_clauses),
    ("5", "parameters that travel together", travelling_together),
    ("6", "bytes split by hand", r"\.split_at\("),
    ("6", "an element looked up by hand", r"if \w+ < [^\n]*(?:len\(\)|UNITS|count\(\)) \{|index >= [^\n]*len\(\)"),
    ("7", "a table of functions, or a function as a value", r"\bfn\(|dyn |\[\w+; \d\] = \[\w+::\w+,"),
    ("7", "a choice of the step by a word", r"if same\([^\n]*"),
]


def main():
    for point, what, search in SEARCHES:
        found = search() if callable(search) else matching(search)
        print(f"{point}  {len(found):3}  {what}")
        if "--list" in sys.argv:
            for where, text in found:
                print(f"          {where}  {text}")


main()
