#!/usr/bin/env python3
"""Writes docs/RULES.md: each rule with its sentence, its definition, its code and its cases.

    checks/rules.py            writes the page
    checks/rules.py --check    fails if the page isn't what it would write

A rule's sentence is that of the tables of docs/FORMAT.md. Its definition is the one in a crate's specs/ (specs/inner/
aside) that a comment `-- RULE: ..` stands above or in (202 is the test of an identifier, which schemas share). Its code
is the sources that name its number (edi_explain and edi_outcome aside, which say what others found). Its cases are those
in crates/conform/data and program/cases that want its refusal, but for those of outcomes, which are given one; of the
rules of deliveries, the known files of edi_delivery that have it.
"""
import glob
import os
import re
import sys

ROOT = os.path.dirname(os.path.dirname(os.path.abspath(__file__)))

# the known files of deliveries, and what the definitions say of them
KNOWN_DELIVERIES = "crates/edi_delivery/src/known.rt"

# crates that say what others found
SAYERS = ("crates/edi_explain/", "crates/edi_outcome/", "crates/edi_answers/", "crates/edi_json_answers/")


def read(path):
    with open(os.path.join(ROOT, path), encoding="utf-8") as file:
        return file.read()


def paths(pattern):
    found = glob.glob(os.path.join(ROOT, pattern), recursive=True)
    return sorted(os.path.relpath(path, ROOT) for path in found)


def sentences():
    """The rules in the order of docs/FORMAT.md, each with where it is broken and its place."""
    rows = re.findall(r"^\| ([1-7]\d\d) \| (.*) \| (.*) \|$", read("docs/FORMAT.md"), re.M)
    return {int(rule): (sentence, place) for rule, sentence, place in rows}


def definitions():
    """For each rule the files and names of the definitions under its comments."""
    found = {}
    for path in paths("crates/*/specs/*.antt"):
        lines = read(path).split("\n")
        for at, line in enumerate(lines):
            rule = re.search(r"^\s*-- ([1-7]\d\d): |: rule ≡ (202) ", line)
            if rule:
                number = int(next(filter(None, rule.groups())))
                found.setdefault(number, []).append((path, name_at(lines, at)))
    return found


def name_at(lines, at):
    """The definition that a comment stands above or in."""
    below = defined(lines[at + 1])
    return below or next(filter(None, map(defined, reversed(lines[:at]))))


def defined(line):
    """The name that a line of antt defines, if it does."""
    start = re.match(r"\s*(?:abbrev |unfoldable )?pub (?:record |data )?([\w'-]+)", line)
    return start and start[1]


def code():
    """For each rule the sources that name its number outside comments, contracts and tests."""
    found = {}
    for path in paths("crates/edi_*/src/*.rt"):
        if re.search(r"tests?\.rt$|_cases\.rt$|known\.rt$", path) or path.startswith(SAYERS):
            continue
        for line in read(path).split("\n"):
            text = re.sub(r"//.*", "", line)
            if re.search(r"\b(ensures|requires)\b|#\[", text):
                continue
            text = text.replace("SchemaFault::Kinds", "604")
            for rule in re.findall(r"\b([1-5]\d\d|60[1-4]|70\d|71[01])\b", text):
                files = found.setdefault(int(rule), [])
                if path not in files:
                    files.append(path)
    return found


def cases():
    """For each rule the files and titles of the cases that want its refusal."""
    found = {}
    for path in paths("crates/conform/data/*.cases") + paths("program/cases/*.cases"):
        head, *blocks = read(path).split("--\n")
        if head.startswith("outcomes\n"):
            continue
        for block in blocks:
            title = block.split("\n", 1)[0]
            wanted = block.split("->\n", 1)[1]
            rule = re.search(r"^refused (?:\w+ )?(\d\d\d)\b", wanted, re.M)
            if rule:
                found.setdefault(int(rule[1]), []).append((os.path.basename(path), title))
    for title, rule in re.findall(r"ensures (\w+) \{ IsRefusedBy [^}]*\) (7\d\d) \d+ \}", read(KNOWN_DELIVERIES)):
        found.setdefault(int(rule), []).append((os.path.basename(KNOWN_DELIVERIES), title.replace("_", " ")))
    return found


def page():
    known, defs, sources, tried = sentences(), definitions(), code(), cases()
    out = ["# The rules", ""]
    out += ["Each rule with its definition, its code and the cases that show it. Made by `checks/rules.py` from",
            "docs/FORMAT.md, the crates and the cases of `crates/conform/data` and `program/cases`; the gate checks that it is current.", ""]
    for rule, (sentence, place) in sorted(known.items()):
        out += [f"## {rule}", "", f"Broken where: {sentence}. Place: {place}.", ""]
        for path, name in defs.get(rule, []):
            out.append(f"- defined as `{name}` in {path}")
        for path in sources.get(rule, []):
            out.append(f"- found by {path}")
        for name, title in tried.get(rule, []):
            out.append(f"- {name}: {title}")
        if rule in WITHOUT_CASE:
            out.append("- no case: it would have ten million records")
        out.append("")
    return "\n".join(out).rstrip("\n") + "\n"


# A case of rule 110 would have ten million records.
WITHOUT_CASE = {110}


def lacking():
    """What a rule lacks: a definition, code or a case."""
    known, defs, sources, tried = sentences(), definitions(), code(), cases()
    parts = (("definition", defs), ("code", sources), ("case", set(tried) | WITHOUT_CASE))
    return [f"rule {rule} has no {name}" for rule in sorted(known) for name, part in parts if rule not in part]


def main():
    text = page()
    if "--check" not in sys.argv[1:]:
        with open(os.path.join(ROOT, "docs/RULES.md"), "w", encoding="utf-8") as file:
            file.write(text)
    faults = lacking()
    if read("docs/RULES.md") != text:
        faults.append("docs/RULES.md is not current: run checks/rules.py")
    print("\n".join(faults) or "docs/RULES.md is current")
    sys.exit(bool(faults))


if __name__ == "__main__":
    main()
