#!/usr/bin/env python3
"""Compares the sentences of the rules in crates/edi_explain/src/texts/ with the tables of docs/FORMAT.md.

    checks/texts.py [--check]  fails if a rule's sentence isn't that of the table
"""
import glob
import os
import re
import sys

ROOT = os.path.dirname(os.path.dirname(os.path.abspath(__file__)))


def read(path):
    with open(path, encoding="utf-8") as file:
        return file.read()


def in_tables():
    rows = re.findall(r"^\| ([1-7]\d\d) \| (.*) \| .* \|$", read(os.path.join(ROOT, "docs/FORMAT.md")), re.M)
    return {int(rule): sentence for rule, sentence in rows}


def in_code():
    found = {}
    for path in sorted(glob.glob(os.path.join(ROOT, "crates/edi_explain/src/texts/*.rt"))):
        # (a backslash at the end of a line joins it with the next)
        text = re.sub(r"\\\n\s*", "", read(path))
        rows = re.findall(r'rule: (\d+),\s+sentence:\s+"((?:[^"\\]|\\.)*)"', text)
        found.update({int(rule): re.sub(r"\\(.)", r"\1", sentence) for rule, sentence in rows})
    return found


def main():
    tables, code = in_tables(), in_code()
    faults = [
        f"rule {rule}: the table says {tables.get(rule)!r}, the text {code.get(rule)!r}"
        for rule in sorted({*tables, *code})
        if tables.get(rule) != code.get(rule)
    ]
    print("\n".join(faults) or f"the sentences of {len(code)} rules are those of docs/FORMAT.md")
    sys.exit(bool(faults))


if __name__ == "__main__":
    main()
