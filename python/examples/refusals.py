#!/usr/bin/env python3
"""How many sheets of a folder break which rule first, as a table: refusals.py SCD DIC FOLDER

Below each rule stands an example: where it is broken, and why, in words.
"""
import collections
import pathlib
import sys

import edicad


def main(scd, dic, folder):
    schema = edicad.Schema(scd, dic)
    found = collections.defaultdict(list)
    accepted = 0
    for path in sorted(it for it in pathlib.Path(folder).rglob("*") if it.suffix.upper() == ".VEC"):
        text, refusal = schema.explain(path)
        if refusal is None:
            accepted += 1
        else:
            found[refusal.rule].append(text.splitlines()[0])
    print(f"accepted  {accepted}")
    for rule, lines in sorted(found.items()):
        print(f"{rule}       {len(lines)}")
        print(f"          {lines[0]}")


if __name__ == "__main__":
    if len(sys.argv) != 4:
        sys.exit(__doc__)
    main(*sys.argv[1:])
