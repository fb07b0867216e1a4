#!/usr/bin/env python3
"""Writes docs/EXPLAINED.md: what the program says of each rule, from a run.

    program/page.py PATH     PATH is the built program

run.py compares the page with what the program says, and each sentence with docs/FORMAT.md. So who changes a text on purpose makes the page
anew, and reads it.
"""
import os
import subprocess
import sys

sys.dont_write_bytecode = True

from explained import DOCS, RULES, section

HEAD = """# The rules explained

What `edicad explain RULE` says of each rule: where it is broken, why there is such a rule, what usually breaks it and what to do. Made by
`program/page.py` from a run of the program; `program/run.py` compares it with what the built program says.

"""


def main():
    path = os.path.abspath(sys.argv[1])
    said = [subprocess.run([path, "explain", str(rule)], stdout=subprocess.PIPE, check=True).stdout for rule in RULES]
    with open(os.path.join(DOCS, "EXPLAINED.md"), "w", encoding="utf-8") as file:
        file.write(HEAD + "\n".join(section(it) for it in said))


if __name__ == "__main__":
    main()
