#!/usr/bin/env python3
"""Looks for names with two meanings.

    checks/names.py [--check]  fails with a list if there are any

A definition's name stands in one file of the crates' specs/ only, the name of a struct, an enum or a trait in
the sources of one crate only, and no name is both. Fields and constructors may share theirs.
"""
import glob
import os
import re
import sys

ROOT = os.path.dirname(os.path.dirname(os.path.abspath(__file__)))

SIGNED = re.compile(r"( *)(?:pub )?([A-Za-z_][\w'-]*) :")
DEFINED = re.compile(r" *(?:pub )?(?:abbrev|unfoldable|record|data) (?:pub )?(?:record |data )?([A-Za-z_][\w'-]*)(?=[ :])")
TYPE = re.compile(r" *(?:pub(?:\([^)]*\))? )?(?:struct|enum|trait) (\w+)")


def lines_of(pattern):
    """The lines of the files of a pattern, each with its file and the next that doesn't go on with it."""
    for path in sorted(glob.glob(os.path.join(ROOT, pattern), recursive=True)):
        with open(path, encoding="utf-8") as file:
            lines = file.read().split("\n")
        for number, line in enumerate(lines):
            yield os.path.relpath(path, ROOT), line, behind(lines, number)


def behind(lines, number):
    """The next line that doesn't go on with this one, which it would if it stood deeper."""
    depth = len(lines[number]) - len(lines[number].lstrip())
    return next((line for line in lines[number + 1 :] if len(line) - len(line.lstrip()) <= depth), "")


def defined(line, following):
    """The name that a line of antt begins to define, if it does. A field has a type too, but no clause behind it."""
    start = DEFINED.match(line)
    if start:
        return start[1]
    signed = SIGNED.match(line)
    if signed and re.match(signed[1] + re.escape(signed[2]) + r"(?= )(?! :)", following):
        return signed[2]
    return None


def definitions():
    """For each defined name the files of specs that define it."""
    found = {}
    for path, line, following in lines_of("crates/*/specs/**/*.antt"):
        name = defined(line, following)
        if name:
            found.setdefault(name, set()).add(path)
    return found


def types():
    """For each struct, enum and trait the crates that declare one of its name."""
    found = {}
    for path, line, _ in lines_of("crates/*/src/**/*.rt"):
        start = TYPE.match(line)
        if start:
            found.setdefault(start[1], set()).add(path.split("/")[1])
    return found


def twice(found, what):
    return [f"{what} {name}: {', '.join(sorted(places))}" for name, places in sorted(found.items()) if len(places) > 1]


def both(by_name, by_type):
    """The names that are a definition's and a type's."""
    return [
        f"definition and type {name}: {', '.join(sorted(by_name[name] | by_type[name]))}"
        for name in sorted(by_name.keys() & by_type.keys())
    ]


def main():
    by_name, by_type = definitions(), types()
    faults = twice(by_name, "definition") + twice(by_type, "type") + both(by_name, by_type)
    print("\n".join(faults) or f"{len(by_name)} definitions and {len(by_type)} types have each a name of their own")
    sys.exit(bool(faults))


if __name__ == "__main__":
    main()
