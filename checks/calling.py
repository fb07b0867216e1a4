#!/usr/bin/env python3
"""Writes docs/CALLING.md: the functions of crates/uses, which call the libraries, with their imports and their contracts.

    checks/calling.py            writes the page
    checks/calling.py --check    fails if the page isn't what it would write
"""
import glob
import os
import re
import sys

ROOT = os.path.dirname(os.path.dirname(os.path.abspath(__file__)))
PAGE = os.path.join(ROOT, "docs/CALLING.md")

HEAD = """# Calling the libraries

Each function below is a complete example of a call to the libraries, proved by the gate with its contract. The page is made by `checks/calling.py`
from `crates/uses/src`; the gate checks that it is current. The definitions that a contract names stand in the crates'
specs/ ([DEFINITIONS.md](DEFINITIONS.md)); `crates/uses/specs` has those of these callers.

A crate that calls the libraries names them in `crates.txt` and starts with `#![tactic(auto)]`, which has the prover do the routine steps. For `uses`:

```
{crates}
```

A schema is loaded once and serves any number of sheets. A function that allocates takes the allocator first, and may answer that
there is no memory, which says nothing about the sheet. A refused call leaves what it borrowed as it was, except readers, writers
and feeds. Coordinates are whole millionths of the file's unit.
"""


def functions(text):
    """Each public function with its comment, from its first line to its closing brace."""
    return re.findall(r"^((?:///.*\n)+pub fn (\w+)(?:.*\n)+?\}\n)", text, re.M)


def imports(text):
    """The lines by which a module names what it calls, and what its contracts speak of."""
    return text[re.search(r"^(?:ghost )?use ", text, re.M).start() : re.search(r"^///|^#\[", text, re.M).start()].strip("\n")


def line_of_crates():
    """The line of crates/uses in crates.txt."""
    with open(os.path.join(ROOT, "crates.txt"), encoding="utf-8") as file:
        return next(line.rstrip("\n") for line in file if line.startswith("uses:"))


def page():
    out = [HEAD.format(crates=line_of_crates())]
    for path in sorted(glob.glob(os.path.join(ROOT, "crates/uses/src/*.rt")), reverse=True):
        with open(path, encoding="utf-8") as file:
            text = file.read()
        found = functions(text)
        if found:
            out.append(f"## Imports of `{os.path.basename(path)}`\n\n```rust\n{imports(text)}\n```\n")
        for code, name in found:
            out.append(f"## `{name}`\n\n```rust\n{code}```\n")
    return "\n".join(out)


def main():
    text = page()
    if "--check" not in sys.argv[1:]:
        with open(PAGE, "w", encoding="utf-8") as file:
            file.write(text)
        return
    with open(PAGE, encoding="utf-8") as file:
        current = file.read() == text
    print("docs/CALLING.md is current" if current else "docs/CALLING.md is not current: run checks/calling.py")
    sys.exit(not current)


if __name__ == "__main__":
    main()
