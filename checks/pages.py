#!/usr/bin/env python3
"""Makes the pages of docs/ that are made from the sources: RULES.md, TRUSTED.md and CALLING.md; compares the
sentences of the rules in the code with docs/FORMAT.md, looks for names with two meanings, and looks whether the
lists of planted bugs (edits/NAME/REFUSED.md, which `edits/try.py NAME` writes) name those that are there.

    checks/pages.py            writes them
    checks/pages.py --check    fails if one isn't what it would write
"""
import os
import subprocess
import sys

HERE = os.path.dirname(os.path.abspath(__file__))
SCRIPTS = ["rules.py", "texts.py", "reach.py", "calling.py", "names.py"]


def main():
    done = [subprocess.run([sys.executable, os.path.join(HERE, script), *sys.argv[1:]]) for script in SCRIPTS]
    done.append(subprocess.run([sys.executable, os.path.join(HERE, "..", "edits", "try.py"), "--lists"]))
    sys.exit(any(each.returncode for each in done))


main()
