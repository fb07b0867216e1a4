#!/usr/bin/env python3
"""Lets `rt lib` take the libraries that `rt ci` has just proved in this checkout, which it would else prove once more: over_ci.py

It says of each library below edicad_c that it was made from the sources as they stand. That is so after `rt ci`, if nothing was changed since; so
only the gate calls it (library/test.py --after-ci), and library/build.sh proves what it builds.
"""
import os
import pathlib
import sys

TOP = pathlib.Path(__file__).resolve().parents[1]
sys.path.insert(0, str(TOP / "edits" / "driver"))

import kit  # noqa: E402


def main():
    for crate in kit.crates_of(str(TOP))["edicad_c"].below():
        built = f"{crate.folder}/out/rlib"
        if not os.path.isfile(f"{built}/{crate.name}.rlib/format"):
            sys.exit(f"over_ci: rt ci has left no library of {crate.name} here")
        if not os.path.isfile(f"{built}/stamp"):
            with open(f"{built}/stamp", "w", encoding="utf-8") as file:
                file.write(crate.stamp())


if __name__ == "__main__":
    main()
