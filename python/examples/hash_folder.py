#!/usr/bin/env python3
"""The digest of each sheet of a folder, by four threads: hash_folder.py SCD DIC FOLDER

It writes what `edicad hash` writes: the SHA-256 of each sheet's canonical file and its name, and on standard error why a sheet has none.
"""
import concurrent.futures
import pathlib
import sys

import edicad


def line_of(schema, path):
    """The line of a sheet, and whether it has a digest."""
    try:
        return f"{schema.digest(path).hex()}  {path}", True
    except edicad.Refused as refused:
        return f"{path}: {refused}", False


def main(scd, dic, folder):
    schema = edicad.Schema(scd, dic)
    sheets = sorted(it for it in pathlib.Path(folder).rglob("*") if it.suffix.upper() == ".VEC")
    refused = 0
    with concurrent.futures.ThreadPoolExecutor(4) as pool:
        for line, is_digest in pool.map(lambda it: line_of(schema, it), sheets):
            print(line, file=sys.stdout if is_digest else sys.stderr)
            refused += not is_digest
    return 2 if refused else 0


if __name__ == "__main__":
    if len(sys.argv) != 4:
        sys.exit(__doc__)
    sys.exit(main(*sys.argv[1:]))
