#!/usr/bin/env python3
"""Refuses each growth of memory of the built program in turn, on the examples.

    cd crates/edicad && rt run < ../../examples/node/bundle     builds out/edicad
    python3 growth/sweep.py                                     from the top; needs cc

For N = 1, 2, .. until a run meets no refusal, growth N of a run is refused. Each run must give the answer that it gives
with ample memory, or `out of memory` with status 5 and nothing on standard output (of `changed` perhaps behind the name of a file). OUT, or FILE, is then not there or whole: the
line that tells that the sheet was accepted needs memory too. `hash` says of each sheet by itself that memory ran out.
Anything else is a fault.
"""
import hashlib
import os
import subprocess
import sys
import tempfile

HERE = os.path.dirname(os.path.abspath(__file__))
PROGRAM = os.path.join(HERE, "..", "crates", "edicad", "out", "edicad")
NODE = os.path.join(HERE, "..", "examples", "node")
PARCEL = os.path.join(HERE, "..", "examples", "parcel")


def run(words, library, number, out):
    """Status, standard output, standard error and OUT of a run, and whether a growth was refused."""
    if os.path.exists(out):
        os.remove(out)
    reading, writing = os.pipe()
    environment = dict(os.environ, LD_PRELOAD=library, REFUSE=str(number), NOTES=str(writing))
    with open(os.path.join(NODE, "bundle"), "rb") as source:
        done = subprocess.run([PROGRAM, *words], stdin=source, capture_output=True, env=environment, pass_fds=[writing])
    os.close(writing)
    with os.fdopen(reading, "rb") as notes:
        met = notes.read() != b""
    written = None
    if os.path.exists(out):
        with open(out, "rb") as file:
            written = file.read()
    return (done.returncode, done.stdout, done.stderr, written), met


def lacks_memory(answer, wanted):
    """Nothing went out, for lack of memory, and OUT is not there or whole."""
    return answer[:3] == (5, b"", b"out of memory\n") and answer[3] in (None, wanted[3])


def lacks_lines(answer, wanted):
    """Each digest's line went out, or there was no memory for its sheet, which is said; or there was none for the schema. Notes are as ever."""
    status, out, err, _ = answer
    notes, lines = wanted[2].splitlines(), out.splitlines()
    said = [it for it in err.splitlines() if it not in notes]
    left = [it for it in wanted[1].splitlines() if it in lines]
    told = all(it == b"out of memory" or it.endswith(b": out of memory") for it in said)
    each = left == lines and len(said) + len(lines) == len(wanted[1].splitlines())
    no_schema = not lines and len(said) == 1
    return status == 5 and told and (each or no_schema)


def lacks_list(answer, wanted):
    """Nothing went out, for lack of memory, which is said, perhaps of the file that was read."""
    said = answer[2].splitlines()
    return answer[:2] == (5, b"") and len(said) == 1 and (said[0] == b"out of memory" or said[0].endswith(b": out of memory"))


def sweep(name, words, library, out, lacks=lacks_memory):
    wanted, _ = run(words, library, 0, out)
    memory = same = 0
    number = 1
    while True:
        answer, met = run(words, library, number, out)
        if answer == wanted:
            if not met:
                print(f"| {name} | {number - 1} | {memory} | {same} |", flush=True)
                return
            same += 1
        elif met and lacks(answer, wanted):
            memory += 1
        else:
            sys.exit(f"{name}: growth {number} gives {answer}")
        number += 1


def twice(folder, path):
    """A sheet with the records of this one twice, so that two have one identifier."""
    with open(path, "rb") as file:
        lines = file.read().splitlines(keepends=True)
    records = [k for k, line in enumerate(lines) if line.startswith(b"RTY")][0]
    copy = os.path.join(folder, "twice.vec")
    with open(copy, "wb") as file:
        file.write(b"".join(lines[:-1] + lines[records:]))
    return copy


def changed(folder, path):
    """This sheet with another value of an attribute."""
    with open(path, "rb") as file:
        sheet = file.read()
    other = os.path.join(folder, "changed.vec")
    with open(other, "wb") as file:
        file.write(sheet.replace(b":25.00", b":26.00"))
    return other


def lists(folder):
    """Two lists of digests and two manifests, with names that are new, gone and changed."""
    digits = ["0" * 64, "1" * 64, "2" * 64]
    bodies = ["edicad manifest 1\n" + "".join(f"EDAB01T{name}.VEC sheet {digits[digit]}\n" for name, digit in it) for it in (((1, 0), (2, 1)), ((1, 2), (3, 1)))]
    texts = {"before.txt": f"schema {digits[0]}  a.scd\n{digits[0]}  a long path/of a sheet.vec\n\\{digits[1]}  a\\nb\n",
             "after.txt": f"schema {digits[0]}  a.scd\n{digits[2]}  a long path/of a sheet.vec\n{digits[1]}  c\n",
             **{f"manifest{k}": body + f"digest {hashlib.sha256(body.encode()).hexdigest()}\n" for k, body in enumerate(bodies)}}
    for name, text in texts.items():
        with open(os.path.join(folder, name), "w", encoding="utf-8") as file:
            file.write(text)
    return [os.path.join(folder, name) for name in texts]


def main():
    print("| run | growths refused | out of memory | as with ample memory |")
    print("|---|---|---|---|")
    with tempfile.TemporaryDirectory() as folder:
        library = os.path.join(folder, "refuse.so")
        subprocess.run(["cc", "-O1", "-shared", "-fPIC", os.path.join(HERE, "refuse.c"), "-o", library, "-ldl"], check=True)
        out = os.path.join(folder, "out.vec")
        schema = [os.path.join(PARCEL, name) for name in ("schema.scd", "dictionary.dic")]
        sheet, again = [os.path.join(PARCEL, name) for name in ("sheet.vec", "same_plan.vec")]
        refused, other = twice(folder, sheet), changed(folder, sheet)
        pairing = os.path.join(folder, "pairing")
        empty = os.path.join(folder, "empty")
        open(empty, "wb").close()
        run(["compare", "--pairing", pairing, *schema, sheet, again], library, 0, out)
        sweep("a bundle of one node", [], library, out)
        sweep("check", ["check", *schema, sheet], library, out)
        sweep("check, refused", ["check", *schema, refused], library, out)
        sweep("check, a refused dictionary", ["check", schema[0], empty, sheet], library, out)
        sweep("check, no such file", ["check", *schema, os.path.join(folder, "none.vec")], library, out)
        sweep("canon", ["canon", *schema, sheet, out], library, out)
        sweep("canon of another presentation", ["canon", *schema, again, out], library, out)
        sweep("canon, refused", ["canon", *schema, refused, out], library, out)
        sweep("canon to standard output, refused", ["canon", *schema, refused, "-"], library, out)
        sweep("compare, same", ["compare", *schema, sheet, again], library, out)
        sweep("compare, different", ["compare", *schema, sheet, other], library, out)
        sweep("compare, the second refused", ["compare", *schema, sheet, empty], library, out)
        sweep("compare, with a pairing", ["compare", "--pairing", out, *schema, sheet, again], library, out)
        sweep("verify", ["verify", *schema, sheet, again, pairing], library, out)
        sweep("verify, a pairing that doesn't carry", ["verify", *schema, sheet, other, pairing], library, out)
        sweep("diff, the same", ["diff", *schema, sheet, again], library, out)
        sweep("diff", ["diff", *schema, sheet, other], library, out)
        sweep("diff, in brief", ["diff", "--brief", *schema, sheet, other], library, out)
        sweep("diff, as JSON", ["diff", "--json", *schema, sheet, other], library, out)
        sweep("diff, with a picture", ["diff", "--picture", out, *schema, sheet, other], library, out)
        sweep("draw", ["draw", *schema, sheet, out], library, out)
        sweep("hash", ["hash", *schema, sheet, again], library, out, lacks_lines)
        sweep("hash, with the schema", ["hash", "--schema", *schema, sheet, again], library, out, lacks_lines)
        sweep("hash, a refused schema", ["hash", *reversed(schema), sheet], library, out, lacks_lines)
        before, after, earlier, later = lists(folder)
        sweep("changed, of lists", ["changed", before, after], library, out, lacks_list)
        sweep("changed, of manifests", ["changed", earlier, later], library, out, lacks_list)
        sweep("changed, of no list", ["changed", before, sheet], library, out, lacks_list)
        sweep("explain", ["explain", *schema, sheet], library, out)
        sweep("explain, refused", ["explain", *schema, refused], library, out)
        sweep("explain, a rule", ["explain", "403"], library, out)


main()
