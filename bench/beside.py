#!/usr/bin/env python3
"""Counts the instructions of the other commands against those of `check` and `compare`.

    cd crates/edicad && rt run -- --version             builds out/edicad
    python3 bench/beside.py [--records N]               from the top

The sheet is one in random order (30,000 records). `compare --pairing`, `verify` and `diff` of the sheet and its canonical file are counted
against `compare` of the two; `explain` against `check`, of the accepted sheet and of sheets that are refused at their last record, by each
rule that speaks of an earlier one. In the last of these all links of faces name one face, so that a search among all records for each of
them would show. What callgrind counts doesn't depend on what else the machine does.
"""
import argparse
import os
import re
import sys
import tempfile

from parity import PROGRAM, files_of, profiled


# the first line of what these answer where the plans are the same
ANSWERS = {"verify": "pairs", "diff": "records: 0 only in A, 0 only in B, 0 changed"}


def counted(words, answer):
    """How many instructions a run takes whose first line is this."""
    count, _, text = profiled(PROGRAM, words)
    line = text.partition("\n")[0]
    if line != answer:
        sys.exit(f"{words[0]} answers {line!r}, and not {answer!r}")
    return count


def named(record, rid):
    """The record with another identifier."""
    return re.sub(rb"(?m)^RIDSA\d\d:.*$", b"RIDSA%02d:%s" % (len(rid), rid), record, count=1)


def last_of(records, mark):
    """The last record in which this stands."""
    return next(it for it in reversed(records) if mark in it)


def elsewhere(link):
    """The link with its last end in another subset."""
    return re.sub(rb";SeT1;(?!.*;SeT1;)", b";SeT9;", link, flags=re.S)


def bare(record):
    """The record without attributes."""
    return re.sub(rb"(?m)^ATCSN.*$", b"ATCSN02:00", re.sub(rb"(?m)^(ATP|ATV|TEX|NEX).*\n", b"", record))


def of_one_face(records):
    """The records with all that name a face naming the first one."""
    face = next(place for place, it in enumerate(records) if b"RTYSA03:PFE" in it)
    ends = [re.sub(rb"(?m)^FTPCP\d\d:(.*;PFE;).*$", lambda it: b"FTPCP%02d:%s1" % (len(it[1]) + 1, it[1]), it) for it in records]
    return [*ends[:face], named(ends[face], b"1"), *ends[face + 1 :]]


def refused_by(records):
    """Records that make a refused sheet, by the rule that refuses it."""
    link, object_ = last_of(records, b"RTYSA03:LNK"), bare(last_of(records, b"RTYSA03:FEA"))
    joined = of_one_face(records)
    return [
        (301, [*records, records[-1]]),
        (304, [*records, named(elsewhere(link), b"Lien_0")]),
        (307, [*records, named(last_of(records, b";REL;DRT_id"), b"Lien_0")]),
        (403, [*records, named(last_of(records, b"RTYSA03:PNO"), b"Noeud_0")]),
        (405, [*records, named(last_of(records, b"RTYSA03:PAR"), b"Arc_0")]),
        (501, [*records, named(object_, b"Objet_a"), named(object_, b"Objet_b")]),
        (307, [*joined, named(last_of(joined, b";REL;DRT_id"), b"Lien_0")]),
    ]


def pairs(scd, dic, vec, folder):
    """Lines on the commands over the sheet and its canonical file."""
    same, pairing = os.path.join(folder, "same"), os.path.join(folder, "pairing")
    files = [scd, dic, vec, same]
    counted(["canon", scd, dic, vec, same], "accepted")
    least = counted(["compare", *files], "same")
    for words in (["compare", "--pairing", pairing, *files], ["verify", *files, pairing], ["diff", *files]):
        name = " ".join(word for word in words if word not in (*files, pairing))
        count = counted(words, ANSWERS.get(name, "same"))
        print(f"| `{name}` / `compare` | {count / least:.2f} |", flush=True)


def explained(name, scd, dic, vec, answer):
    """A line on `explain` of a sheet."""
    least, count = (counted([word, scd, dic, vec], answer) for word in ("check", "explain"))
    print(f"| `explain` / `check`, {name} | {count / least:.2f} |", flush=True)


def main():
    words = argparse.ArgumentParser(usage=__doc__)
    words.add_argument("--records", type=int, default=30_000)
    texts = files_of("in random order", words.parse_args().records)[:3]
    head, *records = re.split(rb"(?m)^(?=RTYSA03:)", texts[2])
    records[-1], foot = re.split(rb"(?m)^(?=EOMT)", records[-1])
    print("| | instructions |\n|---|---|")
    with tempfile.TemporaryDirectory() as folder:
        names = [os.path.join(folder, name) for name in ("scd", "dic", "vec")]
        for name, text in zip(names, texts):
            with open(name, "wb") as file:
                file.write(text)
        pairs(*names, folder)
        explained("accepted", *names, "accepted")
        for rule, made in refused_by(records):
            with open(names[2], "wb") as file:
                file.write(head + b"".join(made) + foot)
            explained(f"refused by {rule}", *names, f"refused {rule} record {len(made)}")


if __name__ == "__main__":
    main()
