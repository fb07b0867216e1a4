"""What calls give."""
from __future__ import annotations

import json
from typing import Any, NamedTuple


class Refused(Exception):
    """A file breaks a rule: the first that is broken, and its place.

    `input`   which file: "scd", "dic", "first" (the only sheet, or the first of two), "second", "pairing"
    `rule`    the number of the rule, 101 to 604; None of a pairing's file
    `unit`    what `place` counts, "line" or "record"; None of rule 604, which has no place
    `place`   where the rule is broken, from 1
    `reason`  what is wrong with a pairing's file, in words; None of the others
    """

    def __init__(self, input: str, rule: int | None, unit: str | None, place: int | None, reason: str | None = None) -> None:
        super().__init__(input, rule, unit, place, reason)
        self.input, self.rule, self.unit, self.place, self.reason = input, rule, unit, place, reason

    def __str__(self) -> str:
        where = f" at {self.unit} {self.place}" if self.unit else ""
        if self.rule is None:
            return f"{self.input}: no pairing{where}: {self.reason}"
        return f"{self.input}: rule {self.rule} is broken{where}"


class Comparison(NamedTuple):
    """Whether two sheets state the same plan, and else the first line, from 1, in which their canonical files differ."""

    same: bool
    line: int | None


class Pair(NamedTuple):
    """A record of the first sheet and the record of the second that it is, by their type and their identifiers; whether an arc is reversed."""

    type: str
    first: bytes
    second: bytes
    reversed: bool


class Pairing(NamedTuple):
    """Which record of the second sheet each record of the first is, in the order of the first; and the same as a file."""

    pairs: list[Pair]
    file: bytes

    @classmethod
    def of_file(cls, file: bytes) -> Pairing:
        """The pairs of a file that a call gave."""
        lines = file.split(b"\n")[1:-1]
        return cls([_pair(line) for line in lines], file)


def _pair(line: bytes) -> Pair:
    kind, first, second, *rest = line.split(b";")
    return Pair(kind.decode("ascii"), first, second, rest == [b"reversed"])


class Verification(NamedTuple):
    """Whether a pairing carries the plan of the first sheet onto that of the second, and else why not."""

    carries: bool
    reason: str | None


class Explanation(NamedTuple):
    """What a sheet holds; or why it is refused, with the refusal."""

    text: str
    refusal: Refused | None


class Difference(NamedTuple):
    """Whether two sheets state the same plan, and the lines of what differs."""

    same: bool
    text: str


class Site(NamedTuple):
    """Where a record stands in its file: its identifier, and the line of its RTY, from 1."""

    identifier: bytes
    line: int


class RecordDifference(NamedTuple):
    """A record that differs.

    `mark`   "only_in_a", "only_in_b" or "changed"
    `type`   "PNO", "PAR", "PFE", "FEA" or "LNK"
    `a`      where it stands in the first sheet; None of one that is only in the second
    `b`      where it stands in the second; None of one that is only in the first
    `parts`  the parts that differ, of "class", "attributes", "extras", "points" and "ends"; none of a record that is in one sheet only, and of one
             that changed only because a record did that a link joins with it
    """

    mark: str
    type: str
    a: Site | None
    b: Site | None
    parts: tuple[str, ...]


class Differences(NamedTuple):
    """What differs between two sheets.

    `same`      whether they state the same plan
    `charsets`  the character sets of both, where they differ (None of a sheet that states none); else None
    `records`   the records that differ: objects, faces, arcs, nodes and links, of each type those of the first sheet before those of the second
    `counts`    how many records have each mark
    """

    same: bool
    charsets: tuple[bytes | None, bytes | None] | None
    records: list[RecordDifference]
    counts: dict[str, int]

    @classmethod
    def of_json(cls, same: bool, text: bytes) -> Differences:
        """What the lines of JSON say that a call gave."""
        charsets, records, counts = None, [], {}
        for line in text.splitlines():
            told = json.loads(line)
            if told["version"] != 1:
                raise ValueError(f"edicad: version {told['version']} of the form of what differs")
            if told["what"] == "record":
                records.append(RecordDifference(told["mark"], told["type"], _site(told["a"]), _site(told["b"]), tuple(told["parts"])))
            elif told["what"] == "charsets":
                charsets = _bytes(told["a"]), _bytes(told["b"])
            else:
                counts = {mark: told[mark] for mark in ("only_in_a", "only_in_b", "changed")}
        return cls(same, charsets, records, counts)


def _bytes(text: str | None) -> bytes | None:
    # Each character is the byte of the same number.
    return None if text is None else text.encode("latin-1")


def _site(told: dict[str, Any] | None) -> Site | None:
    return None if told is None else Site(told["identifier"].encode("latin-1"), told["line"])
