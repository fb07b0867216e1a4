"""A schema, and the calls under it."""
from __future__ import annotations

import collections
import contextlib
import ctypes
import os
import weakref
from typing import Any, Iterator, Literal, Sequence, Union

from . import _library
from ._library import DIFFERENT, DONE, FORMS, INPUTS, NO_MEMORY, REFUSED, UNITS, Answer, Handle, Input, RecordPair
from ._values import Comparison, Difference, Differences, Explanation, Pairing, Refused, Verification

_edicad = _library.load()

# a path, or an object that holds the bytes of a file
Source = Union[str, "os.PathLike[str]", Any]

# how what differs is told
Form = Literal["records", "objects", "brief", "json"]


def _bytes_of(source: Source) -> Any:
    # The file of a path is read; anything else lends its bytes.
    if isinstance(source, (str, os.PathLike)):
        with open(source, "rb") as file:
            return file.read()
    return source


def _name_of(source: Source, otherwise: str) -> bytes:
    return os.fsencode(source) if isinstance(source, (str, os.PathLike)) else os.fsencode(otherwise)


def _refusal(answer: Answer, reason: str | None = None) -> Refused:
    return Refused(INPUTS[answer.input], answer.rule or None, UNITS.get(answer.unit), answer.place or None, reason)


def _ended(answer: Answer, *fine: int) -> Answer:
    """The answer, where its status is one of these."""
    if answer.status in fine:
        return answer
    if answer.status == REFUSED:
        raise _refusal(answer)
    if answer.status == NO_MEMORY:
        raise MemoryError("edicad: out of memory")
    raise RuntimeError(f"edicad: status {answer.status}")


@contextlib.contextmanager
def _given() -> Iterator[Handle]:
    """A handle for the bytes that a call gives."""
    handle = Handle()
    try:
        yield handle
    finally:
        _edicad.edicad_bytes_free(handle)


def _taken(handle: Handle) -> bytes:
    length = _edicad.edicad_bytes_length(handle)
    room = (ctypes.c_uint8 * length)()
    _ended(_edicad.edicad_bytes_copy(handle, room, length), DONE)
    return bytes(room)


class _Loaded:
    """A schema that was loaded, which serves one call at a time. It is freed with this object."""

    def __init__(self, scd: Any, dic: Any, codes: Sequence[bytes] | None) -> None:
        self.handle = Handle()
        with contextlib.ExitStack() as stack:
            words = [word for source in (scd, dic, *(codes or ())) for word in stack.enter_context(Input(source))]
            load = _edicad.edicad_schema_load if codes is None else _edicad.edicad_schema_load_kinds
            answer = load(*words, self.handle)
        weakref.finalize(self, _edicad.edicad_schema_free, self.handle)
        if codes is not None and answer.status not in (DONE, REFUSED, NO_MEMORY):
            raise ValueError("the codes of the four kinds must not be empty, and no two equal")
        _ended(answer, DONE)


class Schema:
    """The schema of a file of classes (SCD) and a dictionary (DIC).

    `kinds` are the codes of links to an arc's initial and final node and to the faces on its left and its right, where they are not IND,
    FND, LPO and RPO. It serves any number of sheets, in any number of threads: where it is asked for while another thread uses it, the
    files are loaded once more, from copies that it holds.

    Raises `Refused` where a file breaks a rule, and `ValueError` where a code is empty or two are equal.
    """

    def __init__(self, scd: Source, dic: Source, kinds: Sequence[str | bytes] | None = None) -> None:
        self._files = bytes(_bytes_of(scd)), bytes(_bytes_of(dic))
        self._codes = None if kinds is None else [it.encode("latin-1") if isinstance(it, str) else bytes(it) for it in kinds]
        if self._codes is not None and len(self._codes) != 4:
            raise ValueError("the four kinds have four codes")
        self._free = collections.deque([self._load()])

    def _load(self) -> _Loaded:
        return _Loaded(*self._files, self._codes)

    @contextlib.contextmanager
    def _lent(self) -> Iterator[Handle]:
        """A handle that no other call has."""
        try:
            loaded = self._free.pop()
        except IndexError:
            loaded = self._load()
        try:
            yield loaded.handle
        finally:
            self._free.append(loaded)

    def check(self, sheet: Source) -> None:
        """Raises `Refused` unless the sheet is accepted."""
        with Input(_bytes_of(sheet)) as it, self._lent() as schema:
            _ended(_edicad.edicad_check(schema, *it), DONE)

    def canonical(self, sheet: Source) -> bytes:
        """The canonical file of a sheet. Two sheets have one canonical file exactly if they state the same plan."""
        with Input(_bytes_of(sheet)) as it, self._lent() as schema, _given() as given:
            _ended(_edicad.edicad_canonical(schema, *it, given), DONE)
            return _taken(given)

    def digest(self, sheet: Source) -> bytes:
        """The SHA-256 of the canonical file of a sheet: 32 bytes."""
        room = (ctypes.c_uint8 * 32)()
        with Input(_bytes_of(sheet)) as it, self._lent() as schema:
            _ended(_edicad.edicad_digest(schema, *it, room), DONE)
        return bytes(room)

    def explain(self, sheet: Source, name: str | None = None) -> Explanation:
        """What a sheet holds, or where and why it is refused. The lines name the file by its path, or by `name`."""
        shown = _name_of(sheet, "sheet") if name is None else os.fsencode(name)
        with Input(_bytes_of(sheet)) as it, Input(shown) as word, self._lent() as schema, _given() as given:
            answer = _ended(_edicad.edicad_explain(schema, *it, *word, given), DONE, REFUSED)
            refusal = _refusal(answer) if answer.status == REFUSED else None
            return Explanation(_taken(given).decode("utf-8"), refusal)

    def compare(self, first: Source, second: Source) -> Comparison:
        """Whether two sheets state the same plan."""
        with Input(_bytes_of(first)) as a, Input(_bytes_of(second)) as b, self._lent() as schema:
            answer = _ended(_edicad.edicad_compare(schema, *a, *b), DONE, DIFFERENT)
        return Comparison(answer.status == DONE, answer.place or None)

    def pairing(self, first: Source, second: Source) -> Pairing | None:
        """Which record of the second sheet each of the first is, where they state the same plan; and else None."""
        with Input(_bytes_of(first)) as a, Input(_bytes_of(second)) as b, self._lent() as schema, _given() as given:
            answer = _ended(_edicad.edicad_pairing(schema, *a, *b, given), DONE, DIFFERENT)
            return Pairing.of_file(_taken(given)) if answer.status == DONE else None

    def pair_records(self, first: Source, second: Source) -> list[tuple[int, bool]] | None:
        """Such a pairing by places: of each record of the first sheet, in the order of its file, the place of its record in the second, from 0, and whether it is
        an arc that is reversed."""
        pairs = Handle()
        try:
            with Input(_bytes_of(first)) as a, Input(_bytes_of(second)) as b, self._lent() as schema:
                answer = _ended(_edicad.edicad_pair_records(schema, *a, *b, pairs), DONE, DIFFERENT)
            if answer.status == DIFFERENT:
                return None
            room = (RecordPair * _edicad.edicad_pairs_length(pairs))()
            _ended(_edicad.edicad_pairs_copy(pairs, room, len(room)), DONE)
        finally:
            _edicad.edicad_pairs_free(pairs)
        return [(it.second, it.reversed == 1) for it in room]

    def verify(self, first: Source, second: Source, pairing: Source, name: str | None = None) -> Verification:
        """Whether the file of a pairing, wherever it comes from, carries the plan of the first sheet onto that of the second. The reason names the file
        by its path, or by `name`. Raises `Refused` of "pairing" where the file states no pairing of the two."""
        shown = _name_of(pairing, "pairing") if name is None else os.fsencode(name)
        with contextlib.ExitStack() as stack:
            words = [word for it in (first, second, pairing) for word in stack.enter_context(Input(_bytes_of(it)))]
            words += stack.enter_context(Input(shown))
            schema, given = stack.enter_context(self._lent()), stack.enter_context(_given())
            answer = _edicad.edicad_verify(schema, *words, given)
            reason = _taken(given).decode("utf-8") or None
        if answer.status == REFUSED and reason is not None:
            raise _refusal(answer, reason)
        _ended(answer, DONE, DIFFERENT)
        return Verification(answer.status == DONE, reason)

    def diff(self, first: Source, second: Source, form: Form = "records") -> Difference:
        """What differs between two sheets, as text.

        `form` is "records" (a line for each record that differs, and how many do), "objects" (object by object, by the attributes that people
        know), "brief" (how many records differ) or "json" (record by record, as lines of JSON, which `differences` reads).
        """
        same, text = self._told(first, second, form)
        return Difference(same, text.decode("utf-8"))

    def differences(self, first: Source, second: Source) -> Differences:
        """What differs between two sheets, record by record, as lists."""
        return Differences.of_json(*self._told(first, second, "json"))

    def _told(self, first: Source, second: Source, form: Form) -> tuple[bool, bytes]:
        if form not in FORMS:
            raise ValueError(f"no form is called {form!r}: {', '.join(FORMS)}")
        with Input(_bytes_of(first)) as a, Input(_bytes_of(second)) as b, self._lent() as schema, _given() as given:
            answer = _ended(_edicad.edicad_diff(schema, *a, *b, FORMS[form], given), DONE, DIFFERENT)
            return answer.status == DONE, _taken(given)
