"""The shared library, its functions and its structs. edicad.h says what each function does."""
import ctypes
import ctypes.util
import os
import pathlib
from typing import Iterator

VERSION = 1

DONE, DIFFERENT, REFUSED, WRONG_CALL, NO_MEMORY = 0, 1, 2, 3, 5
INPUTS = {1: "scd", 2: "dic", 3: "first", 4: "second", 5: "pairing"}
UNITS = {1: "line", 2: "record"}
FORMS = {"records": 0, "brief": 1, "objects": 2, "json": 3}


class Answer(ctypes.Structure):
    """What each call answers."""

    _fields_ = [
        ("status", ctypes.c_uint32),
        ("input", ctypes.c_uint32),
        ("rule", ctypes.c_uint32),
        ("unit", ctypes.c_uint32),
        ("place", ctypes.c_uint64),
    ]


class RecordPair(ctypes.Structure):
    """A record of the first sheet, by the record of the second that it is."""

    _fields_ = [("second", ctypes.c_uint32), ("reversed", ctypes.c_uint32)]


class Handle(ctypes.Structure):
    """A schema, or bytes or pairs that a call gave; empty when it is made."""

    _fields_ = [("inner", ctypes.c_void_p)]


BYTES = (ctypes.c_void_p, ctypes.c_size_t)
HANDLE = (ctypes.POINTER(Handle),)

# of each function what it gives and takes
FUNCTIONS = {
    "edicad_version": (ctypes.c_uint32, ()),
    "edicad_schema_load": (Answer, BYTES * 2 + HANDLE),
    "edicad_schema_load_kinds": (Answer, BYTES * 6 + HANDLE),
    "edicad_schema_free": (None, HANDLE),
    "edicad_check": (Answer, HANDLE + BYTES),
    "edicad_canonical": (Answer, HANDLE + BYTES + HANDLE),
    "edicad_digest": (Answer, HANDLE + BYTES + (ctypes.c_void_p,)),
    "edicad_explain": (Answer, HANDLE + BYTES * 2 + HANDLE),
    "edicad_compare": (Answer, HANDLE + BYTES * 2),
    "edicad_pairing": (Answer, HANDLE + BYTES * 2 + HANDLE),
    "edicad_pair_records": (Answer, HANDLE + BYTES * 2 + HANDLE),
    "edicad_verify": (Answer, HANDLE + BYTES * 4 + HANDLE),
    "edicad_diff": (Answer, HANDLE + BYTES * 2 + (ctypes.c_uint8,) + HANDLE),
    "edicad_bytes_length": (ctypes.c_size_t, HANDLE),
    "edicad_bytes_copy": (Answer, HANDLE + BYTES),
    "edicad_bytes_free": (None, HANDLE),
    "edicad_pairs_length": (ctypes.c_size_t, HANDLE),
    "edicad_pairs_copy": (Answer, HANDLE + BYTES),
    "edicad_pairs_free": (None, HANDLE),
}


def candidates() -> Iterator[str]:
    """Where the library may be: what EDICAD_LIBRARY names, beside this file, or where the system looks."""
    named = os.environ.get("EDICAD_LIBRARY")
    if named:
        yield named
        return
    beside = pathlib.Path(__file__).parent / "libedicad.so.1"
    if beside.exists():
        yield str(beside)
    found = ctypes.util.find_library("edicad")
    yield found or "libedicad.so.1"


def load() -> ctypes.CDLL:
    """The library, with the types of its functions."""
    name = next(candidates())
    try:
        library = ctypes.CDLL(name)
    except OSError as error:
        raise ImportError(f"the shared library of edicad can't be loaded (EDICAD_LIBRARY may name it): {error}") from error
    for function, (gives, takes) in FUNCTIONS.items():
        found = getattr(library, function)
        found.restype, found.argtypes = gives, list(takes)
    if library.edicad_version() != VERSION:
        raise ImportError(f"{name} has version {library.edicad_version()} of the interface, and not {VERSION}")
    return library


class _View(ctypes.Structure):
    # Py_buffer. `obj` is a plain pointer here, since PyBuffer_Release gives its reference back.
    _fields_ = [
        ("buf", ctypes.c_void_p),
        ("obj", ctypes.c_void_p),
        ("len", ctypes.c_ssize_t),
        ("itemsize", ctypes.c_ssize_t),
        ("readonly", ctypes.c_int),
        ("ndim", ctypes.c_int),
        ("format", ctypes.c_char_p),
        ("shape", ctypes.c_void_p),
        ("strides", ctypes.c_void_p),
        ("suboffsets", ctypes.c_void_p),
        ("internal", ctypes.c_void_p),
    ]


_get_view = ctypes.pythonapi.PyObject_GetBuffer
_get_view.argtypes = [ctypes.py_object, ctypes.POINTER(_View), ctypes.c_int]
_get_view.restype = ctypes.c_int
_release_view = ctypes.pythonapi.PyBuffer_Release
_release_view.argtypes = [ctypes.POINTER(_View)]
_release_view.restype = None


class Input:
    """The bytes of an object as a pointer and a length, for the time of a `with` block. They are not copied: bytes, a bytearray, a
    memoryview, a mapped file or an array lend their own, and can't be resized meanwhile."""

    def __init__(self, source: object) -> None:
        self._source = source
        self._view = _View()

    def __enter__(self) -> "tuple[int | None, int]":
        _get_view(self._source, ctypes.byref(self._view), 0)
        return self._view.buf, self._view.len

    def __exit__(self, *_: object) -> None:
        _release_view(ctypes.byref(self._view))
