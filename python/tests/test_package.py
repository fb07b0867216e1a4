"""What the package adds to the library: kinds of inputs, exceptions, threads and memory."""
import array
import concurrent.futures
import contextlib
import gc
import hashlib
import io
import mmap
import os
import pathlib
import re
import sys
import textwrap
import unittest

TOP = pathlib.Path(__file__).resolve().parents[2]
sys.path.insert(0, str(TOP / "python"))

import edicad  # noqa: E402
from edicad import _library, _schema  # noqa: E402

PARCEL = TOP / "examples" / "parcel"
SCD, DIC, SHEET, OTHER = (PARCEL / it for it in ("schema.scd", "dictionary.dic", "sheet.vec", "same_plan.vec"))
CANONICAL = (PARCEL / "canonical.vec").read_bytes()
DIGEST = hashlib.sha256(CANONICAL).digest()


class Inputs(unittest.TestCase):
    def setUp(self):
        self.schema = edicad.Schema(SCD, DIC)

    def test_each_kind_of_input(self):
        read = SHEET.read_bytes()
        padded = memoryview(b"x" + read + b"x")[1:-1]
        for source in (SHEET, str(SHEET), read, bytearray(read), memoryview(read), padded, array.array("B", read)):
            with self.subTest(type(source).__name__):
                self.assertEqual(self.schema.canonical(source), CANONICAL)
                self.assertEqual(self.schema.digest(source), DIGEST)

    def test_a_mapped_file(self):
        with open(SHEET, "rb") as file, mmap.mmap(file.fileno(), 0, access=mmap.ACCESS_READ) as mapped:
            self.assertEqual(self.schema.digest(mapped), DIGEST)

    def test_no_copy(self):
        source = bytearray(SHEET.read_bytes())
        with _library.Input(source) as (at, length):
            self.assertEqual(length, len(source))
            self.assertEqual(_library.ctypes.string_at(at, length), bytes(source))
            source[0] ^= 1
            self.assertEqual(_library.ctypes.string_at(at, 1), bytes(source[:1]))
            with self.assertRaises(BufferError):
                source.append(0)
        source.append(0)

    def test_a_schema_of_bytes(self):
        schema = edicad.Schema(SCD.read_bytes(), memoryview(DIC.read_bytes()))
        self.assertEqual(schema.digest(SHEET), DIGEST)

    def test_what_is_no_input(self):
        for source in (None, 3, ["a"]):
            with self.assertRaises(TypeError):
                self.schema.check(source)
        with self.assertRaises(BufferError):
            self.schema.check(memoryview(b"abcdef")[::2])
        with self.assertRaises(FileNotFoundError):
            self.schema.check(PARCEL / "nothing.vec")
        self.schema.check(SHEET)

    def test_empty_inputs(self):
        for source in (b"", bytearray(), memoryview(b"")):
            with self.assertRaises(edicad.Refused) as caught:
                self.schema.check(source)
            self.assertEqual((caught.exception.input, caught.exception.rule), ("first", 106))

    def test_kinds(self):
        usual = edicad.Schema(SCD, DIC, ["IND", b"FND", "LPO", "RPO"])
        self.assertEqual(usual.digest(SHEET), DIGEST)
        for kinds in (["A", "A", "B", "C"], ["", "A", "B", "C"], ["A", "B", "C"]):
            with self.assertRaises(ValueError):
                edicad.Schema(SCD, DIC, kinds)
        with self.assertRaises(edicad.Refused) as caught:
            edicad.Schema(b"", DIC, ["A", "B", "C", "D"])
        self.assertEqual(caught.exception.input, "scd")


class Answers(unittest.TestCase):
    def setUp(self):
        self.schema = edicad.Schema(SCD, DIC)

    def test_a_refusal(self):
        doubled = SHEET.read_bytes().replace(b"RIDSA07:Noeud_2", b"RIDSA07:Noeud_1")
        with self.assertRaises(edicad.Refused) as caught:
            self.schema.canonical(doubled)
        refused = caught.exception
        self.assertEqual((refused.input, refused.rule, refused.unit, refused.reason), ("first", 301, "record", None))
        self.assertEqual(str(refused), f"first: rule 301 is broken at record {refused.place}")
        said = self.schema.explain(doubled, "name")
        self.assertEqual(said.refusal.args, refused.args)
        self.assertIn("type and identifier of an earlier record [301]", said.text)

    def test_a_pairing(self):
        pairing = self.schema.pairing(SHEET, OTHER)
        self.assertEqual(pairing.pairs[0], edicad.Pair("PNO", b"Noeud_1", b"z1.noeud", False))
        self.assertTrue(any(it.reversed for it in pairing.pairs))
        self.assertEqual(self.schema.verify(SHEET, OTHER, pairing.file), (True, None))
        with self.assertRaises(edicad.Refused) as caught:
            self.schema.verify(OTHER, SHEET, pairing.file)
        self.assertEqual((caught.exception.input, caught.exception.rule, caught.exception.place), ("pairing", None, 2))
        with self.assertRaises(edicad.Refused) as caught:
            self.schema.verify(SHEET, b"", pairing.file)
        self.assertEqual((caught.exception.input, caught.exception.reason), ("second", None))
        self.assertIsNone(self.schema.pairing(SHEET, TOP / "examples" / "node" / "sheet.vec"))

    def test_differences(self):
        node = TOP / "examples" / "node" / "sheet.vec"
        self.assertEqual(self.schema.diff(SHEET, OTHER), (True, "0 only in A, 0 only in B, 0 changed\n"))
        texts = {form: self.schema.diff(SHEET, node, form) for form in ("records", "brief", "objects", "json")}
        self.assertFalse(any(it.same for it in texts.values()))
        self.assertEqual(texts["brief"].text, texts["records"].text.splitlines(keepends=True)[-1])
        self.assertEqual(texts["records"].text.count("\n"), texts["json"].text.count("\n"))
        with self.assertRaises(ValueError):
            self.schema.diff(SHEET, node, "yaml")
        with self.assertRaises(edicad.Refused) as caught:
            self.schema.differences(SHEET, b"")
        self.assertEqual(caught.exception.input, "second")

    def test_differences_as_lists(self):
        first = SHEET.read_bytes()
        second = first.replace(b"A 12", b"A 13").replace(b"Objet_1", b"Obj \xe9\"\\")
        found = self.schema.differences(first, second)
        self.assertEqual(found.counts, {"only_in_a": 0, "only_in_b": 0, "changed": 2})
        self.assertEqual((found.same, found.charsets), (False, None))
        lone = edicad.RecordDifference("changed", "FEA", edicad.Site(b"Objet_1", 39), edicad.Site(b"Obj \xe9\"\\", 39), ("attributes",))
        self.assertEqual(found.records[0], lone)
        self.assertEqual(found.records[1].parts, ())
        other = self.schema.differences(first, first.replace(b"CSET 03:IRV\n", b"CSET 02:\xe9\"\n"))
        self.assertEqual((other.charsets, other.records), ((b"IRV", b"\xe9\""), []))
        none = self.schema.differences(first.replace(b"CSET 03:IRV\n", b""), first)
        self.assertEqual(none.charsets, (None, b"IRV"))
        same = self.schema.differences(SHEET, OTHER)
        self.assertEqual(same, (True, None, [], {"only_in_a": 0, "only_in_b": 0, "changed": 0}))


class Page(unittest.TestCase):
    """The example of docs/JSON.md."""

    def test_example(self):
        page = (TOP / "docs" / "JSON.md").read_text(encoding="utf-8")
        code, lines = (textwrap.dedent(it) for it in re.search(r"## An example\n\n((?: {4}.*\n)+)\nwrites\n\n((?: {4}.*\n)+)", page).groups())
        written, here = io.StringIO(), os.getcwd()
        os.chdir(TOP)
        try:
            with contextlib.redirect_stdout(written):
                exec(code, {})
        finally:
            os.chdir(here)
        self.assertEqual(written.getvalue(), lines)


class Threads(unittest.TestCase):
    def test_one_schema_in_many_threads(self):
        schema = edicad.Schema(SCD, DIC)
        with concurrent.futures.ThreadPoolExecutor(8) as pool:
            found = set(pool.map(lambda n: schema.digest(OTHER if n % 2 else SHEET), range(400)))
        self.assertEqual(found, {DIGEST})
        self.assertLessEqual(len(schema._free), 8)


class Freed(unittest.TestCase):
    """Each handle that a call or a schema had is freed exactly once."""

    def test_schemas_and_bytes(self):
        freed = []
        real = _schema._edicad.edicad_schema_free

        def free(handle):
            freed.append(handle.inner)
            real(handle)

        _schema._edicad.edicad_schema_free = free
        try:
            schemas = [edicad.Schema(SCD, DIC) for _ in range(5)]
            for schema in schemas:
                self.assertEqual(schema.digest(SHEET), DIGEST)
            with self.assertRaises(edicad.Refused):
                edicad.Schema(b"", b"")
            del schemas, schema
            gc.collect()
        finally:
            _schema._edicad.edicad_schema_free = real
        self.assertEqual(len([it for it in freed if it]), 5)

    def test_memory_stays(self):
        schema = edicad.Schema(SCD, DIC)
        sizes = []
        for _ in range(4):
            for _ in range(300):
                schema.canonical(SHEET)
                schema.explain(b"")
                schema.diff(SHEET, OTHER)
                edicad.Schema(SCD, DIC)
            sizes.append(int(pathlib.Path("/proc/self/statm").read_text().split()[1]))
        self.assertLess(sizes[-1] - sizes[0], 200, sizes)


if __name__ == "__main__":
    unittest.main()
