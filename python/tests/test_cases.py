"""The cases of the repository, put to the package: each answer as the files of cases have it."""
import hashlib
import pathlib
import sys
import unicodedata
import unittest

TOP = pathlib.Path(__file__).resolve().parents[2]
sys.path[:0] = [str(TOP / "python"), str(TOP / "program")]

import edicad  # noqa: E402
from cases import USUAL, blocks_of, cases_of  # noqa: E402

FILES = sorted([*(TOP / "program" / "cases").glob("*.cases"), *(TOP / "crates" / "conform" / "data").glob("*.cases")])
PARCEL = TOP / "examples" / "parcel"


def all_cases(*calls):
    """The cases of these calls, with their inputs as bytes."""
    for path in FILES:
        with open(path, encoding="latin-1", newline="") as file:
            if file.readline().rstrip("\n") not in calls:
                continue
        for case in cases_of(str(path)):
            yield case, [it.encode("latin-1") for it in case.inputs]


def schema_of(case, scd=None, dic=None):
    """The schema of a case, or the usual one where it has none."""
    kinds = None if case.kinds == USUAL else case.kinds.split(",")
    if scd is None:
        scd, dic = case.scd.encode("latin-1"), case.dic.encode("latin-1")
        if not scd:
            scd, dic = PARCEL / "schema.scd", PARCEL / "dictionary.dic"
    return edicad.Schema(scd, dic, kinds)


def shown(data):
    """Bytes as a line of the text shows them."""
    try:
        text = data.decode("utf-8")
    except UnicodeDecodeError:
        return "".join("\\\\" if it == 92 else chr(it) if 32 <= it <= 126 else f"\\x{it:02x}" for it in data)
    escaped = ("".join(f"\\x{byte:02x}" for byte in it.encode("utf-8")) for it in text)
    return "".join("\\\\" if it == "\\" else byte if unicodedata.category(it) == "Cc" else it for it, byte in zip(text, escaped))


def row_of(record):
    """The line that the text has of a record that differs."""
    names = " ".join([record.type, *(shown(it.identifier) for it in (record.a, record.b) if it)])
    if record.mark != "changed":
        return f"{'-' if record.mark == 'only_in_a' else '+'} {names} (line {(record.a or record.b).line})"
    return f"~ {names} (lines {record.a.line} and {record.b.line}): {' '.join(record.parts) or 'linked records'}"


def text_of(found):
    """The text, record by record, of what the lines of JSON say."""
    rows = [row_of(it) for it in found.records]
    if found.charsets:
        rows.insert(0, "~ CSE " + " ".join("none" if it is None else shown(it) for it in found.charsets))
    counts = found.counts
    rows.append(f"{counts['only_in_a']} only in A, {counts['only_in_b']} only in B, {counts['changed']} changed")
    return "".join(f"{it}\n" for it in rows)


def words_of(refused, pair=False):
    """The line that the program writes of a refusal."""
    if refused.rule == 604:
        return "refused kinds 604\n"
    which = {"first": "first " if pair else "", "scd": "scd ", "dic": "dic ", "second": "second "}.get(refused.input)
    if which is None:
        return f"refused pairing line {refused.place}: {refused.reason}\n"
    return f"refused {which}{refused.rule} {refused.unit} {refused.place}\n"


class Cases(unittest.TestCase):
    def answers(self, case, call, pair=False):
        """What a call gives, or the line of its refusal."""
        try:
            return call()
        except edicad.Refused as refused:
            return words_of(refused, pair)

    def test_sheets(self):
        count = 0
        for case, (sheet, *_) in all_cases("canon", "records", "zones"):
            if case.call != "canon" and not case.wanted.startswith("refused"):
                continue
            with self.subTest(case.name):
                count += 1
                is_refused = case.wanted.startswith("refused")
                wanted = case.wanted if is_refused else case.wanted.replace("\n", "\r\n").encode("latin-1")
                try:
                    schema = schema_of(case)
                except edicad.Refused as refused:
                    self.assertEqual(words_of(refused), wanted)
                    continue
                self.assertEqual(self.answers(case, lambda: schema.canonical(sheet)), wanted)
                self.assertEqual(self.answers(case, lambda: schema.check(sheet)), wanted if is_refused else None)
                digest = wanted if is_refused else hashlib.sha256(wanted).digest()
                self.assertEqual(self.answers(case, lambda: schema.digest(sheet)), digest)
                said = schema.explain(sheet, "v")
                self.assertEqual(said.refusal is not None, is_refused)
                self.assertTrue(said.text.startswith("v:" if is_refused else "nodes: "))
        self.assertGreater(count, 150)

    def test_pairs(self):
        count = 0
        for case, (first, second, *_) in all_cases("compare"):
            with self.subTest(case.name):
                count += 1
                schema = schema_of(case)

                def said():
                    same, line = schema.compare(first, second)
                    return "same\n" if same else f"different at line {line}\n"

                self.assertEqual(self.answers(case, said, True), case.wanted)
                if case.wanted.startswith("refused"):
                    continue
                pairing = schema.pairing(first, second)
                self.assertEqual(pairing is not None, case.wanted == "same\n")
                self.assertEqual(schema.diff(first, second).same, pairing is not None)
                places = schema.pair_records(first, second)
                self.assertEqual(places is not None, pairing is not None)
                if pairing:
                    names = [it for it in second.replace(b"\r", b"").split(b"\n") if it.startswith(b"RID")]
                    self.assertEqual([it.reversed for it in pairing.pairs], [turned for _, turned in places])
                    self.assertEqual([it.second for it in pairing.pairs], [names[place][8:] for place, _ in places])
                    self.assertEqual(len(pairing.pairs), pairing.file.count(b"\n") - 1)
                    self.assertTrue(schema.verify(first, second, pairing.file).carries)
        self.assertGreater(count, 10)

    def test_differences(self):
        count = 0
        for case, (first, second, *_) in all_cases("diff"):
            with self.subTest(case.name):
                count += 1
                schema = schema_of(case)

                def said():
                    same, text = schema.diff(first, second)
                    return ("same\n" if same else "different\n") + text

                def listed():
                    found = schema.differences(first, second)
                    return ("same\n" if found.same else "different\n") + text_of(found)

                self.assertEqual(self.answers(case, said, True), case.wanted)
                self.assertEqual(self.answers(case, listed, True), case.wanted)
        self.assertGreater(count, 5)

    def test_verifications(self):
        count = 0
        for case, (first, second, pairing) in all_cases("verify"):
            with self.subTest(case.name):
                count += 1
                schema = schema_of(case)

                def said():
                    carries, reason = schema.verify(first, second, pairing, "p")
                    return "true\n" if carries else f"does not pair\n{reason}\n"

                self.assertEqual(self.answers(case, said, True), case.wanted)
        self.assertGreater(count, 10)

    def test_schemas(self):
        count = 0
        for case, (scd, dic, *_) in all_cases("schema"):
            with self.subTest(case.name):
                count += 1
                said = self.answers(case, lambda: schema_of(case, scd, dic))
                if case.wanted.startswith("refused"):
                    self.assertEqual(said, case.wanted)
                else:
                    self.assertIsInstance(said, edicad.Schema)
        self.assertGreater(count, 20)


if __name__ == "__main__":
    unittest.main()
