"""France's cadastral sheets (EDIGéO) checked, compared and written in their canonical form.

    schema = edicad.Schema("EDAB01SE.SCD", "EDAB01SE.DIC")
    schema.digest("EDAB01T1.VEC").hex()

A file is given by its path, or as an object that holds its bytes (bytes, bytearray, memoryview, mmap ..), which is not copied. Where a file
breaks a rule, `Refused` says which and where; where memory runs out, `MemoryError` is raised. Calls from several threads run side by side, also those of one schema.
"""
from ._schema import Schema
from ._values import Comparison, Difference, Differences, Explanation, Pair, Pairing, RecordDifference, Refused, Site, Verification

__all__ = [
    "Comparison",
    "Difference",
    "Differences",
    "Explanation",
    "Pair",
    "Pairing",
    "RecordDifference",
    "Refused",
    "Schema",
    "Site",
    "Verification",
]
