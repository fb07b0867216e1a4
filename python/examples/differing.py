#!/usr/bin/env python3
"""What differs between two sheets, as GeoJSON: differing.py SCD DIC A B > differing.geojson

Each record that differs is a feature: a node as a point, an arc as a line, and any other without a geometry. `mark` says whether it is only in A, only in B or
changed; of one that changed the geometry is B's. Coordinates are those of the sheets, in their own system of reference.
"""
import json
import pathlib
import sys

import edicad


def zones_at(lines, number):
    """The zones of the record that begins at this line of its file, as codes and values."""
    zones = []
    for line in lines[number - 1 :]:
        code, value = line[:3], line[8:].rstrip(b"\r")
        if code in (b"RTY", b"EOM") and zones:
            break
        if code == b"NEX":
            zones[-1] = (zones[-1][0], zones[-1][1] + value)
        elif code.strip():
            zones.append((code, value))
    return zones


def geometry_of(kind, zones):
    points = [[float(it) for it in value.split(b";") if it] for code, value in zones if code == b"COR"]
    if kind == "PNO":
        return {"type": "Point", "coordinates": points[0]}
    return {"type": "LineString", "coordinates": points} if kind == "PAR" else None


def features(records, first, second):
    """A feature for each record that differs."""
    for record in records:
        lines, site = (second, record.b) if record.b else (first, record.a)
        properties = {
            "mark": record.mark,
            "type": record.type,
            "a": record.a and record.a.identifier.decode("latin-1"),
            "b": record.b and record.b.identifier.decode("latin-1"),
            "parts": list(record.parts),
        }
        yield {"type": "Feature", "properties": properties, "geometry": geometry_of(record.type, zones_at(lines, site.line))}


def main(scd, dic, first, second):
    first, second = pathlib.Path(first).read_bytes(), pathlib.Path(second).read_bytes()
    records = edicad.Schema(scd, dic).differences(first, second).records
    found = list(features(records, first.split(b"\n"), second.split(b"\n")))
    json.dump({"type": "FeatureCollection", "features": found}, sys.stdout, indent=1)
    print()


if __name__ == "__main__":
    if len(sys.argv) != 5:
        sys.exit(__doc__)
    main(*sys.argv[1:])
