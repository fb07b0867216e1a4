"""Builds a wheel of the package with the shared library in it; needs nothing but Python.

    pip wheel python/                                    from the top, after library/build.sh
    python3 python/backend.py FOLDER                     the same without pip
"""
import base64
import hashlib
import os
import pathlib
import sys
import zipfile

HERE = pathlib.Path(__file__).resolve().parent
NAME, VERSION, TAG = "edicad", "1.0", "py3-none-linux_x86_64"
INFO = f"{NAME}-{VERSION}.dist-info"
METADATA = f"""Metadata-Version: 2.1
Name: {NAME}
Version: {VERSION}
Summary: France's cadastral sheets (EDIGéO) checked, compared and written in their canonical form
Requires-Python: >=3.8
Description-Content-Type: text/markdown

"""
WHEEL = f"Wheel-Version: 1.0\nGenerator: {NAME}\nRoot-Is-Purelib: false\nTag: {TAG}\n"


def library():
    """The shared library that goes into the wheel."""
    found = pathlib.Path(os.environ.get("EDICAD_LIBRARY", HERE.parent / "library" / "out" / "libedicad.so.1"))
    if not found.is_file():
        raise SystemExit(f"{found} is not there: library/build.sh builds it, and EDICAD_LIBRARY may name another")
    return found.read_bytes()


def members():
    """What the wheel holds, by its names there, but for the list of them."""
    for path in sorted((HERE / NAME).glob("*.py")) + [HERE / NAME / "py.typed"]:
        yield f"{NAME}/{path.name}", path.read_bytes()
    yield f"{NAME}/libedicad.so.1", library()
    yield f"{INFO}/METADATA", (METADATA + (HERE / "README.md").read_text(encoding="utf-8")).encode("utf-8")
    yield f"{INFO}/WHEEL", WHEEL.encode("utf-8")


def listed(name, data):
    digest = base64.urlsafe_b64encode(hashlib.sha256(data).digest()).rstrip(b"=").decode("ascii")
    return f"{name},sha256={digest},{len(data)}\n"


def build_wheel(folder, config_settings=None, metadata_directory=None):
    """Writes the wheel into a folder, and gives its name. The same package and library give the same bytes."""
    name = f"{NAME}-{VERSION}-{TAG}.whl"
    parts = list(members())
    record = "".join(listed(*part) for part in parts) + f"{INFO}/RECORD,,\n"
    with zipfile.ZipFile(pathlib.Path(folder) / name, "w", zipfile.ZIP_DEFLATED) as wheel:
        for path, data in [*parts, (f"{INFO}/RECORD", record.encode("utf-8"))]:
            member = zipfile.ZipInfo(path, (1980, 1, 1, 0, 0, 0))
            member.compress_type = zipfile.ZIP_DEFLATED
            member.external_attr = (0o755 if path.endswith(".so.1") else 0o644) << 16
            wheel.writestr(member, data)
    return name


if __name__ == "__main__":
    print(build_wheel(sys.argv[1]))
