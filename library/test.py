#!/usr/bin/env python3
"""Builds the library, and tries it from C and from Python: test.py [--after-ci | --built] [--without TOOL]..

--after-ci, for the gate, builds over the libraries that `rt ci` has just proved in this checkout; --built takes what library/build.sh made
before. Each step has a line; the first that fails ends the run. Where a tool is lacking the run fails, unless it is told to go without:
valgrind, tsan (a compiler that builds with -fsanitize=thread and runs what it built: cc, or else clang), c++ or pkg-config.
"""
import argparse
import json
import os
import pathlib
import platform
import re
import shutil
import subprocess
import sys
import tempfile
import zipfile

HERE = pathlib.Path(__file__).resolve().parent
TOP = HERE.parent
OUT = HERE / "out"
TESTS = OUT / "tests"
PARCEL = TOP / "examples" / "parcel"
NODE = TOP / "examples" / "node"
SCHEMA = [PARCEL / "schema.scd", PARCEL / "dictionary.dic"]
DIGEST = "49ad51db2118438b80ddf0dae14893f4486718dc86d934d87cde61a93d0a2352"
WARNINGS = ["-Wall", "-Wextra", "-Werror", "-pedantic"]
TOOLS = ("valgrind", "tsan", "c++", "pkg-config")
MEMCHECK = ["valgrind", "-q", "--leak-check=full", "--show-leak-kinds=all", "--errors-for-leak-kinds=all", "--error-exitcode=9"]
HELGRIND = ["valgrind", "-q", "--tool=helgrind", "--error-exitcode=9"]


def fail(what):
    sys.exit(f"library: failed: {what}")


def run(words, **named):
    """Runs a command, which has to end well, and gives what it wrote."""
    words = [str(it) for it in words]
    done = subprocess.run(words, stdout=subprocess.PIPE, stderr=subprocess.STDOUT, text=True, **named)
    if done.returncode:
        fail(f"{' '.join(words)[:400]}: status {done.returncode}\n{done.stdout[-4000:]}")
    return done.stdout


def compile_c(source, name, *words):
    """A test program over the static library."""
    run(["cc", "-std=c11", "-D_GNU_SOURCE", "-g", "-O1", *WARNINGS, f"-I{HERE}", HERE / "tests" / source, OUT / "libedicad.a", *words, "-o", TESTS / name])
    return TESTS / name


def declared():
    """The functions that the header declares."""
    text = re.sub(r"/\*.*?\*/", "", (HERE / "edicad.h").read_text(encoding="utf-8"), flags=re.S)
    return sorted(set(re.findall(r"\b(edicad_\w+)\(", text)))


def names():
    """Both libraries define the header's functions, and no other name that a program could see; so does the crate."""
    for words, file in ((["nm", "-D", "--defined-only"], "libedicad.so.1"), (["nm", "-g", "--defined-only"], "libedicad.a")):
        found = sorted(it.split()[2] for it in run([*words, OUT / file]).splitlines() if len(it.split()) == 3)
        if found != declared():
            fail(f"{file} defines {found}, and the header declares {declared()}")
    needed = sorted(it.split()[-1].split("@")[0] for it in run(["nm", "-D", "--undefined-only", OUT / "libedicad.so.1"]).splitlines() if " U " in it)
    if set(needed) - {"free", "malloc", "realloc", "memcpy", "memmove", "memset", "memcmp", "bcmp"}:
        fail(f"libedicad.so.1 needs {needed}")
    return f"{len(declared())} functions, which need {', '.join(needed)}"


def header(without):
    """The header is C99, C11 and C++."""
    includes = '#include "edicad.h"\nint main(void) { edicad_schema schema = EDICAD_EMPTY; edicad_schema_free(&schema); return 0; }\n'
    compilers = [["cc", "-xc", f"-std={it}"] for it in ("c99", "c11")]
    if "c++" not in without:
        compilers.append(["c++", "-xc++", "-std=c++11"])
    for words in compilers:
        run([*words, *WARNINGS, f"-I{HERE}", "-fsyntax-only", "-"], input=includes)
    return f"{len(compilers)} languages"


def cases(without):
    program = compile_c("cases.c", "cases")
    files = sorted([*(TOP / "program" / "cases").glob("*.cases"), *(TOP / "crates" / "conform" / "data").glob("*.cases")])
    under = [] if "valgrind" in without else MEMCHECK
    said = run([*under, program, *SCHEMA, *files]).splitlines()[-1]
    if not re.fullmatch(r"1\d\d\d checks, 0 failed", said):
        fail(f"cases: {said}")
    return said


def memory():
    program = compile_c("memory.c", "memory", "-Wl,--wrap=malloc,--wrap=realloc,--wrap=free")
    return run([program, *SCHEMA, PARCEL / "sheet.vec", PARCEL / "same_plan.vec", NODE / "sheet.vec"]).splitlines()[-1]


def threads(without):
    """Threads that share inputs and nothing else: under helgrind, which watches the library's own code too; and built with the compiler's
    thread sanitizer, which watches the caller, and of the library what it does through the C library: its memory and its copies."""
    program = compile_c("threads.c", "threads", "-pthread")
    under = [] if "valgrind" in without else HELGRIND
    words = [*SCHEMA, PARCEL / "sheet.vec", NODE / "sheet.vec"]
    said = run([*under, program, *words]).strip()
    if "tsan" not in without:
        said += ", also by " + sanitized(*sanitizing(), words)
    return said


# A race on purpose, by which it is seen that the sanitizer finds one.
RACE = """
#include <pthread.h>
static int shared;
static void *work(void *of) { for (int i = 0; i < 100000; i++) shared++; return of; }
int main(void) {
    pthread_t one, other;
    pthread_create(&one, 0, work, 0);
    pthread_create(&other, 0, work, 0);
    pthread_join(one, 0);
    pthread_join(other, 0);
    return 0;
}
"""


def sanitizing():
    """The compiler whose thread sanitizer finds a race that is there, and the words before a program that it built: with older sanitizers on
    newer kernels, those that lay it out at addresses which don't change."""
    for compiler in ("cc", "clang"):
        words = [compiler, "-xc", "-fsanitize=thread", "-g", "-O1", "-pthread", "-", "-o", str(TESTS / "race")]
        if not shutil.which(compiler) or subprocess.run(words, input=RACE, stderr=subprocess.DEVNULL, text=True).returncode:
            continue
        for under in ([], ["setarch", platform.machine(), "-R"]):
            if under and not shutil.which(under[0]):
                continue
            found = subprocess.run([*under, TESTS / "race"], stdout=subprocess.PIPE, stderr=subprocess.STDOUT, text=True)
            if found.returncode and "data race" in found.stdout:
                return compiler, under
    fail("no thread sanitizer: neither cc nor clang builds with -fsanitize=thread what finds a race here (--without tsan goes without)")


def sanitized(compiler, under, words):
    program = TESTS / "threads_sanitized"
    options = ["-std=c11", "-D_GNU_SOURCE", "-g", "-O1", "-fsanitize=thread", "-pthread", *WARNINGS, f"-I{HERE}"]
    run([compiler, *options, HERE / "tests" / "threads.c", OUT / "libedicad.a", "-o", program])
    run([*under, program, *words], env={**os.environ, "TSAN_OPTIONS": "halt_on_error=1 exitcode=9"})
    return f"{compiler} -fsanitize=thread"


def installed(folder, without):
    """What is installed is found by pkg-config, and a program over the shared library gives the example's digest."""
    prefix = folder / "usr"
    run([HERE / "build.sh", "--built", "--install", prefix])
    if "pkg-config" in without:
        words = [f"-I{prefix}/include", f"-L{prefix}/lib", "-ledicad"]
    else:
        words = run(["pkg-config", "--cflags", "--libs", "edicad"], env={**os.environ, "PKG_CONFIG_PATH": f"{prefix}/lib/pkgconfig"}).split()
    run(["cc", "-std=c11", *WARNINGS, HERE / "examples" / "digest.c", *words, "-o", folder / "digest"])
    sheets = [PARCEL / "sheet.vec", PARCEL / "same_plan.vec"]
    said = run([folder / "digest", *SCHEMA, *sheets], env={"LD_LIBRARY_PATH": f"{prefix}/lib"})
    if said != "".join(f"{DIGEST}  {it}\n" for it in sheets):
        fail(f"digest: {said}")
    return "found and linked"


def python(library):
    """The tests of the package."""
    words = [sys.executable, "-W", "error", "-m", "unittest", "discover", "-s", TOP / "python" / "tests"]
    said = run(words, env={**os.environ, "EDICAD_LIBRARY": str(library)})
    return " ".join(said.split("\n")[-4:-1]).strip()


def wheel(folder):
    """The wheel, unpacked, with its own library: the examples run over it."""
    name = run([sys.executable, TOP / "python" / "backend.py", folder]).strip()
    with zipfile.ZipFile(folder / name) as packed:
        packed.extractall(folder / "wheel")
    bare = {key: value for key, value in os.environ.items() if key != "EDICAD_LIBRARY"}
    env = {**bare, "PYTHONPATH": str(folder / "wheel")}
    said = run([sys.executable, TOP / "python" / "examples" / "hash_folder.py", *SCHEMA, PARCEL], env=env)
    if said != "".join(f"{DIGEST}  {PARCEL / it}\n" for it in ("canonical.vec", "same_plan.vec", "sheet.vec")):
        fail(f"hash_folder.py: {said}")
    # as a plug-in has it: a part of its own package
    shutil.copytree(folder / "wheel" / "edicad", folder / "plug_in" / "edicad")
    (folder / "plug_in" / "__init__.py").write_text("from . import edicad\n")
    words = "import plug_in, sys; print(plug_in.edicad.Schema(*sys.argv[1:3]).digest(sys.argv[3]).hex())"
    said = run([sys.executable, "-c", words, *SCHEMA, PARCEL / "sheet.vec"], env={**bare, "PYTHONPATH": str(folder)})
    if said.strip() != DIGEST:
        fail(f"the package in a plug-in: {said}")
    bad = folder / "sheets"
    bad.mkdir()
    shutil.copy(PARCEL / "sheet.vec", bad / "good.vec")
    (bad / "bad.vec").write_bytes((PARCEL / "sheet.vec").read_bytes().replace(b"RIDSA07:Noeud_2", b"RIDSA07:Noeud_1"))
    moved = folder / "moved.vec"
    moved.write_bytes((PARCEL / "sheet.vec").read_bytes().replace(b":+5.00;+5.00;", b":+5.00;+6.00;"))
    found = json.loads(run([sys.executable, TOP / "python" / "examples" / "differing.py", *SCHEMA, PARCEL / "sheet.vec", moved], env=env))["features"]
    arc = {"type": "LineString", "coordinates": [[10.0, 0.0], [5.0, 6.0], [0.0, 0.0]]}
    if [it["geometry"] for it in found if it["properties"]["type"] == "PAR"] != [arc]:
        fail(f"differing.py: {found}")
    table = run([sys.executable, TOP / "python" / "examples" / "refusals.py", *SCHEMA, bad], env=env).split("\n")
    if table[0].split() != ["accepted", "1"] or table[1].split() != ["301", "1"] or not table[2].endswith("[301]"):
        fail(f"refusals.py: {table}")
    return name


def step(what, said):
    print(f"library: {what}: {said}", flush=True)


def main():
    parser = argparse.ArgumentParser(usage=__doc__)
    parser.add_argument("--after-ci", action="store_true")
    parser.add_argument("--built", action="store_true")
    parser.add_argument("--without", action="append", default=[], choices=TOOLS)
    given = parser.parse_args()
    needed = ["cc", "nm", "ar", "ld", "objcopy", *(it for it in TOOLS if it != "tsan")]
    lacking = [it for it in needed if it not in given.without and not shutil.which(it)]
    if lacking:
        fail(f"lacking: {', '.join(lacking)}")
    if given.after_ci:
        run([sys.executable, HERE / "over_ci.py"])
    if not given.built:
        run([HERE / "build.sh"])
        step("built", "libedicad.a and libedicad.so")
    TESTS.mkdir(exist_ok=True)
    with tempfile.TemporaryDirectory() as folder:
        folder = pathlib.Path(folder)
        step("names", names())
        step("header", header(given.without))
        step("cases", cases(given.without))
        step("memory", memory())
        step("threads", threads(given.without))
        step("installed", installed(folder, given.without))
        step("python", python(OUT / "libedicad.so.1"))
        step("wheel", wheel(folder))
    without = f", without {', '.join(given.without)}" if given.without else ""
    print(f"library: passed{without}")


if __name__ == "__main__":
    main()
