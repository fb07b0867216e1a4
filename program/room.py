"""The folder in which the program is tried, what is counted, and the lines that the program writes in many places."""
import os
import subprocess

# how long one run of the program may take
SECONDS = 120


class Report:
    """Counts what is as it should be."""

    def __init__(self):
        self.passed = 0
        self.failed = 0

    def check(self, name, found, wanted):
        if found == wanted:
            self.passed += 1
        else:
            self.failed += 1
            print(f"FAILED {name}\n    found  {found!r}\n    wanted {wanted!r}", flush=True)

    def holds(self, name, fact):
        self.check(name, bool(fact), True)

    def made(self):
        return self.passed + self.failed


class Room:
    """A folder with a schema file, a dictionary and what is tried in it, and the program."""

    def __init__(self, report, program, folder, schema, dictionary):
        self.report = report
        self.program = program
        self.folder = folder
        self.schema = schema
        self.dictionary = dictionary
        self.write("s", schema)
        self.write("d", dictionary)

    def path(self, name):
        return os.path.join(self.folder, name)

    def write(self, name, text):
        with open(self.path(name), "wb") as file:
            file.write(text if isinstance(text, bytes) else text.encode("latin-1"))

    def read(self, name):
        if not os.path.exists(self.path(name)):
            return None
        with open(self.path(name), "rb") as file:
            return file.read()

    def run(self, words, source=b"", **how):
        """Status, standard output and standard error."""
        given = how.pop("stdin", None)
        how.setdefault("stdout", subprocess.PIPE)
        how.setdefault("stderr", subprocess.PIPE)
        started = subprocess.Popen([self.program, *words], cwd=self.folder, stdin=subprocess.PIPE if given is None else given, **how)
        try:
            out, err = started.communicate(source if given is None else None, timeout=SECONDS)
        finally:
            started.kill()
        return started.returncode, out, err

    def expect(self, name, words, wanted, source=b"", **how):
        self.report.check(name, self.run(words, source, **how), wanted)


def line(text):
    return text.encode("latin-1") + b"\n"


def unread(name, why="no such file"):
    """The line of an input that can't be read, and the line that says why."""
    return line(f"cannot read {name}") + line(f"edicad: {name}: {why}")


def unwritten(name, why):
    """The same of an output that can't be written."""
    return line(f"cannot write {name}") + line(f"edicad: {name}: {why}")


def status_of(answer):
    return 2 if answer.startswith("refused") else 1 if answer.startswith("different") else 0


def drafts(folder):
    return [name for name in os.listdir(folder) if name.startswith(".edicad")]
