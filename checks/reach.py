#!/usr/bin/env python3
"""Writes docs/TRUSTED.md: every definition that the headline's contracts reach, file by file, from the headline down.

    checks/reach.py            writes the page, and prints how much each contract reaches
    checks/reach.py --check    fails if the page isn't what it would write, or a definition has no sentence

A definition reaches those that it names, and a type of the code reaches the types of its fields and what its ghost
fields name; but one that has a Model reaches what that shows of it, since contracts see no more. Read are the crates'
specs/ (specs/inner/ too) and the structs and enums of their sources.
"""
import glob
import os
import re
import sys
from collections import namedtuple

ROOT = os.path.dirname(os.path.dirname(os.path.abspath(__file__)))

# What is claimed, and the definitions that the contract of its call cites.
CLAIMS = [
    ("forms_decide_sameness", "the form of a sheet decides sameness; and the refusal of a sheet",
     [("edi_compare", "Sameness", "DecidesSameness"), ("edi_compare", "Refused", "IsRefusal")]),
    ("canon", "which file the form of a sheet is",
     [("edi_compare", "Headline", "IsFormOf"), ("edi_compare", "Refused", "IsRefusal")]),
    ("compare", "a pairing of two sheets, or the first line that differs",
     [("edi_compare", "Verdicts", "IsVerdict"), ("edi_compare", "Refused", "IsPairRefusal")]),
    ("check_pairing", "whether a pairing carries one plan onto another",
     [("edi_compare", "Pairings", "PairingCarries"), ("edi_plan", "Agreeing", "HasClasses")]),
    ("verify", "whether a file states a pairing that carries one sheet's plan onto another's",
     [("edi_pairing", "Verified", "IsVerified"), ("edi_pairing", "Verified", "IsVerifyRefusal")]),
    ("Delivery::read", "the lots that a THF file states, or its refusal",
     [("edi_delivery", "DeliveryRefusal", "IsDeliveryOf"), ("edi_delivery", "DeliveryRefusal", "IsDeliveryRefusal")]),
    ("changes_of", "what has become of each digest of one list in another",
     [("edi_changes", "Changes", "AreListChanges")]),
]

WORD = re.compile(r"[A-Za-z_][\w'-]*(?:\.[A-Za-z_][\w'-]*)*")
MODEL = re.compile(r"^impl(?:<.*?>)? Model for (\w+)[^{]*\{\n(.*?)^\}", re.M | re.S)
SHOWN = re.compile(r"ghost Value = (\{.*?\});", re.S)
GHOST_FIELD = re.compile(r"\bghost \w+: (\{.*?\},)$", re.M | re.S)
DEFINITION = re.compile(r"\s*(?:(?:pub|abbrev|unfoldable) )*(record |data )?([A-Za-z_][\w'-]*)(?=[ :])")

Definition = namedtuple("Definition", "crate module name comment lines path")


def crates():
    """Each crate with the names of what it stands on."""
    with open(os.path.join(ROOT, "crates.txt"), encoding="utf-8") as file:
        lines = [line.partition(":") for line in file if re.match(r"\w", line)]
    return {name.split()[0]: low.split() for name, _, low in lines}


class Module:
    """A file of specs/: its definitions and the names that it imports."""

    def __init__(self, crate, path):
        self.crate = crate
        self.path = os.path.relpath(path, ROOT)
        self.name = os.path.relpath(path, os.path.join(ROOT, "crates", crate, "specs"))[:-5].replace("/", ".")
        self.imports = {}
        self.definitions = {}
        with open(path, encoding="utf-8") as file:
            self.read(file.read().split("\n"))

    def read(self, lines):
        current, comment, depth = None, [], 0
        for line in lines:
            text = line.strip()
            if text.startswith("use ") or text.startswith("pub use "):
                self.imports.update(imports_in(text))
            elif text.startswith("--"):
                comment.append(text[2:].strip())
                continue
            elif text.startswith("module "):
                current = None
            elif text:
                start = self.definition_at(line, current, depth)
                if start:
                    depth = len(line) - len(line.lstrip())
                    current = Definition(self.crate, self.name, start, " ".join(comment), [], self.path)
                    self.definitions[start] = current
                if current:
                    current.lines.append(line)
            comment = []

    @staticmethod
    def definition_at(line, current, depth):
        """The name that a line begins to define, if it does: a clause of the current one begins none."""
        start = DEFINITION.match(line)
        if not start or not re.match(r"\s*(?:pub|abbrev|unfoldable|record|data|[\w'-]+ :)", line):
            return None
        inside = current and len(line) - len(line.lstrip()) > depth
        if inside and not line.strip().startswith("abbrev"):
            return None
        if current and start[2] == current.name:
            return None
        return start[2]


def imports_in(text):
    """The names that a line imports, each with its crate, its module and its name there, or none for a module."""
    parts = re.match(r"(?:(?:pub|ghost) )?use Rattle\.(\w+)\.specs\.([\w.]+?)(?:\.\{(.*)\})?(?: as (\w+))?;?$", text)
    if not parts:
        return {}
    crate, module, names, alias = parts.groups()
    if names is None:
        return {alias or module.split(".")[-1]: (crate, module, None)}
    pairs = [name.strip().partition(" as ") for name in names.split(",") if name.strip()]
    return {other or own: (crate, module, own) for own, _, other in pairs}


class Base:
    """All definitions and types of the repository."""

    def __init__(self):
        self.modules, self.types, self.crates = {}, {}, crates()
        # what the ghost fields of a type or its Model name, before it is looked up, and which types have a Model
        self.ghosts, self.modelled = {}, set()
        for crate in self.crates:
            for path in glob.glob(os.path.join(ROOT, "crates", crate, "specs", "**", "*.antt"), recursive=True):
                module = Module(crate, path)
                self.modules[crate, module.name] = module
            for path in glob.glob(os.path.join(ROOT, "crates", crate, "src", "*.rt")):
                with open(path, encoding="utf-8") as file:
                    self.read_types(crate, os.path.relpath(path, ROOT), file.read())

    def read_types(self, crate, path, text):
        imports = {}
        for line in re.findall(r"^ghost use .*;$", text, re.M):
            imports.update(imports_in(line))
        for start in re.finditer(r"^(?:pub(?:\(crate\))? )?(?:struct|enum) (\w+)[^{;]*\{\n(.*?)^\}", text, re.M | re.S):
            lines = [line for line in start[0].split("\n") if not line.strip().startswith(("//", "#"))]
            self.types[crate, start[1]] = Definition(crate, "src", start[1], comment_before(text[: start.start()]), lines, path)
            fields = WORD.findall(" ".join(GHOST_FIELD.findall("\n".join(lines))))
            self.ghosts[crate, start[1]] = [imports[word] for word in fields if word in imports]
        for name, body in MODEL.findall(text):
            self.read_model(crate, name, body, imports)

    def read_model(self, crate, name, body, imports):
        shown = SHOWN.search(body)
        if not shown:
            return
        own = dict(imports)
        for line in re.findall(r"^ *(ghost use .*;)$", body, re.M):
            own.update(imports_in(line))
        self.modelled.add((crate, name))
        self.ghosts[crate, name] = [own[word] for word in WORD.findall(shown[1]) if word in own]

    def find(self, crate, module, name):
        if module.startswith("declared"):
            names = [part for part in module.split(".") if part[0].isupper() and not part.startswith("The")]
            return self.types.get((crate, names[-1])) if names else None
        found = self.modules.get((crate, module))
        if not found:
            return None
        if name in found.imports and name not in found.definitions:
            return self.find(*found.imports[name])
        return found.definitions.get(name)

    def named_in(self, definition):
        if definition.module == "src":
            modelled = (definition.crate, definition.name) in self.modelled
            words = set() if modelled else set(re.findall(r"\b[A-Z]\w+", "\n".join(definition.lines)))
            near = [definition.crate, *self.crates[definition.crate]]
            types = [item for (crate, name), item in self.types.items() if crate in near and name in words and item != definition
                     and (crate == definition.crate or (definition.crate, name) not in self.types)]
            ghosts = [self.find(*imported) for imported in self.ghosts[definition.crate, definition.name]]
            return types + [item for item in ghosts if item]
        module = self.modules[definition.crate, definition.module]
        found = []
        for word in WORD.findall("\n".join(re.sub(r'"[^"]*"', "", line) for line in definition.lines)):
            head, *rest = word.split(".")
            if head in module.definitions and head != definition.name:
                found.append(module.definitions[head])
            elif head in module.imports:
                crate, other, name = module.imports[head]
                found.append(self.find(crate, other, name or (rest[0] if rest else "")))
        return [item for item in found if item]

    def reached(self, roots):
        """What these definitions reach, in the order in which a reader meets it."""
        seen, queue = {}, [self.find(*root) for root in roots]
        for root, item in zip(roots, queue):
            if item is None:
                sys.exit(f"there is no definition {'.'.join(root)}")
        while queue:
            item = queue.pop(0)
            if key_of(item) not in seen:
                seen[key_of(item)] = item
                queue += self.named_in(item)
        return list(seen.values())


def comment_before(text):
    """The doc comment at the end of a text, behind which attributes may stand."""
    found = re.search(r"((?:^///.*\n)+)(?:^#\[.*\n)*\Z", text, re.M)
    return " ".join(line[3:].strip() for line in found[1].split("\n")).strip() if found else ""


def count(items):
    specs = [item for item in items if item.module != "src"]
    files = len({item.path for item in specs})
    types = len(items) - len(specs)
    lines = sum(len(item.lines) for item in specs)
    return f"{len(specs)} definitions, {lines} lines in {files} files, and {types} types of the code"


def page(base):
    out = ["# What the claims rest on", "",
           "Every definition that the contracts of seven functions reach, file by file, from the claim down. Made by",
           "`checks/reach.py`; the gate checks that it is current. [AUDIT.md](AUDIT.md) says how to read it.", ""]
    listed = set()
    for call, what, roots in CLAIMS:
        items = base.reached(roots)
        out += [f"## `{call}`: {what}", "", f"It reaches {count(items)}.", ""]
        by_file = {}
        for item in items:
            if key_of(item) not in listed:
                by_file.setdefault(item.path, []).append(item)
        if listed:
            out += ["Beside what stands above:", ""]
        for path, those in by_file.items():
            out += [f"### {path}", ""]
            out += [f"- `{item.name}`" + (f": {item.comment}" if item.comment else "") for item in those]
            out.append("")
        listed.update(map(key_of, items))
    return "\n".join(out).rstrip("\n") + "\n"


def key_of(item):
    return item.crate, item.module, item.name


def without_sentence(base):
    """The definitions on the page over which no comment stands."""
    reached = [item for _, _, roots in CLAIMS for item in base.reached(roots)]
    return sorted({f"{item.path}: {item.name}" for item in reached if not item.comment})


def main():
    base = Base()
    text = page(base)
    bare = without_sentence(base)
    if bare:
        sys.exit("these have no sentence:\n" + "\n".join(bare))
    path = os.path.join(ROOT, "docs/TRUSTED.md")
    if "--check" in sys.argv[1:]:
        with open(path, encoding="utf-8") as file:
            current = file.read() == text
        print("docs/TRUSTED.md is current" if current else "docs/TRUSTED.md is not current: run checks/reach.py")
        sys.exit(not current)
    with open(path, "w", encoding="utf-8") as file:
        file.write(text)
    for call, _, roots in CLAIMS:
        print(f"{call}: {count(base.reached(roots))}")


if __name__ == "__main__":
    main()
