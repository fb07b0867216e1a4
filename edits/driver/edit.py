"""Edits: planted bugs in a crate's code, and the functions that they change."""
import bisect
import difflib
import glob
import os
import re

HEAD = re.compile(r'( *)(?:pub(?:\([a-z]+\))? )?(?:const )?(?:extern "C" )?fn (\w+)')
BLOCK = re.compile(r"^(?:pub(?:\([a-z]+\))? )?(?:impl|trait)\b([^{;]*)", re.M)
GENERICS = re.compile(r"<[^<>]*>")
IMPORT = re.compile(r"\s*(?:ghost |pub )?use ")
ENDING = ".edit"


class Misfit(Exception):
    """An edit that can't be planted, with the reason."""


class Function:
    """A function of a source file: the parts of its name as the prover prints it, and its lines, counted from 0."""

    def __init__(self, file, path, first, behind):
        self.file = file
        self.path = path
        self.first = first
        self.behind = behind


class Change:
    """Lines of a file, counted from 0, and those that stand in their place."""

    def __init__(self, file, first, behind, lines):
        self.file = file
        self.first = first
        self.behind = behind
        self.lines = lines


class Edit:
    """A planted bug: its name, its pairs of texts, what it changes, and the functions that it changes. It is lone if it changes what
    is in no function."""

    def __init__(self, name, pairs, changes, functions, is_lone):
        self.name = name
        self.pairs = pairs
        self.changes = changes
        self.functions = functions
        self.is_lone = is_lone


def name_of(path):
    return os.path.basename(path)[: -len(ENDING)]


def pairs_in(text):
    """The pairs of an edit's text in their order, each with its file, its old text and its new one."""
    file, old, found = None, None, []
    for line in text.split("\n"):
        if line.startswith("file: "):
            file = line[len("file: ") :].strip()
        elif line.startswith("old: "):
            old = line[len("old: ") :]
        elif line.startswith("new:"):
            if file is None or old is None:
                raise Misfit("a 'new:' line stands before any 'file:' or 'old:' line")
            found.append((file, old, line[len("new:") :].removeprefix(" ")))
            old = None
        elif line:
            raise Misfit("a line begins with none of the words 'file:', 'old:' and 'new:'")
    if not found:
        raise Misfit("it has no 'old:' and 'new:' pair")
    return found


def text_of(path):
    if not os.path.isfile(path):
        raise Misfit(f"there is no file {path}")
    with open(path, encoding="utf-8") as file:
        return file.read()


def edited_texts(pairs, folder):
    """The texts of the files that these pairs change, each pair applied to what those before it made."""
    texts = {}
    for file, old, new in pairs:
        if not file.startswith("src/"):
            raise Misfit("it changes specs or proofs, which are no code")
        text = texts.get(file) or text_of(f"{folder}/{file}")
        if text.count(old) != 1:
            raise Misfit(f"an 'old:' text is in {file} {text.count(old)} times, and not once")
        texts[file] = text.replace(old, new)
    return texts


def changes_between(file, before, after):
    old, new = before.split("\n"), after.split("\n")
    steps = difflib.SequenceMatcher(None, old, new, autojunk=False).get_opcodes()
    return [Change(file, i, j, new[k:m]) for how, i, j, k, m in steps if how != "equal"]


def block_name(words):
    """The name of an `impl` or a `trait` as the prover prints it: the type, and the trait behind it."""
    words = words.replace("->", "")
    before = None
    while before != words:
        before, words = words, GENERICS.sub("", words)
    last = lambda it: it.split("::")[-1]
    named = re.search(r"([\w:]+)\s+for\s+(?:&\s*)?(?:'\w+ )?(?:mut )?([\w:]+)", words)
    if named:
        return last(named[2]) + last(named[1])
    plain = re.search(r"[\w:]+", words)
    return last(plain[0]) if plain else ""


def functions_of(file, text):
    """The functions of a source file in its order, which has the layout of `rt fmt`."""
    module = file[len("src/") : -len(".rt")].split("/")
    module = [] if module in (["lib"], ["main"]) else module
    lines = text.split("\n")
    blocks = [(text.count("\n", 0, it.start()), block_name(it[1])) for it in BLOCK.finditer(text)]
    starts = [at for at, _ in blocks]
    heads = [(at, HEAD.match(line)) for at, line in enumerate(lines) if HEAD.match(line)]
    found = []
    for (at, head), (behind, _) in zip(heads, [*heads[1:], (len(lines), None)]):
        closed = next((it + 1 for it in range(at, behind) if lines[it] == head[1] + "}" or lines[it].startswith(head[1] + "} ")), behind)
        within = bisect.bisect(starts, at) - 1
        owner = [blocks[within][1]] if head[1] and within >= 0 else []
        found.append(Function(file, (*module, *owner, head[2]), first_attribute(lines, at), closed))
    return found


def first_attribute(lines, at):
    """The line of the first attribute of the function with this head."""
    while at > 0 and lines[at - 1].lstrip().startswith("#["):
        at -= 1
    return at


def functions_changed(change, functions):
    """The functions that a change touches, or None where it touches lines of none."""
    last = max(change.behind, change.first + 1)
    found = [it for it in functions if it.first < last and change.first < it.behind]
    return found or None


def is_import(change, before):
    lines = [*before.split("\n")[change.first : change.behind], *change.lines]
    return all(IMPORT.match(it) for it in lines)


def read_edit(path, folder):
    """The edit of this file for the crate in this folder."""
    pairs = pairs_in(text_of(path))
    changes, functions, is_lone = [], set(), False
    for file, after in edited_texts(pairs, folder).items():
        before = text_of(f"{folder}/{file}")
        for change in changes_between(file, before, after):
            changes.append(change)
            touched = functions_changed(change, functions_of(file, before))
            if is_import(change, before):
                functions.add((file, ("imports",)))
            elif touched is None:
                is_lone = True
            else:
                functions |= {(file, it.path) for it in touched}
    if not changes:
        raise Misfit("it changes nothing")
    return Edit(name_of(path), pairs, changes, functions, is_lone)


def planted(edits, folder):
    """The texts of the files that these edits change, with all of them in place."""
    by_file = {}
    for edit in edits:
        for change in edit.changes:
            by_file.setdefault(change.file, []).append(change)
    return {file: replaced(text_of(f"{folder}/{file}"), changes) for file, changes in by_file.items()}


def replaced(text, changes):
    lines = text.split("\n")
    for change in sorted(changes, key=lambda it: -it.first):
        lines[change.first : change.behind] = change.lines
    return "\n".join(lines)


def edits_in(folder, crate_folder):
    """The edits of a folder for a crate in the order of their names, and the names of those that can't be planted with the reasons."""
    good, bad = [], []
    for path in sorted(glob.glob(f"{folder}/*{ENDING}")):
        try:
            good.append(read_edit(path, crate_folder))
        except Misfit as why:
            bad.append((name_of(path), str(why)))
    return good, bad


def groups_of(edits):
    """The edits in groups, each of which is planted at once: no two of a group change one function, and one that changes what is in no
    function stands alone."""
    groups = []
    for edit in edits:
        free = [it for it in groups if not any(other.is_lone or other.functions & edit.functions for other in it)]
        if edit.is_lone or not free:
            groups.append([edit])
        else:
            free[0].append(edit)
    return groups
