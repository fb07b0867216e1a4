"""The classes of the four kinds of links in a schema file, by its lines alone, and what explain says of them."""
KINDS = (b"initial node", b"final node", b"left face", b"right face")
PARTNERS = (1, 0, 3, 2)


def value_of(rows, code):
    """The value of the first zone with a code, if there is one."""
    return next((it[8 : 8 + int(it[5:7])] for it in rows if it.startswith(code)), None)


def classes_of(text, codes):
    """For each kind the classes of a file whose zones are single lines: line, type and identifier."""
    rows = text.replace(b"\r", b"").split(b"\n")
    heads = [at for at, it in enumerate(rows) if it.startswith(b"RTY")]
    found = [[], [], [], []]
    for at, end in zip(heads, [*heads[1:], len(rows)]):
        own = rows[at:end]
        rid, knd = value_of(own, b"RID"), value_of(own, b"KND")
        code = knd if knd in codes else rid
        if code in codes:
            found[codes.index(code)].append((b"%d: %s %s" % (at + 1, value_of(own, b"RTY"), rid), value_of(own, b"RTY")))
    return found


def described(name, text, codes):
    """The lines on the classes of an accepted schema."""
    found = classes_of(text, codes)
    return b"".join(words + b": " + (name + b":" + of[0][0] if of else b"no class") + b"\n" for words, of in zip(KINDS, found))


def refused(name, text, codes):
    """The lines on the classes that break 604."""
    found = classes_of(text, codes)
    told = lambda place, words: name + b":" + place[0] + b": " + words + b" [604]\n"
    for words, of in zip(KINDS, found):
        if len(of) > 1:
            return told(of[1], b"a second class for " + words) + told(of[0], b"the earlier class")
    for words, of, other in zip(KINDS, found, PARTNERS):
        if of and not found[other]:
            return told(of[0], b"a class for " + words + b", and there is none for " + KINDS[other])
    for words, of, other in zip(KINDS, found, PARTNERS):
        if of and b";" in of[0][1] and b";" not in found[other][0][1]:
            return told(of[0], b"a class for " + words + b" that no pointer can name, since its type holds ;")
    return None


def note(name, text, codes):
    """The note on the kinds that have no class in a schema."""
    lacking = [words for words, of in zip(KINDS, classes_of(text, codes)) if not of]
    return b"edicad: " + name + b": no class for " + b", ".join(lacking) + b": see --kinds\n" if lacking else b""
