#!/usr/bin/env python3
"""Spells the repository's own definitions and lemmas in snake case: definitions, lemmas and fields of records of specs/ and proofs/.

usage: tools/respell.py [FOLDER]    (the top of the repository, as port.py left it)

A name that is written with dashes or with capitals inside gets underscores: startByte becomes start_byte, left-begin left_begin.
Where two names would fall together, the definition of specs/ gets the name, or else the one written with capitals; the other ends in _law.
Names that a file brings in from a library stay, names of Rust's items and fields stay, and so do labels that the check makes.
A definition that is called as a field of Rust's is turned where it is declared and where its module is named.
Run it once. With --table it prints old and new names and changes nothing.
"""

import os
import re
import sys

NAME = r"[^\s(){}.;,@\"«»]+"
WORD = re.compile(NAME)
DECLARED = re.compile(rf"(?m)^[ ]*(?:(?:abbrev|unfoldable|irreducible|opaque|pub) )*({NAME})(?: \{{[^{{}}\n]*\}})* :(?=\s)")
FIELD = re.compile(r"(?m)^\s+(?:pub )?(\w+): ")
USE = re.compile(r"\buse ([^\s;{]+)(?:\.(\{[^{}]*\}))?(?: as ([^\s;]+))?")
BOUND = re.compile(r"[({]((?:[^\s(){}.;,:]+ )+): ")
CLAUSE = re.compile(r"\b(?:requires|ensures)\*?(?: \w+)? \{|\bghost use [^;]*;|\bghost \w+: \{")


def texts(top, ending):
    for folder, dirs, files in os.walk(os.path.join(top, "crates")):
        dirs[:] = sorted(d for d in dirs if d not in ("out", "must-fail"))
        for name in sorted(files):
            if name.endswith(ending):
                yield os.path.join(folder, name)


def read(path):
    with open(path, encoding="utf-8") as file:
        return file.read()


def snake(name):
    words = re.sub(r"(?<=[a-z0-9])[A-Z]|(?<=[A-Z])[A-Z](?=[a-z])", lambda m: "_" + m[0].lower(), name)
    return words.replace("-", "_").lower()


def is_old(name):
    return bool(name[:1].islower() and (re.search(r"[a-z0-9][A-Z]", name) or "-" in name))


def by_hand(path):
    """The steps of a function's proof: what they are called is their own matter, and the labels in them are the check's."""
    return path.endswith("/Proof.antt")


def declared(top):
    """Every name that specs/ and the lemma files declare, with whether a file of specs/ does."""
    names = {}
    for path in texts(top, ".antt"):
        if by_hand(path):
            continue
        for name in DECLARED.findall(read(path)):
            names[name] = names.get(name, False) or "/specs/" in path
    return names


def table(top):
    names = {name: specs for name, specs in declared(top).items() if name not in fields_of(top)}
    groups = {}
    for name in names:
        groups.setdefault(snake(name) if is_old(name) else name, []).append(name)
    new = {}
    for spelled, group in sorted(groups.items()):
        group.sort(key=lambda it: (not names[it], "-" in it, not re.search("[A-Z]", it), it))
        for i, name in enumerate(group):
            to = spelled if i == 0 else spelled + "_law"
            if i > 1:
                to = f"{spelled}_law{i}"
            if to != name:
                new[name] = to
    taken = set(names) - set(new)
    for name, to in new.items():
        assert to not in taken, (name, to)
    return new


def fields_of(top):
    """The names of Rust's fields that have capitals inside: each keeps its spelling, as do fields of records that are called so."""
    return {name for path in texts(top, ".rt") for name in FIELD.findall(read(path)) if is_old(name)}


def constants_turned(text, names):
    """Turns definitions that are called as a field is, where they are declared and where they are named by their module."""
    for name in names:
        text = re.sub(rf"(?m)^((?:abbrev pub )?){name}(?= [:=])", rf"\g<1>{snake(name)}", text)
        text = re.sub(rf"\bwords\.{name}\b", f"words.{snake(name)}", text)
    return text


def binders(top):
    """The variables of lemmas and definitions that are written with dashes or capitals, each with its new name."""
    names, taken = set(), set()
    for path in texts(top, ".antt"):
        text = read(path)
        taken.update(WORD.findall(text))
        if not by_hand(path):
            names.update(name for bound in BOUND.findall(text) for name in bound.split())
    names = {name for name in names if is_old(name)} - set(declared(top)) - fields_of(top)
    return {name: snake(name) + "_" * (snake(name) in taken) for name in names}


def bound_turned(text, names):
    """Turns variables: behind a dot a name is a field."""
    return WORD.sub(lambda m: names.get(m[0], m[0]) if text[m.start() - 1 : m.start()] != "." else m[0], text)


def from_libraries(text):
    names = set()
    for path, items, alias in USE.findall(text):
        if path.split(".")[0] == "Rattle" and not re.match(r"Rattle\.(core|std)\b", path):
            continue
        names.update(WORD.findall(items or "") or [])
        if not items:
            names.add(path.split(".")[-1])
    return names


def respelled(text, new, stay):
    """The text with each name turned."""
    out, at = [], 0
    for m in WORD.finditer(text):
        word = m[0]
        to = new.get(word)
        if to is None or word in stay:
            continue
        out.append(text[at : m.start()])
        out.append(to)
        at = m.end()
    out.append(text[at:])
    return "".join(out)


def comments_apart(text, turn):
    """Turns what is no comment; of a comment only words with capitals inside."""
    lines = []
    for line in text.split("\n"):
        code, mark, comment = line, "", ""
        at = re.search(r"(?:^|\s)--(?:\s|$)", line)
        if at:
            code, comment = line[: at.start()], line[at.start() :]
        lines.append((code, comment))
    turned = turn("\n".join(code for code, _ in lines)).split("\n")
    return "\n".join(code + turn(comment) if comment else code for code, (_, comment) in zip(turned, lines))


def clauses(text):
    """The places of a Rust file that antt's names stand in."""
    for m in CLAUSE.finditer(text):
        if m[0].startswith("ghost use"):
            yield m.start(), m.end()
            continue
        depth, i = 0, m.end() - 1
        while True:
            depth += {"{": 1, "}": -1}.get(text[i], 0)
            i += 1
            if depth == 0:
                break
        yield m.start(), i


def main():
    show = "--table" in sys.argv
    rest = [it for it in sys.argv[1:] if it != "--table"]
    top = rest[0] if rest else "."
    new = table(top)
    if show:
        for name, to in sorted(new.items()):
            print(f"{name}\t{to}")
        return
    fields = sorted(fields_of(top))
    variables = binders(top)
    for path in texts(top, ".antt"):
        text = read(path)
        stay = from_libraries(text)
        if by_hand(path):
            # A step that is declared here is no lemma of another file.
            stay |= set(DECLARED.findall(text)) - {it for _, items, _ in USE.findall(text) for it in WORD.findall(items or "")}
        turned = comments_apart(text, lambda code: respelled(code, new, stay))
        turned = bound_turned(constants_turned(turned, fields), variables)
        if turned != text:
            with open(path, "w", encoding="utf-8") as file:
                file.write(turned)
    for path in texts(top, ".rt"):
        text = read(path)
        stay = from_libraries(text)
        out, at = [], 0
        for start, end in clauses(text):
            out.append(text[at:start])
            out.append(respelled(text[start:end], new, stay))
            at = end
        out.append(text[at:])
        turned = "".join(out)
        if turned != text:
            with open(path, "w", encoding="utf-8") as file:
                file.write(turned)


main()
