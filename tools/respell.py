#!/usr/bin/env python3
"""Spells the definitions and lemmas of this repository as the library spells its own.

usage: tools/respell.py [--list]

Words are joined by an underscore, as in bytes_of and step_planned. A dash stays between two names of functions, as in length-paint. What would get
the name of something else is called so with _lem behind it; a definition of specs/ keeps the plain name. What is declared below proofs/F for a
function F keeps its name, and so does every name of src/. A file specs/Contracts.antt becomes specs/Promises.antt, since Rattle makes a module of
the former name. --list prints the names and changes nothing; a second run changes nothing.
"""
import os
import re
import sys

TOP = os.path.normpath(os.path.join(os.path.dirname(os.path.abspath(__file__)), ".."))
EDGE = r"\s(){}.;,@\"«»\[\]`"
TOKEN = re.compile(rf"[^{EDGE}]+")
DECLARED = re.compile(
    r"^\s*(?:(?:abbrev|unfoldable|pub|ruleset|\|) )*([^\s(){}.;,@\"«»:]+)(?: \{[^{}]*\})* :(?= |$)", re.M
)
USE = re.compile(r"\buse ([^\s;{]+)\{([^{}]*)\}")
# Names of the library that lemmas are called after.
LIBRARY = {"length", "take", "drop", "get_or", "append"}


def files():
    for folder, folders, names in os.walk(TOP):
        folders[:] = sorted(x for x in folders if x not in ("out", "target", ".git"))
        for name in sorted(names):
            path = os.path.join(folder, name)
            yield os.path.relpath(path, TOP), path


def words(name):
    """A name with its words apart, getD as the library's get_or."""
    name = re.sub(r"\bgetD(?=-|$)", "get_or", name)
    return re.sub(r"(?<=[a-z0-9])[A-Z]", lambda m: "_" + m[0].lower(), name)


def respelled(name, functions):
    first, *rest = words(name).split("-")
    joined = "_".join(rest)
    return f"{first}-{joined}" if first in functions and joined in functions else "_".join([first] + rest)


def declared():
    """The names that are declared in specs/ and in the files of lemmas: each with whether it is a definition."""
    found = {}
    for path, full in files():
        steps = path.split("/")
        if not path.endswith(".antt") or len(steps) != 4 or steps[2] not in ("specs", "proofs"):
            continue
        for name in DECLARED.findall(open(full).read()):
            found[name] = found.get(name, False) or steps[2] == "specs"
    return found


def table():
    found = declared()
    functions = LIBRARY | {words(n) for n, spec in found.items() if spec and "-" not in n}
    new, taken = {}, set()
    plain = {n for n in found if not re.search(r"[a-z0-9][A-Z]|[a-z0-9+]-|-[a-z0-9]", n)}
    # Definitions first, then what is spelled so already, then the lemmas.
    for name in sorted(found, key=lambda n: (not found[n], n not in plain, n)):
        to = name if name in plain or name[0].isupper() else respelled(name, functions)
        while to in taken:
            to += "_lem"
        taken.add(to)
        new[name] = to
    return {a: b for a, b in new.items() if a != b}


def of_library(text):
    """The names that a file imports from elsewhere."""
    names = set()
    for path, items in USE.findall(text):
        own = path.startswith("Rattle.") and not re.match(r"Rattle\.(core|std\w*|io|os|libc)\.", path)
        if not own:
            names |= {x.strip().split(" as ")[0] for x in items.split(",")}
    return names


def turn(text, names):
    return TOKEN.sub(lambda m: names.get(m[0], m[0]), text)


def prose(text, names):
    """A comment: code spans, and words that are no English."""
    text = re.sub(r"`[^`\n]*`", lambda m: turn(m[0], names), text)
    return turn(text, {a: b for a, b in names.items() if re.search("[a-z][A-Z]", a)})


def turn_file(path, text, names):
    kind = os.path.splitext(path)[1]
    if kind in (".antt", ".rt"):
        names = {a: b for a, b in names.items() if a not in of_library(text)}
        if kind == ".rt":
            # A name that is spelled so already is a function's here.
            names = {a: b for a, b in names.items() if re.search("[A-Z-]", a)}
        mark = "--" if kind == ".antt" else "//"
        lines = []
        for line in text.split("\n"):
            at = re.search(rf"(?:^|\s){re.escape(mark)}(?=\s|$)", line)
            code, comment = (line[: at.start()], line[at.start():]) if at else (line, "")
            lines.append(turn(code, names) + prose(comment, names))
        return "\n".join(lines)
    if kind == ".edit":
        code = re.search(r"(?m)^file: +src/", text)
        return turn(text, {a: b for a, b in names.items() if not code or re.search("[A-Z-]", a)})
    if kind == ".md":
        names = {a: b for a, b in names.items() if re.search("[A-Z-]", a)}
        return re.sub(r"`[^`\n]*`", lambda m: turn(m[0], names), text)
    return text


def move_contracts():
    """Renames specs/Contracts.antt, and the paths that name it."""
    crates = []
    for path, full in files():
        steps = path.split("/")
        if steps[2:] == ["specs", "Contracts.antt"]:
            crates.append(steps[1])
            os.rename(full, os.path.join(os.path.dirname(full), "Promises.antt"))
    if not crates:
        return
    path = re.compile(rf"Rattle\.({'|'.join(crates)})\.specs\.Contracts\b")
    for name, full in files():
        if os.path.splitext(name)[1] in (".antt", ".rt", ".edit", ".md"):
            text = open(full).read()
            to = path.sub(r"Rattle.\1.specs.Promises", text).replace("specs/Contracts.antt", "specs/Promises.antt")
            if name.split("/")[2:] == ["specs", "Lib.antt"]:
                to = re.sub(r"(?m)^pub mod Contracts$", "pub mod Promises", to)
            if to != text:
                open(full, "w").write(to)


def main():
    names = table()
    if "--list" in sys.argv:
        for a, b in sorted(names.items()):
            print(a, b)
        return
    move_contracts()
    for path, full in files():
        if os.path.splitext(path)[1] in (".antt", ".rt", ".edit", ".md"):
            text = open(full).read()
            to = turn_file(path, text, names)
            if to != text:
                open(full, "w").write(to)


main()
