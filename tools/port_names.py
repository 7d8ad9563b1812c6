#!/usr/bin/env python3
"""Brings the names of definitions and lemmas of this repository to one spelling: words in snake case.

usage: python3 tools/port_names.py OLD      at the top, after port.py; OLD is a folder with the repository before port.py

Only names that specs/ and proofs/ declare are turned: definitions, lemmas, constructors and fields of records. Types, modules
and the names of rules and classes (X1, W4, CR) keep their capitals; functions of src/ keep their names. In a function's own
proof file only what it imports from this repository is turned, and fields of its records. Must-fail edits and pages take the
names that came of OLD's.
"""
import difflib
import os
import re
import sys

TOKEN = re.compile(r"[^\s(){}\[\],;.:`\"«»]+")
WORD = r"([^\s(){}\[\],;.:«»]+)"
FLAGS = r"(?:(?:pub|abbrev|unfoldable) )*"
DATA = re.compile(r"^ *" + FLAGS + r"(?:data|record) " + WORD)
NAMED = re.compile(r"^ *" + FLAGS + WORD + r" : ")
USE = re.compile(r"^\s*(?:ghost )?use ([\w.·'-]+?)(?:\.\{(.*)\})?(?: as (\S+))?;?$")
SPECIAL = {"getD-up": "get_or_up", "getD-within": "get_or_within", "◌andThen◌": "◌and_then◌", "_andThen_": "◌and_then◌"}
# what would fall together with a name that stands already
APART = {
    "goes-behind": "goes_behind_lem",
    "up-from": "up_from_lem",
    "level-here": "level_here_is",
    "line-items": "line_items_are",
    "line-levels": "line_levels_are",
    "lowest-odd": "lowest_odd_lem",
}
# a local name that would hide a definition's new one
LOCAL = {("crates/pairwise/proofs/Pairs.antt", "is_odd"): "odd_level"}


def files(root, ends):
    for folder, dirs, names in os.walk(root):
        dirs[:] = sorted(d for d in dirs if d not in ("out", ".git", "target"))
        for name in sorted(names):
            if name.endswith(ends):
                yield os.path.join(folder, name)


def read(path):
    with open(path, encoding="utf-8") as f:
        return f.read()


def write(path, text):
    with open(path, "w", encoding="utf-8") as f:
        f.write(text)


def declared(text):
    names = []
    for line in text.splitlines():
        if line.lstrip().startswith("--"):
            continue
        for form in (DATA, NAMED):
            m = form.match(line)
            if m:
                names.append(m.group(1))
                break
    return names


def snake(name):
    if name in SPECIAL:
        return SPECIAL[name]
    if name in APART:
        return APART[name]
    name = name.replace("′", "'")
    if not re.match(r"^[A-Za-z+][\w'+-]*$", name) or name.startswith("+"):
        return name
    name = re.sub(r"(?<=[A-Za-z0-9'])-(?=[A-Za-z0-9])", "_", name)
    if re.match(r"^[A-Z][a-z]", name):  # a type
        return name
    name = re.sub(r"^([A-Z]\d)([a-z])", r"\1_\2", name)  # a rule's name in front
    return re.sub(r"(?<=[a-z0-9])([A-Z])([a-z])?", lambda m: "_" + (m.group(1).lower() + m.group(2) if m.group(2) else m.group(1)), name)


def foreign(text):
    """Names that a file takes from elsewhere than this repository's specs/ and proofs/."""
    names = set()
    for line in text.splitlines():
        m = USE.match(line)
        if m and m.group(2) and not own(m.group(1)):
            names |= {n.strip().split(" as ")[-1] for n in m.group(2).split(",")}
    return names


CRATES = set()


def own(module):
    parts = re.split(r"[.·]", module)
    return len(parts) > 2 and parts[0] == "Rattle" and parts[1] in CRATES and "declared" not in parts


def imported(text):
    names = set()
    for line in text.splitlines():
        m = USE.match(line)
        if m and m.group(2) and own(m.group(1)):
            names |= {w for n in m.group(2).split(",") for w in n.strip().split(" as ")}
    return names


def turn(text, names):
    return TOKEN.sub(lambda m: names.get(m.group(0), m.group(0)), text)


def turn_proof(text, names, fields):
    """A function's proof: what it imports, and after a dot the fields of our records."""
    known = imported(text)

    def one(m):
        word = m.group(0)
        if word not in names:
            return word
        after_dot = m.start() > 0 and text[m.start() - 1] == "."
        if after_dot:
            return names[word] if word in fields else word
        return names[word] if word in known or word in fields else word

    return TOKEN.sub(one, text)


def main():
    old = sys.argv[1]
    CRATES.update(d for d in os.listdir("crates"))
    texts = {p: read(p) for p in files("crates", (".antt",))}
    own_files = {p: t for p, t in texts.items() if os.path.basename(p) != "Proof.antt"}
    names, fields = {}, set()
    for p, t in own_files.items():
        for n in declared(t):
            s = snake(n)
            if s != n:
                names[n] = s
        for line in t.splitlines():
            m = re.match(r"^  " + FLAGS + WORD + r" : ", line)
            if m:
                fields.add(m.group(1))
    # names that fall together: the new spelling stands in a file that has the old one
    for p, t in sorted(own_files.items()):
        words = set(TOKEN.findall(t))
        for n in sorted(words & set(names)):
            if names[n] in words and n not in foreign(t):
                print(f"together: {p}: {n} and {names[n]}")
    by_new = {}
    for n, s in names.items():
        by_new.setdefault(s, set()).add(n)
    for s, ns in sorted(by_new.items()):
        if len(ns) > 1:
            print(f"together: {sorted(ns)} -> {s}")
    for p, t in own_files.items():
        here = {n: s for n, s in names.items() if n not in foreign(t)}
        n = turn(t, here | {word: to for (path, word), to in LOCAL.items() if path == p})
        if n != t:
            write(p, n)
    for p, t in texts.items():
        if p not in own_files:
            here = {n: s for n, s in names.items() if n not in foreign(t)}
            n = turn_proof(t, here, fields)
            if n != t:
                write(p, n)
    for p in files("crates", (".rt",)):
        t = read(p)
        n = turn(t, names)
        if n != t:
            write(p, n)
    # what became of each of OLD's names, port.py's turns among them
    past = {}
    for p in own_files:
        was = os.path.join(old, p)
        if os.path.exists(was):
            a, b = declared(read(was)), declared(read(p))
            if len(a) == len(b):
                past.update({x: y for x, y in zip(a, b) if x != y})
            else:
                print(f"look: {p} declares {len(a)} names in OLD and {len(b)} now")
    with open("tools/port_names.txt", "w", encoding="utf-8") as f:
        f.writelines(f"{a} {b}\n" for a, b in sorted(past.items()))
    edits = {a: b for a, b in past.items() if a not in ("_andThen_",)} | {"andThen": "and_then"}
    for p in files("crates", (".edit",)):
        t = read(p)
        n = turn(t, edits)
        if n != t:
            write(p, n)
    for p in [q for q in files(".", (".md",)) if not q.startswith("./crates")]:
        t = read(p)
        n = re.sub(r"`[^`\n]+`", lambda m: turn(m.group(0), edits), t)
        if n != t:
            write(p, n)
    print(f"{len(names)} names turned, {len(past)} since OLD")


main()
