#!/usr/bin/env python3
"""Brings the repository's own names of definitions, lemmas, fields and variables to one spelling: words in snake case; a dash only where it joins two names.

usage: tools/respell.py           at the top, right after port.py, once: rewrites crates/, README.md and docs/
       tools/respell.py --list    prints old and new name of each, and changes nothing

port.py renames what it knows by its own tables; this takes the rest. What a function's proof names after the code (goals and steps of a Proof.antt) keeps its name.
Where a lemma and a definition would fall together, the lemma gets `_lem`. A name that the toolchain's libraries have, or that would still fall together with
another, is left and printed. In prose only what stands in backticks is a name.
"""
import collections
import glob
import os
import re
import sys

ID = r"[\w'-]+"
WORD = re.compile(r"(?<![\w'-])[A-Za-zα-ω][\w'-]*")
OWN = set(os.listdir("crates"))
DECLARED = re.compile(
    r"(?m)^( *)(?:abbrev |unfoldable |opaque )*(?:pub )?(?:abbrev |unfoldable )?(?:record |data |ruleset )?("
    + ID + r")((?: [({][^\n]*?)? :(?: |\n)[^\n]*)")

# Lemmas in snake case that a definition falls together with.
LEMMAS = {"block_size": "block_size_lem", "is_digit": "is_digit_lem"}
# Names of a definition or a variable and of a field or of something local to another module: nowhere are both in scope as one name.
APART = {"goes_on", "one_more", "start_in", "link_count", "coupling_count"}


def antt():
    return sorted(glob.glob("crates/*/specs/**/*.antt", recursive=True) + glob.glob("crates/*/proofs/**/*.antt", recursive=True))


def sources():
    return sorted(glob.glob("crates/*/src/*.rt"))


def read(path):
    with open(path, encoding="utf-8") as f:
        return f.read()


def imports(text):
    for m in re.finditer(r"(?m)^(?:pub |ghost )?use ([\w+-]+(?:\.[\w+-]+)*)(?:\.\{([^}]*)\})?", text):
        parts = m[1].split(".")
        mine = parts[0] == "Rattle" and len(parts) > 1 and parts[1] in OWN
        for name in (m[2] or "").replace("\n", " ").split(","):
            if name.strip():
                yield mine, name.strip().split(" as ")[0]


def snake(word):
    return re.sub(r"(?<=[a-z0-9'])([A-Z])", lambda m: "_" + m[1].lower(), word)


def renames():
    library, declared, used = set(), set(), set()
    for path in antt() + sources():
        text = read(path)
        library.update(name for mine, name in imports(text) if not mine)
        if not path.endswith(".antt"):
            continue
        used.update(WORD.findall(text))
        by_hand = path.endswith("Proof.antt")
        for m in DECLARED.finditer(text):
            if by_hand and (re.search(r": tie\.", m[3]) or "statement" in m[3]):
                continue
            declared.add(m[2])
    camel = {word for word in used if re.match("[a-z]", word) and re.search("[a-z0-9'][A-Z]", word)}
    new = {}
    plain = {snake(name) for name in declared | library}
    for name in sorted(declared | camel):
        if name in library or re.match("[A-Z]", name):
            continue
        if "-" not in name and name not in camel:
            continue
        parts = [part if re.match("[A-Z]", part) else snake(part) for part in name.replace("getD", "get_or").split("-")]
        first, rest = parts[0], "_".join(parts[1:])
        joined = rest in plain and (first in library or re.match("[A-Z]", first))
        new[name] = first + "-" + rest if joined else "_".join(parts)
        if new[name] == name:
            del new[name]
    new.update(LEMMAS)
    taken = collections.Counter(new.values())
    for name, to in new.items():
        if "-" in name and to not in APART and (taken[to] > 1 or to in declared - set(new)):
            new[name] = to + "_lem"
    left = {}
    taken = collections.Counter(new.values())
    for name, to in list(new.items()):
        if to not in APART and (taken[to] > 1 or to in declared - set(new)) or to in library:
            left[name] = new.pop(name)
    return new, left


def main(argv):
    new, left = renames()
    if argv == ["--list"]:
        for name in sorted(new):
            print(name, new[name])
    for name, to in sorted(left.items()):
        print(f"left: {name}, since {to} is another name too")
    if argv == ["--list"]:
        return 0

    def turn(text):
        return WORD.sub(lambda m: new.get(m[0], m[0]), text)

    def prose(text):
        return re.sub("`[^`\n]+`", lambda m: turn(m[0]), text)

    def code(text):
        lines = []
        for line in text.split("\n"):
            m = re.search(r"(^|\s)(--|//)( |$)", line)
            at = m.start() if m else len(line)
            lines.append(turn(line[:at]) + prose(line[at:]))
        return "\n".join(lines)

    changed = 0
    edits = sorted(glob.glob("crates/*/must-fail/*.edit") + glob.glob("crates/*/more-edits/*.edit"))
    pages = ["README.md"] + sorted(glob.glob("docs/*.md"))
    for path in antt() + sources() + edits + pages:
        old = read(path)
        text = prose(old) if path.endswith(".md") else code(old)
        if text != old:
            changed += 1
            with open(path, "w", encoding="utf-8") as f:
                f.write(text)
    print(f"{len(new)} names, {changed} files")
    return 0


if __name__ == "__main__":
    raise SystemExit(main(sys.argv[1:]))
