#!/usr/bin/env python3
"""Spells this repository's own names in specs/ and proofs/ as the library spells its own.

usage: python3 tools/spell_names.py [--list] [ROOT]      ROOT: the top of a checkout, by default this one

A definition, a lemma, a field of a record and a constructor are words joined by `_`; a fact, a record, a data type and
a module are in camel case. Names that Rattle makes (goals, steps, loops) and those of the code keep theirs. It goes over
specs/, proofs/ and the clauses of src/ in every crate. Where two names would fall together it writes nothing; where a
new name is a word of some file already it says so, to be looked at. --list prints the names and writes nothing.
"""

import os
import re
import sys

STOP = r"\s(){}\[\];,.:?\"«»"
TOKEN = re.compile(rf"[^{STOP}]+")
COMMENT_OR_NAME = re.compile(rf"//[^\n]*|(?<![^\s])--[^\n]*|(?P<name>[^{STOP}]+)")
DECLARED = re.compile(rf"^\s*(?:\| )?((?:pub |abbrev |unfoldable |private )*)([^{STOP}]+) :(?!=)(.*)$")
HEADED = re.compile(r"^\s*(?:pub |abbrev |unfoldable )*(record|data|ruleset|module) (\S+)")
ALIAS = re.compile(r"([^\s,{}]+) as ([^\s,{}]+)")
GENERATED = re.compile(r"\b(?:goal|need|choice|choose|given)s?\.")
USE = re.compile(r"(?:^|\n)\s*(?:pub )?(?:ghost )?use ([^\s{};]+?)\.\{([^}]*)\}")
# The code has a field of the name that would be next: what stands in its place.
INSTEAD = {"time-left": "time_left_of"}


def files(root):
    for folder, dirs, names in os.walk(os.path.join(root, "crates")):
        dirs[:] = sorted(d for d in dirs if d not in ("out", "target"))
        for name in sorted(names):
            if name.endswith((".antt", ".rt")):
                yield os.path.join(folder, name)


def camel(name):
    return "".join(part[:1].upper() + part[1:] for part in name.split("-"))


def snake(name):
    return name.replace("-", "_")


def declared(root):
    """Each own name with a dash or a wrong case, and whether it is a fact or a type."""
    found = {}
    for path in files(root):
        if not path.endswith(".antt"):
            continue
        with open(path, encoding="utf-8") as file:
            text = file.read()
        for line in text.split("\n"):
            if line.lstrip().startswith("--"):
                continue
            head = HEADED.match(line)
            if head and head[1] != "module":
                found.setdefault(head[2], set()).add(head[1] != "ruleset")
                continue
            match = DECLARED.match(line)
            if match and not GENERATED.search(match[3][:40]):
                is_type = match[3].rstrip().endswith("Type 0")
                found.setdefault(match[2], set()).add(is_type)
        for use in USE.finditer(text):
            for alias in ALIAS.finditer(use[2]):
                found.setdefault(alias[2], set()).add(alias[2][:1].isupper())
    return found


def renamings(root):
    new = {}
    for name, kinds in declared(root).items():
        if "-" not in name or not re.match(r"[A-Za-z]", name):
            continue
        is_type = True in kinds or name[:1].isupper()
        new[name] = INSTEAD.get(name) or (camel(name) if is_type else snake(name))
    return new


def words(root):
    """Every word of the files, so that a new name can be seen to be free."""
    seen = {}
    for path in files(root):
        with open(path, encoding="utf-8") as file:
            for token in TOKEN.finditer(file.read()):
                seen.setdefault(token[0], set()).add(path)
    return seen


def foreign(text):
    """Names that a file imports from elsewhere: the library's and the check's."""
    names = set()
    for use in USE.finditer(text):
        if re.search(r"\.(Goals|Given|Needs|Choices)$", use[1]) or use[1].split(".")[1:2] == ["std"] or not use[1].startswith("Rattle."):
            names.update(use[2].replace(",", " ").split())
    return names


def turn(text, new):
    """The text with its names turned; comments keep their words."""
    taken = foreign(text)

    def name(match):
        word = match["name"]
        if word is None or word not in new or word in taken:
            return match[0]
        if re.search(r"\b(?:goal|need|choice|choose|given)s?\.$", text[: match.start()]):
            return word
        return new[word]

    return COMMENT_OR_NAME.sub(name, text)


def main(arguments):
    listing = "--list" in arguments
    rest = [a for a in arguments if a != "--list"]
    root = rest[0] if rest else os.path.dirname(os.path.dirname(os.path.realpath(__file__)))
    new = renamings(root)
    seen = words(root)
    back = {}
    for old, name in sorted(new.items()):
        back.setdefault(name, []).append(old)
    together = {name: olds for name, olds in sorted(back.items()) if len(olds) > 1}
    for name, olds in together.items():
        print(f"two names fall together: {olds} -> {name}")
    for name, olds in sorted(back.items()):
        if name in seen:
            print(f"look: {olds[0]} -> {name}, a word of {sorted(os.path.relpath(p, root) for p in seen[name])[:6]}")
    if listing:
        for old, name in sorted(new.items()):
            print(f"{old} {name}")
        return 0
    if together:
        return 1
    for path in files(root):
        with open(path, encoding="utf-8") as file:
            text = file.read()
        turned = turn(text, new)
        if turned != text:
            with open(path, "w", encoding="utf-8") as file:
                file.write(turned)
    return 0


if __name__ == "__main__":
    raise SystemExit(main(sys.argv[1:]))
