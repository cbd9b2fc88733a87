#!/usr/bin/env python3
"""Brings the repository's own definitions, lemmas, fields and variables to snake case, and types to camel case.

usage: python3 tools/snake_names.py        at the top, once; with --list it only prints old and new names

Modules keep their names. The names that the check gives to goals and steps are left alone: a name is
taken only where a file of specs/ or proofs/ declares it, and one declared as an answer (': goal.X') is not.
A name in dashes that would fall together with another name of the repository gets the ending _lem; a definition may
have the name of the function that it describes.
"""
import os
import re
import sys

WORD = r"[^\s(){}.,;:=·⌜⌝\"`|]+"
DECLARED = [
    re.compile(r"^\s*(?:(?:pub|abbrev|unfoldable)\s+)*(" + WORD + r")(?=\s+:)"),
    re.compile(r"\blet\s+(" + WORD + r")(?=\s*[:=])"),
    re.compile(r"[({](" + WORD + r"(?:\s+" + WORD + r")*)\s+:"),
    re.compile(r"λ\s+((?:" + WORD + r"\s*)+)\."),
    re.compile(r"\[\s*(?:\|\s*)?\w+\s+(" + WORD + r")\s+↦"),
]
TOKEN = re.compile(WORD)
ENDING = "_lem"
# two lemmas that have the name of a definition as it is spelled now
LEMMAS = {"skipped_at": "skipped_at" + ENDING, "goes_on": "goes_on" + ENDING}


def is_wrong(name):
    if not re.fullmatch(r"[A-Za-z][A-Za-z0-9_'₀-₉-]*", name) or name.endswith("-"):
        return False
    return "-" in name[1:] or re.match(r"[a-z][A-Za-z0-9_']*[A-Z]", name) is not None


def snake(name):
    if name[0].isupper():
        return "".join(part[0].upper() + part[1:] for part in name.split("-"))
    name = re.sub(r"([a-z0-9])([A-Z])", r"\1_\2", name)
    return name.replace("-", "_").lower()


def files():
    for folder, dirs, names in os.walk("crates"):
        dirs[:] = sorted(d for d in dirs if d != "out")
        for n in sorted(names):
            if n.endswith((".rt", ".antt")):
                yield os.path.join(folder, n)


def declared(texts):
    found, answers, fields = set(), set(), set()
    for path, text in texts.items():
        if not path.endswith(".antt"):
            continue
        for line in text.split("\n"):
            if line.lstrip().startswith("--"):
                continue
            for rule in DECLARED:
                for group in rule.findall(line):
                    found.update(w for w in group.split() if is_wrong(w))
            answer = re.match(r"(?:abbrev )?(?:pub )?(\S+) : (?:goal|need|choose)\.", line)
            if answer:
                answers.add(answer.group(1))
            field = re.match(r"\s+(?:pub )?(\S+) :", line)
            if field:
                fields.add(field.group(1))
    return found - answers, fields


def source_names(text):
    """Parameters, fields and variables, which would hide a definition of their name."""
    return set(re.findall(r"\b([a-z_0-9]+):\s", text)) | set(re.findall(r"\blet (?:mut )?([a-z_0-9]+)", text))


def other_names(found, texts):
    names = set()
    for path, text in texts.items():
        if path.endswith(".rt"):
            if "ghost use" in text:
                names |= source_names(text)
        else:
            for line in text.split("\n"):
                for rule in DECLARED:
                    for group in rule.findall(line):
                        names.update(group.split())
                names.update(re.findall(r"\{([^{}]*)\}", line)[0].replace(",", " ").split() if line.startswith("use ") and "{" in line else [])
    return names - found


def new_names(found, texts):
    taken = other_names(found, texts) - set(LEMMAS)
    names, used = dict(LEMMAS), set(LEMMAS.values())
    # a definition keeps the plain name before a lemma does
    for name in sorted(found, key=lambda n: ("-" in n, n)):
        to = snake(name)
        while to in taken or to in used:
            to += ENDING
        names[name] = to
        used.add(to)
    return names


def turned(text, names, fields):
    def word(match):
        old = match.group(0)
        if old not in names:
            return old
        before = text[match.start() - 1 : match.start()]
        if before == "." and old not in fields:
            return old
        return names[old]

    return TOKEN.sub(word, text)


def main():
    texts = {p: open(p, encoding="utf-8").read() for p in files()}
    found, fields = declared(texts)
    names = new_names(found, texts)
    if "--list" in sys.argv:
        for old in sorted(names):
            print(old, names[old], "*" if names[old] != snake(old) else "")
        return
    for path, text in texts.items():
        new = turned(text, {k: v for k, v in names.items() if k not in LEMMAS} if path.endswith(".rt") else names, fields)
        if new != text:
            with open(path, "w", encoding="utf-8") as f:
                f.write(new)


main()
