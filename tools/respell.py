#!/usr/bin/env python3
"""Brings the repository's own definitions and lemmas to the library's spelling: words in snake case, types in camel case.

usage: python3 tools/respell.py            at the top of the repository, once, after port.py

What is renamed is found in specs/ and proofs/: each name with a hyphen that is defined or bound there. Names that a file imports
from the library, and the names that the checker makes for an answer (goal.NAME), keep their spelling. It says where a new name
stands elsewhere already.
"""

import os
import re
import sys

NAME = r"[A-Za-z_][\w']*(?:-[\w']+)+"
TOKEN = re.compile(r"(?<![\w'-])" + NAME + r"(?![\w'-])")
WORD = re.compile(r"(?<![\w'-])[A-Za-z_][\w'-]*")
DEFINED = re.compile(r"^\s*(?:(?:pub|abbrev|unfoldable|opaque|record|data|module)\s+)*(" + NAME + r")(?=\s*[:({]|\s+[({])")
BOUND = [
    re.compile(r"\blet\s+(" + NAME + r")\s*[:=]"),
    re.compile(r"\bas\s+(" + NAME + ")"),
    re.compile(r"[({](?:[\w'-]+\s+)*?([\w'-]+)\s*:"),
    re.compile(r"λ\s+([\w'\s-]+)\."),
]
IMPORT = re.compile(r"^\s*(?:pub |ghost )?use\s+Rattle\.(\w+)\.([\w.']+?)\.\{(.*)\}", re.S)


def crates():
    return sorted(c for c in os.listdir("crates") if os.path.isdir(os.path.join("crates", c, "src")))


def files(*endings):
    for folder, dirs, names in os.walk("crates"):
        dirs[:] = sorted(d for d in dirs if d != "out")
        for name in sorted(names):
            if name.endswith(endings):
                yield os.path.join(folder, name)


def read(path):
    with open(path, encoding="utf-8") as f:
        return f.read()


def bare(text):
    """The text without its comments."""
    return re.sub(r"--.*", "", text)


def answers(path):
    """Whether a file answers what the checker asks, by names of the checker's making."""
    return os.path.basename(path) in ("Answers.antt", "Invariants.antt", "Choices.antt")


def made(text):
    """Names of the checker's making in a file of answers."""
    return set(re.findall(r"\bgoal\.(" + NAME + ")", text)) | set(re.findall(r"^(?:pub )?(" + NAME + r")\s*:\s*goal\.", text, re.M))


def names():
    found = set()
    for path in files(".antt"):
        text = bare(read(path))
        skip = made(text) if answers(path) else set()
        for line in text.split("\n"):
            m = DEFINED.match(line)
            if m and m.group(1) not in skip:
                found.add(m.group(1))
        for pattern in BOUND:
            for m in pattern.finditer(text):
                found |= {t for t in TOKEN.findall(m.group(1)) if t not in skip}
    return found


def respelled(name):
    if not name[0].isupper():
        return name.replace("-", "_")
    return "".join(part[0].upper() + part[1:] for part in name.split("-"))


def library(text, own):
    """Names that a file imports from the library."""
    kept = set()
    for line in text.split("\n"):
        m = IMPORT.match(line)
        if m and m.group(1) not in own:
            kept |= set(TOKEN.findall(m.group(3)))
    return kept


def main():
    own = set(crates())
    turned = {n: respelled(n) for n in names()}
    taken = set()
    for path in files(".antt"):
        taken |= set(WORD.findall(bare(read(path))))
    for old, new in sorted(turned.items()):
        others = [o for o, n in turned.items() if n == new and o != old]
        if new in taken or others:
            print(f"look: {old} becomes {new}, which stands elsewhere too")
    count = 0
    docs = [os.path.join("docs", d) for d in sorted(os.listdir("docs")) if d.endswith(".md")] + ["README.md"]
    for path in [*files(".antt", ".rt", ".edit"), *docs]:
        text = read(path)
        skip = library(text, own) | (made(text) if answers(path) else set())
        if path.endswith(".md"):
            spans = re.compile(r"`[^`]*`")
            fixed = spans.sub(lambda s: TOKEN.sub(lambda m: turned.get(m.group(0), m.group(0)), s.group(0)), text)
        else:
            fixed = TOKEN.sub(lambda m: m.group(0) if m.group(0) in skip else turned.get(m.group(0), m.group(0)), text)
        if fixed != text:
            with open(path, "w", encoding="utf-8") as f:
                f.write(fixed)
            count += 1
    print(f"{len(turned)} names, {count} files")


if __name__ == "__main__":
    sys.exit(main())
