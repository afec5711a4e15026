#!/usr/bin/env python3
"""Brings the names of this repository's own definitions and lemmas to snake case, after the kit's port.py.

usage: python3 tools/snake.py        at the top of the repository, once

A name is turned if a file of specs/, or of proofs/ right below it, defines it (a definition, a lemma, a constructor or a
field of a record), or if a proof file defines it as a helper. A dash becomes an underscore, and a capital inside a word
begins a new word. Names of the library, names that Rattle makes for goals, and names of src/ stay. Before it writes, it
stops where two names would fall together.
"""
import os
import re
import sys

TOKEN = re.compile(r"[^\s(){}\[\],;.:\"«»]+")
DEFINED = re.compile(r"(?m)^[ ]*(?:(?:pub|abbrev|unfoldable|data|record) +)*([a-z][^\s(){}:;.,]*)(?: [({][^:]*[)}])* : ")
IMPORT = re.compile(r"use ([^\s{]+)\.\{([^}]*)\}")
ANSWER = re.compile(r"/(?:Answers|Invariants|Choices|Proof)\.antt$")
GOAL = re.compile(
    r"^(?:returns|invariant|decreases|loop|overflow|bounds|unreachable|lawful|sound)-|-(?:requires|preserved|init|smaller)(?:-\d+)?$"
)
WORDS = {"getD": "get_or", "readOn": "read_on"}
# named for what the library now calls its own lemma, or for a word that it already has
OTHER = {}


def files(root):
    for top in ("crates",):
        for folder, dirs, names in os.walk(os.path.join(root, top)):
            dirs[:] = sorted(d for d in dirs if d not in ("out", "src.out"))
            for name in sorted(names):
                if name.endswith((".antt", ".rt")):
                    yield os.path.join(folder, name)


def snake(name):
    if name in OTHER:
        return OTHER[name]
    parts = [WORDS.get(part, part) for part in name.split("-")]
    joined = "_".join(parts)
    return re.sub(r"(?<=[a-z])([A-Z])", lambda m: "_" + m.group(1).lower(), joined)


def code(text):
    """The text's parts that are neither a comment nor a string, as pairs of a flag and a part."""
    return re.split(r"(--[^\n]*|//[^\n]*|\"(?:[^\"\\]|\\.)*\")", text)


def main():
    root = os.getcwd()
    texts = {}
    for path in files(root):
        with open(path, encoding="utf-8") as f:
            texts[path] = f.read()
    own, foreign, used = {}, set(), set()
    for path, text in texts.items():
        for m in IMPORT.finditer(text):
            names = [n.strip().split(" as ") for n in m.group(2).split(",")]
            if not m.group(1).startswith("Rattle.") or m.group(1).startswith("Rattle.std."):
                foreign.update(n[-1].strip() for n in names)
        used.update(TOKEN.findall(text))
        if not path.endswith(".antt"):
            continue
        for m in DEFINED.finditer(text):
            name = m.group(1)
            if ANSWER.search(path) and GOAL.search(name):
                continue
            if snake(name) != name:
                own.setdefault(name, path)
    clash = [n for n in own if n in foreign]
    for n in clash:
        print("kept, a name of the library too: " + n)
        del own[n]
    turned = {}
    for n in sorted(own):
        to = snake(n)
        if to in turned or to in used:
            print(f"falls together: {n} with {to} ({own[n]})")
        turned[to] = n
    if "--list" in sys.argv:
        for n in sorted(own):
            print(n, snake(n))
        return
    count = 0
    for path, text in texts.items():
        parts = code(text)
        for i in range(0, len(parts)):
            comment = i % 2 == 1
            if comment and not (path.endswith(".antt") and parts[i].startswith("--")):
                continue
            parts[i] = TOKEN.sub(lambda m: snake(m.group(0)) if m.group(0) in own else m.group(0), parts[i])
        new = "".join(parts)
        if new != text:
            with open(path, "w", encoding="utf-8") as f:
                f.write(new)
            count += 1
    print(f"{len(own)} names turned in {count} files")


main()
