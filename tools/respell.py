#!/usr/bin/env python3
"""Spells the repository's own definitions and lemmas as today's Rattle does: words in snake case.

usage: tools/respell.py [--say]     at the top of the repository, once, behind the kit's port.py

What is declared below crates/*/specs and crates/*/proofs, outside the proof of a single function, is turned: capitals inside a name that
begins small become _ and a small letter, and a dash becomes _ where it joins words. A dash that joins two names stays (JOINED). The proof of
a function f is called f_spec, and a lemma that would have the name of a definition gets _lem. Types and modules, the functions of src/ and the labels
that Rattle makes keep their names. Names in backticks in README.md and docs/ follow. --say lists the names and where new ones meet old words.
"""

import os
import re
import sys

# A dash behind these joins two names.
JOINED = ("length-", "getD-", "places-", "tidy-", "waiting-")
KEPT_SECOND = {"queueOf": "queue_of", "repliesOf": "replies_of", "lastReplaced": "last_replaced", "mapFrom": "map_from",
               "waitingReplies": "waiting_replies"}
TOKEN = re.compile(r"""[^\s(){}\[\].;,@"«»λ|\\`]+""")
DECLARED = re.compile(r"^\s*(?:(?:unfoldable|abbrev|pub)\s+)*([^\s:(){}]+)\s*(?:\{[^}]*\}\s*)?:\s")
FIELD = re.compile(r"^\s+(?:pub\s+)?([^\s:(){}]+)\s*:\s")


def files(top="."):
    for folder, dirs, names in os.walk(os.path.join(top, "crates")):
        dirs[:] = sorted(d for d in dirs if d not in ("out", ".git"))
        for name in sorted(names):
            if name.endswith((".antt", ".rt", ".edit")):
                yield os.path.join(folder, name)


def of_function(path):
    """Is this file the proof of one function? Then what it declares is named after the labels that Rattle makes."""
    return re.search(r"/proofs/.+/(Proof|Answers|Invariants)\.antt$", path) is not None


def snake(name):
    for first in JOINED:
        rest = name[len(first):]
        for word, turned in KEPT_SECOND.items():
            if name.startswith(first) and rest.startswith(word):
                return first.replace("getD", "get_or") + turned + rest[len(word):].replace("-", "_")
    if name.startswith("mapFrom-"):
        return "map_from-" + name[len("mapFrom-"):]
    if name.startswith("getD-mapFrom"):
        return "get_or-map_from" + name[len("getD-mapFrom"):].replace("-", "_")
    return re.sub(r"(?<=[a-z0-9])(?=[A-Z])|(?<=[A-Z])(?=[A-Z][a-z])", "_", name).lower().replace("-", "_")


def declared():
    found = set()
    for path in files():
        if not path.endswith(".antt"):
            continue
        with open(path, encoding="utf-8") as f:
            for line in f:
                m = DECLARED.match(line)
                if not m or line.lstrip().startswith(("--", "use ", "let ", "λ")):
                    continue
                name = m[1]
                if of_function(path) and not name.endswith("-spec"):
                    continue
                if re.match(r"[a-z]", name):
                    found.add(name)
    return found


def turn(text, table, local, path):
    def one(m):
        word = m[0]
        if word not in table or word in local:
            return word
        beside_dot = text[m.start() - 1:m.start()] == "." or text[m.end():m.end() + 1] == "."
        if of_function(path) and beside_dot and ("-" in word or "_" in word):
            return word
        return table[word]
    return TOKEN.sub(one, text)


def table_of(names):
    """The new name of each: those of definitions first, since a lemma makes way for one."""
    taken = {snake(name) for name in names if "-" not in name and snake(name) != name}
    kept = names - taken
    taken |= {name for name in names if snake(name) == name}
    table = {}
    for name in names:
        new = snake(name)
        if new in taken and ("-" in name or name == new and name not in kept):
            new += "_lem"
        if new != name:
            table[name] = new
    return table


def main():
    table = table_of(declared())
    if "--say" in sys.argv:
        say(table)
        return
    camel = {a: b for a, b in table.items() if "-" not in a}
    for path in files():
        with open(path, encoding="utf-8") as f:
            text = f.read()
        if path.endswith(".rt"):
            new = re.sub(r"\b[a-z]\w*[A-Z]\w*\b", lambda m: camel.get(m[0], m[0]), text)
        elif path.endswith(".edit"):
            new = edit(text, table, camel)
        else:
            local = set()
            if of_function(path):
                local = {m[1] for m in map(DECLARED.match, text.splitlines()) if m and not m[1].endswith("-spec")}
            new = turn(text, table, local, path)
        if new != text:
            with open(path, "w", encoding="utf-8") as f:
                f.write(new)
    for path in ["README.md"] + [os.path.join(d, n) for d, _, ns in os.walk("docs") for n in ns if n.endswith(".md")]:
        with open(path, encoding="utf-8") as f:
            text = f.read()
        new = re.sub(r"`[^`\n]+`", lambda m: TOKEN.sub(lambda t: table.get(t[0], t[0]), m[0]), text)
        if new != text:
            with open(path, "w", encoding="utf-8") as f:
                f.write(new)


def edit(text, table, camel):
    """The old and new lines of a must-fail edit, each in the spelling of the file that it is of."""
    lines, path = [], ""
    for line in text.split("\n"):
        if line.startswith("file:"):
            path = line[5:].strip()
        elif line.startswith(("old:", "new:")):
            if path.startswith("src/"):
                line = re.sub(r"\b[a-z]\w*[A-Z]\w*\b", lambda m: camel.get(m[0], m[0]), line)
            else:
                line = line[:4] + turn(line[4:], table, set(), path)
        lines.append(line)
    return "\n".join(lines)


def say(table):
    words = {}
    for path in files():
        with open(path, encoding="utf-8") as f:
            for n, line in enumerate(f, 1):
                for m in TOKEN.finditer(line):
                    words.setdefault(m[0], []).append(f"{path}:{n}")
    turned = {}
    for a, b in sorted(table.items()):
        turned.setdefault(b, []).append(a)
    for b, olds in sorted(turned.items()):
        if len(olds) > 1:
            print("two become one:", olds, "->", b)
        if b in words:
            here = sorted({w.split(":")[0] for w in words[b]})
            theirs = {w.split(":")[0] for a in olds for w in words.get(a, [])}
            both = [h for h in here if h in theirs]
            print("meets a word:", olds, "->", b, "in both:" if both else "apart:", (both or here)[:4])


main()
