#!/usr/bin/env python3
"""Spells the repository's own definitions and lemmas as today's Rattle does, by respelled.tsv beside this file.

usage: tools/respell.py [--docs]

At the top of the repository, once, after port.py. Definitions and fields are in snake case; in a lemma a dash joins two names, and a
plain word is added with an underscore; the refusals are constants. Where a lemma would get the name of a definition, it ends in '_lem'.
Names of src/, strings, inputs and outputs stay. Edits of must-fail/ are turned too. With --docs the names in backquotes of the pages
are turned, and nothing else.
"""
import os
import re
import sys

HERE = os.path.dirname(os.path.realpath(__file__))
TABLE = {}
with open(os.path.join(HERE, "respelled.tsv"), encoding="utf-8") as f:
    for line in f:
        old, new, kinds = line.rstrip("\n").split("\t")
        TABLE[old] = (new, kinds)
WORD = re.compile(r"[^\s(){}.;,@\"«»\[\]\\λ`:]+(?:(?<=[^:]):(?=$))?|`")
NAME = r"[^\s(){}.;,@\"«»\[\]\\λ`:]+"


def camel(name):
    return bool(re.search(r"[a-z0-9][A-Z]", name)) and name[0].islower()


def turned(text, rattle):
    """The text with each name turned; of Rattle's source the names with a dash only in capitals."""

    def one(m):
        name = m.group(0)
        it = TABLE.get(name)
        if not it:
            return name
        new, kinds = it
        at = m.start()
        dotted = text[at - 1 : at] == "."
        if camel(name):
            return new
        if rattle:
            return new if name.isupper() else name
        if dotted and "field" not in kinds:
            before = re.search(r"([^\s(){}.;,]+)\.$", text[:at])
            if not (before and before.group(1)[:1].isupper()):
                return name
        if "-" not in name and dotted:
            return name
        return new

    return re.sub(NAME, one, text)


def of_comments(text, mark):
    """The text with names turned in code, and in comments only those that no word of a sentence is spelled like."""
    out = []
    for line in text.split("\n"):
        at = re.search(mark, line)
        code, rest = (line, "") if not at else (line[: at.start()], line[at.start() :])
        out.append((code, rest))
    code = turned("\n".join(c for c, _ in out), mark == r"//").split("\n")
    return "\n".join(c + quoted(r) for c, (_, r) in zip(code, out))


def quoted(text):
    """Names in a comment or a page: those in camel case, and others in backquotes."""

    def one(m):
        it = TABLE.get(m.group(0))
        return it[0] if it and camel(m.group(0)) else m.group(0)

    text = re.sub(r"(?<![\w-])[A-Za-z][\w-]*(?![\w-])", one, text)
    return re.sub(r"`([A-Za-z][\w-]*)`", lambda m: "`" + TABLE.get(m.group(1), (m.group(1), ""))[0] + "`", text)


def edit(text):
    out = []
    source = False
    for line in text.split("\n"):
        if line.startswith("file:"):
            source = line.rstrip().endswith(".rt")
        head = re.match(r"(old|new): ", line)
        if head:
            line = head.group(0) + of_comments(line[5:], r"//" if source else r"(?<!\S)--(?!\S)")
        elif line.startswith("#"):
            line = quoted(line)
        out.append(line)
    return "\n".join(out)


def files(root, ends):
    for folder, dirs, names in os.walk(root):
        dirs[:] = sorted(d for d in dirs if d not in ("out", ".git", "target"))
        for n in sorted(names):
            if n.endswith(ends):
                yield os.path.join(folder, n)


def main(words):
    pages = "--docs" in words
    todo = ["README.md", *files("docs", (".md",))] if pages else files("crates", (".antt", ".rt", ".edit"))
    for path in todo:
        with open(path, encoding="utf-8") as f:
            text = f.read()
        if pages:
            new = quoted(text)
        elif path.endswith(".edit"):
            new = edit(text)
        else:
            new = of_comments(text, r"//" if path.endswith(".rt") else r"(?<!\S)--(?!\S)")
        if new != text:
            with open(path, "w", encoding="utf-8") as f:
                f.write(new)


main(sys.argv[1:])
