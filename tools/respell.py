#!/usr/bin/env python3
"""Spells the repository's own definitions and lemmas in snake case, by respell.tsv beside this script: old, a tab, new.

Run it once, at the top of the repository, after the kit's port.py. It turns whole words:
  .antt        everywhere; a word with a dash stays behind a dot in a function's own proof files, where it is a name that Rattle makes
  .rt          words with a capital inside, which stand in clauses, `ghost use` lines and comments alone
  .edit        the lines `old:` and `new:`
  .md, docs/check   words with a capital inside, and in .md words with a dash between backquotes
"""
import os
import re

HERE = os.path.dirname(os.path.realpath(__file__))
TOP = os.path.dirname(HERE)
with open(os.path.join(HERE, "respell.tsv"), encoding="utf-8") as f:
    TABLE = dict(line.rstrip("\n").split("\t") for line in f)
CAMEL = {old: new for old, new in TABLE.items() if re.search("[a-z0-9][A-Z]", old) and "-" not in old}
WORD = re.compile(r"[^\s(){}\[\].;:,@\"«»`'|]+")
SPAN = re.compile(r"`[^`\n]+`")
RUST = re.compile(r"\b[a-z]\w*\b")
FIELDS = {"is-first", "first-differs", "last-differs", "before-left", "before-right", "short-enough", "is-listed"}


def turn(text, table, made_names=False):
    def one(m):
        word = m[0]
        behind_dot = text[m.start() - 1 : m.start()] == "."
        if made_names and behind_dot and word not in CAMEL and word not in FIELDS:
            return word
        return table.get(word, word)

    return WORD.sub(one, text)


def camel(text):
    return RUST.sub(lambda m: CAMEL.get(m[0], m[0]), text)


def turned(path, text):
    if path.endswith(".antt"):
        return turn(text, TABLE, bool(re.search(r"/proofs/\w+/", path)))
    if path.endswith(".rt"):
        return camel(text)
    if path.endswith(".edit"):
        lines = text.split("\n")
        return "\n".join(turn(it, TABLE, True) if it.startswith(("old:", "new:")) else it for it in lines)
    if path.endswith(".md"):
        return SPAN.sub(lambda m: turn(m[0], TABLE), text)
    if path.endswith("docs/check"):
        return camel(text)
    return text


def main():
    changed = 0
    for folder, folders, files in os.walk(TOP):
        folders[:] = sorted(set(folders) - {".git", "out", "target", "tools"})
        for name in sorted(files):
            path = os.path.join(folder, name)
            if not name.endswith((".antt", ".rt", ".edit", ".md")) and not path.endswith("docs/check"):
                continue
            with open(path, encoding="utf-8") as f:
                text = f.read()
            new = turned(path, text)
            if new != text:
                changed += 1
                with open(path, "w", encoding="utf-8") as f:
                    f.write(new)
    print(f"respell: {len(TABLE)} names, {changed} files changed")


main()
