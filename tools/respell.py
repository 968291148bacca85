#!/usr/bin/env python3
# Respells the repository's own definitions and lemmas, as tools/respell.tsv lists them: old name, tab, new name.
#
# Run once at the top, behind the toolchain's own port script. A name is respelled where it stands as a whole word in
# specs/, proofs/ and the clauses of src/, but not behind `c.`, where the checker's own names stand, nor in comments or
# text; in README.md and docs/ it is respelled between backticks.
import glob
import os
import re

HERE = os.path.dirname(os.path.abspath(__file__))
WORD = re.compile(r"(?<!\bc\.)(?<![^\s(){},.;:⌜⌝«»|])([^\s(){},.;:⌜⌝«»|]+)")
PAGE_WORD = re.compile(r"[^\s(){},.;:`|]+")


def read_names():
    with open(os.path.join(HERE, "respell.tsv"), encoding="utf-8") as table:
        return dict(line.rstrip("\n").split("\t") for line in table)


def respelled(text, word, names):
    return word.sub(lambda m: names.get(m.group(0), m.group(0)), text)


def turn_code(text, mark, names):
    lines = []
    for line in text.split("\n"):
        at = line.find(mark)
        code, rest = (line, "") if at < 0 else (line[:at], line[at:])
        parts = code.split('"')
        parts[::2] = [respelled(part, WORD, names) for part in parts[::2]]
        lines.append('"'.join(parts) + rest)
    return "\n".join(lines)


def turn_page(text, names):
    return re.sub(r"`[^`\n]+`", lambda m: respelled(m.group(0), PAGE_WORD, names), text)


def turn_file(path, turn):
    with open(path, encoding="utf-8") as file:
        old = file.read()
    new = turn(old)
    if new != old:
        with open(path, "w", encoding="utf-8") as file:
            file.write(new)


def main():
    names = read_names()
    for path in glob.glob("crates/*/*/**/*.antt", recursive=True):
        turn_file(path, lambda text: turn_code(text, "--", names))
    for path in glob.glob("crates/*/src/**/*.rt", recursive=True):
        turn_file(path, lambda text: turn_code(text, "//", names))
    for path in ["README.md", *glob.glob("docs/*.md")]:
        turn_file(path, lambda text: turn_page(text, names))


main()
