#!/usr/bin/env python3
"""Gives the repository's own definitions, lemmas and fields the spelling of snake case, and the crate `log` the name `callout_log`: in
crates/, its must-fail edits, the lists of faults in oracle/, and between backticks in the pages.

usage: respell.py [FOLDER]: the top of a checkout, this one where none is given; run once, straight after Rattle's own script port.py

The names stand in respell.txt beside this file, a line each: the old one, the new one. A name is replaced where it stands as a whole
word; in a comment only where it has a capital inside, since a word with dashes may be English there. Names of functions and files of
src/, strings, inputs and outputs keep their spelling.
"""

import os
import re
import subprocess
import sys

HERE = os.path.dirname(os.path.abspath(__file__))
ROOT = sys.argv[1] if len(sys.argv) > 1 else os.path.dirname(HERE)
NAMES = dict(line.split() for line in open(os.path.join(HERE, "respell.txt"), encoding="utf-8"))
WORD = re.compile(r"[A-Za-z_◌][\w'◌-]*")
PLAIN = re.compile(r"[a-z0-9_]+$")
COMMENT = {".antt": re.compile(r"(?:^|\s)--(?:\s|$)"), ".rt": re.compile(r"//")}
STRING = re.compile(r'b?"(?:[^"\\]|\\.)*"')


def spelled(text):
    """The text with its names respelled; a plain name before a dot is that of a function of src/."""
    return WORD.sub(lambda word: word.group(0) if PLAIN.match(word.group(0)) and text[word.end() : word.end() + 1] == "." else NAMES.get(word.group(0), word.group(0)), text)


def commented(text):
    """A comment with those names respelled that cannot be English."""
    return WORD.sub(lambda word: NAMES.get(word.group(0), word.group(0)) if re.search("[a-z][A-Z]", word.group(0)) else word.group(0), text)


def coded(text):
    """Code of src/ with its names respelled: a plain one is a function's."""
    return WORD.sub(lambda word: word.group(0) if PLAIN.match(word.group(0)) else NAMES.get(word.group(0), word.group(0)), text)


def with_strings(text):
    """Code with its names respelled, but for those in strings."""
    parts, last = [], 0
    for found in STRING.finditer(text):
        parts += [coded(text[last : found.start()]), found.group(0)]
        last = found.end()
    return "".join(parts) + coded(text[last:])


def line_of(line, ending):
    """One line, its code and its comment each by their rule."""
    found = COMMENT[ending].search(line)
    code, comment = (line[: found.start()], line[found.start() :]) if found else (line, "")
    return (with_strings if ending == ".rt" else spelled)(code) + commented(comment)


def crate_named(text):
    """The text with the crate `log` under its new name."""
    return re.sub(r"\b(Rattle[.·])log(?=[.·])", r"\1callout_log", re.sub(r"(?<![\w.:])log(?=::\w)", "callout_log", text))


def edited(text):
    """A must-fail edit or a list of faults, whose lines are code of both kinds."""
    lines = crate_named(text).replace("crates/log/", "crates/callout_log/").replace("Rattle·", "Rattle.").split("\n")
    return "\n".join(line if line.startswith("file:") else coded(line) for line in lines)


def paged(text):
    """A page with the names between its backticks respelled."""
    text = re.sub(r"\bcrates/log(?=[/`])", "crates/callout_log", text)
    return re.sub(r"`[^`\n]*`", lambda quoted: crate_named(coded(quoted.group(0))), text)


def rewrite(path, change):
    """Writes what a change makes of a file."""
    old = open(path, encoding="utf-8").read()
    new = change(old)
    if new != old:
        open(path, "w", encoding="utf-8").write(new)


def named(folder, ending):
    """The files below a folder with this ending, but for those of builds."""
    for at, folders, files in os.walk(folder):
        folders[:] = sorted(name for name in folders if name not in ("out", ".git", "target"))
        for name in sorted(files):
            if name.endswith(ending):
                yield os.path.join(at, name)


def main():
    crates = os.path.join(ROOT, "crates")
    if os.path.isdir(os.path.join(crates, "log")):
        subprocess.run(["git", "mv", "crates/log", "crates/callout_log"], cwd=ROOT, check=True)
    for ending in COMMENT:
        for path in named(crates, ending):
            rewrite(path, lambda text: "\n".join(line_of(line, ending) for line in crate_named(text).split("\n")))
    for path in [*named(crates, ".edit"), *named(os.path.join(ROOT, "oracle"), "-faults.txt")]:
        rewrite(path, edited)
    for path in [os.path.join(ROOT, "README.md"), *named(os.path.join(ROOT, "docs"), ".md")]:
        rewrite(path, paged)
    rewrite(os.path.join(ROOT, "crates.txt"), lambda text: re.sub(r"(?m)(^|(?<=[ ]))log(?=[: ]|$)", "callout_log", text))


main()
