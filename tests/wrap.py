#!/usr/bin/env python3
"""Wraps the prose of README.md and docs/ at 150 columns. Tables, code and what bench/report.py writes stay.

  tests/wrap.py [--check] [FILE..]     FILE is README.md, docs/*.md and docs/notes/*.md where none is named

With --check it changes nothing, names the files that it would change, and its status is 1 where there are some.
"""
import glob
import os
import re
import sys

WIDTH = 150
ITEM = re.compile(r"^( *)(- |\d+\. )")
# What would begin something else than prose at the start of a line.
STARTS = re.compile(r"^([-+*>|]|\d+\.|#+)$|^\||^#|^!\[")


def words_of(text):
    """The words of a paragraph. What stands in backticks is one word, and what may not begin a line stays with the word before it."""
    words, ticks = [], 0
    for word in text.split():
        if words and (ticks % 2 or STARTS.match(word)):
            words[-1] += " " + word
        else:
            words.append(word)
        ticks += word.count("`")
    return words


def wrapped(text, first, rest):
    """The lines of a paragraph, the first behind `first` and each other behind `rest`."""
    lines, line = [], first
    for word in words_of(text):
        if line.strip() and line not in (first, rest) and len(line) + 1 + len(word) > WIDTH:
            lines.append(line)
            line = rest
        line += word if line in (first, rest) else " " + word
    return lines + [line]


def wrap(text):
    done, block, fenced, tables = [], [], False, False

    def flush():
        if block:
            item = ITEM.match(block[0])
            first = item.group(0) if item else re.match(" *", block[0]).group(0)
            done.extend(wrapped(" ".join([block[0][len(first):]] + block[1:]), first, " " * len(first)))
            block.clear()

    for line in text.split("\n"):
        mark = line.startswith("<!--")
        if mark:
            tables = line.startswith("<!-- The tables from")
        if line.lstrip().startswith("```"):
            fenced = not fenced
        is_prose = not (fenced or tables or mark or not line.strip() or line.lstrip()[:3] == "```" or line[0] in "|#" or line.startswith("!["))
        if not is_prose or ITEM.match(line):
            flush()
        if is_prose:
            block.append(line)
        else:
            done.append(line)
    flush()
    return "\n".join(done)


def main():
    os.chdir(os.path.join(os.path.dirname(os.path.realpath(__file__)), ".."))
    check = "--check" in sys.argv
    files = [it for it in sys.argv[1:] if it != "--check"]
    changed = 0
    for name in files or ["README.md"] + sorted(glob.glob("docs/*.md") + glob.glob("docs/notes/*.md")):
        with open(name) as file:
            old = file.read()
        new = wrap(old)
        if new != old:
            changed += 1
            print(name)
            if not check:
                with open(name, "w") as file:
                    file.write(new)
    return 1 if check and changed else 0


sys.exit(main())
