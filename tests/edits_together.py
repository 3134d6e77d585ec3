#!/usr/bin/env python3
"""Tries must-fail edits together: those of different functions are made in one copy of their crate, which is checked once.

  tests/edits_together.py [--beside] [--jobs N] [NAME..]      crates; all that have edits where none is named

It tries those of tests/gate/NAME, with --beside those of tests/edits/NAME. An edit counts as refused where the prover says at a
line of the function that it edits that a goal isn't proved; one that lies in none (a constant, a statement) is tried alone, over
all of its crate. It works in a copy, over the libraries that `rt ci` or `rt check` built, has N checks beside each other (as
many as there are processors), and prints a line for each edit. The last line counts; the status is 0 where all are refused.
"""
import argparse
import contextlib
import importlib.util
import os
import re
import shutil
import subprocess
import sys
import tempfile
import threading
from concurrent.futures import ThreadPoolExecutor

from public_edits import LAWS, TOP, functions_of, pairs_of, places, sources


LAWS_BY_NAME = {it.split()[1] for it in LAWS}


def shown_owner(text, start, owner):
    """A type as a check names it: where an impl is of some of the type alone, its arguments stand in the name."""
    header = text[text.rfind("\nimpl", 0, start) + 1 : start].split("{")[0]
    arguments = re.search(r"> \w+<(.*<.*)> $", header)
    return "+".join([owner, *re.findall(r"\w+", arguments[1])]) if arguments else owner


class Function:
    def __init__(self, file, text, owner, trait, name, start, end):
        self.file, self.start, self.end, self.name = file, start, end, f"{owner}::{name}" if owner else name
        # The end of the name that a check prints: a method's stands under its type, with the trait behind it.
        parts = [it for it in file[len("src/") : -len(".rt")].split("/") if it not in ("lib", "main")]
        if trait == "From":
            trait += re.findall(r"^impl\b.*\bFrom<(\w+)", text[:start], re.M)[-1]
        shown = shown_owner(text, start, owner) if owner and not trait else owner
        self.path = f"{shown}{trait if trait and trait != owner else ''}::{name}" if owner else "::".join([*parts, name])
        # A check tells of a function at its first attribute.
        before = re.search(r"(?:^ *(?:#\[|//).*\n)*\Z", text[:start], re.M)
        self.first = text.count("\n", 0, before.start()) + 1
        self.last = text.count("\n", 0, end) + 1

    def holds(self, at):
        return any(file == self.file and self.start <= offset < self.end for file, offset in at)


def all_functions(folder):
    for path in sources(folder):
        text = open(path, encoding="utf-8").read()
        for owner, trait, name, _, start, _, end, _ in functions_of(path):
            yield Function(os.path.relpath(path, folder), text, owner, trait, name, start, end)


class Edit:
    """An edit of a crate: the functions in whose text it lies, or else the law whose statement it turns, and what it changes of each file."""

    def __init__(self, path, crate, folder, functions):
        self.label, self.spans, self.wrong, texts = f"{crate}/{os.path.basename(path)}", {}, None, {}
        at, _ = places(path, folder)
        laws = [f for f in functions if LAWS.get(f"{crate} {f.name}") == os.path.basename(path)[: -len(".edit")]]
        self.hit = [f for f in functions if f.holds(at)] or laws
        # A statement's definitions may be read by others too.
        self.is_shared = not self.hit or any(it.name in LAWS_BY_NAME for it in self.hit)
        for file, old, new in pairs_of(path):
            was = texts.setdefault(file, [open(f"{folder}/{file}", encoding="utf-8").read()] * 2)
            if was[1].count(old) != 1:
                self.wrong = f"its text is in {file} {was[1].count(old)} times"
            texts[file] = [was[0], was[1].replace(old, new)]
        for file, (was, made) in texts.items():
            same = len(os.path.commonprefix([was, made]))
            behind = len(os.path.commonprefix([was[same:][::-1], made[same:][::-1]]))
            self.spans[file] = same, len(was) - behind, made[same : len(made) - behind]

    def fits(self, other):
        """Whether both can be tried in one copy."""
        apart = lambda one, two: one[1] <= two[0] or two[1] <= one[0]
        places_differ = all(apart(self.spans[it], other.spans[it]) for it in set(self.spans) & set(other.spans))
        return places_differ and not (self.is_shared or other.is_shared or set(self.hit) & set(other.hit))


def rounds_of(name, room):
    """The edits of a crate that lie in a folder, in rows of those that are tried in one copy."""
    folder, rows = f"{TOP}/crates/{name}", []
    functions = list(all_functions(folder))
    for it in sorted(os.listdir(f"{room}/{name}")):
        edit = Edit(f"{room}/{name}/{it}", name, folder, functions)
        row = next((row for row in rows if all(edit.fits(other) for other in row)), None)
        if row is None:
            rows.append(row := [])
        row.append(edit)
    return rows


def make(edits, folder):
    """Makes edits that fit in the files of a copy."""
    for file in {file for edit in edits for file in edit.spans}:
        text = open(f"{folder}/{file}", encoding="utf-8").read()
        for at, end, new in sorted((edit.spans[file] for edit in edits if file in edit.spans), reverse=True):
            text = text[:at] + new + text[end:]
        with open(f"{folder}/{file}", "w", encoding="utf-8") as out:
            out.write(text)


def kit(name):
    """The toolchain's own module, which knows how a crate of a repository is checked, or None where it isn't as it was here."""
    path = os.path.join(os.path.dirname(os.path.realpath(shutil.which("rt"))), "rtlib.py")
    try:
        spec = importlib.util.spec_from_file_location("rtlib", path)
        sys.modules["rtlib"] = made = importlib.util.module_from_spec(spec)
        spec.loader.exec_module(made)
        crate = made.Crate(f"{TOP}/crates/{name}", TOP, {})
        crate.words(["--jobs", "1"], keeps=False)
        return made if all(isinstance(it.rlib, str) for it in crate.below()) and made.RATTLE and made.PARTS else None
    except (Exception, SystemExit) as why:  # another toolchain
        print(f"the toolchain's module can't be used ({why!r}): rt check proves the libraries first, in one copy of the repository")
        return None


ONE_COPY = threading.Lock()


@contextlib.contextmanager
def room_of(rtlib, copy, name):
    """A folder with a copy of a crate, and the words that check it there."""
    if rtlib:
        crate = rtlib.Crate(f"{TOP}/crates/{name}", TOP, {})
        with tempfile.TemporaryDirectory(prefix="nbdq-edits-") as folder:
            for part in rtlib.PARTS:
                if os.path.isdir(f"{crate.folder}/{part}"):
                    shutil.copytree(f"{crate.folder}/{part}", f"{folder}/{part}")
            yield folder, [rtlib.RATTLE, "check", *crate.words(["--jobs", "1"], keeps=False)]
        return
    folder = f"{copy}/crates/{name}"
    with ONE_COPY:
        yield folder, ["rt", "check", "--jobs", "1"]
        for part in ("src", "specs", "proofs"):
            shutil.rmtree(f"{folder}/{part}", ignore_errors=True)
            if os.path.isdir(f"{TOP}/crates/{name}/{part}"):
                shutil.copytree(f"{TOP}/crates/{name}/{part}", f"{folder}/{part}")


def try_row(kit_and_copy, name, row):
    """What each edit of a row comes to: None where it is refused, and else why not."""
    wrong = [(it, it.wrong) for it in row if it.wrong]
    row = [it for it in row if not it.wrong]
    if not row:
        return wrong
    with room_of(*kit_and_copy, name) as (folder, words):
        make(row, folder)
        words = [*words, *(word for it in sorted({f.path for edit in row for f in edit.hit}) for word in ("--only", it))]
        ran = subprocess.run(words, cwd=folder, stdin=subprocess.DEVNULL, stdout=subprocess.PIPE, stderr=subprocess.STDOUT, text=True, errors="replace")
        found = [(it, why_not(name, ran.stdout, it)) for it in row]
    if len(row) > 1 and all((why or "").startswith(NO_VERDICT) for _, why in found):
        # One of them hides what the others come to, or the check was killed.
        half = len(row) // 2
        found = [*try_row(kit_and_copy, name, row[:half]), *try_row(kit_and_copy, name, row[half:])]
    return [*wrong, *found]


NO_VERDICT = "the check gave no verdict: "


def why_not(name, said, edit):
    hit = edit.hit
    if not hit:
        return None if re.search(r"^logic=not-proved", said, re.M) else "still proved, or no verdict: " + said[-200:].replace("\n", " / ")
    if not re.search(r"^only=\d+ proved=\d+", said, re.M):
        return NO_VERDICT + " / ".join(it[:200] for it in said.split("\n") if "error" in it)[:400]
    # An edit's texts are one line each, so the lines are those of the crate as it is.
    for f in hit:
        told = re.findall(rf"^(?:note: )?(?:\./)?{re.escape(f.file)}:(\d+):\d+: (?:error|it is not proved)", said, re.M)
        # An answer by hand, or of what a statement is proved by a lemma, that proves its goal no longer, but for one that names what the edit took away.
        proofs = r"\S+" if edit.is_shared else rf"(?:\./)?proofs/(?:\w+/)*{re.escape(f.path.replace('::', '/'))}/\w+\.antt"
        by_hand = re.findall(rf"^{proofs}:\d+:\d+: error: (.*)", said, re.M)
        by_hand = [it for it in by_hand if not re.search("has no field|is not in scope|has no `|was not admitted", it)]
        is_proved = re.search(rf"^fn {name}::(?:\S+::)?{re.escape(f.path)}: proved", said, re.M)
        if not is_proved and (by_hand or any(f.first <= int(line) <= f.last for line in told)):
            return None
    return "still proved: " + ", ".join(f.path for f in hit)


def main():
    words = argparse.ArgumentParser(formatter_class=argparse.RawDescriptionHelpFormatter, description=__doc__)
    words.add_argument("--beside", action="store_true")
    words.add_argument("--jobs", type=int, default=len(os.sched_getaffinity(0)))
    words.add_argument("names", nargs="*")
    o = words.parse_args()
    room = f"{TOP}/tests/{'edits' if o.beside else 'gate'}"
    names = [it for it in o.names or sorted(os.listdir(room)) if os.path.isdir(f"{room}/{it}")]
    # The longest first, so that none is left alone at the end.
    rows = sorted(((name, row) for name in names for row in rounds_of(name, room)), key=lambda it: -len(it[1]))
    rtlib, failed, tried = kit(names[0]) if rows else None, 0, 0
    with tempfile.TemporaryDirectory(prefix="nbdq-copy-") as copy, ThreadPoolExecutor(o.jobs) as pool:
        if rows and not rtlib:
            subprocess.run(["cp", "-r", *(f"{TOP}/{it}" for it in ("crates.txt", "HANDLES", "crates")), copy], check=True)
        for found in pool.map(lambda it: try_row((rtlib, copy), *it), rows):
            for edit, why in found:
                tried, failed = tried + 1, failed + (why is not None)
                print(f"edit {edit.label}: {'NOT REFUSED: ' + why if why else 'refused, as it must be'}", flush=True)
    print(f"{tried - failed} edits refused, {failed} not")
    return 1 if failed else 0


if __name__ == "__main__":
    sys.exit(main())
