#!/usr/bin/env python3
"""Draws layers.svg: the crates in their layers, and the way of a request through them.

  layers.py FOLDER

It reads crates.txt, and ends with an error where a crate has no place here or stands on one above its own layer.
"""
import os, sys

HERE = os.path.dirname(os.path.abspath(__file__))
sys.path.insert(0, HERE)
from drawing import COLOURS, Drawing

# From the top. Each layer stands on those below it alone, and its crates on these and on each other.
LAYERS = [
    ("the program", ["nbdq"]),
    ("commands, scripts, files", ["nbdq_cli", "nbd_scripts", "nbd_config", "nbd_control"]),
    ("connections, threads", ["nbd_connection", "nbd_link", "nbd_service", "nbd_threads", "nbd_policy"]),
    ("turns under one lock", ["session_turns", "server_lock", "nbd_workers"]),
    ("one conversation", ["nbd_session", "nbd_options", "nbd_stream"]),
    ("many exports", ["server_core", "core_laws", "server_table", "turn_order"]),
    ("one export", ["export_cell", "step_log", "lone_export"]),
    ("its parts", ["nbd_commands", "export_queue", "export_store", "page_table", "number_sets", "reply_box", "eligibility"]),
    ("bytes, tags, words", ["nbd_wire", "payload", "tag_clock", "index_heap", "nbd_measures", "nbd_text", "nbd_base"]),
]
LEFT_OUT = {"refusing"}  # for tests alone
LAWS = {"core_laws", "server_table"}

# A request's way: the crate where a step is made, and what is done there.
WAY = [
    ("nbd_connection", "its connection's reader reads bytes from the socket"),
    ("nbd_wire", "the decoder makes requests of them"),
    ("turn_order", "the reader waits until its export's turn has come"),
    ("server_lock", "it takes the lock, and hands them in"),
    ("nbd_commands", "each is judged: refused by its case, or accepted"),
    ("tag_clock", "an accepted one gets its tags"),
    ("export_queue", "and waits behind the others of its export"),
    ("eligibility", "dispatch chooses: a due reservation first, then weight"),
    ("export_store", "it is performed on the export's bytes"),
    ("reply_box", "its reply waits in the box of its session"),
    ("session_turns", "the replies are taken, and the lock is given back"),
    ("nbd_connection", "reader or writer sends them to the socket"),
]
UNDER_LOCK = (4, 11)
PLAIN, EDGE, LAW = "#dcebf2", "#f6e3c5", "#e9e4f0"
LEFT, TOP, HIGH, GAP, NAME, WIDE = 200, 76, 46, 14, 118, 10


def crates():
    """What each crate stands on of this repository's, and those that wait, start threads or touch sockets."""
    stands, edge = {}, set()
    with open(os.path.join(HERE, "..", "crates.txt")) as it:
        for line in it:
            head, _, below = line.partition(":")
            if head and not head.startswith("#") and below:
                name, *counts = head.split()
                stands[name] = below.split()
                if any(it.startswith("may_wait") for it in counts):
                    edge.add(name)
    stands = {name: below for name, below in stands.items() if not name.endswith("_tests") and name not in LEFT_OUT}
    return stands, edge


def check(stands):
    layer = {name: n for n, (_, names) in enumerate(LAYERS) for name in names}
    wrong = ["%s has no place in layers.py" % name for name in stands if name not in layer]
    wrong += ["%s is no crate any more" % name for name in layer if name not in stands]
    wrong += ["%s stands on %s, which is drawn above it" % (name, it) for name, below in stands.items() for it in below if layer.get(it, 99) < layer.get(name, 0)]
    if wrong:
        sys.exit("\n".join(wrong))


def main():
    stands, edge = crates()
    check(stands)
    boxes = max(len(names) for _, names in LAYERS)
    right = LEFT + boxes * (NAME + WIDE) + 60
    bottom = TOP + len(LAYERS) * (HIGH + GAP)
    d = Drawing(right + 400, bottom + 44, "nbdq: its layers, and a request's way through them")
    place = {}
    for n, (title, names) in enumerate(LAYERS):
        y = TOP + n * (HIGH + GAP)
        d.text(LEFT - 14, y + HIGH / 2 + 5, title, anchor="end", bold=True)
        for i, name in enumerate(names):
            x = LEFT + i * (NAME + WIDE)
            place[name] = (x, y)
            d.bar(x, y, NAME, HIGH, EDGE if name in edge or name == "nbdq" else LAW if name in LAWS else PLAIN)
            d.text(x + NAME / 2, y + HIGH / 2 + 9, name, anchor="middle", size=12)
    d.text(right, TOP + 4, "A request's way", size=15, bold=True)
    row_of = lambda number: TOP + 34 + (number - 1) * 36
    d.line(right + 10, row_of(1), right + 10, row_of(len(WAY)), COLOURS[1], 2)
    first, last = map(row_of, UNDER_LOCK)
    d.bar(right - 14, first - 12, 5, last - first + 24, "#b08900")
    d.text(right - 22, (first + last) / 2, "while the lock is held", anchor="middle", size=12, colour="#8a6d00", turn=-90)
    at = {}
    for n, (name, what) in enumerate(WAY):
        x, y = place[name]
        d.number(x + 12 + 24 * at.get(name, 0), y + 10, n + 1, COLOURS[1])
        at[name] = at.get(name, 0) + 1
        d.number(right + 10, row_of(n + 1), n + 1, COLOURS[1])
        d.text(right + 28, row_of(n + 1) + 5, what)
    for i, (colour, what) in enumerate(((PLAIN, "proved, touches nothing"), (LAW, "definitions and laws of them"), (EDGE, "waits, starts threads or uses sockets"))):
        d.bar(LEFT + i * 250, bottom + 6, 18, 18, colour)
        d.text(LEFT + 26 + i * 250, bottom + 20, what)
    os.makedirs(sys.argv[1], exist_ok=True)
    d.write(os.path.join(sys.argv[1], "layers.svg"))


if __name__ == "__main__":
    main()
