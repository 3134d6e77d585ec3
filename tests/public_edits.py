#!/usr/bin/env python3
"""Which public functions have an edit in their own body: in the gate, which are those of crates/NAME/must-fail and tests/gate/NAME,
and beside it, in tests/edits/NAME.

  tests/public_edits.py [NAME..]          the public functions that have none, and edits whose text is stale
  tests/public_edits.py --all [NAME..]    each public function with its edits, then the edits that lie in none

It reads the sources by their braces, and knows no macros. A public function is a `pub fn` that the root file exports, alone or
by its type, or a method of a trait that an exported type implements. A law, whose body is empty, has an edit of its statement.
Its status is 1 where one has no edit and no reason below, or an edit's text is stale.
"""
import os
import re
import sys

TOP = os.path.dirname(os.path.dirname(os.path.abspath(__file__)))
# Which edit turns the statement of a law, where that stands in specs/.
LAWS = {
    "core_laws projection": "told_as_the_first",
    "core_laws two_worlds": "ends_as_the_others",
    "core_laws locality": "others_take_the_part",
    "core_laws queue_refusal": "window_for_depth",
    "core_laws weight_waits_for_its_limit": "chosen_was_out",
    "core_laws limit_tags_unrolled": "tags_of_the_first",
    "core_laws heads_suffice": "one_more_out",
    "core_laws choice_count": "not_one_at_once",
    "core_laws left_out": "marks_of_nothing",
    "core_laws reservations_first": "reservation_of_a_served_request",
    "core_laws shares": "between_one_fewer",
    "core_laws worked_runs": "lower_weight_second",
    "core_laws worked_shares": "one_more_than_the_bound",
    "lone_export steps_to_come": "end_is_counted",
    "lone_export limit_tags_unrolled": "tags_by_weight",
    "nbd_base sums_fit": "one_bit_more",
    "nbd_session one_conversation": "text_begins_with_the_longer",
    "nbd_session requests_are_plain": "counted_from_the_second",
    "nbd_session handshake_is_haggled": "flags_of_three_bytes",
    "nbd_session asked_at_the_end": "given_before_the_last",
    "server_table choice_of_first_requests": "one_may_be_out",
    "server_table steps_of_rates": "retune_while_waiting",
    "session_turns replies_in_order": "taken_before_those_that_wait",
    "turn_order given_by_weight": "head_start_not_counted",
    "turn_order step_of_weight": "every_weight_divides",
    "turn_order late_goes_first": "absent_late_one_waited_for",
    "turn_order none_is_stuck": "one_goes_where_none_is_at_hand",
    "turn_order left_alone": "left_with_one_session_more",
    "turn_order little_is_owed": "owed_half_of_it",
}

ONE_FIELD = "it lends the one field of its type"
ONE_VALUE = "its type has one value"
NO_MEMORY = "an empty list: any other takes memory"
NO_OTHER = "its crate can make no other"
CONTRACT_ALONE = "it does nothing: its contract alone says something"
MADE_OF = "it hands out what it was made of"
GUARD = "it hands out the one server under the lock"
OUT_OF_VIEW = "the view of its type doesn't tell of the tally"

# Which functions have no edit, and why.
NONE = {
    "export_cell ExportCell::live": ONE_FIELD,
    "export_cell ExportCell::base": ONE_FIELD,
    "export_cell ExportCell::entries": ONE_FIELD,
    "step_log Log::groups": ONE_FIELD,
    "step_log Log::rest": ONE_FIELD,
    "export_cell ExportCell::laws": CONTRACT_ALONE,
    "export_cell Outdated::with_room": NO_OTHER,
    "export_queue ExportQueue::laws": CONTRACT_ALONE,
    "lone_export Lone::image": ONE_FIELD,
    "lone_export Lone::laws": CONTRACT_ALONE,
    "nbd_base <NoMemory as From>::from": ONE_VALUE,
    "nbd_commands ExportList::new": NO_MEMORY,
    "nbd_options ExportTable::new": NO_MEMORY,
    "nbd_wire Reply::content": ONE_FIELD,
    "nbd_wire Request::payload": ONE_FIELD,
    "payload Page::as_bytes": ONE_FIELD,
    "payload Page::into_bytes": MADE_OF,
    "payload Swept::new": NO_MEMORY,
    "nbd_stream Counted::into_inner": MADE_OF,
    "number_sets HeldZeros::none": NO_MEMORY,
    "page_table Table::new": NO_MEMORY,
    "session_turns Door::into_pass": MADE_OF,
    "session_turns ReplyWriter::into_writer": MADE_OF,
    "reply_box ReplyBox::laws": CONTRACT_ALONE,
    "server_lock Booked::note_hold": OUT_OF_VIEW,
    "server_lock Booked::set_tally": OUT_OF_VIEW,
    "server_lock Booked::tally": OUT_OF_VIEW,
    "server_lock ExportTally::waits": ONE_FIELD,
    "server_lock Tally::new": NO_MEMORY,
    "server_lock Shared::hold": GUARD,
    "server_lock Shared::try_hold": GUARD,
    "server_lock Shared::end": GUARD,
    "server_lock Booked::server": ONE_FIELD,
    "server_lock Booked::kept": CONTRACT_ALONE,
    "nbd_link <Feed as Read>::read": "no contract: it reads a socket",
    "nbd_threads <HoldClock as Clock>::now": "no contract: it reads a clock",
    "nbd_threads <RunningClock as Clock>::now": "no contract: it reads a clock",
    "nbd_service <WorkerGate as Clock>::now": "no contract: it reads a clock",
    "nbd_service <WorkerGate as Gate>::done": "no contract",
    "nbd_service <WorkerGate as Gate>::idle": "no contract",
    "nbd_workers <Sleeper as Clock>::now": "no contract",
    "nbd_workers <Sleeper as Gate>::pass": "no contract",
    "nbd_workers <Sleeper as Gate>::done": "no contract",
    "nbd_workers <Sleeper as Gate>::idle": "no contract",
    "refusing <Refusing as Drop>::drop": "no contract",
}

WORD = re.compile(r"[A-Za-z_]\w*")


def blanked(text):
    """The text with its comments, strings and chars as spaces."""
    token = re.compile(r"//[^\n]*|b?\"(?:\\.|[^\"\\])*\"|b?'(?:\\.[^']*|[^'\\])'", re.S)
    return token.sub(lambda it: re.sub(r"[^\n]", " ", it[0]), text)


def end_of(text, start):
    depth = 0
    for at in range(start, len(text)):
        depth += {"{": 1, "}": -1}.get(text[at], 0)
        if depth == 0 and text[at] == "}":
            return at + 1
    return len(text)


def type_of(head):
    """The names of an impl's trait, or none, and of its type."""
    while True:
        less = re.sub(r"<[^<>]*>", "", head)
        if less == head:
            break
        head = less
    parts = re.split(r"\bfor\b", re.sub(r"\bwhere\b.*", "", head, flags=re.S))
    last = [WORD.findall(it)[-1] if WORD.findall(it) else "" for it in parts]
    return (last[0], last[1]) if len(parts) == 2 else (None, last[0])


class Function:
    def __init__(self, file, start, end, label, public, has_contract):
        self.file, self.start, self.end, self.label, self.public, self.has_contract = file, start, end, label, public, has_contract
        self.gate, self.beside = [], []

    def holds(self, file, offset):
        return file == self.file and self.start <= offset < self.end


def functions_of(path):
    """Each function outside tests: (owner, trait, name, its `pub`, start, start of the body, end, whether it has an ensures)."""
    text = blanked(open(path, encoding="utf-8").read())
    skipped = []
    for it in re.finditer(r"#\[cfg\(test\)\]\s*mod \w+ \{", text):
        skipped.append((it.start(), end_of(text, it.end() - 1)))
    blocks = []
    for it in re.finditer(r"^(?:unsafe )?impl\b(.*?)\{", text, re.M | re.S):
        head = re.sub(r"^\s*<(?:[^<>]|<(?:[^<>]|<[^<>]*>)*>)*>", "", it[1])
        blocks.append((it.start(), end_of(text, it.end() - 1), *type_of(head)))
    for it in re.finditer(r"^pub trait (\w+)[^{]*\{", text, re.M):
        blocks.append((it.start(), end_of(text, it.end() - 1), it[1], it[1]))
    found = []
    for it in re.finditer(r"^( *)(pub(?:\([^)]*\))? )?(?:const )?(?:unsafe )?fn (\w+)", text, re.M):
        if any(a <= it.start() < b for a, b in skipped):
            continue
        block = next(((t, ty) for a, b, t, ty in blocks if a <= it.start() < b), (None, None))
        # The body's brace is the first after the signature and its clauses at the function's own indent, or on its one line.
        indent = it[1]
        marks = re.compile(rf"^{indent}\{{|^{indent}\) (?:-> [^{{;\n]*)?\{{$|;\n", re.M).finditer(text, it.end())
        # A semicolon within a clause's braces ends no signature.
        body = next((m for m in marks if m[0] != ";\n" or text.count("{", it.end(), m.start()) <= text.count("}", it.end(), m.start())), None)
        line = text[it.start() : text.index("\n", it.start())]
        if line.endswith("{"):
            start = it.start() + len(line) - 1
        elif body and text[body.end() - 1] == "{":
            start = body.end() - 1
        else:
            continue
        has_contract = "ensures" in text[it.start() : start]
        found.append((block[1], block[0], it[3], (it[2] or "").strip(), it.start(), start, end_of(text, start), has_contract))
    return found


def exported(folder):
    """The names that the root file exports."""
    root = f"{folder}/src/lib.rt"
    if not os.path.isfile(root):
        return set()
    names, files, done = set(), [root], set()
    while files:
        path = files.pop()
        if path in done:
            continue
        done.add(path)
        text = blanked(open(path, encoding="utf-8").read())
        for it in re.finditer(r"^pub use ([^;]+);", text, re.M):
            names |= set(re.findall(r"(\w+)(?=\s*[,}]|\s*$)", it[1]))
        for it in re.finditer(r"^pub (?:fn|struct|enum|trait|const) (\w+)", text, re.M):
            names.add(it[1])
        for it in re.finditer(r"^pub mod (\w+);", text, re.M):
            base = os.path.dirname(path) if path == root else path[:-3]
            files.append(f"{base}/{it[1]}.rt")
    return names


def sources(folder):
    for at, folders, files in os.walk(f"{folder}/src"):
        folders[:] = sorted(it for it in folders if it != "tests")
        for name in sorted(files):
            if name.endswith(".rt") and name != "tests.rt" and not name.endswith("_tests.rt"):
                yield f"{at}/{name}"


def pairs_of(edit):
    """The file, the old text and the new one of each pair of an edit."""
    path, old = "", None
    for line in open(edit, encoding="utf-8").read().split("\n"):
        if line.startswith("file: "):
            path = line[6:].strip()
        elif line.startswith("old: "):
            old = line[5:]
        elif line.startswith("new:") and old is not None:
            yield path, old, line[5:]
            old = None


def places(edit, folder):
    """Where the edit lies: (file, offset) of each of its texts in the file as it is, and what can't be found."""
    texts, found, bad = {}, [], []
    for path, old, new in pairs_of(edit):
        if path not in texts:
            text = open(f"{folder}/{path}", encoding="utf-8").read() if os.path.isfile(f"{folder}/{path}") else ""
            texts[path] = [text, text]
        if texts[path][1].count(old) != 1:
            bad.append(f"an 'old:' text is in {path} {texts[path][1].count(old)} times")
        texts[path][1] = texts[path][1].replace(old, new)
        at = texts[path][0].find(old)
        # What matters is the text's first letter: its indent may stand before the function.
        found.append((path, at + len(old) - len(old.lstrip()) if at >= 0 else -1))
    return found, bad


def main(words):
    tells_all = "--all" in words
    names = [it for it in words if it != "--all"] or sorted(os.listdir(f"{TOP}/crates"))
    missing = 0
    for name in names:
        folder = f"{TOP}/crates/{name}"
        public = exported(folder)
        functions = []
        for path in sources(folder):
            short = os.path.relpath(path, folder)
            for owner, trait, fn, vis, start, body, end, has_contract in functions_of(path):
                label = f"{owner}::{fn}" if owner else fn
                if trait is not None and trait != owner:
                    label = f"<{owner} as {trait}>::{fn}"
                is_public = (owner or fn) in public and (vis == "pub" or trait is not None)
                functions.append(Function(short, start, end, label, is_public, has_contract or trait is not None))
        outside = []
        for room in (f"{folder}/must-fail", f"{TOP}/tests/gate/{name}", f"{TOP}/tests/edits/{name}"):
            in_gate = "/tests/edits/" not in room
            for it in sorted(os.listdir(room)) if os.path.isdir(room) else []:
                at, bad = places(f"{room}/{it}", folder)
                missing += len(bad)
                for why in bad:
                    print(f"{name}/{it}: STALE: {why}")
                hit = [f for f in functions if any(f.holds(*place) for place in at)]
                for f in hit:
                    (f.gate if in_gate else f.beside).append(it[:-5])
                if not any(f.public for f in hit):
                    where = ", ".join(f.label for f in hit) or ", ".join(sorted({path for path, _ in at}))
                    outside.append(f"{'gate' if in_gate else 'beside'}: {it[:-5]} in {where}")
        for f in functions:
            if not f.public:
                continue
            law = LAWS.get(f"{name} {f.label}")
            if law and any(os.path.isfile(f"{room}/{law}.edit") for room in (f"{folder}/must-fail", f"{TOP}/tests/gate/{name}")):
                f.gate.append(f"{law} (its statement)")
            elif law and os.path.isfile(f"{TOP}/tests/edits/{name}/{law}.edit"):
                f.beside.append(f"{law} (its statement)")
            why = NONE.get(f"{name} {f.label}") or (None if f.has_contract else "no contract")
            has_none = not f.gate and not f.beside and not why
            if tells_all or has_none:
                print(f"{name}  {f.label}  gate: {', '.join(f.gate) or why or 'NONE'}; beside: {', '.join(f.beside) or '-'}")
            missing += has_none
        if tells_all:
            for it in outside:
                print(f"{name}  no public function: {it}")
    return 1 if missing else 0


if __name__ == "__main__":
    sys.exit(main(sys.argv[1:]))
