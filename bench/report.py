#!/usr/bin/env python3
"""Writes the figures of measure.py's JSON as Markdown tables.

  report.py FILE.. > tables.md
  report.py --into DOCUMENT FILE..      in the place of what stands between the lines BEGIN and END of a document
  report.py --check DOCUMENT FILE..     whether just these tables stand there

Each figure is the median of its rounds; behind ± stands half of what lies between the least and the greatest, in parts of
100. A ratio is to the best of the peers.
"""
import contextlib, io, json, math, statistics, sys

BEGIN = "<!-- The tables from here on are made by bench/report.py. -->"
END = "<!-- The tables end here. -->"

PEERS = ("nbdkit", "nbd-server", "qemu-nbd")
BUSY = 1.0  # more threads ready to run than this, over the minute before, are other work
UNITS = {"a_second": "requests a second", "mib_a_second": "MiB a second", "processor_us": "us of processor time a request"}


def runs_of(files):
    found = []
    for name in files:
        with open(name) as it:
            found.append(json.load(it))
    return found


def about(run):
    servers = "; ".join("%s: %s" % it for it in run["servers"].items())
    print("%s, Linux %s, %d processors (%s). %s." % (run["date"], run["kernel"], run["processors"], run["processor"], servers))
    print("%d rounds of %g s, the servers in turn; %.1f threads were ready to run before it began.\n" % (run["rounds"], run["seconds"], run["load_before"]))
    if "again" in run:
        print("%d rounds were measured again, since other machines of the host took more than 3 in 100 of the processors' time meanwhile; in the rounds that count they took %.1f in 100.\n" % (run["again"], 100 * run["stolen"]))
    if run["load_before"] > BUSY:
        print("**The machine was busy in the minute before it began.** Where that went on beside it, these tables show what is measured, and compare servers poorly.\n")


def middle(figure):
    return statistics.median(figure["values"])


def shown(value):
    return "%.2f" % value if value < 10 else "%.1f" % value if value < 100 else format(round(value), ",")


def spread(figure):
    values = figure["values"]
    return " ±%d" % round(50 * (max(values) - min(values)) / middle(figure)) if len(values) > 1 and middle(figure) else ""


def table(head, rows):
    if rows:
        print("| " + " | ".join(head) + " |")
        print("|" + "---|" * len(head))
        for row in rows:
            print("| " + " | ".join(row) + " |")
        print()


def ordered(figures, key):
    seen = []
    for it in figures:
        if it[key] not in seen:
            seen.append(it[key])
    return seen


def in_columns(figures, row_keys, least_is_best=False):
    """Rows by some keys, a column for each server, and the ratio to the best peer."""
    servers, rows, order = ordered(figures, "server"), {}, []
    for it in figures:
        key = tuple(str(it[k]) for k in row_keys)
        if key not in rows:
            order.append(key)
        rows.setdefault(key, {})[it["server"]] = it
    best = min if least_is_best else max
    out = []
    for key in order:
        peers = [middle(it) for name, it in rows[key].items() if name in PEERS]
        cells = []
        for name in servers:
            it = rows[key].get(name)
            ratio = " (%.2f)" % (middle(it) / best(peers)) if it and peers and name not in PEERS and best(peers) else ""
            cells.append(shown(middle(it)) + ratio + spread(it) if it else "")
        out.append([*key, *cells])
    return servers, out


def throughput(figures):
    for transport in ordered(figures, "transport"):
        for connections, exports in sorted({(it["connections"], it["exports"]) for it in figures}):
            mine = [it for it in figures if (it["transport"], it["connections"], it["exports"]) == (transport, connections, exports)]
            mine = [it for it in mine if it["unit"] != "processor_us"]
            servers, rows = in_columns(mine, ("work",))
            many = "%d connection%s to %d export%s" % (connections, "s" * (connections > 1), exports, "s" * (exports > 1))
            print("### %s, %s\n" % (many, {"unix": "Unix socket", "tcp": "TCP"}[transport]))
            print("4 KiB: requests a second; longer: MiB a second.\n")
            table(["Work", *servers], rows)


def compared(figures, rows, where):
    """The medians of two programs, and the median of the first by the second in the same round, the greater the better."""
    servers, out = ordered(figures, "server"), []
    for key in ordered(figures, rows):
        found = {it["server"]: it for it in figures if it[rows] == key}
        if len(found) == 2:
            one, two = (found[it] for it in servers)
            ratios = sorted(a / b if b else 0 for a, b in zip(one["values"], two["values"]))
            if one["unit"] == "processor_us":
                ratios = sorted(1 / it if it else 0 for it in ratios)
            out.append((statistics.median(ratios), [key, shown(middle(one)), shown(middle(two)), "%.2f (%.2f to %.2f)" % (statistics.median(ratios), ratios[0], ratios[-1])]))
    if out:
        print("### %s\n" % where)
        table([rows.capitalize(), *servers, "The first by the second"], [row for _, row in out])
        mean = math.exp(sum(math.log(max(it, 1e-9)) for it, _ in out) / len(out))
        print("The least is %.2f, the geometric mean %.2f.\n" % (min(it for it, _ in out), mean))


def turns(figures):
    print("4 KiB: requests a second; longer: MiB a second. A ratio is the median of those of the rounds, with the least and the greatest; of processor time it is the second's by the first's.\n")
    for transport in ordered(figures, "transport"):
        for connections in sorted({it["connections"] for it in figures}):
            mine = [it for it in figures if (it["transport"], it["connections"]) == (transport, connections)]
            where = "%d connection%s, %s" % (connections, "s" * (connections > 1), {"unix": "Unix socket", "tcp": "TCP"}[transport])
            compared([it for it in mine if it["unit"] != "processor_us"], "work", where)
            compared([it for it in mine if it["unit"] == "processor_us"], "work", where + ", us of processor time a request")


def latency(figures):
    for transport in ordered(figures, "transport"):
        where = {"unix": "Unix socket", "tcp": "TCP"}[transport]
        for unit, name in (("p50_us", "Median"), ("p99_us", "99 of 100"), ("p999_us", "999 of 1,000")):
            mine = [it for it in figures if it["unit"] == unit and it["transport"] == transport]
            servers, rows = in_columns(mine, ("flood",), least_is_best=True)
            print("### %s of a paced client's waits, in us, %s\n" % (name, where))
            table(["Beside a flood of", *servers], rows)
        mine = [it for it in figures if it["unit"] == "flood_mib_a_second" and it["transport"] == transport]
        servers, rows = in_columns(mine, ("flood",))
        print("### What the floods came to, in MiB a second, %s\n" % where)
        table(["A flood of", *servers], rows)
        isolation([it for it in figures if it["unit"] == "p99_us" and it["transport"] == transport], where)


def isolation(figures, where):
    """How many times as long 99 of 100 waits are beside each flood as alone."""
    servers, waits = ordered(figures, "server"), {(it["server"], it["flood"]): middle(it) for it in figures}
    floods = [it for it in ordered(figures, "flood") if it != "nothing"]
    rows = [[flood, *(shown(waits[it, flood] / waits[it, "nothing"]) for it in servers)] for flood in floods]
    print("### Isolation: 99 of 100 waits beside a flood, by those of the client alone, %s\n" % where)
    table(["Beside a flood of", *servers], rows)


def shares(figures):
    for server in ordered(figures, "server"):
        rows = []
        for case in ordered(figures, "case"):
            mine = sorted((it for it in figures if it["case"] == case and it["server"] == server), key=lambda it: it["export"])
            if mine:
                first = middle(mine[0])
                given = [shown(middle(it)) + spread(it) for it in mine]
                ratio = ":".join("%.2f" % (middle(it) / first) if first else "-" for it in mine)
                rows.append([case, ", ".join(given), ratio, UNITS[mine[0]["unit"]]])
        print("### %s\n" % server)
        table(["Exports", "Each is given", "By the first", "In"], rows)


SLICE, RUN, CALM = 5, 3, 40  # ms of a slice; slices that are looked at together; slices that are left out behind an event
OF_CHANGES = """An export that starts **has its share** at the end of the first slice of 5 ms in which its part of all requests is three quarters or more of its later part (that from 0.2 s behind the start to the
next event), and with the two slices behind it within 25 in 100 of that. The others **have the share of one that stops** at the end of the first slice in which they are given three quarters or more, in it and with the two
slices behind it, of what they are given more later (from 0.2 s behind the stop to the next event) than before (from 0.2 s behind the event before). So 5 ms are the least that can be told; what the client of one that stops still had under way is answered in them. "Has come after" is the
median of the rounds, with the least and the greatest; rates are requests a second over the times named, medians of the rounds.
"""


def first_slice(begin, end, enough, right):
    """How many ms behind slice `begin` the first slice ends that has enough, and that is right with those behind it."""
    found = (i for i in range(begin, end - RUN + 1) if enough(i, i + 1) and right(i, i + RUN))
    return (next(found, math.inf) + 1 - begin) * SLICE


def change(kind, slices, mine, times):
    """One event in one round: the rate before and later (its own, or that of the others), that of all before and later, and the ms."""
    last, now, end = times
    everyone = [sum(it) for it in zip(*slices)]
    others = [a - b for a, b in zip(everyone, slices[mine])]
    mean = lambda of, begin, until: statistics.mean(of[begin:until])
    both = lambda of: [mean(of, last + CALM, now), mean(of, now + CALM, end)]
    if kind == "starts":
        whose, part = slices[mine], lambda begin, until: sum(slices[mine][begin:until]) / max(sum(everyone[begin:until]), 1)
        wanted = part(now + CALM, end)
        took = first_slice(now, end, lambda *at: part(*at) >= wanted * 3 / 4, lambda *at: abs(part(*at) - wanted) <= wanted / 4)
    else:
        whose, (before, later) = others, both(others)
        enough = lambda *at: mean(others, *at) >= before + (later - before) * 3 / 4
        took = first_slice(now, end, enough, enough)
        took = None if later < 1.05 * before else took  # they are given no more: there is nothing to wait for
    return [it * 1000 / SLICE for it in both(whose) + both(everyone)], took


def in_ms(all_took):
    seen = [it for it in all_took if it is not None]
    if 2 * len(seen) <= len(all_took):
        return "they are given no more"
    named = lambda it: "never" if it == math.inf else "%g" % it
    return named(statistics.median(seen)) + (" (%s to %s)" % (named(min(seen)), named(max(seen))) if len(seen) > 1 else "")


def changes(figures):
    print(OF_CHANGES)
    for server in ordered(figures, "server"):
        mine = sorted((it for it in figures if it["server"] == server), key=lambda it: it["export"])
        rounds = list(zip(*(it["values"] for it in mine)))
        per_second = 1000 // SLICE
        times = sorted({0, len(rounds[0][0])} | {round(it[at] * per_second) for it in mine for at in ("start", "end")})
        rows = []
        for last, now, end in zip(times, times[1:], times[2:]):
            for kind, at, wanted in (("stops", "end", 10), ("starts", "start", 50)):
                for i in (i for i, it in enumerate(mine) if round(it[at] * per_second) == now):
                    seen = [change(kind, slices, i, (last, now, end)) for slices in rounds]
                    rates = [statistics.median(it) for it in zip(*(rates for rates, _ in seen))]
                    settings = mine[i]["settings"].replace("\n", ", ").replace(" = ", " ")
                    before, later, all_before, all_later = (format(round(it), ",") for it in rates)
                    rows.append([
                        "%g s" % (now / per_second), "%d (%s) %s" % (i, settings, kind),
                        ("the others: " if kind == "stops" else "") + "%s to %s" % (before, later),
                        "%s to %s" % (all_before, all_later), in_ms([took for _, took in seen]), str(wanted),
                    ])
        print("### %s\n" % server)
        table(["At", "Export", "Its rate, or that of the others", "That of all", "Has come after, ms", "Wanted, ms"], rows)


def memory(figures):
    servers, rows = in_columns(figures, ("when",), least_is_best=True)
    table(["A disk of 256 MiB", *servers], rows)


PARTS = [
    ("Throughput", "throughput", throughput),
    ("A paced client beside floods", "latency", latency),
    ("Shares", "shares", shares),
    ("Reservations", "reservations", shares),
    ("Limits", "limits", shares),
    ("An export that stops or starts", "timeline", changes),
    ("Memory, in MiB", "memory", memory),
    ("What turns cost", "turns", turns),
]


def write_all(files):
    runs = runs_of(files)
    for run in runs:
        about(run)
    for title, part, write in PARTS:
        mine = [it for run in runs for it in run["figures"] if it["part"] == part]
        if mine:
            print("## %s\n" % title)
            write(mine)


def main():
    words = sys.argv[1:]
    if len(words) < (3 if words[:1] in (["--into"], ["--check"]) else 1):
        sys.exit(__doc__)
    if words[0] not in ("--into", "--check"):
        return write_all(words)
    document, tables = words[1], io.StringIO()
    with contextlib.redirect_stdout(tables):
        write_all(words[2:])
    with open(document) as it:
        old = it.read()
    if old.count(BEGIN) != 1 or old.count(END) != 1 or old.index(BEGIN) > old.index(END):
        sys.exit("%s has to have these lines once each, in this order:\n%s\n%s" % (document, BEGIN, END))
    before, _, rest = old.partition(BEGIN)
    new = before + BEGIN + "\n\n" + tables.getvalue() + END + rest.partition(END)[2]
    if words[0] == "--check":
        sys.exit(None if new == old else "%s has other tables" % document)
    with open(document, "w") as it:
        it.write(new)


if __name__ == "__main__":
    main()
