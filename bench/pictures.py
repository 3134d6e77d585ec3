#!/usr/bin/env python3
"""Draws the pictures of docs/img from measure.py's JSON, as SVG.

  pictures.py FILE.. FOLDER

It writes shares.svg, latency.svg and throughput.svg, each of which needs its part of the figures.
"""
import json, math, os, statistics, sys

sys.path.insert(0, os.path.dirname(os.path.abspath(__file__)))
from drawing import COLOURS, Drawing

def in_words(settings):
    return settings.replace("\n", ", ").replace(" = ", " ")


def promised(it):
    """The reservation and the limit of an export, by name."""
    pairs = (line.split(" = ") for line in it["settings"].split("\n"))
    return [(word, float(rate)) for word, rate in pairs if word in ("reservation", "limit")]


class Panel:
    """A part of the picture that has rates over time, up to some rate."""

    def __init__(self, d, seconds, left, right, top, bottom, most):
        self.d, self.left, self.right, self.top, self.bottom, self.most, self.seconds = d, left, right, top, bottom, most, seconds
        step = 10 ** math.floor(math.log10(most / 2))
        step = next(step * k for k in (1, 2, 5, 10) if most / (step * k) <= 6)
        for i in range(int(most / step) + 1):
            d.line(left, self.y_of(i * step), right, self.y_of(i * step))
            d.text(left - 8, self.y_of(i * step) + 4, "%d k" % round(i * step / 1000), anchor="end")
        for t in range(int(seconds) + 1):
            d.text(self.x_of(t), bottom + 18, "%d s" % t, anchor="middle")
        self.name = "to%d" % bottom
        d.window(self.name, left, top, right - left, bottom - top + 1)

    def x_of(self, t):
        return self.left + (self.right - self.left) * t / self.seconds

    def y_of(self, rate):
        return self.bottom - (self.bottom - self.top) * rate / self.most

    def curve(self, it, rates, wide, colour):
        """Rates of an export while it is there, and as long before and behind as a mean reaches."""
        first, last = int(it["start"] * PER_SECOND) - wide // 2, int(it["end"] * PER_SECOND) + wide // 2
        points = [(self.x_of(i / PER_SECOND), self.y_of(rates[i])) for i in range(max(first, 0), min(last + 1, len(rates)), 4)]
        self.d.curve(points, colour, self.name)

    def dashes(self, it, rate, colour):
        self.d.line(self.x_of(it["start"]), self.y_of(rate), self.x_of(it["end"]), self.y_of(rate), colour, 1.6, "5 4")


def shares(figures, path):
    """Requests a second of exports that start and stop one after another."""
    mine = sorted((it for it in figures if it["part"] == "timeline"), key=lambda it: it["export"])
    if not mine:
        return
    wide, rows = PER_SECOND // 5, []
    for it in mine:
        slices = it["values"][-1]
        around = [slices[max(0, i - wide // 2) : i + wide // 2] for i in range(len(slices))]
        rows.append((it, [sum(some) * float(PER_SECOND) / len(some) for some in around]))
    seconds, left, right = len(rows[0][1]) / PER_SECOND, 92, 830
    d = Drawing(860, 640, "Five exports that start and stop one after another")
    d.text(20, 180, "4 KiB reads a second", anchor="middle", turn=-90)
    above = Panel(d, seconds, left, right, 50, 310, max(max(rates) for _, rates in rows) * 1.05)
    for n, (it, rates) in enumerate(rows):
        above.curve(it, rates, wide, COLOURS[n])
        x, y = left + (n % 2) * 350, 358 + (n // 2) * 22
        d.line(x, y - 4, x + 26, y - 4, COLOURS[n], 3)
        d.text(x + 34, y, "export %d: %s; from %d s to %d s" % (n, in_words(it["settings"]), it["start"], it["end"]))
    kept = [(n, it, rates) for n, (it, rates) in enumerate(rows) if promised(it)]
    if kept:
        lines = sorted((rate, word, n, it) for n, it, _ in kept for word, rate in promised(it))
        d.text(left, 436, "The same of those with a reservation or a limit, in more detail", bold=True)
        below = Panel(d, seconds, left, right, 452, 600, 3 * lines[-1][0])
        for n, it, rates in kept:
            below.curve(it, rates, wide, COLOURS[n])
        x, y = below.x_of(min(it["start"] for _, it, _ in kept)) - 14, math.inf
        for rate, word, n, it in lines:
            below.dashes(it, rate, COLOURS[n])
            # The names stand before the first of these exports starts, above each other, and no line of the grid goes through.
            y = min(below.y_of(rate) + 4, y - 16)
            d.bar(x - 190, y - 12, 192, 16, "white")
            d.text(x, y, "%s of export %d: %d" % (word, n, rate), anchor="end", size=12, colour=COLOURS[n])
    d.write(path)


PER_SECOND = 200  # slices of measure.py's timeline
PARTS = (0.1, 0.25, 0.5, 0.75, 0.9, 0.95, 0.98, 0.99, 0.995, 0.998, 0.999)  # those of load.c, up to 999 of 1,000


def latency(figures, path):
    """How long a paced client waits beside floods, as a distribution: how many reads take longer."""
    mine = [it for it in figures if it["part"] == "latency" and it["transport"] == "unix" and it["unit"] == "waits_us"]
    if not mine:
        return
    servers, floods = (list(dict.fromkeys(it[key] for it in mine)) for key in ("server", "flood"))
    waits = {(it["server"], it["flood"]): [statistics.median(round_[i] for round_ in it["values"]) for i in range(len(PARTS))] for it in mine}
    width, columns, left, top, wide, high = 900, 3, 70, 84, 220, 200
    d = Drawing(width, top + math.ceil((len(floods) + 1) / columns) * (high + 80), "How long reads of 4 KiB wait, one each millisecond")
    d.text(width / 2, 46, "alone, and beside eight connections that flood another export of the same server", anchor="middle")
    low, most = math.log10(20), math.log10(max(1000, max(max(it) for it in waits.values()))) + 0.05
    for n, flood in enumerate(floods):
        x0, y0 = left + n % columns * (wide + 60), top + n // columns * (high + 80)
        x_of = lambda part: x0 + wide * -math.log10(1 - part) / 3
        y_of = lambda us: y0 + high - high * (math.log10(max(us, 20)) - low) / (most - low)
        d.text(x0, y0 - 10, "alone" if flood == "nothing" else "beside " + flood, bold=True)
        for us, name in ((20, "20 us"), (100, "100 us"), (1000, "1 ms"), (10000, "10 ms"), (100000, "100 ms"), (1000000, "1 s")):
            if math.log10(us) <= most:
                d.line(x0, y_of(us), x0 + wide, y_of(us))
                d.text(x0 - 6, y_of(us) + 4, name, anchor="end", size=11)
        for part, name in ((0, "all"), (0.9, "1 in 10"), (0.99, "1 in 100"), (0.999, "1 in 1,000")):
            d.line(x_of(part), y0, x_of(part), y0 + high)
            d.text(x_of(part), y0 + high + 16, name, anchor="middle", size=11)
        d.text(x0 + wide / 2, y0 + high + 34, "so many reads wait longer", anchor="middle", size=11, colour="#666")
        for s, server in enumerate(servers):
            d.curve([(x_of(part), y_of(us)) for part, us in zip(PARTS, waits[server, flood])], COLOURS[s])
    x0, y0 = left + len(floods) % columns * (wide + 60), top + len(floods) // columns * (high + 80)
    for s, server in enumerate(servers):
        d.line(x0, y0 + 26 * s + 16, x0 + 30, y0 + 26 * s + 16, COLOURS[s], 4)
        d.text(x0 + 40, y0 + 26 * s + 21, server, size=15)
    d.text(x0, y0 + 26 * len(servers) + 30, "lower is better", colour="#666")
    d.write(path)


def throughput(figures, path):
    """Throughput by connections, beside the peers."""
    mine = [it for it in figures if it["part"] == "throughput" and it["transport"] == "unix" and it["exports"] == 1 and it["unit"] != "processor_us"]
    if not mine:
        return
    servers, works = (list(dict.fromkeys(it[key] for it in mine)) for key in ("server", "work"))
    unit = {it["work"]: {"a_second": "requests a second", "mib_a_second": "MiB a second"}[it["unit"]] for it in mine}
    counts = sorted({it["connections"] for it in mine})
    middle = {(it["server"], it["work"], it["connections"]): statistics.median(it["values"]) for it in mine}
    wide, high, gap, columns = 190, 130, 30, 4
    width, top = 2 * 20 + columns * (wide + gap) - gap, 70
    height = top + math.ceil(len(works) / columns) * (high + 90) + 40
    d = Drawing(width, height, "Throughput over one, four and sixteen connections to one export")
    for w, work in enumerate(works):
        x0, y0 = 20 + w % columns * (wide + gap), top + w // columns * (high + 90)
        most = max(v for (_, it, _), v in middle.items() if it == work)
        y_of = lambda value: y0 + 26 + high - high * value / most
        d.text(x0, y0, work, bold=True)
        for part in (1, 0.5):
            d.line(x0, y_of(part * most), x0 + wide, y_of(part * most))
        d.text(x0 + wide, y_of(most) - 4, "%s %s" % (format(round(most), ","), unit[work]), anchor="end", size=11, colour="#666")
        thick = wide / (len(counts) * (len(servers) + 1))
        for c, count in enumerate(counts):
            for n, server in enumerate(servers):
                value = middle.get((server, work, count), 0)
                d.bar(x0 + (c * (len(servers) + 1) + n) * thick, y_of(value), thick * 0.9, y_of(0) - y_of(value), COLOURS[n])
            d.text(x0 + (c * (len(servers) + 1) + len(servers) / 2) * thick, y_of(0) + 16, str(count), anchor="middle", size=11)
        d.text(x0 + wide / 2, y_of(0) + 32, "connections", anchor="middle", size=11, colour="#666")
    for n, server in enumerate(servers):
        d.bar(20 + n * 150, height - 34, 16, 16, COLOURS[n])
        d.text(44 + n * 150, height - 21, server, size=15)
    d.write(path)


def main():
    *files, folder = sys.argv[1:]
    figures = []
    for name in files:
        with open(name) as it:
            figures += json.load(it)["figures"]
    os.makedirs(folder, exist_ok=True)
    shares(figures, folder + "/shares.svg")
    latency(figures, folder + "/latency.svg")
    throughput(figures, folder + "/throughput.svg")


if __name__ == "__main__":
    main()
