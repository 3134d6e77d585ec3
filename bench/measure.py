#!/usr/bin/env python3
"""Measures NBD servers side by side, and writes all figures as JSON (README.md says what each part measures).

  measure.py [--rounds N] [--seconds S] [--parts LIST] [--transports LIST] [--peers LIST] [--patience S] [--json FILE] NAME=PATH..

NAME=PATH is a program nbdq and what it is called. Beside it stand the peers that are installed: nbdkit and nbd-server, and
qemu-nbd where --peers names it. The servers are measured in turn, round by round, and each figure of the report is the median
of its rounds.
"""
import argparse, json, os, platform, shutil, subprocess, sys, tempfile, time

sys.path.insert(0, os.path.dirname(os.path.abspath(__file__)))
from servers import MIB, PEERS, Server, fill

HERE = os.path.dirname(os.path.abspath(__file__))
WORK = {
    "1 MiB reads": dict(operation="read", bytes=MIB, depth=16, order="sequential"),
    "1 MiB writes": dict(operation="write", bytes=MIB, depth=16, order="sequential"),
    "128 KiB reads": dict(operation="read", bytes=131072, depth=16, order="sequential"),
    "128 KiB writes": dict(operation="write", bytes=131072, depth=16, order="sequential"),
    "4 KiB reads, one at a time": dict(operation="read", bytes=4096, depth=1),
    "4 KiB writes, one at a time": dict(operation="write", bytes=4096, depth=1),
    "4 KiB reads, depth 32": dict(operation="read", bytes=4096, depth=32),
    "4 KiB writes, depth 32": dict(operation="write", bytes=4096, depth=32),
}
FLOODS = {
    "nothing": None,
    "4 KiB": dict(operation="mixed", bytes=4096, depth=32),
    "128 KiB": dict(operation="mixed", bytes=131072, depth=16),
    "1 MiB": dict(operation="mixed", bytes=MIB, depth=8),
    "TRIMs of the whole disk": dict(operation="trim", bytes=256 * MIB, depth=8),
}
WAITS = ("p50_us", "p99_us", "p999_us", "most_us", "waits_us")
SMALL = dict(bytes=4096, depth=32)
SLICE = 5  # ms of a slice of the timeline
STOLEN = 0.03  # a round is measured again where other machines of the host took more than this part of the processors' time


def loader():
    """The load generator, compiled once for each version of its source."""
    source = os.path.join(HERE, "load.c")
    program = os.path.join(tempfile.gettempdir(), "nbdq-load-%d-%d" % (os.getuid(), os.stat(source).st_mtime_ns))
    if not os.path.exists(program):
        subprocess.run(["gcc", "-O2", "-pthread", "-o", program + ".new", source], check=True)
        os.replace(program + ".new", program)
    return program


def load(seconds, clients, warm=0.2, slices=None):
    words = [loader(), "-t", str(seconds), "-w", str(warm), *(["-s", str(slices)] if slices else []), *clients]
    ran = subprocess.run(words, capture_output=True, text=True, timeout=60 + 4 * seconds)
    found = json.loads(ran.stdout)
    for it in found:
        if it["failed"] or it["errors"]:
            print("    %(name)s: %(failed)d failed, %(errors)d errors %(failure)s" % it, file=sys.stderr)
    return found


def ticks():
    """(those that other machines of the host took, all) of this machine's processors since it started."""
    with open("/proc/stat") as it:
        of_each = [int(n) for n in it.readline().split()[1:9]]
    return of_each[7], sum(of_each)


class Figures:
    """Rows of figures: each has what it is of, the server, and the value of each round."""

    def __init__(self, patience=0):
        self.rows = {}
        self.patience, self.again, self.parts_stolen = patience, 0, []

    def quietly(self, measure):
        """What `measure` answers. Where much was stolen meanwhile it is measured again, as long as there is patience; of several the quietest counts."""
        best = None
        while True:
            started, (stolen, everything) = time.monotonic(), ticks()
            found = measure()
            now_stolen, now_everything = ticks()
            part = (now_stolen - stolen) / max(1, now_everything - everything)
            if best is None or part < best[0]:
                best = part, found
            if part <= STOLEN or self.patience <= 0:
                self.parts_stolen.append(best[0])
                return best[1]
            time.sleep(0.5)
            self.again += 1
            self.patience -= time.monotonic() - started

    def add(self, server, value, **of):
        key = json.dumps({**of, "server": server}, sort_keys=True)
        self.rows.setdefault(key, []).append(value)

    def listed(self):
        return [{**json.loads(key), "values": values} for key, values in self.rows.items()]


def all_servers(o, **how):
    return {kind: Server(kind, **how) for kind in o.servers}


def stop_all(servers):
    for it in servers.values():
        it.stop()


def timed_load(o, server, connections, work):
    """What so many connections to each export came to, and the server's processor time meanwhile, without that of warming up."""
    before = server.processor_time()
    found = load(o.seconds, [server.clients(i, connections=connections, **work) for i in range(len(server.exports))])
    return found, (server.processor_time() - before) * o.seconds / (o.seconds + 0.2)


def throughput(o, figures, part="throughput"):
    """Requests of one kind from 1, 4 and 16 connections to one export, and from connections to an export each."""
    for transport in o.transports:
        for connections, exports in o.connections:
            servers = all_servers(o, tcp=transport == "tcp", exports=exports)
            for server in servers.values():
                for i in range(exports):
                    fill(server.places[i], server.exports[i])
            for number in range(o.rounds):
                for name, work in WORK.items():
                    if o.work and not any(it in name for it in o.work):
                        continue
                    # The other way round in each second round, so that none has the better place.
                    for server in list(servers.values())[:: -1 if number % 2 else 1]:
                        found, used = figures.quietly(lambda: timed_load(o, server, connections // exports, work))
                        unit = "mib_a_second" if work["bytes"] > 4096 else "a_second"
                        value = sum(it[unit] for it in found)
                        of = dict(part=part, transport=transport, connections=connections, exports=exports, work=name, unit=unit)
                        figures.add(server.name, value, **of)
                        requests = sum(it["requests"] for it in found)
                        figures.add(server.name, 1e6 * used / max(requests, 1), **{**of, "unit": "processor_us"})
            stop_all(servers)


def latency(o, figures):
    """A client of one export that sends a 4 KiB read each millisecond, alone and beside eight connections that flood another."""
    for transport in o.transports:
        for flood, work in FLOODS.items():
            servers = all_servers(o, tcp=transport == "tcp", exports=2)
            for _ in range(o.rounds):
                for kind, server in servers.items():
                    clients = [server.clients(0, rate=1000)]
                    clients += [server.clients(1, connections=8, **work)] if work else []
                    of = dict(part="latency", transport=transport, flood=flood)
                    paced, *beside = figures.quietly(lambda: load(max(4 * o.seconds, 1), clients))
                    for unit in WAITS:
                        figures.add(server.name, paced[unit], **of, unit=unit)
                    for it in beside:
                        figures.add(server.name, it["mib_a_second"], **of, unit="flood_mib_a_second")
            stop_all(servers)


def exports_of(settings, mib=64):
    return "".join('[[export]]\nname = "e%d"\nsize = %d\n%s\n' % (i, mib * MIB, it) for i, it in enumerate(settings))


def shared(o, figures, case, settings, clients, unit="a_second", part="shares"):
    """What each export of nbdq is given, by its settings and the words of its clients."""
    servers = [Server(kind, exports=len(settings), config=exports_of(settings), words=["--workers", "4"]) for kind in o.servers if "=" in kind]
    for _ in range(o.rounds):
        for server in servers:
            words = [server.clients(i, **it) for i, it in enumerate(clients)]
            for i, found in enumerate(figures.quietly(lambda: load(o.seconds, words, warm=0.4))):
                figures.add(server.name, found[unit], part=part, case=case, export=i, settings=settings[i], unit=unit)
    for server in servers:
        server.stop()


def shares(o, figures):
    """Exports that always have more to do than they are given."""
    weights = lambda *all: ["weight = %d" % it for it in all]
    flood = dict(connections=4, **SMALL)
    for pair in ((1, 1), (1, 3), (1, 9), (1, 100)):
        for operation in ("read", "write"):
            shared(o, figures, "weights %d:%d, 4 connections each, 4 KiB %ss" % (*pair, operation), weights(*pair), [dict(flood, operation=operation)] * 2)
    shared(o, figures, "weights 1:2:3:4, 2 connections each, 4 KiB reads", weights(1, 2, 3, 4), [dict(flood, connections=2)] * 4)
    for size, name in ((131072, "128 KiB"), (MIB, "1 MiB")):
        for operation in ("read", "write"):
            case = "weights 1:3, 4 connections each, %s %ss" % (name, operation)
            shared(o, figures, case, weights(1, 3), [dict(connections=4, bytes=size, depth=8, operation=operation)] * 2, unit="mib_a_second")
    case = "weights 1:3, 4 connections each, 128 KiB reads beside 1 MiB reads"
    long = [dict(connections=4, bytes=size, depth=8) for size in (131072, MIB)]
    shared(o, figures, case, weights(1, 3), long, unit="mib_a_second")
    shared(o, figures, "weights 1:3, 1 connection each, 4 KiB reads", weights(1, 3), [SMALL] * 2)
    shared(o, figures, "weights 1:1:1:1, 1 connection each, 4 KiB reads", weights(1, 1, 1, 1), [SMALL] * 4)
    shared(o, figures, "weights 1:1:1:1, 4 connections each, 4 KiB reads", weights(1, 1, 1, 1), [flood] * 4)


def reservations(o, figures):
    flood, one = dict(connections=8, **SMALL), dict(connections=1, **SMALL)
    case = "40,000 a second reserved, weight 1, beside 8 connections of weight 1,000"
    shared(o, figures, case, ["weight = 1\nreservation = 40000", "weight = 1000"], [one, flood], part="reservations")
    case = "two reservations of 100,000 a second, and three exports without"
    kept = "weight = 1\nreservation = 100000"
    shared(o, figures, case, [kept, kept] + ["weight = 100"] * 3, [dict(connections=2, **SMALL)] * 5, part="reservations")


def limits(o, figures):
    for limit in (1000, 20000, 100000):
        case = "a limit of %d a second, beside 4 connections without" % limit
        clients = [dict(connections=4, **SMALL)] * 2
        shared(o, figures, case, ["limit = %d" % limit, "weight = 1"], clients, part="limits")


def timeline(o, figures):
    """Five exports that start and stop one after another: requests in slices of 5 ms, 10 s a round."""
    settings = ["weight = 1", "weight = 2", "weight = 4", "weight = 1\nreservation = 50000", "weight = 4\nlimit = 60000"]
    spans = [(0, 10), (1, 7), (2, 6), (3, 9), (4, 8)]
    for kind in [it for it in o.servers if "=" in it] * o.rounds:
        with Server(kind, exports=5, config=exports_of(settings)) as server:
            clients = [server.clients(i, connections=3, **SMALL, **{"from": a, "until": b}) for i, (a, b) in enumerate(spans)]
            for i, found in enumerate(load(10, clients, warm=0, slices=SLICE)):
                figures.add(server.name, found["slices"], part="timeline", export=i, settings=settings[i], start=spans[i][0], end=spans[i][1], unit="each_%d_ms" % SLICE)


def turns(o, figures):
    """What turns cost where one export is busy: each figure of one and of four connections to one export, of programs nbdq alone."""
    programs = [it for it in o.servers if "=" in it]
    mine = {**vars(o), "servers": programs, "connections": [(1, 1), (4, 1)]}
    throughput(argparse.Namespace(**mine), figures, part="turns")


def memory(o, figures):
    """MiB that a server holds for a disk of 256 MiB: at its start, filled in order, and after writes of every length all over it."""
    for _ in range(min(o.rounds, 3)):
        for kind, server in all_servers(o).items():
            figures.add(server.name, server.memory(), part="memory", when="at the start", unit="MiB")
            fill(server.places[0], server.exports[0])
            figures.add(server.name, server.memory(), part="memory", when="filled in order", unit="MiB")
            for size in (4096, 512, 65536, 12288, 1 << 18, 5000):
                load(1, [server.clients(0, connections=4, operation="write", bytes=size, depth=8)])
            figures.add(server.name, server.memory(), part="memory", when="after writes of every length", unit="MiB")
            server.stop()


def processor():
    with open("/proc/cpuinfo") as it:
        return next((line.split(":")[1].strip() for line in it if line.startswith("model name")), platform.machine())


def version(server):
    """What a server says of itself."""
    program = server.partition("=")[2] or server
    words = [program, "-V" if server == "nbd-server" else "--version"]
    said = subprocess.run(words, capture_output=True, text=True)
    return (said.stdout + said.stderr).strip().split("\n")[0]


PARTS = [throughput, latency, shares, reservations, limits, timeline, memory, turns]
UNASKED = [turns]  # those that --parts has to name


def main():
    words = argparse.ArgumentParser(formatter_class=argparse.RawDescriptionHelpFormatter, description=__doc__)
    words.add_argument("servers", nargs="+", metavar="NAME=PATH")
    words.add_argument("--peers", default="nbdkit,nbd-server", help="those of nbdkit, nbd-server, qemu-nbd; 'none'")
    words.add_argument("--rounds", type=int, default=5)
    words.add_argument("--seconds", type=float, default=0.5)
    words.add_argument("--parts", default=",".join(it.__name__ for it in PARTS if it not in UNASKED))
    words.add_argument("--transports", default="unix,tcp")
    words.add_argument("--connections", default="1x1,4x1,16x1,4x4", help="connections x exports, as 4x1")
    words.add_argument("--work", default="", help="only the work whose name has one of these, as '4 KiB,depth'")
    words.add_argument("--patience", type=float, default=600, help="seconds in all for rounds that are measured again, since much was stolen")
    words.add_argument("--json", default="-")
    o = words.parse_args()
    o.servers += [it for it in o.peers.split(",") if it in PEERS and shutil.which(it)]
    o.transports, o.work = o.transports.split(","), [it for it in o.work.split(",") if it]
    o.connections = [tuple(int(n) for n in it.split("x")) for it in o.connections.split(",")]
    figures, load_before = Figures(o.patience), os.getloadavg()[0]
    for part in PARTS:
        if part.__name__ in o.parts.split(","):
            print("%s: %s" % (time.strftime("%H:%M:%S"), part.__name__), file=sys.stderr)
            part(o, figures)
    about = {
        "date": time.strftime("%Y-%m-%d"),
        "processor": processor(),
        "processors": os.cpu_count(),
        "kernel": platform.release(),
        "servers": {it.partition("=")[0]: version(it) for it in o.servers},
        "rounds": o.rounds,
        "seconds": o.seconds,
        "load_before": load_before,
        "again": figures.again,
        "stolen": sum(figures.parts_stolen) / max(1, len(figures.parts_stolen)),
    }
    # A figure a line, so that two runs can be compared by lines.
    lines = ["%s: %s" % (json.dumps(key), json.dumps(value)) for key, value in about.items()]
    text = "{\n%s,\n\"figures\": [\n%s\n]}" % (",\n".join(lines), ",\n".join(map(json.dumps, figures.listed())))
    if o.json == "-":
        print(text)
    else:
        with open(o.json, "w") as it:
            it.write(text + "\n")


if __name__ == "__main__":
    main()
