"""The tests of hostile.sh: each starts a server of its own, misuses it, and says what was seen."""
import itertools, os, resource, signal, socket, stat, struct, subprocess, sys, threading, time

HERE = os.path.dirname(os.path.abspath(__file__))
sys.path.insert(0, os.path.join(HERE, "..", "bench"))
from measure import exports_of, load
from servers import DISC, MIB, NO_HOLE, READ, TRIM, WRITE, ZERO, Client, Server, fill

PROGRAM = sys.argv[1]
NBDQ = "nbdq=" + PROGRAM
KEPT = b"keeps"


def two_disks(**how):
    return Server(NBDQ, exports=2, mib=256, **how)


def neighbour(server, seconds, misuse):
    """A client of export 0 reads 4 KiB each millisecond for so long, while export 1 is misused. What it waited for, in ms."""
    found = []
    reads = threading.Thread(target=lambda: found.extend(load(seconds, [server.clients(0, rate=1000)], warm=0.1)))
    reads.start()
    time.sleep(0.5)
    misuse(Client(server.places[1], server.exports[1], patience=60))
    reads.join()
    return found[0]["most_us"] / 1000, found[0]["p999_us"] / 1000


def in_turn(client, count, kind, flags=0, depth=32):
    """So many requests of one kind for the whole disk, with so many under way at a time."""
    for sent in range(count):
        client.send(kind, 0, client.size, flags=flags)
        if sent >= depth:
            client.reply()
    for _ in range(min(count, depth)):
        client.reply()


def waits_little(what, most, rare):
    ok = most <= 20 and rare <= 5
    return ok, "%s: another export's reads waited %.1f ms at most (20), 999 of 1,000 %.2f ms (5)" % (what, most, rare)


def long_zeros():
    """1,000 TRIMs, WRITE_ZEROES with and without NO_HOLE of a whole disk of 256 MiB, and three WRITEs of 32 MiB behind them."""
    for name, kind, flags in (("TRIM", TRIM, 0), ("WRITE_ZEROES", ZERO, 0), ("WRITE_ZEROES with NO_HOLE", ZERO, NO_HOLE)):
        def misuse(client):
            in_turn(client, 1000, kind, flags)
            for i in range(3):
                client.ask(WRITE, 32 * MIB * i, 32 * MIB, bytes(32 * MIB))
            client.close()

        with two_disks() as server:
            yield waits_little("1,000 times %s, then 3 WRITEs of 32 MiB" % name, *neighbour(server, 4, misuse))


def trim_of_a_filled_disk():
    with two_disks() as server:
        fill(server.places[1], server.exports[1])

        def misuse(client):
            for kind, flags in ((ZERO, NO_HOLE), (TRIM, 0)):
                client.ask(kind, 0, client.size, flags=flags)
                time.sleep(0.3)
            client.close()

        yield waits_little("zeros over a filled disk, then its TRIM", *neighbour(server, 3, misuse))


def greatest_memory(server, seconds, misuse):
    client = Client(server.places[0], server.exports[0])
    sending = threading.Thread(target=misuse, args=(client,), daemon=True)
    sending.start()
    most, until = 0, time.time() + seconds
    while time.time() < until:
        most = max(most, server.memory())
        time.sleep(0.05)
    client.socket.shutdown(socket.SHUT_RDWR)
    sending.join()
    return most


def send_until_stuck(client, *requests):
    try:
        for _ in range(200):
            for kind, length in requests:
                client.send(kind, 0, length, bytes(length) if kind == WRITE else b"")
    except OSError:
        pass


def unread_replies():
    """Pairs of WRITE and READ of 8 MiB, to a disk of 8 MiB, by a client that reads no reply."""
    with Server(NBDQ, mib=8) as server:
        most = greatest_memory(server, 5, lambda it: send_until_stuck(it, (WRITE, 8 * MIB), (READ, 8 * MIB)))
        yield most <= 256, "a client that reads no reply made the server hold %d MiB at most (256)" % most


def long_reads_at_once():
    """Each of several clients with long READs under way at once gets the bytes of its disk, also those that read them late."""
    with two_disks() as server:
        blocks, wrong = [os.urandom(MIB) for _ in server.exports], []
        for i, block in enumerate(blocks):
            client = Client(server.places[i], server.exports[i])
            for offset in range(0, 64 * MIB, MIB):
                client.ask(WRITE, offset, MIB, block)
            client.close()

        def reads(i, length, depth, pause):
            client, places, sent = Client(server.places[i], server.exports[i]), {}, 0
            for _ in range(400):
                while len(places) < depth and sent < 400:
                    offset = sent * 135168 % (32 * MIB)
                    places[client.send(READ, offset, length)] = offset
                    sent += 1
                time.sleep(pause)
                error, cookie, data = client.reply(length)
                start = places.pop(cookie) % MIB
                if error or data != (blocks[i] + blocks[i])[start : start + length]:
                    wrong.append(cookie)
                pause = 0
            client.close()

        kinds = [(0, 131072, 16, 0), (1, 131072, 16, 0), (0, 20480, 16, 0), (1, MIB, 4, 0), (1, 131072, 64, 0.5), (0, MIB, 16, 0.5)]
        threads = [threading.Thread(target=reads, args=it) for it in kinds]
        for it in threads:
            it.start()
        for it in threads:
            it.join()
        yield not wrong, "%d of 2,400 long READs of six clients at once had other bytes than their disk's" % len(wrong)


def writes_behind_a_limit():
    """WRITEs of 8 MiB that wait for their limit of one a second."""
    with Server(NBDQ, mib=8, config=exports_of(["limit = 1"], mib=8)) as server:
        most = greatest_memory(server, 5, lambda it: send_until_stuck(it, (WRITE, 8 * MIB)))
        yield most <= 256, "WRITEs that wait for their limit made the server hold %d MiB at most (256)" % most


def many_connects():
    """A server that serves for ever outlives 110,000 connects, and tells nothing of them."""
    with Server(NBDQ, mib=8, words=["--sessions", "forever"]) as server:
        process, errors, said = server.processes[0], server.folder + "/errors", []
        before = os.path.getsize(errors)
        # Read all the time: a server that told each connect would wait for room in the pipe.
        reading = threading.Thread(target=lambda: said.append(process.stdout.read()))
        reading.start()
        keeper = Client(server.places[0], server.exports[0])
        keeper.ask(WRITE, 0, len(KEPT), KEPT)

        def connect():
            for _ in range(110000 // 8):
                for _ in range(100):
                    try:
                        with socket.socket(socket.AF_UNIX) as it:
                            it.connect(server.places[0][5:])
                        break
                    except BlockingIOError:
                        time.sleep(0.001)

        threads = [threading.Thread(target=connect) for _ in range(8)]
        [it.start() for it in threads]
        [it.join() for it in threads]
        kept = server.is_running() and keeper.ask(READ, 0, len(KEPT))[2] == KEPT
        yield kept, "110,000 connects: the server %s" % ("goes on, with its disk" if kept else "ended")
        process.terminate()
        reading.join(10)
        told, failures = b"".join(said), os.path.getsize(errors) - before
        quiet = said != [] and told == b"" and failures == 0
        yield quiet, "it told %d bytes of them on standard output and %d on standard error (0)" % (len(told), failures)


def innocent_session():
    """Five sessions fill the queue with READs whose replies they don't read; another session's WRITE is served."""
    with Server(NBDQ, mib=8) as server:
        floods = [Client(server.places[0], server.exports[0]) for _ in range(5)]
        for count in (30, 226):
            for it in floods:
                for _ in range(count):
                    it.send(READ, 0, 65536)
            time.sleep(1)
        innocent = Client(server.places[0], server.exports[0], patience=10)
        errors = [innocent.ask(WRITE, 0, 4096, bytes(4096))[0] for _ in range(50)]
        yield not any(errors), "beside five sessions that don't read, %d of 50 WRITEs of another were answered with an error" % sum(map(bool, errors))


def silence():
    """A client that connects and says nothing, or says too little, loses its seat; one that vanished is noticed."""
    with Server(NBDQ, tcp=True, mib=8) as server:
        host, port = server.places[0][4:].rsplit(":", 1)
        silent = socket.create_connection((host, int(port)), 30)
        silent.recv(18)
        began = time.time()
        try:
            rest = silent.recv(1)
        except socket.timeout:
            rest = b"?"
        took = time.time() - began
        yield rest == b"" and took < 15, "a client that is silent in its handshake is dropped after %.0f s (10)" % took
        client = Client(server.places[0], server.exports[0])
        time.sleep(2)
        said = subprocess.run(["ss", "-Htno", "sport = :%s" % port], capture_output=True, text=True).stdout
        yield "keepalive" in said, "a connection over TCP has a keepalive timer"
        client.close()


def slow_handshake():
    """A client has 10 s for each option, however often it sends a byte of it, and a minute for all of them."""
    took = {}

    def run(what, port, pieces, pause):
        with socket.create_connection(("127.0.0.1", port), 90) as client:
            client.recv(18)
            began = time.time()
            client.sendall(struct.pack(">I", 3))
            client.settimeout(pause)
            while time.time() - began < 66:
                try:
                    client.sendall(next(pieces, b""))
                    while client.recv(MIB) != b"":
                        pass
                    break
                except TimeoutError:
                    pass
                except ConnectionError:
                    break
            took[what] = time.time() - began

    with Server(NBDQ, tcp=True, mib=8) as server:
        port = int(server.places[0].rsplit(":", 1)[1])
        option = struct.pack(">8sII", b"IHAVEOPT", 3, 0)  # LIST
        cases = [("asks for the list each 5 s", itertools.repeat(option), 5), ("sends a byte of an option each second", (option[i : i + 1] for i in range(16)), 1)]
        threads = [threading.Thread(target=run, args=(what, port, *how)) for what, *how in cases]
        [it.start() for it in threads]
        [it.join() for it in threads]
        for (what, *_), wanted in zip(cases, (60, 10)):
            seconds = took.get(what, 999.0)
            yield wanted - 0.5 < seconds < wanted + 2.5, "a client that %s and chooses no export is dropped after %.1f s (%d)" % (what, seconds, wanted)


def last_connection():
    """Behind the last accepted connection a client is refused, not left waiting."""
    with Server(NBDQ, tcp=True, mib=8, words=["--sessions", "2"]) as server:
        client = Client(server.places[0], server.exports[0])
        time.sleep(0.3)
        try:
            Client(server.places[0], server.exports[0], patience=3)
            said = "is served"
        except (ConnectionError, EOFError):
            said = "is refused"
        except (TimeoutError, socket.timeout):
            said = "waits for ever"
        yield said == "is refused", "a client behind the last accepted connection %s" % said
        client.close()


def many_descriptors():
    """With few descriptors the server says how many connections it has room for; with many it holds 1,000."""
    with Server(NBDQ, mib=1, limit_files=(256, 8192)) as server:
        said = open(server.folder + "/errors").read()
    yield "room for" in said and "connections" in said, "with 256 descriptors it says: %s" % said.strip()
    with Server(NBDQ, exports=20, mib=1, limit_files=(8192, 8192)) as server:
        clients = [Client(server.places[0], server.exports[i % 20], patience=5) for i in range(1000)]
        yield len(clients) == 1000, "with 8,192 descriptors 1,000 clients are greeted"
        [it.socket.close() for it in clients]


def serve(*words, config=exports_of(["weight = 1"], mib=8)):
    how = {"stdin": subprocess.PIPE, "stdout": subprocess.PIPE, "stderr": subprocess.PIPE}
    process = subprocess.Popen([PROGRAM, "serve", *words], **how)
    process.stdin.write(config.encode())
    process.stdin.close()
    return process


def socket_files():
    """A start that fails leaves no file behind, and an orderly end removes the one that it made."""
    path = "/dev/shm/nbdq-hostile-%d" % os.getpid()
    with socket.create_server(("127.0.0.1", 0)) as taken:
        failed = serve("--unix", path, "--tcp", "127.0.0.1:%d" % taken.getsockname()[1])
        failed.wait(10)
    yield failed.returncode == 4 and not os.path.exists(path), "a start that fails leaves no socket's file"
    again = serve("--unix", path, "--sessions", "1")
    ready = again.stdout.readline() == b"ready\n"
    if ready:
        Client("unix:" + path, "e0").close()
    again.wait(10)
    yield ready and not os.path.exists(path), "the corrected start serves, and its end removes the file"
    if os.path.exists(path):
        os.remove(path)


def head(kind, cookie, offset, length):
    return struct.pack(">IHHQQI", 0x25609513, 0, kind, cookie, offset, length)


def burst(client):
    """Eight READs at once, all answered, and then nothing."""
    client.socket.sendall(b"".join(head(READ, i, 0, 4096) for i in range(8)))
    for _ in range(8):
        client.reply(4096)


def cut_write(client):
    """40 long WRITEs, and the beginning of one more."""
    data = bytes(131072)
    whole = b"".join(head(WRITE, i, 0, 131072) + data for i in range(40))
    client.socket.sendall(whole + head(WRITE, 99, 0, 131072) + data[:100000])


def unread_reads(client):
    client.socket.sendall(b"".join(head(READ, i, 0, MIB) for i in range(8)))


def sessions_not_waited_for():
    """A session that has nothing for the server to do doesn't stop another export, though one more of its own export goes on."""
    cases = [("has been answered and sends nothing", burst, -0.5), ("stops within a WRITE", cut_write, 0.5), ("reads no replies", unread_reads, 0.5)]
    for what, misuse, at in cases:
        with two_disks(config=exports_of(["weight = 1"] * 2)) as server:
            clients = [server.clients(0, connections=4, bytes=4096, depth=32), server.clients(1, rate=500)]
            alone = load(1, clients)[0]["a_second"]
            client = Client(server.places[1], server.exports[1], patience=60)
            Client(server.places[0], server.exports[0]).ask(READ, 0, 4096)
            time.sleep(0.05)
            if at > 0:
                threading.Timer(at, misuse, (client,)).start()
            else:
                misuse(client)
                time.sleep(-at)
            beside = load(3, clients, slices=100)[0]["slices"][-20:]
            rate = 10 * sum(beside) / len(beside)
            yield rate > alone / 4, "beside a session that %s another export gets %d requests a second (%d without it)" % (what, rate, alone)
            client.socket.close()


def long_reads_beside_stuck_sessions():
    """READs of 1 MiB of one connection, beside three sessions of another export that don't read their replies, or late."""
    with two_disks() as server:
        for place, export in zip(server.places, server.exports):
            fill(place, export)
        _, _, block = Client(server.places[1], server.exports[1]).ask(READ, 0, MIB)
        reads = [server.clients(0, bytes=MIB, depth=8)]
        alone = load(2, reads)[0]["mib_a_second"]
        stuck = [Client(server.places[1], server.exports[1]) for _ in range(3)]
        for client in stuck:
            client.send(READ, 0, MIB)
        time.sleep(0.5)
        beside = load(2, reads)[0]["mib_a_second"]
        yield beside > 0.75 * alone, "beside three sessions that don't read 1 MiB READs of another export come to %.2f of those without (0.75)" % (beside / alone)
        for client in stuck:
            client.send(WRITE, 0, 4 * MIB, bytes(4 * MIB))
        late = [(client.reply(MIB), client.reply()) for client in stuck]
        right = all((read[0], read[2], written[0]) == (0, block, 0) for read, written in late)
        yield right, "these three send a WRITE of 4 MiB before they read, and get both replies"


def requests_that_are_overtaken():
    """Clients with one short READ at a time beside READs of 20 KiB of the same disk, of which few may be there: each is answered, though a
    request in service is overtaken by more than may be there."""
    with Server(NBDQ, mib=64, config="inflight = 9\n" + exports_of(["depth = 8\nwindow = 8"])) as server:
        until, waits, lost = time.monotonic() + 5, [0], []

        def reads():
            client = Client(server.places[0], server.exports[0], patience=4)
            try:
                while time.monotonic() < until:
                    began = time.monotonic()
                    client.ask(READ, 0, 4096)
                    waits.append(time.monotonic() - began)
            except OSError:
                lost.append(client)

        threads = [threading.Thread(target=reads) for _ in range(3)]
        for it in threads:
            it.start()
        load(4, [server.clients(0, connections=2, bytes=20480, depth=16)])
        for it in threads:
            it.join()
        yield not lost, "%d of three clients with one READ at a time, beside others with READs of 20 KiB, weren't answered within 4 s" % len(lost)
        yield max(waits) < 0.9, "the others waited %.2f s at most (0.9)" % max(waits)


def stopped_server():
    """A server that is stopped while a client doesn't read, and goes on."""
    with Server(NBDQ, mib=64) as server:
        fill(server.places[0], server.exports[0])
        lost = 0
        for read in range(32):
            client = Client(server.places[0], server.exports[0])
            for at in range(24):
                client.send(READ, at * MIB, MIB)
            try:
                for _ in range(read % 8):
                    client.reply(MIB)
                time.sleep(0.2)
                os.kill(server.pids[0], signal.SIGSTOP)
                time.sleep(0.05)
                os.kill(server.pids[0], signal.SIGCONT)
                for _ in range(24 - read % 8):
                    client.reply(MIB)
            except (EOFError, OSError):
                lost += 1
            client.close()
        yield not lost, "%d of 32 sessions were lost while the server was stopped, and their clients didn't read" % lost


def shares_of_unequal_requests():
    """Each request counts what it is, also where a hold hands in one alone."""
    with two_disks(config=exports_of(["weight = 1"] * 2)) as server:
        flood = dict(connections=4, depth=32)
        clients = [server.clients(0, **flood, bytes=4096), server.clients(1, **flood, operation="trim", bytes=2 * MIB)]
        first, other = (it["a_second"] for it in load(2, clients, warm=0.5))
        yield 0.5 < first / max(other, 1) < 2, "4 KiB READs beside TRIMs of 2 MiB, of one unit each: %.2f (1)" % (first / max(other, 1))


def weights_of_long_writes():
    """Clients that send several long WRITEs at a time are waited for, so these come to the weights."""
    with two_disks(config=exports_of(["weight = 1", "weight = 3"])) as server:
        clients = [server.clients(i, connections=4, operation="write", bytes=131072, depth=8) for i in (0, 1)]
        first, other = (it["a_second"] for it in load(2, clients, warm=0.5))
        yield 2 < other / max(first, 1) < 4, "128 KiB WRITEs by weights 1:3 come to 1:%.2f" % (other / max(first, 1))


def weight_and_limit():
    """A weight holds for an export with a limit as long as that isn't reached. Where it is, nobody waits for the export."""
    short = dict(connections=4, bytes=4096, depth=32)
    with two_disks(config=exports_of(["weight = 1", "weight = 9\nlimit = 40000"])) as server:
        clients = [server.clients(0, **short), server.clients(1, connections=4, bytes=MIB, depth=8)]
        first, other = (it["a_second"] for it in load(2, clients, warm=0.5))
        part = 64 * other / max(first, 1)
        yield part > 4, "1 MiB READs of weight 9, far below their limit, beside 4 KiB READs of weight 1: %.1f times their units (9)" % part
    with two_disks(config=exports_of(["weight = 1", "weight = 9\nlimit = 1000"])) as server:
        first, other = (it["a_second"] for it in load(2, [server.clients(i, **short) for i in (0, 1)], warm=0.5))
        yield first > 20 * other, "4 KiB READs of weight 1 beside those of weight 9 at a limit of 1,000: %d and %d a second" % (first, other)


def sleeps(server):
    """How often the threads that the server has now went to sleep so far."""
    total = 0
    for pid in server.everyone():
        for task in os.listdir("/proc/%d/task" % pid):
            try:
                with open("/proc/%d/task/%s/status" % (pid, task)) as it:
                    total += int(it.read().split("\nvoluntary_ctxt_switches:")[1].split()[0])
            except OSError:  # it has ended meanwhile
                pass
    return total


def wakeups_at_a_limit():
    """Where requests wait for their limit, each that comes due wakes one worker, not all."""
    with two_disks(config=exports_of(["limit = 1000", "weight = 1"])) as server:
        before = sleeps(server)
        ran = load(2, [server.clients(0, depth=4)], warm=0)[0]["a_second"]
        each = (sleeps(server) - before) / max(2 * ran, 1)
        yield ran > 950, "4 KiB READs, four at a time, at a limit of 1,000: %d a second (more than 950)" % ran
        yield each < 3.7, "the server's threads slept %.1f times for each (3.7)" % each


def one_write_at_a_time():
    """WRITEs of 64 KiB, one at a time at a client's own pace, beside long ones: others don't stop for each of them."""
    with two_disks(config=exports_of(["weight = 1"] * 2)) as server:
        flood = server.clients(0, connections=4, operation="write", bytes=MIB, depth=4)
        paced = server.clients(1, operation="write", bytes=65536, rate=2000)
        alone = load(1, [flood], warm=0.5)[0]["a_second"]
        beside, one = load(1.5, [flood, paced], warm=0.5)
        part = beside["a_second"] / max(alone, 1)
        yield part > 0.6, "WRITEs of 1 MiB beside 2,000 of 64 KiB a second, one at a time: %.2f of what they are alone (0.6)" % part
        yield one["p50_us"] < 1000, "these take %.0f us, the median (1,000)" % one["p50_us"]


def writes_of_clients_that_leave():
    """WRITEs that wait for a limit behind clients that come, send and go: 256 MiB of them, and one for each session."""
    with two_disks(config=exports_of(["limit = 1", "weight = 1"], mib=32)) as server:
        most, data = 0, bytes(32 * MIB)
        for _ in range(24):
            client = Client(server.places[0], server.exports[0], patience=1)
            try:
                for i in range(2):
                    client.socket.sendall(head(WRITE, i, 0, 32 * MIB) + data)
                client.socket.sendall(head(READ, 9, 1 << 40, 4096))
            except TimeoutError:
                pass
            client.socket.close()
            most = max(most, server.memory())
        yield most < 1200, "24 clients that leave two WRITEs of 32 MiB each: the server holds %d MiB at most (1,200)" % most


def orderly_ends():
    """`stop now` where fewer requests may be in service than there are workers, and where no descriptor is left."""
    for what, config, sessions, requests in (
        ("of 400 READs at a limit, one in service at a time,", "inflight = 1\n" + exports_of(["limit = 200"], mib=8), 2, 200),
        ("of sessions that have all descriptors", exports_of(["weight = 1"], mib=8), 8, 0),
    ):
        with Files() as files:
            server = serve("--sessions", "forever", *files.words, config=config)
            files.server = server
            server.stdout.readline()
            asks = files.connect()
            time.sleep(0.2)
            clients = [Client("unix:" + files.unix, "e0") for _ in range(sessions)]
            resource.prlimit(server.pid, resource.RLIMIT_NOFILE, (len(os.listdir("/proc/%d/fd" % server.pid)),) * 2)
            for client in clients:
                client.socket.sendall(b"".join(head(READ, i, 0, 4096) for i in range(requests)))
            time.sleep(0.1)
            asks.sendall(b"stop now\n")
            began = time.time()
            status, said = ended(server, 15)
            yield status == 0, "stop now %s ends the server after %.1f s, %r" % (what, time.time() - began, said)


def retune_beside_a_slow_reader():
    """A retune where the requests that wait are left to the writer of a client that reads slowly."""
    with Files() as files:
        server = serve("--sessions", "forever", *files.words, config=exports_of(["weight = 1"], mib=64))
        files.server = server
        server.stdout.readline()
        client = Client("unix:" + files.unix, "e0")
        client.socket.sendall(b"".join(head(READ, i, 0, 8 * MIB) for i in range(8)))
        reads = threading.Event()

        def read_slowly():
            while not reads.wait(0.02) and client.socket.recv(100000):
                pass

        reader = threading.Thread(target=read_slowly)
        reader.start()
        time.sleep(0.5)
        began = time.time()
        answer = files.tell(b"retune e0 0 0 2\n")
        took = time.time() - began
        reads.set()
        reader.join()
        yield answer == (b"retuned\n\n", 0) and took < 1, "a retune beside a slow reader is answered %r after %.2f s" % (answer[0], took)


def control_without_threads():
    """The control socket where the process may have next to no more memory, and so no more threads."""
    with Files() as files:
        server = files.serve()
        server.stdout.readline()
        time.sleep(0.5)
        with open("/proc/%d/status" % server.pid) as it:
            data = next(int(line.split()[1]) * 1024 for line in it if line.startswith("VmData:"))
        hard = resource.prlimit(server.pid, resource.RLIMIT_DATA)[1]
        resource.prlimit(server.pid, resource.RLIMIT_DATA, (data + MIB, hard))
        figures, other, stopped = (files.tell(line) for line in (b"stats\n", b"sessions\n", b"stop\n"))
        well = figures[0].startswith(b"server ") and other == (b"\n", 0) and stopped == (b"stopping\n\n", 0)
        yield well, "where no thread can be had stats is answered %r, sessions %r, stop %r" % (figures[0][:22], other[0], stopped[0])
        status, said = ended(server)
        yield status == 0, "and the server ends with status %r, %r" % (status, said)


def last_clients():
    """Of clients that come one behind another up to the last that is accepted, each is greeted."""
    path, missed, rounds = "/dev/shm/nbdq-hostile-%d" % os.getpid(), 0, 60
    for _ in range(rounds):
        process = serve("--unix", path, "--sessions", "8")
        process.stdout.readline()
        for _ in range(8):
            try:
                Client("unix:" + path, "e0", patience=3).close()
            except (OSError, EOFError):
                missed += 1
        try:
            process.wait(5)
        except subprocess.TimeoutExpired:
            process.kill()
        if os.path.exists(path):
            os.remove(path)
    yield missed == 0, "%d of %d clients up to the last accepted one weren't greeted" % (missed, 8 * rounds)


def stuck_reader():
    """A client that reads nothing for a minute while replies wait for it is dropped."""
    with Server(NBDQ, mib=8) as server:
        client = Client(server.places[0], server.exports[0], patience=90)
        for _ in range(40):
            client.send(READ, 0, 1 << 18)
        time.sleep(66)
        try:
            while client.socket.recv(MIB):
                pass
            dropped = True
        except ConnectionError:
            dropped = True
        except (TimeoutError, socket.timeout):
            dropped = False
        yield dropped, "a client that reads nothing for a minute is %s" % ("dropped" if dropped else "kept")


class Files:
    """Paths of two sockets, which nothing stands at, in a new folder."""

    def __enter__(self):
        self.folder = "/dev/shm/nbdq-hostile-%d" % os.getpid()
        os.mkdir(self.folder)
        self.unix, self.control = self.folder + "/unix", self.folder + "/control"
        self.words = ["--unix", self.unix, "--control", self.control]
        self.server = None
        return self

    def serve(self, *words):
        """A server at both, or as the words say. It ends with this at the latest."""
        self.server = serve(*(words or ("--sessions", "forever", *self.words)))
        return self.server

    def __exit__(self, *_):
        if self.server:
            self.server.kill()
            self.server.wait()
        for name in self.left():
            os.remove(self.folder + "/" + name)
        os.rmdir(self.folder)

    def left(self):
        return sorted(os.listdir(self.folder))

    def connect(self, patience=30):
        one = socket.socket(socket.AF_UNIX, socket.SOCK_STREAM)
        one.settimeout(patience)
        one.connect(self.control)
        return one

    def tell(self, line):
        """What a line is answered, and the status of `nbdq control`."""
        ran = subprocess.run([PROGRAM, "control", "--unix", self.control], input=line, capture_output=True, timeout=60)
        return ran.stdout, ran.returncode


def is_answered(client):
    """Whether a client of the control socket is told that there are no sessions."""
    try:
        client.sendall(b"sessions\n")
        return client.recv(100) == b"\n"
    except (ConnectionError, TimeoutError):
        return False


def seconds_to_the_cut(client, line, each=None):
    """After how many seconds a client that sends so much is cut. Where `each` says so, it goes on with a byte in so many seconds."""
    client.sendall(line)
    began = time.time()
    client.settimeout(each or 30)
    for _ in range(30):
        try:
            if client.recv(MIB) == b"":
                return time.time() - began
        except TimeoutError:
            if each is None:
                break
            client.sendall(b" ")
        except ConnectionError:
            return time.time() - began
    return 999.0


def ended(process, seconds=20):
    """The status and the last line of a server that ends, or that it goes on."""
    try:
        process.wait(seconds)
        return process.returncode, process.stdout.read().splitlines()[-1:]
    except subprocess.TimeoutExpired:
        process.kill()
        process.wait()
        return None, []


def control_files():
    """The control socket's mode, and the files of both sockets: gone at either end, and where a start fails."""
    with Files() as files:
        for line in (b"stop\n", b"stop now\n"):
            server = files.serve()
            server.stdout.readline()
            mode = os.stat(files.control).st_mode
            yield stat.S_ISSOCK(mode) and stat.S_IMODE(mode) == 0o600, "the control socket has mode %o (600)" % stat.S_IMODE(mode)
            client = Client("unix:" + files.unix, "e0")
            if line == b"stop\n":
                client.close()
            said = files.tell(line)
            status, last = ended(server)
            ok = said == (b"stopping\n\n", 0) and status == 0 and last[0].startswith(b"steps ")
            yield ok and files.left() == [], "%s ends the server, and leaves %r" % (line.decode().strip(), files.left())
    for what, words in (
        ("the control socket's file is there", lambda files: files.words),
        ("the control socket's folder isn't there", lambda files: ["--unix", files.unix, "--control", files.folder + "/no/control"]),
        ("both are to be one file", lambda files: ["--unix", files.unix, "--control", files.unix]),
    ):
        with Files() as files:
            if what.endswith("is there"):
                open(files.control, "w").close()
            before = files.left()
            status, _ = ended(files.serve(*words(files)))
            yield status == 4 and files.left() == before, "where %s the start fails, and leaves %r of %r" % (what, files.left(), before)
    with Files() as files:
        read, write = os.pipe()
        os.close(read)
        words = [PROGRAM, "serve", *files.words]
        ran = subprocess.run(words, input=exports_of(["weight = 1"], mib=8).encode(), stdout=write, stderr=subprocess.PIPE, timeout=20)
        os.close(write)
        yield ran.returncode == 4 and files.left() == [], "where `ready` can't be written the start fails, and leaves %r" % files.left()


def control_clients():
    """Clients of the control socket that stop, that go on too slowly, that don't read, and that are too many."""
    with Files() as files:
        server = files.serve()
        server.stdout.readline()
        cases = [
            ("stops in the middle of a line", b"sta", None),
            ("says nothing", b"", None),
            ("sends a byte each second", b"sta", 1),
            ("stops behind an answer, in its next line", b"sessions\nsess", None),
            ("stops in a line that is too long", b" " * 10000, None),
        ]
        took = [None] * len(cases)

        def run(i):
            took[i] = seconds_to_the_cut(files.connect(), cases[i][1], cases[i][2])

        def pause():
            how = {"stdin": subprocess.PIPE, "stdout": subprocess.PIPE, "stderr": subprocess.PIPE}
            process = subprocess.Popen([PROGRAM, "control", "--unix", files.control], **how)
            process.stdin.write(b"sessions\n")
            process.stdin.flush()
            time.sleep(12)
            paused.extend(process.communicate(b"sessions\n", 20) + (process.returncode,))

        paused = []
        threads = [threading.Thread(target=run, args=(i,)) for i in range(len(cases))]
        threads.append(threading.Thread(target=pause))
        slow = files.connect()
        [it.start() for it in threads]
        answers = []
        for _ in range(3):
            time.sleep(6)
            answers.append(is_answered(slow))
        [it.join() for it in threads]
        for (what, _, each), seconds in zip(cases, took):
            yield 9.5 < seconds < 12.5, "a client that %s is cut after %.1f s (10)" % (what, seconds)
        yield paused == [b"\n", b"control: socket failed\n", 4], "`nbdq control` that sends its second line 12 s later says %r" % paused
        yield all(answers), "one that sends a line each 6 s is answered each time"
        slow.close()
        time.sleep(0.5)

        eight = [files.connect() for _ in range(8)]
        well = all([is_answered(one) for one in eight])
        more = files.connect(5)
        yield well and more.recv(100) == b"", "eight clients are answered, and one more is cut"
        eight[0].close()
        time.sleep(0.5)
        again = files.connect(5)
        yield is_answered(again), "once one of them is gone another is answered"
        [one.close() for one in (*eight, more, again)]
        time.sleep(0.5)

        deaf = files.connect(2)
        began = time.time()
        try:
            while time.time() - began < 30:
                deaf.sendall(b"stats prometheus\n" * 1000)
        except (TimeoutError, ConnectionError):
            pass
        others = [files.connect() for _ in range(7)]
        said = files.tell(b"sessions\n")[1]
        yield said == 4, "a client that reads no answer has one of the eight places"
        [one.close() for one in others]
        time.sleep(max(0.0, began + 13 - time.time()))
        places = [files.connect(5) for _ in range(8)]
        yield all([is_answered(one) for one in places]), "it has lost it 13 s later"
        [one.close() for one in places]
        time.sleep(0.5)

        deaf = files.connect(1)
        try:
            for _ in range(30):
                deaf.sendall(b"stats prometheus\n" * 1000)
        except TimeoutError:
            pass
        began = time.time()
        stopped = files.tell(b"stop now\n")[1]
        status, _ = ended(server, 15)
        yield stopped == status == 0, "stop now beside a client that reads no answer ends the server after %.1f s" % (time.time() - began)


TESTS = [
    long_zeros,
    trim_of_a_filled_disk,
    unread_replies,
    long_reads_at_once,
    writes_behind_a_limit,
    many_connects,
    innocent_session,
    silence,
    last_connection,
    many_descriptors,
    socket_files,
    control_files,
    control_clients,
    control_without_threads,
    sessions_not_waited_for,
    long_reads_beside_stuck_sessions,
    requests_that_are_overtaken,
    stopped_server,
    shares_of_unequal_requests,
    weights_of_long_writes,
    weight_and_limit,
    wakeups_at_a_limit,
    one_write_at_a_time,
    writes_of_clients_that_leave,
    orderly_ends,
    retune_beside_a_slow_reader,
    last_clients,
    stuck_reader,
]

# These run where they are named or `--long` is said: a minute more.
LONG = [slow_handshake]


def chosen(words):
    """The tests that words ask for: those named, or all, with the long ones where `--long` is among them."""
    names = [it for it in words if it != "--long"]
    known = {it.__name__: it for it in TESTS + LONG}
    unknown = [it for it in names if it not in known]
    if unknown:
        sys.exit("no test %s; there are %s" % (", ".join(unknown), ", ".join(known)))
    return [it for it in TESTS + LONG if it.__name__ in names or (not names and it in TESTS) or (it in LONG and "--long" in words)]


def main():
    tests = chosen(sys.argv[2:])
    resource.setrlimit(resource.RLIMIT_NOFILE, (resource.getrlimit(resource.RLIMIT_NOFILE)[1],) * 2)
    passed = failed = 0
    for test in tests:
        try:
            seen = list(test())
        except Exception as error:  # a test that can't go on has failed
            seen = [(False, "%s: %r" % (test.__name__, error))]
        for ok, text in seen:
            print("%s  %s" % ("ok    " if ok else "FAILED", text), flush=True)
            passed, failed = passed + ok, failed + (not ok)
    print("%d passed, %d failed" % (passed, failed))
    return 1 if failed else 0


if __name__ == "__main__":
    sys.exit(main())
