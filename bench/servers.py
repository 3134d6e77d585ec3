"""The servers that are measured: nbdq, and the peers that are installed."""
import os, shutil, signal, socket, struct, subprocess, tempfile, time

MIB = 1 << 20
PEERS = ("nbdkit", "nbd-server", "qemu-nbd")
READ, WRITE, DISC, FLUSH, TRIM, ZERO = 0, 1, 2, 3, 4, 6
NO_HOLE = 2


class Client:
    """One connection that has chosen an export."""

    def __init__(self, at, export, patience=30):
        if at.startswith("unix:"):
            self.socket = socket.socket(socket.AF_UNIX, socket.SOCK_STREAM)
            self.socket.settimeout(patience)
            self.socket.connect(at[5:])
        else:
            host, port = at[4:].rsplit(":", 1)
            self.socket = socket.create_connection((host, int(port)), patience)
            self.socket.setsockopt(socket.IPPROTO_TCP, socket.TCP_NODELAY, 1)
        self.cookie = 0
        self.greeting = self.exactly(18)
        name = export.encode()
        self.socket.sendall(struct.pack(">I8sIII", 3, b"IHAVEOPT", 7, len(name) + 6, len(name)) + name + b"\0\0")
        self.size = None
        while True:
            _, _, kind, length = struct.unpack(">QIII", self.exactly(20))
            data = self.exactly(length)
            if kind == 3 and data[:2] == b"\0\0":
                self.size, self.flags = struct.unpack(">QH", data[2:12])
            elif kind == 1:
                break
            elif kind & 0x80000000:
                raise RuntimeError("GO is refused: %d" % (kind & 0xFFFF))

    def exactly(self, length):
        got = bytearray()
        while len(got) < length:
            piece = self.socket.recv(min(length - len(got), MIB))
            if not piece:
                raise EOFError("the server closed after %d of %d bytes" % (len(got), length))
            got += piece
        return bytes(got)

    def send(self, kind, offset=0, length=0, data=b"", flags=0):
        self.cookie += 1
        self.socket.sendall(struct.pack(">IHHQQI", 0x25609513, flags, kind, self.cookie, offset, length) + data)
        return self.cookie

    def reply(self, data=0):
        """(error, cookie, data) of the next reply, which has so many bytes of data where it has no error."""
        magic, error, cookie = struct.unpack(">IIQ", self.exactly(16))
        assert magic == 0x67446698, hex(magic)
        return error, cookie, self.exactly(data) if data and not error else b""

    def ask(self, kind, offset=0, length=0, data=b"", flags=0):
        self.send(kind, offset, length, data, flags)
        return self.reply(length if kind == READ else 0)

    def close(self, politely=True):
        try:
            if politely:
                self.send(DISC)
        except OSError:
            pass
        self.socket.close()


def fill(at, export):
    """Writes each byte of an export, in order, 1 MiB at a time."""
    client, block, under_way = Client(at, export), os.urandom(MIB), 0
    for offset in range(0, client.size, MIB):
        length = min(MIB, client.size - offset)
        client.send(WRITE, offset, length, block[:length])
        under_way += 1
        if under_way == 8:
            client.reply()
            under_way -= 1
    for _ in range(under_way):
        client.reply()
    client.close()


class Server:
    """A server that is running. Export i is export(i) at place(i)."""

    def __init__(self, kind, tcp=False, exports=1, mib=256, config=None, words=(), limit_files=None):
        self.kind, self.tcp = kind, tcp
        self.name, _, self.path = kind.partition("=")
        self.folder = tempfile.mkdtemp(prefix="nbdbench.", dir="/dev/shm")
        self.processes, self.pids, self.files = [], [], []
        self.places, self.exports = [], ["e%d" % i for i in range(exports)]
        self.config, self.words, self.limit_files, self.mib = config, list(words), limit_files, mib
        getattr(self, "start_" + (self.name.replace("-", "_") if self.path == "" else "nbdq"))()
        for i in range(exports):
            self.wait_for(i)

    def new_place(self, i=0):
        if not self.tcp:
            return "unix:%s/s%d" % (self.folder, i)
        with socket.socket() as one:
            one.bind(("127.0.0.1", 0))
            return "tcp:127.0.0.1:%d" % one.getsockname()[1]

    def spawn(self, words, **how):
        errors = open(self.folder + "/errors", "ab")
        how = {"stdout": subprocess.DEVNULL, "stderr": errors, **how}
        process = subprocess.Popen(words, **how)
        self.processes.append(process)
        self.pids.append(process.pid)
        return process

    def file(self, i):
        path = "%s/d%d" % (self.folder, i)
        with open(path, "wb") as it:
            it.truncate(self.mib * MIB)
        self.files.append(path)
        return path

    def start_nbdq(self):
        place = self.new_place()
        config = self.config or "".join('[[export]]\nname = "%s"\nsize = %d\n' % (it, self.mib * MIB) for it in self.exports)
        where = ["--tcp", place[4:]] if self.tcp else ["--unix", place[5:]]
        limit = (lambda: __import__("resource").setrlimit(7, self.limit_files)) if self.limit_files else None
        how = {"stdin": subprocess.PIPE, "stdout": subprocess.PIPE, "preexec_fn": limit}
        process = self.spawn([self.path, "serve", *where, *self.words], **how)
        process.stdin.write(config.encode())
        process.stdin.close()
        said = process.stdout.readline()
        if said != b"ready\n":
            raise RuntimeError("nbdq serve said %r: %s" % (said, open(self.folder + "/errors").read()))
        self.places = [place] * len(self.exports)

    def start_nbdkit(self):
        # One process an export: its memory plugin has one disk.
        for i in range(len(self.exports)):
            place = self.new_place(i)
            where = ["-i", "127.0.0.1", "-p", place.rsplit(":", 1)[1]] if self.tcp else ["-U", place[5:]]
            self.spawn(["nbdkit", "-f", *where, "--threads", "16", "memory", "%dM" % self.mib])
            self.places.append(place)

    def start_nbd_server(self):
        place = self.new_place()
        where = ["listenaddr = 127.0.0.1", "port = " + place.rsplit(":", 1)[1]] if self.tcp else ["unixsock = " + place[5:]]
        lines = ["[generic]", "allowlist = true", *where]
        for i, name in enumerate(self.exports):
            lines += ["[%s]" % name, "exportname = " + self.file(i), "flush = true", "fua = true", "trim = true"]
        with open(self.folder + "/config", "w") as it:
            it.write("\n".join(lines) + "\n")
        pid = self.folder + "/pid"
        quiet = {"stdout": subprocess.DEVNULL, "stderr": subprocess.DEVNULL}
        subprocess.run(["nbd-server", "-C", self.folder + "/config", "-p", pid], check=True, **quiet)
        for _ in range(100):
            if os.path.exists(pid) and open(pid).read().strip():
                break
            time.sleep(0.02)
        self.pids.append(int(open(pid).read()))
        self.places = [place] * len(self.exports)

    def start_qemu_nbd(self):
        for i, name in enumerate(self.exports):
            place = self.new_place(i)
            where = ["-b", "127.0.0.1", "-p", place.rsplit(":", 1)[1]] if self.tcp else ["-k", place[5:]]
            self.spawn(["qemu-nbd", "-f", "raw", *where, "-t", "-e", "64", "-x", name, "--discard=unmap", self.file(i)])
            self.places.append(place)

    def wait_for(self, i):
        for tries in range(250):
            try:
                return Client(self.places[i], self.exports[i]).close()
            except (OSError, EOFError):
                if tries == 249:
                    raise
                time.sleep(0.02)

    def clients(self, i=0, **words):
        """The words of `load` for clients of export i."""
        words = {"name": self.exports[i], "at": self.places[i], "export": self.exports[i], **words}
        return ";".join("%s=%s" % it for it in words.items())

    def everyone(self):
        """The ids of its processes and of those that they started."""
        below = {}
        for entry in os.listdir("/proc"):
            if entry.isdigit():
                try:
                    with open("/proc/%s/stat" % entry) as it:
                        below.setdefault(int(it.read().rsplit(")", 1)[1].split()[1]), []).append(int(entry))
                except OSError:
                    pass
        found, todo = [], list(self.pids)
        while todo:
            found.append(todo.pop())
            todo += below.get(found[-1], [])
        return found

    def memory(self):
        """MiB that its processes hold (their shares of what they share), and its files on the tmpfs."""
        held = 0
        for pid in self.everyone():
            try:
                with open("/proc/%d/smaps_rollup" % pid) as it:
                    held += sum(int(line.split()[1]) for line in it if line.startswith("Pss:"))
            except OSError:
                pass
        return held / 1024 + sum(os.stat(it).st_blocks * 512 for it in self.files) / MIB

    def processor_time(self):
        ticks = 0
        for pid in self.everyone():
            try:
                with open("/proc/%d/stat" % pid) as it:
                    ticks += sum(int(n) for n in it.read().rsplit(")", 1)[1].split()[11:15])
            except OSError:
                pass
        return ticks / os.sysconf("SC_CLK_TCK")

    def is_running(self):
        return all(it.poll() is None for it in self.processes)

    def stop(self):
        for it in self.processes:
            it.terminate()
        for it in self.processes:
            try:
                it.wait(10)
            except subprocess.TimeoutExpired:
                it.kill()
                it.wait()
        if self.name == "nbd-server":
            os.kill(self.pids[0], signal.SIGTERM)
        shutil.rmtree(self.folder, ignore_errors=True)

    def __enter__(self):
        return self

    def __exit__(self, *_):
        self.stop()
