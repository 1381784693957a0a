"""A running i3desk, and clients of it."""
import json, os, socket, struct, subprocess, tempfile, threading, time

RUN_COMMAND, GET_WORKSPACES, SUBSCRIBE, GET_TREE, GET_MARKS, SEND_TICK = 0, 1, 2, 4, 5, 10
DONE = b'[{"success":true}]'

# The kinds of messages that are timed: each one's type, and its texts, which are sent in turn.
KINDS = {
    "nop": (RUN_COMMAND, ["nop"]),
    "focus left, focus right": (RUN_COMMAND, ["focus left", "focus right"]),
    "mark --toggle a": (RUN_COMMAND, ["mark --toggle a"]),
    "GET_WORKSPACES": (GET_WORKSPACES, []),
    "GET_TREE": (GET_TREE, []),
}


class Broken(Exception):
    """What is owed does not hold."""


def frame(kind, payload=b""):
    return b"i3-ipc" + struct.pack("<II", len(payload), kind) + payload


class Server:
    """A server in a folder of its own. What it writes goes to a file, or to `out`."""

    def __init__(self, program, folder, out=None):
        self.program, self.folder = program, tempfile.mkdtemp(dir=folder)
        self.ipc, self.clients = self.folder + "/i3desk.ipc", self.folder + "/i3desk.clients"
        self.child = self.start(out or open(self.folder + "/frames", "wb"))
        self.await_socket()

    def start(self, out):
        with open(self.folder + "/errors", "ab") as errors:
            return subprocess.Popen([self.program], cwd=self.folder, stdin=subprocess.DEVNULL, stdout=out, stderr=errors)

    def await_socket(self):
        for _ in range(2000):
            if os.path.exists(self.clients):
                return
            time.sleep(0.005)
        raise Broken("the server does not come up: " + self.errors())

    def errors(self):
        with open(self.folder + "/errors") as errors:
            return errors.read()

    def cpu(self):
        """Seconds of the processor that it took so far."""
        with open("/proc/%d/stat" % self.child.pid) as stat:
            words = stat.read().rsplit(")", 1)[1].split()
        return (int(words[11]) + int(words[12])) / os.sysconf("SC_CLK_TCK")

    def end(self):
        """Says `exit`, and gives how long the server took to end, and its summary."""
        link = Link(self.ipc, 30)
        start = time.monotonic()
        link.send(RUN_COMMAND, b"exit")
        return self.ended(start)

    def ended(self, start):
        try:
            status = self.child.wait(60)
        except subprocess.TimeoutExpired:
            self.child.kill()
            raise Broken("the server does not end")
        took = time.monotonic() - start
        if status != 0:
            raise Broken("the server ends with %d: %s" % (status, self.errors()))
        return took, self.summary()

    def summary(self):
        with open(self.folder + "/frames", "rb") as frames:
            lines = frames.read().decode().splitlines()[-5:]
        numbers = dict(line.split() for line in lines[:4])
        return {name: int(numbers[name]) for name in ["steps", "done", "prefix", "windows"]} | {"tree": json.loads(lines[4])}


class Link:
    """A client that speaks i3-ipc."""

    def __init__(self, path, wait=15):
        self.socket = socket.socket(socket.AF_UNIX)
        self.socket.settimeout(wait)
        self.socket.connect(path)
        self.bytes = b""

    def send(self, kind, payload=b""):
        self.socket.sendall(frame(kind, payload))

    def take(self, count):
        while len(self.bytes) < count:
            piece = self.socket.recv(1 << 16)
            if not piece:
                raise EOFError
            self.bytes += piece
        taken, self.bytes = self.bytes[:count], self.bytes[count:]
        return taken

    def receive(self):
        head = self.take(14)
        length, kind = struct.unpack("<II", head[6:])
        assert head[:6] == b"i3-ipc", head
        return kind, self.take(length)

    def ask(self, kind, payload=b""):
        self.send(kind, payload)
        told, reply = self.receive()
        assert told == kind, (told, kind)
        return reply

    def run(self, text):
        return self.ask(RUN_COMMAND, text.encode())

    def close(self):
        self.socket.close()


class Windows:
    """A client that opens windows, and gives a buffer for each configure. What it is told it keeps in `lines`."""

    def __init__(self, path, count):
        self.socket = socket.socket(socket.AF_UNIX)
        self.socket.connect(path)
        self.ids, self.lines, self.asked = [], [], time.monotonic()
        self.sizes = {}
        self.lock = threading.Lock()
        threading.Thread(target=self.answer, daemon=True).start()
        for _ in range(count):
            self.send("map 0000ff 640x480")
        self.settle(count)

    def send(self, line):
        with self.lock:
            self.socket.sendall(line.encode() + b"\n")

    def answer(self):
        try:
            for line in self.socket.makefile():
                self.hear(line.split())
        except OSError:
            pass

    def hear(self, words):
        if words[0] == "ok" and len(words) == 2:
            self.ids.append(int(words[1]))
        elif words[0] == "configure":
            con, serial, size = words[1:]
            self.sizes[int(con)] = size
            self.asked = time.monotonic()
            self.send("ack %s %s\nbuffer %s 0000ff %s" % (con, serial, con, size))
        elif words != ["ok"]:
            self.lines.append(" ".join(words))

    def settle(self, count, rest=0.5):
        """Waits until so many windows are open and nothing was asked for a while."""
        for _ in range(6000):
            if len(self.ids) >= count and time.monotonic() - self.asked > rest:
                return
            time.sleep(0.01)
        raise Broken("the windows do not open: %d of %d" % (len(self.ids), count))

    def close(self):
        self.socket.close()


def part(times, hundredths):
    """What so many of a hundred of these are at most."""
    return sorted(times)[max(0, len(times) * hundredths // 100 - 1)]
