#!/bin/sh
# Sees that i3desk stands what clients may do to it: they are killed at any moment, leave half frames and half lines open, never
# read, come 10,000 times one after another, or wait when it is told to exit. Each time the server must end within 11 seconds,
# with status 0 and its summary, and nothing that was answered may be lost. Then what it does with the files of its sockets.
# usage: bench/faults.sh [I3DESK]
set -eu
. "$(dirname "$0")/serving.sh"

python3 - "$server" "$folder" "$here/bench" <<'PROGRAM'
import fcntl, json, mmap, os, random, select, signal, stat, struct, subprocess, sys, termios, threading, time

program, folder, here = sys.argv[1:]
sys.path.insert(0, here)
sys.dont_write_bytecode = True
from served import *

LONGEST = 11
random.seed(int(os.environ.get("SEED", "1")))


def owe(holds, what):
    if not holds:
        raise Broken(what)


def ended(server):
    """Ends the server, and gives how long that took, and its summary."""
    took, summary = server.end()
    owe(took < LONGEST, "it ended after %.1f s" % took)
    owe(sorted(os.listdir(server.folder)) == ["errors", "frames"], "files are left: %s" % os.listdir(server.folder))
    return took, summary


def forked(act, *given):
    """A process that acts until it is killed."""
    child = os.fork()
    if child == 0:
        try:
            act(*given)
        finally:
            os._exit(0)
    return child


def tell(path, name, answered):
    """Sends one tick after another, and counts those that were answered."""
    link = Link(path)
    for number in range(1 << 30):
        owe(link.ask(SEND_TICK, b"%s.%d" % (name, number)) == b'{"success":true}', "a tick is refused")
        answered[:8] = struct.pack("<Q", number + 1)


class Watcher:
    """Whoever hears all ticks."""

    def __init__(self, path):
        self.link, self.told = Link(path, None), []
        self.link.ask(SUBSCRIBE, b'["tick"]')
        self.thread = threading.Thread(target=self.hear, daemon=True)
        self.thread.start()

    def hear(self):
        try:
            while True:
                self.told.append(json.loads(self.link.receive()[1])["payload"])
        except EOFError:
            pass


def open_windows(path):
    """Opens one window after another."""
    link = Windows(path, 0)
    for number in range(1 << 30):
        link.send("map 00ff00 64x48")
        link.settle(number + 1, 0)


def open_ids(link):
    def below(node):
        own = [node["id"]] if node["window"] is not None else []
        return sum((below(kid) for kid in node["nodes"] + node["floating_nodes"]), own)
    return below(json.loads(link.ask(GET_TREE)))


def killed():
    """A client is killed 100 times, at any moment, while another one hears all ticks."""
    server = Server(program, folder)
    windows, watcher = Windows(server.clients, 1), Watcher(server.ipc)
    owed = {}
    for turn in range(100):
        name, answered = b"k%d" % turn, mmap.mmap(-1, 8)
        if turn % 2 == 0:
            child = forked(tell, server.ipc, name, answered)
        else:
            child = forked(open_windows, server.clients)
        time.sleep(random.uniform(0, 0.06))
        os.kill(child, signal.SIGKILL)
        os.waitpid(child, 0)
        (owed[name.decode()],) = struct.unpack("<Q", answered[:8])
    see_windows(server, windows.ids)
    took, summary = ended(server)
    watcher.thread.join(5)
    see_ticks(watcher.told[1:], owed)
    owe(summary["steps"] >= len(watcher.told), "steps are lost")
    return "%d ticks answered, %d heard, %d steps, ended in %.2f s" % (
        sum(owed.values()), len(watcher.told) - 1, summary["steps"], took)


def see_windows(server, own):
    """Only these windows are left."""
    link = Link(server.ipc)
    for _ in range(200):
        left = open_ids(link)
        if left == own:
            break
        time.sleep(0.05)
    owe(left == own, "windows of killed clients are left: %s" % left)
    link.close()


def see_ticks(told, owed):
    """Of each client each tick that was answered was heard, in order, and at most the one after them."""
    for name, count in owed.items():
        heard = [text.split(".")[1] for text in told if text.split(".")[0] == name]
        owe(heard == [str(number) for number in range(len(heard))], "ticks of %s are lost: %s" % (name, heard))
        owe(count <= len(heard) <= count + 1, "%d ticks of %s were answered, %d heard" % (count, name, len(heard)))


def halves():
    """Half frames and half lines are left open, while one link of each kind goes on."""
    server = Server(program, folder)
    whole = frame(RUN_COMMAND, b"nop a comment")
    held = [Link(server.ipc) for _ in range(7)]
    for number, link in enumerate(held):
        link.socket.sendall(whole[:[1, 5, 6, 9, 13, 14, 20][number]])
    lines = [Link(server.clients) for _ in range(15)]
    for number, link in enumerate(lines):
        link.socket.sendall(b"map 0000ff 640x480"[:number + 1])
    link, windows = Link(server.ipc), Windows(server.clients, 3)
    for number in range(300):
        owe(link.run("nop") == DONE, "a message is refused")
    held[0].socket.sendall(whole[1:] + whole)
    owe(held[0].receive() == (RUN_COMMAND, DONE) and held[0].receive() == (RUN_COMMAND, DONE), "a frame in two halves is lost")
    link.close()
    held[0].close()
    took, summary = ended(server)
    owe(summary["steps"] >= 302 + 3, "steps are lost")
    return "%d steps, ended in %.2f s" % (summary["steps"], took)


def flood(path, message):
    """A link that sends this again and again, and never reads, until the server reads no more."""
    link = Link(path)
    link.socket.setblocking(False)
    start = time.monotonic()
    sent, stuck = 0, None
    while time.monotonic() - start < 5:
        try:
            sent += link.socket.send(message)
            stuck = None
        except BlockingIOError:
            stuck = stuck or time.monotonic()
            if time.monotonic() - stuck > 0.2:
                return link
            time.sleep(0.005)
    raise Broken("the server takes %d bytes from a link that never reads" % sent)


def is_given_up(link):
    poll = select.poll()
    poll.register(link.socket, select.POLLHUP)
    return any(event & (select.POLLHUP | select.POLLERR) for _, event in poll.poll(0))


def unread_of(link):
    """How much memory holds what the server has not read yet."""
    return struct.unpack("i", fcntl.ioctl(link.socket, termios.TIOCOUTQ, b"0000"))[0]


def never_reads(speaks):
    """A link never reads. The others go on, and after ten seconds the server gives it up."""
    server = Server(program, folder)
    windows = Windows(server.clients, 4)
    link = Link(server.ipc)
    message = frame(GET_TREE) * 50 if speaks == "ipc" else b"ack 9 9\n" * 2000
    deaf = flood(server.ipc if speaks == "ipc" else server.clients, message)
    start, times, unread = time.monotonic(), [], None
    while not is_given_up(deaf):
        before = time.monotonic()
        if unread != (unread := unread_of(deaf)):
            start = before
        owe(before - start < 15, "it is not given up 15 s after the last reading")
        owe(link.run("nop") == DONE, "a message is refused")
        times.append(time.monotonic() - before)
        time.sleep(0.01)
    given_up = time.monotonic() - start
    owe(given_up > 5, "it is given up %.1f s after the last reading" % given_up)
    owe(link.run("mark --add after") == DONE and b"after" in link.ask(GET_MARKS), "the others do not go on")
    link.close()
    took, summary = ended(server)
    owe(summary["steps"] >= len(times) + 5, "steps are lost")
    return "given up %.1f s after the last reading, the others' slowest of %d in %.1f ms, ended in %.2f s" % (
        given_up, len(times), max(times) * 1e3, took)


def one_after_another():
    """10,000 connections, one after another."""
    server = Server(program, folder)
    windows = Windows(server.clients, 1)
    start = time.monotonic()
    for number in range(10000):
        link = Link(server.ipc)
        owe(link.run("nop") == DONE, "a message is refused")
        link.close()
    rate = 10000 / (time.monotonic() - start)
    with open("/proc/%d/status" % server.child.pid) as status:
        memory = next(line.split()[1] for line in status if line.startswith("VmHWM"))
    files = len(os.listdir("/proc/%d/fd" % server.child.pid))
    owe(files < 80, "%d files are open" % files)
    took, summary = ended(server)
    owe(summary["steps"] >= 10001, "steps are lost: %d" % summary["steps"])
    return "%.0f a second, %s KiB at most, %d files open, %d steps, ended in %.2f s" % (rate, memory, files, summary["steps"], took)


def exit_while_waiting():
    """It is told to exit while all doors are taken, others wait, and some never read."""
    server = Server(program, folder)
    windows = [Windows(server.clients, 2) for _ in range(8)]
    clients = [Link(server.clients) for _ in range(12)]
    links = [Link(server.ipc) for _ in range(3)]
    for number, link in enumerate(links):
        owe(link.run("mark --add w%d" % number) == DONE, "a mark is refused")
    deaf = [flood(server.ipc, frame(GET_TREE) * 50) for _ in range(4)]
    last = Link(server.ipc)
    owe(last.run("mark --add last") == DONE, "a mark is refused")
    waiting = [Link(server.ipc) for _ in range(30)]
    for link in waiting:
        link.send(RUN_COMMAND, b"mark --add never")
    start = time.monotonic()
    last.send(RUN_COMMAND, b"exit")
    took, summary = server.ended(start)
    owe(took < LONGEST, "it ended after %.1f s" % took)
    owe(summary["steps"] >= 16 + 4 + 1, "steps are lost: %d" % summary["steps"])
    for link in waiting + links + clients:
        see_end(link)
    return "%d steps, ended in %.2f s" % (summary["steps"], took)


def see_end(link):
    """The link is at its end, with what was answered before."""
    try:
        while link.socket.recv(1 << 16):
            pass
    except ConnectionResetError:
        pass


def files():
    """The files of the sockets: whose they are, and what happens to those that are there."""
    server = Server(program, folder)
    for path in [server.ipc, server.clients]:
        found = os.lstat(path)
        owe(stat.S_ISSOCK(found.st_mode) and stat.S_IMODE(found.st_mode) == 0o600, "%s has the mode %o" % (path, found.st_mode))
    owned = [os.lstat(path).st_ino for path in [server.ipc, server.clients]]
    second = subprocess.run([program], cwd=server.folder, stdin=subprocess.DEVNULL, capture_output=True, timeout=30, text=True)
    owe(second.returncode == 11, "a second server ends with %d" % second.returncode)
    owe("listener 0 failed" in second.stderr, "a second server says %s" % second.stderr)
    owe([os.lstat(path).st_ino for path in [server.ipc, server.clients]] == owned, "a second server takes the files")
    owe(Link(server.ipc).run("nop") == DONE, "a second server ends the first")
    server.child.kill()
    server.child.wait()
    owe(os.path.exists(server.ipc), "a killed server's file has gone by itself")
    server.child = server.start(open(server.folder + "/frames", "wb"))
    for _ in range(1000):
        if os.lstat(server.ipc).st_ino != owned[0] and os.lstat(server.clients).st_ino != owned[1]:
            break
        time.sleep(0.005)
    owe(Link(server.ipc).run("nop") == DONE, "a dead server's file is not replaced")
    ended(server)
    with open(server.ipc, "w") as other:
        other.write("kept")
    third = subprocess.run([program], cwd=server.folder, stdin=subprocess.DEVNULL, capture_output=True, timeout=30, text=True)
    owe(third.returncode == 11 and "listener 0 failed" in third.stderr, "beside another file: %d, %s" % (third.returncode, third.stderr))
    with open(server.ipc) as other:
        owe(other.read() == "kept", "a file that is no socket is replaced")
    owe(not os.path.exists(server.clients), "the other socket's file is left")
    return "of their owner alone, one server at a time, left by a killed one and taken over, removed at the end"


failed = 0
for name, fault in [("killed clients", killed), ("halves", halves), ("a link that never reads", lambda: never_reads("ipc")),
                    ("a client of lines that never reads", lambda: never_reads("lines")),
                    ("10,000 connections", one_after_another), ("exit while links wait", exit_while_waiting), ("files", files)]:
    try:
        print("%s: %s" % (name, fault()), flush=True)
    except (Broken, OSError, EOFError, AssertionError) as broken:
        failed += 1
        print("%s: FAULT: %s %s" % (name, type(broken).__name__, broken), flush=True)
sys.exit(1 if failed else 0)
PROGRAM
