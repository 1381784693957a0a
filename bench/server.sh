#!/bin/sh
# Takes what i3desk does over its sockets: with 2, 16 and 128 open windows how many messages of each kind it answers in a second
# over one and over four connections, the most of three runs; how `nop` stands to a fixed reply over a socket; the processor
# time of an idle server, with no link and with 24; the time from a tick to its event, and from a client's buffer to the frame
# that shows it; and whether each reply is its message's own with 8 links at once.
# usage: bench/server.sh [I3DESK [BENCH_SERVER]]
set -eu
. "$(dirname "$0")/serving.sh"
client=${2:-$here/crates/bench_server/out/bench_server}
[ -x "$client" ] || "$here/run" bench_server --help >/dev/null

python3 - "$server" "$client" "$folder" "$here/bench" <<'PROGRAM'
import os, subprocess, sys, threading, time

program, client, folder, here = sys.argv[1:]
sys.path.insert(0, here)
sys.dont_write_bytecode = True
from served import *

# What i3 4.22 does of a kind over one connection with 2, 16 and 128 windows, on another machine.
WANTED = {
    "focus left, focus right": (1000, 900, 85),
    "mark --toggle a": (3100, 2600, 140),
    "GET_WORKSPACES": (60000, 45000, 59000),
    "GET_TREE": (9200, 3100, 1000),
}


def said(*words):
    return subprocess.run([client, *map(str, words)], capture_output=True, check=True, text=True).stdout


def rate(server, connections, kind, texts):
    """Messages that are answered in a second, and the server's processor time for each in microseconds: with as many messages
    as take half a second or more."""
    count = 10
    while True:
        count, before = count * 4, server.cpu()
        answered = int(said("load", server.ipc, connections, count, kind, *texts))
        if count * connections >= answered * 0.5:
            return answered, (server.cpu() - before) / (count * connections) * 1e6


def fixed(connections, count):
    """What a server of a fixed reply does, as long as that to `nop`."""
    path = folder + "/fixed%d" % connections
    peer = subprocess.Popen([client, "fixed", path, str(len(DONE)), str(connections)])
    while not os.path.exists(path):
        time.sleep(0.01)
    answered = int(said("load", path, connections, count, RUN_COMMAND, "nop"))
    peer.wait(10)
    os.remove(path)
    return answered


for at, count in enumerate([2, 16, 128]):
    server = Server(program, folder)
    windows = Windows(server.clients, count)
    for name, (kind, texts) in KINDS.items():
        (one, cost), (four, cost_four) = [max(rate(server, connections, kind, texts) for _ in range(3)) for connections in [1, 4]]
        wanted = WANTED[name][at] if name in WANTED else None
        told = "" if wanted is None else "; %d over one is wanted, %.2f times that" % (wanted, one / wanted)
        print("%d windows, %s: %d a second over one connection, %d over four (%.0f and %.0f us of the server's processor time each)%s"
              % (count, name, one, four, cost, cost_four, told), flush=True)
    took, summary = server.end()
    print("%d windows: %d steps, ended in %.2f s" % (count, summary["steps"], took), flush=True)
    windows.close()

server = Server(program, folder)
for connections in [1, 4]:
    pairs = [(rate(server, connections, RUN_COMMAND, ["nop"])[0], fixed(connections, 20000)) for _ in range(3)]
    nop, alone = [max(answered) for answered in zip(*pairs)]
    print("nop beside a fixed reply, over %d: %d and %d a second, %.2f of it (0.5 over one is wanted)"
          % (connections, nop, alone, nop / alone), flush=True)
server.end()

server = Server(program, folder)
time.sleep(1)
for links in [0, 24]:
    held = [Link(server.ipc if n < 8 else server.clients) for n in range(links)]
    time.sleep(1)
    start = server.cpu()
    time.sleep(10)
    print("idle with %d links: %.2f %% of a core (1 is wanted at most)" % (links, (server.cpu() - start) * 10), flush=True)
for link in held:
    link.close()
time.sleep(0.5)

half, most, greatest = said("event", server.ipc, 5000).split()
print("event, each tick sent when the one before has come: %s microseconds for half, %s for 99 of 100, %s at most"
      % (half, most, greatest), flush=True)


def ticks(count):
    """Times from a tick to its event at another link, with pauses between them that keep to no round of the server."""
    sender, watcher = Link(server.ipc), Link(server.ipc)
    watcher.ask(SUBSCRIBE, b'["tick"]')
    watcher.receive()
    times = []
    for number in range(count):
        start = time.monotonic()
        sender.send(SEND_TICK, b"t")
        watcher.receive()
        times.append((time.monotonic() - start) * 1e6)
        sender.receive()
        time.sleep(0.003 * (number % 7))
    sender.close()
    watcher.close()
    return times


times = ticks(2000)
print("event, with pauses between the ticks: %.0f microseconds for half, %.0f for 99 of 100 (10000 are wanted), %.0f at most"
      % (part(times, 50), part(times, 99), max(times)), flush=True)
server.end()


def buffers(count):
    """Times from a client's buffer to the frame with its ink."""
    reading, writing = os.pipe()
    server = Server(program, folder, writing)
    os.close(writing)
    windows = Windows(server.clients, 2)
    os.set_blocking(reading, False)
    read_all(reading)
    times = []
    for number in range(count):
        ink = b"%06x" % (number + 1)
        windows.send("buffer %d %s %s" % (windows.ids[0], ink.decode(), windows.sizes[windows.ids[0]]))
        start, seen = time.monotonic(), b""
        while b" " + ink + b" " not in seen and time.monotonic() - start < 5:
            seen += read_all(reading)
        times.append((time.monotonic() - start) * 1e6)
        time.sleep(0.003 * (number % 7))
    Link(server.ipc).send(RUN_COMMAND, b"exit")
    while server.child.poll() is None:
        read_all(reading)
    return times


def read_all(reading):
    try:
        return os.read(reading, 1 << 20)
    except BlockingIOError:
        time.sleep(0.0001)
        return b""


times = buffers(500)
print("buffer to frame: %.0f microseconds for half, %.0f for 99 of 100 (10000 are wanted), %.0f at most"
      % (part(times, 50), part(times, 99), max(times)), flush=True)

server = Server(program, folder)
windows = Windows(server.clients, 2)
start = time.monotonic()
said("own", server.ipc, 8, 100000)
took = time.monotonic() - start
print("8 links, 100,000 messages each: each reply its message's own, %d a second" % (800000 / took), flush=True)
took, summary = server.end()
print("%d steps, ended in %.2f s" % (summary["steps"], took))
PROGRAM
