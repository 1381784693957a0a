#!/bin/sh
# Takes i3 itself and i3desk in turn, on one machine and over the same client: with 2, 16 and 128 containers how many messages of each
# kind each of them answers in a second over one connection, the most of three turns. i3 runs under Xvfb, with a configuration that
# starts nothing beside it; where either is not installed, nothing is measured, and so it is said.
# usage: bench/i3.sh [I3DESK [BENCH_SERVER]]
set -eu
for word in i3 i3-msg Xvfb; do
    command -v "$word" >/dev/null || { echo "$word is not installed: nothing is measured"; exit 0; }
done
. "$(dirname "$0")/serving.sh"
client=${2:-$here/crates/bench_server/out/bench_server}
[ -x "$client" ] || "$here/run" bench_server --help >/dev/null

python3 - "$server" "$client" "$folder" "$here/bench" <<'PROGRAM'
import os, subprocess, sys, time

program, client, folder, here = sys.argv[1:]
sys.path.insert(0, here)
sys.dont_write_bytecode = True
from served import *


class I3:
    """i3 on a screen of its own, with as many containers as are asked for."""

    def __init__(self, count):
        read, write = os.pipe()
        self.screen = subprocess.Popen(["Xvfb", "-displayfd", str(write), "-screen", "0", "1920x1080x24"], pass_fds=[write],
                                       stdout=subprocess.DEVNULL, stderr=subprocess.DEVNULL)
        os.close(write)
        self.words = {**os.environ, "DISPLAY": ":" + os.read(read, 16).decode().strip(), "XDG_RUNTIME_DIR": folder}
        with open(folder + "/config", "w") as config:
            config.write("# i3 config file (v4)\nfont pango:monospace 8\n")
        self.child = subprocess.Popen(["i3", "-c", folder + "/config"], env=self.words, stdout=subprocess.DEVNULL, stderr=subprocess.DEVNULL)
        while not self.asked("i3", "--get-socketpath"):
            time.sleep(0.1)
        self.ipc = self.asked("i3", "--get-socketpath")
        for _ in range(count):
            self.asked("i3-msg", "-s", self.ipc, "open")

    def asked(self, *words):
        return subprocess.run(words, env=self.words, capture_output=True, text=True).stdout.strip()

    def end(self):
        for child in [self.child, self.screen]:
            child.terminate()
            child.wait(10)


def rate(path, kind, texts):
    """Messages that are answered in a second, with as many as take half a second or more."""
    count = 10
    while True:
        count *= 4
        answered = int(subprocess.run([client, "load", path, "1", str(count), str(kind), *texts], capture_output=True, check=True, text=True).stdout)
        if count >= answered * 0.5:
            return answered


for count in [2, 16, 128]:
    server, other = Server(program, folder), I3(count)
    windows = Windows(server.clients, count)
    for name, (kind, texts) in KINDS.items():
        turns = [(rate(server.ipc, kind, texts), rate(other.ipc, kind, texts)) for _ in range(3)]
        ours, theirs = [max(answered) for answered in zip(*turns)]
        print("%d containers, %s: %d a second, i3 %d, %.2f times that" % (count, name, ours, theirs, ours / theirs), flush=True)
    server.end()
    other.end()
    windows.close()
PROGRAM
