#!/bin/sh
# Times i3replay over 8 MiB and over 16 MiB of small i3-ipc frames: RUN_COMMAND with each command in turn, GET_VERSION
# and SYNC. Prints both times, their ratio, frames a second, and the peak memory, and fails where the ratio is above 2.3.
# usage: bench/frames.sh [PROGRAM]
set -eu
. "$(dirname "$0")/program.sh"

python3 - "$program" "$folder" <<'PROGRAM'
import os, resource, struct, subprocess, sys, time

program, folder = sys.argv[1:]


def frame(kind, payload):
    return b"i3-ipc" + struct.pack("<II", len(payload), kind) + payload


texts = [b"nop", b"layout splitv", b"exit", b"layout splith", b"no such command"]
round_of_frames = b"".join(frame(0, text) for text in texts) + frame(7, b"") + frame(11, b"")


def run(mebibytes):
    rounds = (mebibytes << 20) // len(round_of_frames)
    path = os.path.join(folder, str(mebibytes))
    with open(path, "wb") as frames:
        frames.write(round_of_frames * rounds)
    times = []
    for _ in range(3):
        with open(path, "rb") as frames:
            begin = time.monotonic()
            subprocess.run([program, "ipc"], stdin=frames, stdout=subprocess.DEVNULL, check=True)
            times.append(time.monotonic() - begin)
    return min(times), rounds * (len(texts) + 2)


first, _ = run(8)
second, count = run(16)
peak = resource.getrusage(resource.RUSAGE_CHILDREN).ru_maxrss * 1024
ratio = second / first
print("8 MiB of frames: %.2f s" % first)
print("16 MiB of frames: %.2f s, %.2f times as long, %d frames a second" % (second, ratio, count / second))
print("peak memory: %.1f MiB" % (peak / 2**20))
sys.exit(0 if ratio <= 2.3 else 1)
PROGRAM
