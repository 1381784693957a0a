#!/bin/sh
# Times i3replay over scripts of 100,000 and of 200,000 lines: maps, closings, layouts and paints in turn, with
# some 100 windows open. Prints both times, their ratio, lines a second, and the peak memory with its bound,
# and fails where the ratio is above 2.3 or the memory above 12 times the input and 64 MiB.
# Then times it over 16 MiB of empty lines, spaces and comments, which have to take less than a second.
# usage: bench/replay.sh [PROGRAM]
set -eu
. "$(dirname "$0")/program.sh"

lines() {
    awk -v lines="$1" 'BEGIN {
        oldest = 4
        for (n = 0; n < lines; n++) {
            if (n < 100 || n % 4 == 0) print "map " sprintf("%06x", n) " 640x480"
            else if (n % 4 == 1) print "close " oldest++
            else if (n % 4 == 2) print "run layout " (n % 8 == 2 ? "splitv" : "splith")
            else print "paint"
        }
    }' >"$2"
}

lines 100000 "$folder/100000"
lines 200000 "$folder/200000"
awk 'BEGIN { size = 16777216; while (size > 120) { print ""; print "      "; print "# nothing but words"; size -= 28 } }' >"$folder/nothing"
python3 - "$program" "$folder" <<'PROGRAM'
import os, resource, subprocess, sys, time

program, folder = sys.argv[1:]


def run(lines):
    path = os.path.join(folder, lines)
    times = []
    for _ in range(3):
        with open(path, "rb") as script:
            begin = time.monotonic()
            subprocess.run([program, "replay"], stdin=script, stdout=subprocess.DEVNULL, check=True)
            times.append(time.monotonic() - begin)
    return min(times), os.path.getsize(path)


first, _ = run("100000")
second, size = run("200000")
peak = resource.getrusage(resource.RUSAGE_CHILDREN).ru_maxrss * 1024
bound = 12 * size + (64 << 20)
ratio = second / first
print("100,000 lines: %.2f s" % first)
print("200,000 lines: %.2f s, %.2f times as long, %d lines a second" % (second, ratio, 200000 / second))
print("peak memory: %.1f MiB, at most %.1f" % (peak / 2**20, bound / 2**20))
nothing, size = run("nothing")
print("%.1f MiB that say nothing: %.2f s" % (size / 2**20, nothing))
sys.exit(0 if ratio <= 2.3 and peak <= bound and nothing < 1 else 1)
PROGRAM
