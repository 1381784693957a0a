#!/bin/sh
# Takes the processor's time of frames with 16, 256 and 4,000 containers in splits, and pictures of 1920x1080 and of 16384x2048, and prints the
# time for each part and each pixel, and how it grows.
# usage: bench/pictures.sh [PROGRAM]
set -eu
. "$(dirname "$0")/program.sh"

python3 - "$program" "$folder" "$here/bench" <<'PROGRAM'
import sys

program, folder, here = sys.argv[1:]
sys.path.insert(0, here)
sys.dont_write_bytecode = True
from measure import measured, replayed

FRAMES = {16: 200000, 256: 12000, 4000: 3000}


def opened(windows):
    lines = ["output A 0,0 16384x2048"]
    per = max(1, round(windows ** 0.5)) if windows < 4000 else 63
    count = 0
    while count < windows:
        if count:
            lines += ["run workspace 1, focus parent", "run focus parent"]
        for n in range(min(per, windows - count)):
            lines.append("map ff0000 64x48")
            if n == 0:
                lines.append("run split v")
            count += 1
    return lines + ["deadline %d" % n for n in range(1, 4)]


costs = []
for windows in [16, 256, 4000]:
    lines = opened(windows)
    base, _ = measured(program, "replay", folder, lines, 3)
    total, _ = measured(program, "replay", folder, lines + ["paint"] * FRAMES[windows], 3)
    shown = replayed(program, lines + ["paint"]).count(b"\nwindow ")
    costs.append((total - base) / FRAMES[windows] / shown)
    print("frame text of %d containers, %d of them shown: %.0f ns for each" % (windows, shown, 1e9 * costs[-1]))
print("growth for each shown: %.2f and %.2f" % (costs[1] / costs[0], costs[2] / costs[1]))
areas = []
for width, height in [(1920, 1080), (16384, 2048)]:
    base, _ = measured(program, "draw", folder, ["output A 0,0 1x1"], 3)
    total, _ = measured(program, "draw", folder, ["output A 0,0 %dx%d" % (width, height), "map ff8000 %dx%d" % (width, height), "deadline 1"], 3)
    areas.append((total - base) / (width * height))
    print("picture of %dx%d: %.2f ns a pixel" % (width, height, 1e9 * areas[-1]))
print("growth a pixel: %.2f" % (areas[1] / areas[0]))
PROGRAM
