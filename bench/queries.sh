#!/bin/sh
# Takes how many looks at the tree and at the workspaces i3replay answers in a second with 2, 16 and 128 open windows, and how many
# texts that do nothing it runs with 2 and with 128. What the opening takes is taken off.
# usage: bench/queries.sh [PROGRAM]
set -eu
. "$(dirname "$0")/program.sh"

python3 - "$program" "$folder" "$here/bench" <<'PROGRAM'
import sys

program, folder, here = sys.argv[1:]
sys.path.insert(0, here)
sys.dont_write_bytecode = True
from measure import measured


def opened(windows):
    """Windows that are opened, and whose time is over."""
    lines = []
    for n in range(windows):
        lines += ["map ff0000 64x48", "deadline %d" % (n + 1)]
    return lines


def cost(windows, line, count):
    """Seconds that each of so many lines takes, after the opening."""
    opening, _ = measured(program, "replay", folder, opened(windows))
    whole, _ = measured(program, "replay", folder, opened(windows) + [line] * count)
    return (whole - opening) / count


for line, counts in [("tree", [40000, 16000, 3000]), ("workspaces", [100000] * 3)]:
    rates = [1 / cost(windows, line, count) for windows, count in zip([2, 16, 128], counts)]
    print("%s: %.0f, %.0f and %.0f a second with 2, 16 and 128 open windows" % (line, *rates))

few, many = cost(2, "run nop", 300000), cost(128, "run nop", 300000)
print("run nop: %.0f and %.0f a second with 2 and 128 open windows, %.2f times as long" % (1 / few, 1 / many, many / few))
PROGRAM
