#!/bin/sh
# Takes what an acknowledgement, a buffer and a deadline cost with 20, 200 and 4,000 open windows, each alone and where each step
# is followed by its answers or by its deadline, what the state costs with a deadline before it, where nothing waits and where all
# windows on the screen are awaited, and how that grows; and with i3replay 10,000 windows that come and go with 200 open, and 1,000,000
# that come and go by twenties: steps a second, and the memory.
# usage: bench/clients.sh [PROGRAM]
set -eu
. "$(dirname "$0")/program.sh"
desk=$here/crates/bench_calls/out/bench_calls
if [ ! -x "$desk" ]; then
    (cd "$here/crates/bench_calls" && rt run -- desk 20 give >/dev/null)
fi

python3 - "$program" "$folder" "$here/bench" "$desk" <<'PROGRAM'
import subprocess, sys

program, folder, here, desk = sys.argv[1:]
sys.path.insert(0, here)
sys.dont_write_bytecode = True
from measure import measured


def answered(windows, call):
    """The least processor time of an answer in nanoseconds, of five runs."""
    words = [desk, "desk", str(windows), call]
    return min(float(subprocess.run(words, capture_output=True, check=True).stdout) for _ in range(5))


for call in ["acknowledge", "give", "time-out", "follow", "expire", "state", "waiting"]:
    costs = [answered(windows, call) for windows in [20, 200, 4000]]
    print("%s: %.0f, %.0f and %.0f nanoseconds with 20, 200 and 4,000 open windows, %.2f times as long at the end"
          % (call, *costs, costs[2] / costs[0]))


def traffic(windows, shown):
    lines, number = [], 0
    for n in range(windows):
        lines.append("map ff0000 64x48")
        number += 1
        if n >= shown:
            lines.append("close %d" % (4 + n - shown))
            number += 1
        lines.append("deadline %d" % number)
    return lines


few, memory_few = measured(program, "replay", folder, traffic(5000, 200))
many, memory_many = measured(program, "replay", folder, traffic(10000, 200))
print("10,000 windows with 200 open: %d steps a second; twice the windows take %.2f times as long"
      % (len(traffic(10000, 200)) / many, many / few))


def crowds(windows):
    """Twenty windows come, and then all go, again and again."""
    return (["map ff0000 1x1"] * 20 + ["gone"]) * (windows // 20)


def idle(lines):
    """The same lines, each as long as it was, but that no window opens: its buffer is empty."""
    return [line.replace(" 1x1", " 0x1") for line in lines]


few, _ = measured(program, "replay", folder, traffic(50000, 20))
many, _ = measured(program, "replay", folder, traffic(100000, 20))
print("with 20 open, 100,000 windows take %.2f times as long as 50,000" % (many / few))
few, memory_few = measured(program, "replay", folder, crowds(500000))
many, memory_many = measured(program, "replay", folder, crowds(1000000))
_, idle_few = measured(program, "replay", folder, idle(crowds(500000)))
_, idle_many = measured(program, "replay", folder, idle(crowds(1000000)))
print("with up to 20 open, 1,000,000 windows take %.2f times as long as 500,000, and %.0f bytes of memory for each window gone"
      % (many / few, (memory_many - memory_few - (idle_many - idle_few)) / 500000))
PROGRAM
