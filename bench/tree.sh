#!/bin/sh
# Times 100,000 calls of looking, of raising and of moving on a tree of 400 containers and on one of 4,000, nested
# 10 deep, and prints the processor time of each, and how many times as long the larger tree takes.
# usage: bench/tree.sh
set -eu
here=$(cd "$(dirname "$0")/.." && pwd)
program=$here/crates/bench_calls/out/bench_calls
if [ ! -x "$program" ]; then
    (cd "$here/crates/bench_calls" && rt run -- tree 400 raise >/dev/null)
fi
python3 - "$program" <<'PROGRAM'
import resource, subprocess, sys

program = sys.argv[1]


def seconds(words):
    before = resource.getrusage(resource.RUSAGE_CHILDREN).ru_utime
    subprocess.run([program] + words, stdin=subprocess.DEVNULL, check=True)
    return resource.getrusage(resource.RUSAGE_CHILDREN).ru_utime - before


for call in ["look", "raise", "move"]:
    small, large = seconds(["tree", "400", call]), seconds(["tree", "4000", call])
    print("%s: %.1f and %.1f microseconds a call, %.1f times as long" % (call, small * 10, large * 10, large / small))
PROGRAM
