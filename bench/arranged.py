#!/usr/bin/env python3
"""Takes the processor's time of arranging 16 and 64 tabbed containers side by side with 16 windows each, by the program cases_tree, the
time of opening them taken off, and prints how it grows: the median of rounds in which both are taken one behind the other.
usage: bench/arranged.py CASES_TREE
"""
import os, subprocess, sys, tempfile
from statistics import median

CALLS = {16: 4000, 64: 1000}
ROUNDS = 40


def opened(containers):
    """A screen of so many containers. Each takes 17 ids, that of its first window first."""
    lines = ["case tabs", "start normal 2 0 0 A 0,0 1920x1080"]
    for first in range(4, 4 + 17 * containers, 17):
        lines += ["add window last 3", "wrap %d tabbed" % first, "times 15 add window after %d" % first]
    return lines


def seconds(program, folder, lines):
    path = os.path.join(folder, "tabs.cases")
    with open(path, "w") as file:
        file.write("\n".join(lines) + "\n")
    child = subprocess.Popen([program, path], stdout=subprocess.DEVNULL)
    _, status, usage = os.wait4(child.pid, 0)
    if status != 0:
        sys.exit("the program failed")
    return usage.ru_utime + usage.ru_stime


def cost(program, folder, containers, calls):
    """What it costs to arrange so many containers once, in microseconds."""
    took = [seconds(program, folder, opened(containers) + ["again"] * count) for count in (calls, 0)]
    return (took[0] - took[1]) / calls * 1e6


def main():
    program, = sys.argv[1:]
    with tempfile.TemporaryDirectory() as folder:
        rounds = [{containers: cost(program, folder, containers, calls) for containers, calls in CALLS.items()} for _ in range(ROUNDS)]
    few, many = (median(costs[containers] for costs in rounds) for containers in CALLS)
    print("arranging: %.0f and %.0f microseconds over 16 and over 64 tabbed containers, %.2f times as long" % (
        few, many, median(costs[64] / costs[16] for costs in rounds)))


main()
