#!/bin/sh
# Takes how many messages a session answers in a second on a link in memory, with 2 and with 128 open windows, where its client is
# subscribed to nothing, to one kind of events and to all seven: texts that do nothing, and looks at the tree. What the opening takes
# is taken off.
# usage: bench/sessions.sh [PROGRAM]
set -eu
here=$(cd "$(dirname "$0")/.." && pwd)
program=${1:-$here/crates/cases_sessions/out/cases_sessions}
if [ ! -x "$program" ]; then
    (cd "$here/crates/cases_sessions" && rt run -- /dev/null >/dev/null)
fi
folder=$(mktemp -d)
trap 'rm -rf "$folder"' EXIT

python3 - "$program" "$folder" <<'PROGRAM'
import os, subprocess, sys

program, folder = sys.argv[1:]
SUBSCRIPTIONS = {
    "no": "",
    "one": '2 ["window"]',
    "seven": '2 ["workspace", "output", "mode", "window", "binding", "shutdown", "tick"]',
}


def seconds(line, runs=2):
    """The least processor time of a session, of so many runs."""
    path = os.path.join(folder, "cases")
    with open(path, "w") as cases:
        cases.write(line + "\n")
    best = None
    for _ in range(runs):
        child = subprocess.Popen([program, path], stdout=subprocess.PIPE)
        told = child.stdout.read().decode()
        _, status, usage = os.wait4(child.pid, 0)
        if status != 0 or "Closed" not in told:
            sys.exit("the session failed: " + told)
        took = usage.ru_utime + usage.ru_stime
        best = took if best is None else min(best, took)
    return best


def rate(windows, names, message, count, space):
    """How many messages are answered in a second, behind the opening and the subscription."""
    line = "many %d|%d map|%s|%%d|%s" % (space, windows, SUBSCRIPTIONS[names], message)
    return count / (seconds(line % count) - seconds(line % 0))


for message, what, counts, space in [("0 nop", "nop", [400000, 400000], 1 << 24), ("4", "the tree", [20000, 1000], 1 << 28)]:
    for names in SUBSCRIPTIONS:
        few, many = (rate(windows, names, message, count, space) for windows, count in zip([2, 128], counts))
        print("%s, %s subscription%s: %.0f and %.0f a second with 2 and 128 open windows"
              % (what, names, "s" if names == "seven" else "", few, many))
PROGRAM
