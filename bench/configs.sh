#!/bin/sh
# Takes how long i3desk reads configurations of 256 KiB, 512 KiB and 1 MiB of each kind: the same bindings again and again; as many
# bindings of their own as have room; as many modes; 1,000 names that are set, and lines with them; one line of that length. The
# last line of each is none of a configuration, so that the program ends there.
# usage: bench/configs.sh [I3DESK]
set -eu
. "$(dirname "$0")/serving.sh"

python3 - "$server" "$folder" <<'PROGRAM'
import itertools, os, subprocess, sys, time

program, folder = sys.argv[1:]
LAST = "bogus\n"


def cut(lines, size):
    """As many of the lines as have room in so many bytes, and the last one."""
    text, left = [], size - len(LAST)
    for line in lines:
        if len(line) > left:
            break
        text.append(line)
        left -= len(line)
    return "".join(text) + LAST


def same(size):
    return cut(itertools.cycle("bindsym Mod4+%d workspace %d\n" % (n, n) for n in range(1, 31)), size)


def own(size):
    return cut(("bindsym Mod4+key%d workspace %d\n" % (n, n) for n in itertools.count()), size)


def modes(size):
    return cut(('mode "mode%d" {\n}\n' % n for n in itertools.count()), size)


def named(size):
    names = ["set $name%03d value%03d\n" % (n, n) for n in range(1000)]
    uses = ("bindsym Mod4+%d workspace $name%03d\n" % (n % 30, n % 1000) for n in itertools.count())
    return cut(itertools.chain(names, uses), size)


def long(size):
    front = "bindsym Mod4+x "
    return front + "n" * (size - len(front) - 1 - len(LAST)) + "\n" + LAST


def took(text):
    path = os.path.join(folder, "config")
    with open(path, "w") as file:
        file.write(text)
    times = []
    for _ in range(3):
        with open(path, "rb") as config:
            begin = time.monotonic()
            done = subprocess.run([program], stdin=config, cwd=folder, capture_output=True)
            times.append(time.monotonic() - begin)
        assert done.returncode == 3 and done.stderr.decode().endswith("line %d\n" % text.count("\n")), done
    return min(times)


for name, make in [("the same bindings", same), ("bindings of their own", own), ("modes", modes), ("1,000 names", named), ("one line", long)]:
    times = [took(make(size << 10)) for size in [256, 512, 1024]]
    print("%s: %s ms, 1 MiB %.2f and %.2f times as long as a half and a quarter"
          % (name, ", ".join("%.1f" % (t * 1000) for t in times), times[2] / times[1], times[2] / times[0]), flush=True)
PROGRAM
