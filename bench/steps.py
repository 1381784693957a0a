#!/usr/bin/env python3
"""Takes how long `i3replay generate N COUNT` takes against `i3replay replay` of the same steps as a script, the least of three runs
each, and sees that both lead to the same place. The script is that of `bench_calls script N COUNT`.
usage: python3 bench/steps.py I3REPLAY BENCH_CALLS N COUNT
"""
import subprocess, sys, time

replay, calls, number, count = sys.argv[1:]


def run(words, text=b""):
    begin = time.monotonic()
    said = subprocess.run(words, input=text, stdout=subprocess.PIPE, check=True).stdout
    return time.monotonic() - begin, said.decode().splitlines()


lines = subprocess.run([calls, "script", number, count], stdout=subprocess.PIPE, check=True).stdout
timed = [(run([replay, "generate", number, count]), run([replay, "replay"], lines)) for _ in range(3)]
generated, replayed = (min(both[at][0] for both in timed) for at in (0, 1))
print("generate %.2f s, replay %.2f s, %.2f times" % (generated, replayed, generated / replayed))

said = run([replay, "replay"], lines + b"paint\ntree\n")[1]
done, prefix = next(line for line in reversed(said) if line.startswith("frame ")).split()[1:]
windows = said[-1].count('"window":') - said[-1].count('"window":null')
mine = [f"steps {count}", f"done {done}", f"prefix {prefix}", f"windows {windows}"]
sys.exit(mine != timed[0][0][1])
