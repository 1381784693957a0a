"""Runs of i3replay over scripts, measured in the processor's time and in memory."""
import os, signal, subprocess, sys
from concurrent.futures import ThreadPoolExecutor

# A reply to this line is longer than the pieces of 64 KiB in which i3replay writes, so it is written as soon as it is made.
FILLER = "run " + ";".join(["nop"] * 4000)


def measured(program, word, folder, lines, runs=2):
    """The least processor time in seconds of so many runs over these lines, and the memory of that run in bytes."""
    path = os.path.join(folder, "script")
    with open(path, "w") as script:
        script.write("\n".join(lines) + "\n")
    best = None
    for _ in range(runs):
        with open(path, "rb") as script:
            child = subprocess.Popen([program, word], stdin=script, stdout=subprocess.DEVNULL)
            _, status, usage = os.wait4(child.pid, 0)
        if status != 0:
            sys.exit("the program failed")
        took = usage.ru_utime + usage.ru_stime
        if best is None or took < best[0]:
            best = (took, usage.ru_maxrss * 1024)
    return best


def replayed(program, lines):
    """What the program writes for these lines."""
    text = "\n".join(lines) + "\n"
    return subprocess.run([program, "replay"], input=text.encode(), capture_output=True, check=True).stdout


class Rounds:
    """An i3replay that takes its script in rounds and is held still between them, so that several take turns. Each round ends with
    the filler. A line that begins with `output ` tells nothing, each other one tells a line."""

    def __init__(self, program, path, rounds):
        with open(path, "w") as script:
            for lines in [*rounds, []]:
                script.write("\n".join([*lines, FILLER]) + "\n")
        self.told = [1 + sum(not line.startswith("output ") for line in lines) for lines in rounds]
        self.ahead, self.spent = 0, 0.0
        with open(path, "rb") as script:
            self.child = subprocess.Popen([program, "replay"], stdin=script, stdout=subprocess.PIPE)

    def turn(self):
        """Lets it take the next round. What that took of the processor, in seconds."""
        os.kill(self.child.pid, signal.SIGCONT)
        self.ahead -= self.told.pop(0)
        while self.ahead < 0:
            piece = os.read(self.child.stdout.fileno(), 1 << 20)
            if not piece or b'"error"' in piece:
                sys.exit("a command is refused" if piece else "the program failed")
            self.ahead += piece.count(b"\n")
        os.kill(self.child.pid, signal.SIGSTOP)
        os.waitpid(self.child.pid, os.WUNTRACED)
        with open("/proc/%d/schedstat" % self.child.pid) as file:
            before, self.spent = self.spent, int(file.read().split()[0]) / 1e9
        return self.spent - before

    def end(self):
        self.child.kill()
        self.child.wait()


def opened_side_by_side(runs):
    """Lets each take its first round, all at once."""
    with ThreadPoolExecutor(len(runs)) as pool:
        list(pool.map(Rounds.turn, runs))
