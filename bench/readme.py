#!/usr/bin/env python3
"""Runs the commands of README.md, docs/REPLAY.md and docs/SERVER.md, and sees that each ends with 0 and shows what the page says below
it. Those of the first two run at the top of the repository, those of the last one in a folder of its own, where a server is started and
clients talk to it by `nc` and `i3-msg`; where these are not installed that page is passed over, and so it is said. `rt ci` is passed
over too, since it takes hours. The words, the paths of a built i3replay and of a built i3desk, stand for `./run i3replay` and
`../run i3desk`, which otherwise prove and build the programs first.
usage: bench/readme.py [I3REPLAY [I3DESK]]
"""
import os, re, select, shutil, subprocess, sys, tempfile, time

os.chdir(os.path.join(os.path.dirname(os.path.abspath(__file__)), ".."))
TOP = os.getcwd()
SKIPPED = ("rt ci", "i3replay ", "i3desk ")
SAID_BY_CLIENTS = ("map", "title", "urgent", "close", "ack", "buffer")
LONGEST = 20
PAINTED = 0.5  # what was said before is painted by then, in seconds


def commands(page):
    """Each command of a page with the lines that stand below it, none where the page shows nothing of its output."""
    found, shown = [], None
    for line in open(page, encoding="utf-8").read().splitlines():
        if not line.startswith("    "):
            shown = None
            continue
        text = line[4:]
        if text.startswith("$ "):
            shown = []
            found.append((text[2:], shown))
        elif shown is not None:
            shown.append(text)
        elif re.match(r"(\.\.?/run|\(cd|rt) ", text):
            found.append((text, None))
    return [one for one in found if not one[0].startswith(SKIPPED)]


def tell(fits, took, page, command, said):
    """Says whether a command shows what its page says, and what it showed where it does not; 1 where it does not."""
    print(f"{'ok   ' if fits else 'WRONG'} {took:7.1f} s  {page}: {command}", flush=True)
    if not fits:
        print(said[-1000:], flush=True)
    return not fits


def ran(page, command, run, shown, folder):
    """Runs a command to its end."""
    begin = time.time()
    done = subprocess.run(["sh", "-c", run], capture_output=True, cwd=folder)
    fits = done.returncode == 0 and bool(done.stdout)
    if shown:
        fits = fits and done.stdout.decode(errors="replace").splitlines() == shown
    return tell(fits, time.time() - begin, page, command, (done.stdout + done.stderr).decode(errors="replace"))


def talked(client, shown):
    """Says the lines of a client that a page shows, and gives what came otherwise than the page shows it, if anything did."""
    for line in shown:
        if line.split(" ")[0] in SAID_BY_CLIENTS:
            client.stdin.write(line.encode() + b"\n")
            client.stdin.flush()
            continue
        came = b""
        while not came.endswith(b"\n"):
            if not select.select([client.stdout], [], [], LONGEST)[0]:
                return f"nothing came where the page shows {line}"
            byte = os.read(client.stdout.fileno(), 1)
            if not byte:
                return f"the end came where the page shows {line}"
            came += byte
        if came.decode().rstrip("\n") != line:
            return f"{came.decode()} came where the page shows {line}"
    return ""


def session(page, desk):
    """Runs the commands of the server's page in a folder of their own, with a server in the background and clients that stay."""
    missing = [name for name in ("nc", "i3-msg") if not shutil.which(name)]
    if missing:
        print(f"passed over: {page}, since {' and '.join(missing)} cannot be found", flush=True)
        return 0
    wrong, server, clients = 0, None, []
    with tempfile.TemporaryDirectory() as above:
        folder = os.path.join(above, "desk")
        os.mkdir(folder)
        for command, shown in commands(page):
            run = command.replace("../run i3desk", desk).replace("../", TOP + "/")
            begin = time.time()
            if command.endswith("&"):
                server = subprocess.Popen(["sh", "-c", "exec " + run[:-1]], cwd=folder)
                while server.poll() is None and not os.path.exists(os.path.join(folder, "i3desk.ipc")):
                    time.sleep(0.05)
                wrong += tell(server.poll() is None, time.time() - begin, page, command, "the server ended")
            elif command.startswith("nc "):
                client = subprocess.Popen(command.split(), cwd=folder, stdin=subprocess.PIPE, stdout=subprocess.PIPE)
                clients.append(client)
                other = talked(client, shown)
                wrong += tell(not other, time.time() - begin, page, command, other)
            else:
                time.sleep(PAINTED)
                wrong += ran(page, command, run, shown, folder)
            if command.endswith(" exit") and server:
                wrong += tell(server.wait(LONGEST) == 0, time.time() - begin, page, "the server's end", "it ended with another status than 0")
                server = None
        for left in clients + ([server] if server else []):
            left.terminate()
            left.wait()
    return wrong


replay = os.path.abspath(sys.argv[1]) if len(sys.argv) > 1 else "./run i3replay"
desk = os.path.abspath(sys.argv[2]) if len(sys.argv) > 2 else TOP + "/run i3desk"
wrong = 0
for page in ("README.md", "docs/REPLAY.md"):
    for command, shown in commands(page):
        wrong += ran(page, command, command.replace("./run i3replay", replay), shown, TOP)
wrong += session("docs/SERVER.md", desk)
sys.exit(bool(wrong))
