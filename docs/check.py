#!/usr/bin/env python3
"""Checks that the documents fit the sources: which files and definitions they name, the order of the crates, the crates'
own pages, and how many edits there are. With --write it first writes what is listed from the sources.
usage: python3 docs/check.py [--write]
"""
import collections, glob, os, re, sys

os.chdir(os.path.join(os.path.dirname(os.path.abspath(__file__)), ".."))
SOURCES = ("User's Guide", "IPC document", "sway", "this project's own", "JSON", "PPM")
WRONG = []


def wrong(page, text):
    WRONG.append(f"{page}: {text}")


def read(path):
    with open(path, encoding="utf-8") as file:
        return file.read()


def listed(page, name, text):
    """Sees that what stands between two marks of a page is the text, or writes it there."""
    whole = read(page)
    begin, end = f"<!-- {name}: written by docs/check.py -->\n", "<!-- end -->"
    before, found, rest = whole.partition(begin)
    old, closed, after = rest.partition(end)
    if not found or not closed:
        wrong(page, f"no list {name}")
    elif old != text and "--write" in sys.argv:
        with open(page, "w", encoding="utf-8") as file:
            file.write(before + begin + text + end + after)
    elif old != text:
        wrong(page, f"the list {name} is not that of the sources")


def crates():
    """Each crate of the repository with those that it stands on, and with its level: one above the highest below it."""
    below = {}
    for line in read("crates.txt").splitlines():
        name, _, rest = line.partition("#")[0].strip().partition(":")
        if name:
            below[name.split()[0]] = rest.split()
    below = {name: [other for other in others if other in below] for name, others in below.items()}
    levels = {}

    def level(name):
        if name not in levels:
            levels[name] = 1 + max((level(other) for other in below[name]), default=-1)
        return levels[name]

    return below, {name: level(name) for name in below}


def head(path):
    """What the first comment of a file says."""
    words = []
    for line in read(path).splitlines():
        if not line.startswith("-- ") or line.startswith("-- ----"):
            break
        words.append(line[3:].strip())
    return " ".join(words).rstrip(".").replace("|", "\\|")


def cited():
    """For each file of definitions the names that sources take from it for their contracts."""
    names = collections.defaultdict(set)
    for path in glob.glob("crates/*/src/**/*.rt", recursive=True):
        for crate, file, many, one in re.findall(
            r"ghost use Rattle\.([\w.]+?)\.specs\.((?!declared|contracts)[\w.]+?)(?:\.\{([^}]*)\}|\.(\w+));", read(path), re.S
        ):
            key = f"{crate.split('.')[-1]}/specs/{file.replace('.', '/')}.antt"
            names[key] |= {name.split(" as ")[0].strip() for name in (many or one).split(",") if name.strip()}
    return names


def order(crate):
    """The files of definitions of a crate, each behind those that it names."""
    files = {os.path.relpath(path, f"crates/{crate}/specs")[:-5].replace("/", "."): path
             for path in sorted(glob.glob(f"crates/{crate}/specs/**/*.antt", recursive=True))
             if any(line.strip() and not line.startswith("pub mod ") for line in read(path).splitlines())}
    done = []

    def put(name):
        if name in done or name not in files:
            return
        for other in re.findall(rf"use Rattle\.{crate}\.specs\.([\w.]+?)(?:\.\{{| as |\.\w+$|$)", read(files[name]), re.M):
            if other != name:
                put(other)
        done.append(name)

    for name in files:
        put(name)
    return [(name, files[name]) for name in done]


def check_crates(below, levels):
    page = "docs/DESIGN.md"
    said = dict(re.findall(r"^    ([a-z][a-z0-9_]+) +(\S.*)$", read(page).partition("<!-- end -->")[0], re.M))
    for name in levels:
        if name not in said:
            wrong(page, f"says nothing of {name}")
    width = 1 + max(map(len, levels))
    rows = []
    for at in sorted(set(levels.values())):
        rows += [f"    {name:{width}}{said.get(name, '')}" for name in below if levels[name] == at] + [""]
    listed(page, "crates", "\n" + "\n".join(rows) + "\n")
    for name, others in below.items():
        above = [other for other in below if name in below[other]]
        files = ", ".join(f"`{file}`" for file, _ in order(name))
        text = f"Specs, in the order in which to read them: {files}.\n\n" if files else ""
        text += f"Stands on: {', '.join(f'`{other}`' for other in others) or 'no other crate'}. "
        text += f"On it stand: {', '.join(f'`{other}`' for other in above) or 'none'}.\n"
        if os.path.exists(f"crates/{name}/README.md"):
            listed(f"crates/{name}/README.md", "its place", text)
        else:
            wrong(f"crates/{name}", "has no README.md")


def check_definitions(below):
    page = "docs/DEFINITIONS.md"
    whole = read(page)
    names = cited()
    table = ""
    for crate in below:
        rows = order(crate)
        if rows:
            table += f"\n### `{crate}`\n\n| File | What it holds | Named by contracts |\n|---|---|---|\n"
        for name, path in rows:
            cites = ", ".join(f"`{one}`" for one in sorted(names.get(path[len("crates/"):], ())))
            table += f"| `{name}` | {head(path)} | {cites} |\n"
            if not head(path):
                wrong(path, "its first line says nothing")
    listed(page, "files", table + "\n")
    for row in re.findall(r"^\| (?!Name|File|--)(.*) \|$", whole.partition("<!-- files")[0], re.M):
        cells = row.split(" | ")
        files = re.findall(r"`([\w/]+\.antt)`", cells[-1])
        gone = [file for file in files if not os.path.exists("crates/" + file)]
        if gone or not files:
            wrong(page, f"{cells[0]}: no file {', '.join(gone) or 'at all'}")
            continue
        if not any(source in cells[1] for source in SOURCES):
            wrong(page, f"{cells[0]}: names no source")
        text = " ".join(read("crates/" + file) for file in files)
        for name in re.findall(r"`([A-Za-z]\w+)`", " ".join(cells[:-1])):
            if not re.search(rf"\b{name}\b", text) and not any(re.search(rf"\b{name}\b", read(source)) for source in glob.glob(f"crates/{files[0].split('/')[0]}/src/*.rt")):
                wrong(page, f"{cells[0]}: `{name}` stands in none of its files")


def check_pages():
    pages = ["README.md"] + sorted(glob.glob("docs/*.md")) + sorted(glob.glob("crates/*/README.md"))
    for page in pages:
        for path in re.findall(r"`((?:docs|examples|bench|edits|crates)/[\w./-]+)`", read(page)):
            path = path.rstrip(".")
            if ".." not in path and "NAME" not in path and not os.path.exists(path) and not glob.glob(path + "*"):
                wrong(page, f"there is no {path}")
    gate, others = len(glob.glob("crates/*/must-fail/*.edit")), len(glob.glob("edits/*/*.edit"))
    if f"There are {gate} in the gate and {others} in `edits`" not in read("docs/PROVED.md"):
        wrong("docs/PROVED.md", f"there are {gate} edits in the gate and {others} in edits")


below, levels = crates()
check_crates(below, levels)
check_definitions(below)
check_pages()
print("\n".join(WRONG) or "the documents fit the sources")
sys.exit(bool(WRONG))
