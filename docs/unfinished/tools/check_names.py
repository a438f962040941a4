"""Tells whether what docs/ARCHITECTURE.md, docs/FORMAT.md and README.md name is there. Run it in the repository's folder; it fails if something is not.

- `crate::name` is a function or type of that crate;
- in the walk of ARCHITECTURE.md a function named without its crate is of the crate named last;
- `File.name` and, under *Where* in FORMAT.md, `File` and `crate` are files and names of crates/definitions/specs, and crates;
- the crates' tables of ARCHITECTURE.md and TIMES.md have all crates in the order of crates.txt (TIMES.md may lack new ones);
- a path that begins with crates/, docs/, examples/ or tools/ is there.
"""
import re
import sys
from pathlib import Path

WALK = "## The walk of a cohort"
SHARED = ("docs/01-scope.md", "docs/src")  # of the folder beside the repository
faults = []


def crates():
    return [line.split(":")[0] for line in Path("crates.txt").read_text().splitlines() if ":" in line and not line.startswith("#")]


def items(crate):
    """The functions and types of a crate."""
    text = "".join(p.read_text() for p in Path("crates", crate, "src").glob("*.rt"))
    return set(re.findall(r"\b(?:fn|struct|enum) (\w+)", text))


def definitions():
    """What each file of the definitions defines."""
    return {p.stem: set(re.findall(r"\bpub (?:record |data )?([\w′>=]+)", p.read_text())) for p in Path("crates/definitions/specs").glob("*.antt")}


def qualified(page, text, has):
    for crate, name in re.findall(r"`(\w+)::(\w+)", text):
        if crate in has and name not in has[crate]:
            faults.append(f"{page}: {crate}::{name} is not there")
        if crate not in has and crate.islower():
            faults.append(f"{page}: there is no crate {crate} ({crate}::{name})")


def walk(text, has):
    """Functions of the walk, each of its own crate or of the one named last."""
    last = None
    for crate, name in re.findall(r"`(?:(\w+)::)?([a-z]\w*_\w*|[a-z]+)`", text):
        last = crate or last
        if name not in has and last and name not in has[last]:
            faults.append(f"the walk: {name} is not of {last}, the crate named before it")


def stated(page, text, files):
    for file, name in re.findall(r"`([A-Z]\w+)\.(\w+)`", text):
        if name != "antt" and (file not in files or name not in files[file]):
            faults.append(f"{page}: {file}.{name} is no definition")


def where(text, has, files):
    for line in re.findall(r"^\*Where\*: (.*)$", text, re.M):
        for name in re.findall(r"`([A-Z]\w+)`", line):
            if name not in files and not re.search(r"`%s` of `(\w+)`" % name, line):
                faults.append(f"FORMAT.md: {name} is no file of the definitions")
        for name in re.findall(r"`([a-z]\w*_\w+)`", line):
            if name not in has:
                faults.append(f"FORMAT.md: there is no crate {name}")
    for of, names in re.findall(r"`([A-Z]\w+)`: ((?:`\w+`(?:, )?)+)", text):
        for name in re.findall(r"\w+", names):
            if of in files and name not in files[of]:
                faults.append(f"FORMAT.md: {of} does not define {name}")


def order(page, text, whole):
    listed = [c for c in re.findall(r"^\| `(\w+)` \|", text, re.M) if c in crates()]
    wanted = crates() if whole else [c for c in crates() if c in listed]
    if listed != wanted:
        faults.append(f"{page}: its crates are not those of crates.txt in their order")


def paths(page, text):
    for path in re.findall(r"[`(\[ ]((?:crates|docs|examples|tools)/[\w./-]*\w)", text):
        if not Path(path).exists() and path not in SHARED:
            faults.append(f"{page}: there is no {path}")


def main():
    has, files = {c: items(c) for c in crates()}, definitions()
    pages = {p: Path(p).read_text() for p in ("README.md", "docs/ARCHITECTURE.md", "docs/FORMAT.md", "docs/DECISIONS.md")}
    for page, text in pages.items():
        qualified(page, text, has)
        if page != "docs/DECISIONS.md":
            paths(page, text)
    architecture = pages["docs/ARCHITECTURE.md"]
    stated("docs/ARCHITECTURE.md", architecture, files)
    walk(architecture.split(WALK)[1].split("\n## ")[0].split("The other entries:")[0], has)
    where(pages["docs/FORMAT.md"], has, files)
    order("docs/ARCHITECTURE.md", architecture.split("## Crates\n")[1].split("Outside `crates/`")[0], True)
    order("docs/TIMES.md", Path("docs/TIMES.md").read_text(), False)
    for fault in faults:
        print(fault)
    sys.exit(1 if faults else 0)


main()
