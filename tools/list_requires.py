"""Prints every public function that has a `requires`, with what it asks, and behind them what the records that they name ask,
as a list for docs/ARCHITECTURE.md.

Run it in the repository's folder. `--write` puts the list between the two marks in docs/ARCHITECTURE.md; `--check` tells
whether it stands there as printed.
"""
import glob
import re
import sys

TARGET = "docs/ARCHITECTURE.md"
MARKS = ("<!-- tools/list_requires.py --write -->\n", "<!-- end -->\n")
SOURCES = ["crates/*/specs/*.antt", "crates/laws/proofs/SoundInput.antt"]


def plain(fact):
    """A fact without the marks of the logic: what a slice holds is named by the slice."""
    fact = " ".join(fact.split())
    fact = fact.replace("«", "").replace("»", "")
    fact = re.sub(r"\b(\w+)\.(?:now|old)\b", r"\1", fact)
    return re.sub(r"(?<![\w.'])([\w']+)\.0\b", r"\1", fact)


def read(path):
    with open(path) as f:
        return f.read()


def functions(path):
    """The public functions of a file, each with its requires."""
    text = read(path)
    owner = ""
    for line in re.finditer(r"^(impl(?:<[^>]*>)? (\w+))|^    pub fn (\w+)|^pub (?:extern \"C\" )?fn (\w+)", text, re.M):
        if line.group(2):
            owner = line.group(2) + "::"
            continue
        name = owner + line.group(3) if line.group(3) else line.group(4)
        head = re.match(r".*?\n?\s*\{$", text[line.start():], re.S | re.M).group()
        asked = [plain(r) for r in re.findall(r"requires(?: \w+)? \{ (.*?) \}(?=\n)", head, re.S)]
        if asked:
            yield name, asked


def imported(text):
    """From which crate a file takes each name."""
    names = {}
    for crate, of in re.findall(r"use Rattle\.(\w+)\.(?:specs|proofs)\.[\w.]+\.\{([^}]*)\}", text):
        for name in of.split(","):
            names[name.strip()] = crate
    return names


def conditions():
    """What each record of conditions asks, field by field, and each condition by cases, case by case; by crate and name, with its file's imports."""
    found = {}
    for path in sorted(sum((glob.glob(s) for s in SOURCES), [])):
        crate, text = path.split("/")[1], read(path)
        if crate == "definitions":
            continue
        uses = imported(text)
        for r in re.finditer(r"^( *)pub record (\w+)[^\n]*(?:\n +[^\n]*?)*? where\n((?:\1  [^\n]*\n)+)", text, re.M):
            fields = re.split(r"\n\s*pub (?=[\w-]+ :)", "\n" + re.sub(r"--[^\n]*", "", r.group(3)))
            found[crate, r.group(2)] = ([plain(f.split(" : ", 1)[1]) for f in fields if " : " in f], uses)
        for r in re.finditer(r"^(?:unfoldable|abbrev) pub (\w+) : [^\n]*Type 0\n((?:\1 [^\n]*\n(?: +[^\n]*\n)*)+)", text, re.M):
            cases = re.split(r"\n(?=%s )" % r.group(1), r.group(2).strip())
            found[crate, r.group(1)] = ([plain(c) for c in cases], uses)
    return found


def named(asked, known):
    """The conditions that facts name, each fact with its crate and its file's imports, and those that these name."""
    met, todo = [], list(asked)
    while todo:
        fact, crate, uses = todo.pop(0)
        for name in re.findall(r"\b[A-Z]\w+", fact):
            key = (uses.get(name, crate), name)
            if key in known and key not in met:
                met.append(key)
                todo += [(f, key[0], known[key][1]) for f in known[key][0]]
    return met


def listed():
    crates = [line.split(":")[0].split()[0] for line in read("crates.txt").split("\n") if ":" in line and not line.startswith("#")]
    facts = []
    for crate in crates:
        for path in sorted(glob.glob("crates/%s/src/*.rt" % crate)):
            uses = imported(read(path))
            for name, asked in functions(path):
                facts += [(a, crate, uses) for a in asked]
                yield "- `%s::%s`: %s\n" % (crate, name, "; ".join("`%s`" % a for a in asked))
    yield "\nWhat the conditions ask that they name:\n\n"
    known = conditions()
    for crate, name in sorted(named(facts, known), key=lambda key: (crates.index(key[0]), key[1])):
        yield "- `%s` of `%s`: %s\n" % (name, crate, "; ".join("`%s`" % a for a in known[crate, name][0]))


def main():
    text = "".join(listed())
    if len(sys.argv) == 1:
        print(text, end="")
        return
    before, rest = read(TARGET).split(MARKS[0])
    stands, behind = rest.split(MARKS[1])
    if sys.argv[1] == "--check":
        sys.exit(0 if stands == text else "docs/ARCHITECTURE.md: the list of requires is not what tools/list_requires.py prints")
    with open(TARGET, "w") as f:
        f.write(before + MARKS[0] + text + MARKS[1] + behind)


main()
