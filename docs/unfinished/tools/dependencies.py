"""Lists, crate by crate, the dependencies in crates.txt that the crate does not need, and the public functions that no other crate calls.

Run it in the repository's folder. A file names a crate by `use X::`, `X::` or `Rattle·X`. A crate also needs those that declare a type of a value that
its code may hold, though no file names them (rt says: "this crate does not use the library X"): the types of the functions that it calls, and
of their fields. `--write` takes the spare dependencies out of crates.txt; `--check` fails if there are any, or if a crate stands before one that it
leans on. A public function is listed if no `.rt` file of another crate names it: `X::name`, `use X::name`, or `.name(` where it is a method;
functions that the library exports are left out.
"""
import re
import sys
from pathlib import Path

KIT = {"io", "libc", "os", "check", "bytes"}  # libraries of the kit
TARGET = Path("crates.txt")


def lines_of(text):
    """The lines of crates.txt that name a crate, each as its name and its dependencies."""
    for line in text.splitlines():
        name, colon, rest = line.split("#")[0].partition(":")
        if colon:
            yield name.strip(), rest.split()


def code(path):
    """A file without its comments."""
    return re.sub(r"//[^\n]*" if path.suffix == ".rt" else r"--[^\n]*", "", path.read_text())


def files(crate, suffixes):
    return [p for p in sorted(Path("crates", crate).rglob("*")) if p.suffix in suffixes]


def named(crate):
    """The crates that the files of a crate name."""
    found = set()
    for path in files(crate, {".rt", ".antt"}):
        text = code(path)
        found |= set(re.findall(r"Rattle·(\w+?)(?=[·.\s;{])", text))
        if path.suffix == ".rt":
            found |= set(re.findall(r"\b(\w+)::", text))
    return found


def plain(crate):
    """The code of a crate without its contracts."""
    return re.sub(r"\b(?:requires|ensures)\b[^\n{]*\{.*?⌝ \}", "", "".join(code(p) for p in files(crate, {".rt"})), flags=re.S)


class Types:
    """Which types the code of each crate may hold: those that it or the functions it calls name, and those of their fields."""

    def __init__(self, crates):
        self.text = {c: plain(c) for c in crates}
        self.uses = {c: {name: of for of, name in re.findall(r"^use (\w+)::(\w+);", t, re.M)} for c, t in self.text.items()}
        self.declared = {c: set(re.findall(r"\b(?:struct|enum) (\w+)", t)) for c, t in self.text.items()}
        self.fields, self.functions = {}, {}
        for c, t in self.text.items():
            for name, body in re.findall(r"\b(?:struct|enum) (\w+)(?:<[^>]*>)?\s*(\{.*?\n\}|\([^;]*\);)", t, re.S):
                self.fields[c, name] = self.named(c, body)
            for name, takes, gives in re.findall(r"\bfn (\w+)(?:<[^>]*>)?\((.*?)\)\s*(?:->\s*([^\n{]+))?", t, re.S):
                self.functions.setdefault((c, name), set()).update(self.named(c, takes + " " + gives))

    def named(self, crate, text):
        """The types that a part of a crate's code names, each with the crate that declares it."""
        found = set()
        for of, name in re.findall(r"(?:(\w+)::)?\b([A-Z]\w+)", text):
            for c in (of, crate, self.uses[crate].get(name)):
                if name in self.declared.get(c, ()):
                    found.add((c, name))
                    break
        return found

    def reached(self, crate):
        """The crates whose types the code of a crate may hold."""
        text, seen = self.text[crate], set()
        called = re.findall(r"\b(\w+)::(\w+)", text) + [(of, name) for name, of in self.uses[crate].items()]
        todo = self.named(crate, text).union(*(self.functions.get(f, ()) for f in called))
        while todo:
            t = todo.pop()
            if t not in seen:
                seen.add(t)
                todo |= self.fields.get(t, set())
        return {c for c, _ in seen}


def public(crate):
    """The public functions of a crate's root: name, and the type whose method it is. Those of its `mod` files are for the root."""
    for path in files(crate, {".rt"}):
        if path.name not in ("lib.rt", "main.rt"):
            continue
        owner = ""
        for m in re.finditer(r"^impl(?:<[^>]*>)? (\w+)|^( *)pub fn (\w+)", code(path), re.M):
            if m.group(1):
                owner = m.group(1)
            else:
                yield m.group(3), owner if m.group(2) else ""


def uncalled(crate, texts):
    """The public functions of a crate that no other crate's text names."""
    others = "".join(text for name, text in texts.items() if name != crate)
    for name, owner in public(crate):
        said = r"\.%s\(|\b%s::%s\b" % (name, owner, name) if owner else r"\b%s::(?:\{[^}]*\b)?%s\b" % (crate, name)
        if not re.search(said, others):
            yield "%s::%s" % (owner, name) if owner else name


def without(text, spare):
    """crates.txt without the dependencies that are spare."""
    out = []
    for line in text.splitlines(keepends=True):
        for name, deps in lines_of(line):
            kept = [d for d in deps if d not in spare.get(name, ())]
            line = " ".join([name + ":"] + kept) + "\n"
        out.append(line)
    return "".join(out)


def main():
    text = TARGET.read_text()
    crates = dict(lines_of(text))
    types = Types(crates)
    spare = {c: [d for d in deps if d not in named(c) | types.reached(c)] for c, deps in crates.items()}
    spare = {c: deps for c, deps in spare.items() if deps}
    order = list(crates)
    early = [(c, d) for c, deps in crates.items() for d in deps if d not in KIT and order.index(d) > order.index(c)]
    if sys.argv[1:] == ["--write"]:
        TARGET.write_text(without(text, spare))
        return
    for c, deps in spare.items():
        print("%s: spare: %s" % (c, ", ".join(deps)))
    for c, d in early:
        print("%s stands before %s, on which it leans" % (c, d))
    if sys.argv[1:] == ["--check"]:
        sys.exit(1 if spare or early else 0)
    texts = {c: "".join(code(p) for p in files(c, {".rt"})) for c in crates}
    for c in crates:
        alone = list(uncalled(c, texts))
        if alone:
            print("%s: only its own crate calls %s" % (c, ", ".join(alone)))


main()
