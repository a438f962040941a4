#!/usr/bin/env python3
"""Brings the repository's own definitions and lemmas to snake case, once, after port.py.

usage: python3 tools/respell_names.py        at the top of the checkout: rewrites crates/ in place

A word in camel case (`fieldsOf`) and a lemma with dashes (`field-within`) become `fields_of` and `field_within`. Types and modules keep
their capitals. Where a lemma would fall together with a definition it gets `_lem`. Strings, names that Rattle makes (`c.field-end`,
`goal.field-end-requires`) and Rust names keep their spelling.
"""
import collections
import os
import re
import sys

# crates of unfinished work: turned, but they decide no name
UNFINISHED = {"called_walk", "shown_markers", "sheet_lines", "selection_sheet", "sheet_program", "sheet", "depth_program", "depth", "test_sheet"}
WORD = re.compile(r"[^\s(){}\[\],;:.\"`⟨⟩|]+")
DECLARED = re.compile(r"^(\s*)(?:(?:unfoldable|abbrev|pub|private)\s+)*((?:[^\s(){}\[\].,;:=]+\s+)*[^\s(){}\[\].,;:=]+)\s*:(?:\s|$)")
FUNCTION_PROOF = re.compile(r"/proofs/.*/(Proof|Invariants|Answers)\.antt$")
CAMEL = re.compile(r"(?<![A-Za-z0-9_'])[a-z][a-z0-9_']*[A-Z]")


def files():
    for folder, dirs, names in os.walk("crates"):
        dirs[:] = sorted(d for d in dirs if d not in ("out", "data"))
        for n in sorted(names):
            if n.endswith((".antt", ".rt", ".edit")):
                yield os.path.join(folder, n)


def code(path, text):
    """The text without comments and strings."""
    text = re.sub(r"--.*" if path.endswith(".antt") else r"//.*", "", text)
    return re.sub(r'"[^"\n]*"', '""', text)


def snake(word):
    def part(p):
        return re.sub(r"(?<=[a-z0-9'])([A-Z])", lambda m: "_" + m.group(1).lower(), p) if re.match(r"[a-z]", p) else p

    return "-".join(part(p) for p in word.split("-"))


def main():
    if not os.path.isdir("crates"):
        sys.exit("run it at the top of the checkout")
    declared, fields, tops = set(), set(), set()
    for path in files():
        if not path.endswith(".antt") or FUNCTION_PROOF.search(path) or path.split("/")[1] in UNFINISHED:
            continue
        with open(path, encoding="utf-8") as f:
            record = False
            for l in code(path, f.read()).split("\n"):
                if l.strip() and not l.startswith(" "):
                    record = bool(re.match(r"(pub )?record ", l))
                m = DECLARED.match(l)
                if m:
                    declared.update(m.group(2).split())
                    if record and m.group(1):
                        fields.update(m.group(2).split())
                    else:
                        tops.update(m.group(2).split())
    declared = {d for d in declared if re.match(r"[a-z]", d)}
    together = collections.defaultdict(set)
    for d in declared:
        together[snake(d).replace("-", "_")].add(d)
    new = {}
    for to, olds in together.items():
        # the definition, in camel case, takes the plain name; next what is spelled so already
        first = sorted(olds, key=lambda o: (not ("-" not in o and o != to), o != to, o))[0]
        for o in sorted(olds):
            if o == first or o in fields and o not in tops:
                new[o] = to
            elif snake(o) == snake(first).replace("-", "_"):
                new[o] = to + "_lem"
            else:
                others = [x for x in olds if x != first]
                new[o] = to + "_lem" + ("" if others.index(o) == 0 else str(others.index(o) + 1))
    new = {o: n for o, n in new.items() if o != n}
    if len(sys.argv) > 1 and sys.argv[1] == "--list":
        for o in sorted(new):
            if new[o].endswith("_lem") or new[o][-1].isdigit() and "_lem" in new[o]:
                print(o, new[o])
        return

    def turn(path):
        with open(path, encoding="utf-8") as f:
            text = f.read()
        antt = path.endswith(".antt")

        def word(m, before):
            w = m.group(0)
            if CAMEL.match(w) or re.search(r"-[a-z][a-z0-9_]*[A-Z]", w):
                if w in new:
                    return new[w]
                return snake(w)
            if w not in new:
                return w
            if not antt and "-" not in w:
                return w
            # behind a dot: a member of a module, or a field of our own
            d = re.search(r"([^\s(){}\[\],;:.\"]*)\.$", before)
            if d and not re.match(r"[A-Z]", d.group(1)) and w not in fields:
                return w
            return new[w]

        out = []
        for l in text.split("\n"):
            done, last = [], 0
            spans = [m.span() for m in re.finditer(r'"[^"\n]*"', l)]
            comment = l.find("--" if antt else "//")
            for m in WORD.finditer(l):
                if any(a <= m.start() < b for a, b in spans):
                    continue
                if 0 <= comment <= m.start() and not CAMEL.match(m.group(0)):
                    # in a comment only what stands between backticks
                    if l[comment:m.start()].count("`") % 2 == 0:
                        continue
                if 0 <= comment <= m.start() and CAMEL.match(m.group(0)) and m.group(0) not in declared:
                    continue
                done.append(l[last:m.start()])
                done.append(word(m, l[:m.start()]))
                last = m.end()
            done.append(l[last:])
            out.append("".join(done))
        result = "\n".join(out)
        if result != text:
            with open(path, "w", encoding="utf-8") as f:
                f.write(result)

    for path in files():
        turn(path)


main()
