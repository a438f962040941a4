"""Names the places in proof files: python3 tools/name_places.py [--all] FILE...

No longer needed: it is for Proof.antt files of the older kit, whose needs were walked back by `c .before .before`.

A chain `c .before .before … .args` of a long clause becomes `let at-args = c .before … in` at the head of the clause, each place
named after what is taken there; doubled parentheses go, and a line of over 160 characters is broken before a `let`, behind an
`in` or between arguments. Clauses without such a line stay as they are; with --all they too are written anew if that makes them
shorter.
"""
import re
import sys

LIMIT = 160
KEYWORDS = {"record", "data", "let", "in", "where", "pos", "yes", "no", "refl"}
CHAIN = re.compile(r"(?<![\w.·-])c((?: \.before)+)(?! \.before)(?: \.([\w-]+))?(?! in\b)(?![\w-])")


def clauses(lines):
    """Where each clause `name c … =` stands, without a `where` behind it."""
    i = 0
    while i < len(lines):
        if re.match(r"[\w·⁺′'-]+ c( [^\s=:]+)* =( |$)", lines[i]):
            e = i + 1
            while e < len(lines) and lines[e].startswith(" ") and not re.match(r"\s+where\b", lines[e]):
                e += 1
            yield i, e
            i = e
        else:
            i += 1


def singly(text):
    """The text without parentheses that do nothing but stand around others."""
    stack, close = [], {}
    for i, ch in enumerate(text):
        if ch == "(":
            stack.append(i)
        elif ch == ")" and stack:
            close[stack.pop()] = i
    gone = set()
    for a, b in close.items():
        if text[a + 1 : a + 2] == "(" and close.get(a + 1) == b - 1:
            gone |= {a, b}
    return "".join(ch for i, ch in enumerate(text) if i not in gone)


def named(body):
    """The lets that name the places of a body, and the body by those names."""
    uses = {}
    for chain, then in CHAIN.findall(body):
        uses.setdefault(chain.count(".before"), []).append(then)
    depths = [d for d in sorted(uses) if d > 1 or len(uses[d]) > 1]
    taken = set(re.findall(r"[\w-]+", re.sub(r"\.[\w-]+", "", body)))
    if len(depths) == 1 and len(set(uses[depths[0]])) == 1 and uses[depths[0]][0] and uses[depths[0]][0] not in taken | KEYWORDS:
        depth, then = depths[0], uses[depths[0]][0]
        lets = ["let %s = c%s .%s in" % (then, " .before" * depth, then)]
        return lets, CHAIN.sub(lambda m: then if m.group(1).count(".before") == depth else m.group(0), body)
    names, lets, last = {}, [], None
    for depth in depths:
        then = "args" if {"args", "pre"} & set(uses[depth]) else next((t for t in uses[depth] if t), "place")
        name, k = "at-" + then, 1
        while name in taken:
            k += 1
            name = "at-%s-%d" % (then, k)
        taken.add(name)
        names[depth] = name
        start, rest = ("c", depth) if last is None else (names[last], depth - last)
        lets.append("let %s = %s%s in" % (name, start, " .before" * rest))
        last = depth

    def by_name(m):
        depth = m.group(1).count(".before")
        then = " ." + m.group(2) if m.group(2) else ""
        return names[depth] + then if depth in names else m.group(0)

    return lets, CHAIN.sub(by_name, body)


def cuts(line):
    """The places outside of all parentheses where a line may be broken, and those one level inside."""
    depth, found = 0, {0: [], 1: []}
    for i, ch in enumerate(line):
        if ch in "({":
            depth += 1
        elif ch in ")}":
            depth -= 1
        elif ch == " " and depth in found:
            found[depth].append(i)
    return found


def broken(line, indent):
    """A line, broken where it is too long."""
    if len(line) <= LIMIT:
        return [line]
    found = cuts(line)
    text = len(line) - len(line.lstrip())
    for depth in (0, 1):
        at = [i for i in found[depth] if text < i <= LIMIT and not line[i + 1 :].startswith((".", "=", "in "))]
        if at:
            i = at[-1]
            return [line[:i]] + broken(" " * indent + line[i + 1 :], indent)
    return [line]


def split_lets(text):
    """A line for each `let … in` that stands outside of parentheses."""
    parts, depth, start, i = [], 0, 0, 0
    while i < len(text):
        if text[i] in "({":
            depth += 1
        elif text[i] in ")}":
            depth -= 1
        elif depth == 0 and text.startswith(" in ", i) and text[start:].startswith("let "):
            parts.append(text[start : i + 3])
            start = i + 4
            i += 3
        i += 1
    return parts + [text[start:]]


def rewritten(lines):
    head, first = re.match(r"([\w·⁺′'-]+ c(?: [^\s=:]+)* =) ?(.*)", lines[0]).groups()
    rest = [l for l in lines[1:]]
    blank = []
    while rest and not rest[-1].strip():
        blank.append(rest.pop())
    body = ([" " * 4 + first] if first else []) + rest
    text = singly("\n".join(body))
    lets, text = named(text)
    out = [head] + [" " * 4 + l for l in lets]
    for line in text.split("\n"):
        indent = len(line) - len(line.lstrip())
        parts = split_lets(line.strip()) if len(line) > LIMIT else [line.strip()]
        for part in parts:
            out += broken(" " * indent + part, indent + 4)
    if len(out) == 2 and len(out[0]) + len(out[1].strip()) < LIMIT:
        out = [out[0] + " " + out[1].strip()]
    return out + blank


def main():
    words = sys.argv[1:]
    everything = "--all" in words
    for path in [w for w in words if w != "--all"]:
        lines = open(path).read().split("\n")
        out, at = [], 0
        for a, e in clauses(lines):
            out += lines[at:a]
            part = lines[a:e]
            shadowed = re.search(r"λ[^.]*\bc\b", "\n".join(part))
            long = any(len(l) > LIMIT for l in part)
            fresh = part if shadowed or not (long or everything) else rewritten(part)
            out += fresh if long or len("\n".join(fresh)) < len("\n".join(part)) else part
            at = e
        out += lines[at:]
        text = "\n".join(out)
        if text != "\n".join(lines):
            open(path, "w").write(text)
            longest = max(len(l) for l in out)
            print("%s: longest line %d" % (path, longest))


main()
