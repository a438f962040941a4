#!/usr/bin/env python3
"""Counts the places of docs/DESIGN-PASS.md in crates/*/src (and, for the last point, in crates/*/proofs) of the checkout that it is called in.

    python3 tools/design_counts.py            the counts
    python3 tools/design_counts.py --list N   the places of point N, one to a line
"""
import glob
import re
import subprocess
import sys

TOP = subprocess.run(["git", "rev-parse", "--show-toplevel"], capture_output=True, text=True).stdout.strip()


def sources():
    for path in sorted(glob.glob(f"{TOP}/crates/*/src/*.rt")):
        yield path[len(TOP) + 1:], open(path).read()


def lines_with(pattern):
    for path, text in sources():
        for number, line in enumerate(text.split("\n"), 1):
            code = line.split("//")[0]
            if re.search(pattern, code):
                yield f"{path}:{number}: {line.strip()}"


def enums():
    """Each enum with its variants."""
    for path, text in sources():
        for match in re.finditer(r"^\s*(?:pub )?enum (\w+) \{\n(.*?)^\s*\}", text, re.M | re.S):
            body = re.sub(r"//[^\n]*", "", match.group(2))
            body = re.sub(r"\{[^}]*\}", "{..}", body)
            variants = [v.strip() for v in body.split(",\n") if v.strip()]
            yield path, match.group(1), variants


def own_option_or_result():
    """Enums of which a variant stands for 'none' or for a refusal, beside what was found."""
    none = r"^(Absent|Fault|Wrong|Missing|NoPair|TooMany|Faulty|None|Unnamed|Nothing|NoneStarts|NoSites|End|NoRoom|Nowhere|Failed)$|^Refused\("
    for path, name, variants in enums():
        if name.endswith("Error"):
            continue
        if any(re.search(none, v) for v in variants) and any("(" in v or "{" in v for v in variants):
            if re.search(none, " ".join(v for v in variants if v.startswith("Refused("))) or len(variants) >= 2:
                yield f"{path}: enum {name} {{ {', '.join(variants)} }}"


def functions():
    """Each function: path, name, parameters, body."""
    for path, text in sources():
        for match in re.finditer(r"^( *)(?:pub )?fn (\w+)(<[^(]*>)?\((.*?)\)(?: -> ([^\n{]*))?\n?(.*?)^\1\}", text, re.M | re.S):
            parameters = [p.strip() for p in re.split(r",\s*(?![^\[<(]*[\]>)])", match.group(4)) if p.strip()]
            clauses, _, body = match.group(6).rpartition("\n" + match.group(1) + "{\n") if "\n{\n" in match.group(6) or match.group(6).startswith("{") else ("", "", match.group(6))
            yield path, match.group(2), parameters, clauses, body


def twins():
    """Functions whose bodies are the same but for types, numbers and names of functions."""
    seen = {}
    for path, name, parameters, _, body in functions():
        names = {}

        def alike(word):
            w = word.group(0)
            if w in ("let", "mut", "if", "else", "for", "while", "in", "return", "match", "loop", "as", "break", "true", "false"):
                return w
            return names.setdefault(w, f"v{len(names)}")

        plain = re.sub(r"//[^\n]*", "", body)
        plain = re.sub(r"\b[A-Za-z_]\w*(::\w+)*", alike, re.sub(r"b?'[^']*'|b?\"[^\"]*\"|\b\d+\w*\b", "1", plain))
        plain = re.sub(r"\s+", " ", plain)
        if len(plain) > 24:
            seen.setdefault((len(parameters), plain), []).append(f"{path}: {name}")
    for places in seen.values():
        if len(places) > 1:
            yield ", ".join(places)


def index_loops():
    yield from lines_with(r"^\s*(while|loop)\b")
    yield from lines_with(r"^\s*(?:'\w+: )?for \w+ in [^{&]*\.\.")


BY_HAND = r"\bfn (same_bytes|compare_bytes|same_letters|lesser\w*|greater\w*|copy_\w+|flag|wide|store\w*|put_value|put_index|put_allele|value_at|likelihood_at|number_at|clear\w*|is_zero|set_bytes|set_places|at_most|is_set|is_either|behind)\b|enum Order\b"


def many_parameters():
    for path, name, parameters, _, _ in functions():
        if len(parameters) >= 6:
            yield f"{path}: {name} has {len(parameters)} parameters"


def buffers_with_lengths():
    """Functions that take a buffer with a length or an offset of it beside it, a table of numbers by columns, or arrays side by side."""
    for path, name, parameters, _, _ in functions():
        kinds = {p.split(":")[0].strip(): p.split(":", 1)[1].strip() for p in parameters if ":" in p}
        slices = [k for k, t in kinds.items() if t.startswith("&") and "[" in t]
        numbers = [k for k, t in kinds.items() if t in ("usize", "u32", "u64")]
        if slices and any(n in ("at", "len", "count", "n", "samples", "alt_count", "next", "from", "to") for n in numbers):
            yield f"{path}: {name} takes {', '.join(slices)} beside {', '.join(numbers)}"


def switches():
    yield from lines_with(r"\bfn\(|\bdyn\b|match step|match which")


def long_proof_lines():
    for path in sorted(glob.glob(f"{TOP}/crates/*/proofs/**/*.antt", recursive=True)):
        for number, line in enumerate(open(path).read().split("\n"), 1):
            if len(line) > 300:
                yield f"{path[len(TOP) + 1:]}:{number}: {len(line)} characters"


def searched_answers():
    for path in sorted(glob.glob(f"{TOP}/crates/*/proofs/**/Answers.antt", recursive=True)):
        text = open(path).read()
        for match in re.finditer(r"^(\S+) (?:g )?c = search rules$", text, re.M):
            yield f"{path[len(TOP) + 1:]}: {match.group(1)}"


POINTS = [
    ("1", "own enums of the shape of Option or Result", own_option_or_result),
    ("1b", "numbers for refusals (`Refused(5)` and the like)", lambda: lines_with(r"Refused\(\d+\)|clear_refuse\(\d+|refuse\(\d+")),
    ("1c", "a flag with a value beside it (parameters `clipped`, `referenced`, `present`)", lambda: lines_with(r"\b(clipped|referenced|present): bool")),
    ("2", "groups of functions whose bodies differ only in types, numbers or names", twins),
    ("3", "loops: while, loop, and for over a range of numbers", index_loops),
    ("4", "equality, order, copying, conversion by hand", lambda: lines_with(BY_HAND)),
    ("5", "functions with six parameters or more", many_parameters),
    ("6", "a buffer with a length or an offset beside it", buffers_with_lengths),
    ("7", "switches and tables of functions", switches),
    ("8", "proof lines of over 300 characters", long_proof_lines),
    ("8b", "answers `search rules` alone", searched_answers),
]


def main():
    if len(sys.argv) == 3 and sys.argv[1] == "--list":
        for point, _, places in POINTS:
            if point == sys.argv[2]:
                print("\n".join(places()))
        return
    for point, what, places in POINTS:
        print(f"{point:3} {len(list(places())):5}  {what}")


main()
