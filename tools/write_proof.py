"""Writes proof files from short answers: python3 tools/write_proof.py CRATE ANSWERS...

No longer needed: it is for the older kit (`rt dev`, Proof.antt). Proofs are now Invariants.antt and Answers.antt, and `rt check --start F` writes
the files to start from.

Each ANSWERS file is about one function:

    @@ function
    --- head
    What the proof says, for the comment at its head.
    --- text
    use lines, the invariant (Inv-loop), the measure (μ-loop) and lemmas
    --- answers
    loop-holds = refl
    returns [name lettersOf] = done _ @loop .i @loop .inv (omega arith)
    * = search needs

In an answer @loop .inv, @args .s or @if1 .taken is written out as the path into c that leads there from that need; names in
brackets become its `unfolding` line; lines indented by four spaces go on with the answer above; '*' answers what is not named.
The file that the check offers is fetched once and kept under target/ (--fresh fetches it again, after the function changed).
The result has no places of the source and no unused Reads or Lts lines.
"""
import os
import re
import subprocess
import sys


def root():
    at = os.getcwd()
    while not os.path.exists(os.path.join(at, "crates.txt")):
        at = os.path.dirname(at)
    return at


ROOT = root()


def places(lines):
    """The records of the places of the code, and the record that each need's c is."""
    records, needs, current = {}, {}, None
    for i, line in enumerate(lines):
        record = re.match(r"\s+pub record (\S+) ", line)
        field = re.match(r"\s+pub (\S+) : (\S+)", line)
        need = re.match(r"\s+Need-(\S+) =", line)
        if record:
            current = record.group(1)
            records[current] = []
        elif field and current:
            records[current].append(field.groups())
        elif need:
            for later in lines[i : i + 15]:
                c = re.search(r"\(c : (\S+?)\)", later) or re.search(r"\(c : (\S+)", later)
                if c:
                    needs[need.group(1)] = c.group(1)
                    break
    return records, needs


def paths(records, record):
    """For each name, the nearest path from a need's c to it."""
    found, path = {}, "c"
    while record in records:
        for name, _ in records[record]:
            if name != "before":
                found.setdefault(name, "%s .%s" % (path, name))
        before = [kind for name, kind in records[record] if name == "before"]
        if not before:
            break
        record, path = before[0], path + " .before"
    return found


def proof_path(crate, function):
    return os.path.join(ROOT, "crates", crate, "proofs", function, "Proof.antt")


def offered_path(crate, function):
    return os.path.join(ROOT, "target", "offered", crate, function.replace("/", "%"))


def fetch_offered(crate):
    """Keeps each proof file that the check offers."""
    os.makedirs(os.path.dirname(offered_path(crate, "x")), exist_ok=True)
    run = subprocess.run(["rt", "dev", crate], cwd=ROOT, capture_output=True, text=True)
    lines = (run.stdout + run.stderr).split("\n")
    for i, line in enumerate(lines):
        offered = re.match(r"help: write (\S+) with these lines", line)
        if not offered:
            continue
        function = re.search(r"/proofs/(.*)/Proof.antt", offered.group(1)).group(1)
        body = []
        for j in range(i + 1, len(lines)):
            if not lines[j].startswith("    ") and not (lines[j] == "" and lines[j + 1 : j + 2] and lines[j + 1].startswith("    ")):
                break
            body.append(lines[j][4:])
        with open(offered_path(crate, function), "w") as f:
            f.write("\n".join(body).rstrip() + "\n")


def generated(crate, function):
    base = os.path.join(ROOT, "target", "proof-paths", crate, "Rattle·%s·proofs" % crate, "proofs")
    with open(os.path.join(base, function, "Lts.antt")) as f:
        return f.read().split("\n")


def read_answers(path):
    with open(path) as f:
        lines = f.read().split("\n")
    parts, current = {"head": [], "text": [], "answers": []}, None
    for line in lines[1:]:
        section = re.match(r"--- (head|text|answers)$", line)
        if section:
            current = parts[section.group(1)]
        elif current is not None:
            current.append(line)
    answers, last = {}, None
    for line in parts["answers"]:
        if line.startswith("    ") and last:
            answers[last][1] += "\n" + line
        elif line.strip():
            last, opened, term = re.match(r"(\S+)(?: \[([^\]]*)\])? = (.*)$", line).groups()
            answers[last] = [opened, term]
    return lines[0].split()[1], parts["head"], "\n".join(parts["text"]).strip("\n"), answers


def answered(offered, known, answers):
    """The needs of the offered file, each with its answer."""
    out, lines = [], offered.split("\n")
    for i, line in enumerate(lines):
        need = re.match(r"(\S+) : tie\.Need-\S+.*$", line)
        if not need:
            continue
        name = need.group(1)
        _, arguments, term = re.match(r"(\S+)( c(?: κs)?) = (.*)$", lines[i + 1]).groups()
        opened, term = answers.get(name) or (answers.get("*", [None, "?"]) if term.strip() == "?" else [None, term])
        path = lambda m: "(%s%s)" % (known.get(name, {}).get(m.group(1), "MISSING-" + m.group(1)), m.group(2))
        term = re.sub(r"@([A-Za-z0-9-]+)((?: \.[^\s,();]+)*)", path, term)
        out += [line] + (["unfolding " + opened] if opened else []) + ["%s%s = %s" % (name, arguments, term), ""]
    return "\n".join(out)


def unwrapped(offered):
    """The offered file with a long name's lines joined, as in `use ..{`, `statement,`, `}`."""
    offered = re.sub(r"\{\n\s*(\S+?),?\n\}", r"{\1}", offered)
    return re.sub(r"( :| =)\n +(tie\.Need-|\? *$|search needs)", r"\1 \2", offered, flags=re.M)


def write(crate, answers_path):
    function, head, text, answers = read_answers(answers_path)
    with open(offered_path(crate, function)) as f:
        offered = unwrapped(f.read())
    records, needs = places(generated(crate, function))
    body = answered(offered, {n: paths(records, r) for n, r in needs.items()}, answers)
    uses = [l for l in text.split("\n") if l.startswith("use ")]
    rest = "\n".join(l for l in text.split("\n") if not l.startswith("use ")).strip("\n")
    if "search needs" in body and not any("Author.Needs" in u for u in uses):
        uses.append("use borrow.Author.Needs.{needs}")
    if "omega" in body + rest and not any("Omega.{" in u for u in uses):
        uses.append("use native.Mathlib.Omega.{arith}")
    uses.sort(key=lambda u: ("Rattle·" in u, u))
    uses += [l for l in offered.split("\n") if re.search(r"^use .*(\.Statement\.|\.Tie as)", l)]
    closing = offered[offered.index("\npub ") :].strip("\n")
    comment = "".join("-- %s\n" % l for l in head if l.strip())
    blocks = [comment + "\n".join(uses)] + ([rest] if rest else []) + [body.strip("\n"), closing]
    with open(proof_path(crate, function), "w") as f:
        f.write("\n\n".join(blocks) + "\n")
    print("wrote", function)


def main(words):
    fresh = "--fresh" in words
    crate, files = words[0], [w for w in words[1:] if w != "--fresh"]
    functions = [read_answers(f)[0] for f in files]
    wanted = [f for f in functions if fresh or not os.path.exists(offered_path(crate, f))]
    for function in wanted:
        if os.path.exists(proof_path(crate, function)):
            os.remove(proof_path(crate, function))
    if wanted:
        fetch_offered(crate)
    for function in functions:
        if not os.path.exists(proof_path(crate, function)):
            os.makedirs(os.path.dirname(proof_path(crate, function)), exist_ok=True)
            with open(offered_path(crate, function)) as f, open(proof_path(crate, function), "w") as g:
                g.write(f.read())
    out = os.path.join(ROOT, "target", "proof-paths", crate)
    subprocess.run(["rm", "-rf", out])
    subprocess.run(["rt", "dev", crate, "--generated", out], cwd=ROOT, capture_output=True)
    for path in files:
        write(crate, path)


if len(sys.argv) < 3:
    sys.exit(__doc__)
main(sys.argv[1:])
