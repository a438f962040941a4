"""Writes crates/replay_depth/stdin, calls of the entry `depth_windows`, and stdout, what each must give.

Run it in the repository's folder. The calls are of three sorts:
- by hand, below, with the counts or the number beside each from reading documents 01 and 02;
- refused: lists with a fault, each with its number beside it;
- generated: small lists, the same on every run.
`counted` is the answer once more, straight from document 02, position by position (a stretch of over 10,000 positions by hand alone). Every list
without a fault goes through it, and where a figure by hand differs the tool stops and names the case.
"""
import random
from collections import namedtuple
from pathlib import Path

INPUT_ROOM, PLACES = 262144, 4096  # what the program has room for
LONG = 10000  # positions that are still counted one by one
Record = namedtuple("Record", "contig pos end dps")  # end None: POS alone; a DP None: missing
Case = namedtuple("Case", "name places sample threshold length step contig text answer")
CASES = []


# ---- lists


def record(contig, pos, end, *dps):
    return Record(contig, pos, end, dps)


def lines_of(r):
    block = r.end is not None
    head = [f"contig={r.contig}", f"pos={r.pos}", f"end={r.end if block else '.'}", "ref=A", f"alt={'' if block else 'G,'}<NON_REF>"]
    for dp in r.dps:
        head += ["gt=.", "gq=.", f"dp={'.' if dp is None else dp}", "mindp=.", "ad=.", "pl=."]
    return "".join(line + "\n" for line in head)


def list_of(records, samples=1, figure=None):
    names = "".join(f"sample=S{i}\n" for i in range(samples))
    return f"samples={samples}\n{names}records={len(records) if figure is None else figure}\n" + "".join(map(lines_of, records))


# ---- the rules


def counted(records, samples, sample, threshold, length, step, contig, places):
    """The counts, or the row that refuses the call; None if a stretch is too long to be counted here."""
    if not (1 <= length <= 1000000 and 1 <= step <= 1000000 and sample < samples):
        return 17
    here = [r for r in records if r.contig == contig]
    if not here:
        return []
    last = max(r.end or r.pos for r in here)
    first = min(r.pos for r in here)
    if last - first + length > LONG:
        return None
    deep = set()
    for r in here:
        if r.dps[sample] is not None and r.dps[sample] >= threshold:
            deep.update(range(r.pos, (r.end or r.pos) + 1))
    windows = [sum(p in deep for p in range(begin, begin + length)) for begin in range(first, last + 1, step)]
    return windows if len(windows) <= places else 14


def add(name, records, answer, sample=0, threshold=1, length=10, step=10, contig="c", places=16, samples=1):
    found = counted(records, samples, sample, threshold, length, step, contig, places)
    if found is not None and answer not in (None, found):
        raise SystemExit(f"{name}: {answer} by hand, {found} by the rules")
    answer = found if answer is None else answer
    CASES.append(Case(name, places, sample, threshold, length, step, contig, list_of(records, samples), answer))


def refuse(name, text, row, **changes):
    asked = {"places": 16, "sample": 0, "threshold": 1, "length": 10, "step": 10, "contig": "c", **changes}
    CASES.append(Case(name, text=text, answer=row, **asked))


# ---- by hand

TWO = [record("c", 10, 19, 7), record("c", 25, 30, 3)]
LAST = 2147483647


def by_hand():
    add("threshold-met-by-both", TWO, [8, 3, 5], threshold=3, length=8, step=8)
    add("threshold-met-by-one", TWO, [8, 2, 0], threshold=5, length=8, step=8)
    add("threshold-above-all", TWO, [0, 0, 0], threshold=8, length=8, step=8)
    add("threshold-0-and-a-missing-dp", [record("c", 1, 4, None), record("c", 5, None, 0)], [1], threshold=0)
    add("step-longer-than-the-windows", TWO, [3, 1], threshold=3, length=3, step=20)
    add("step-past-the-contig", TWO, [4], threshold=3, length=4, step=1000000)
    add("windows-overlap", TWO, [5, 5, 5, 5, 5, 5, 4, 3, 2, 1, 0, 1, 2, 3, 4, 5, 5, 4, 3, 2, 1], threshold=3, length=5, step=1, places=21)
    add("exactly-enough-places", TWO, [1, 1, 1, 1, 0, 1, 1], threshold=3, length=1, step=3, places=7)
    add("one-place-fewer", TWO, 14, threshold=3, length=1, step=3, places=6)
    add("no-place", TWO, 14, places=0)
    add("a-contig-without-records", TWO, [], contig="d", places=0)
    add("no-records", [], [], places=0)
    add("a-part-of-a-contig-name", [record("cc", 1, 4, 9)], [], contig="c")
    add("other-contigs-before-and-behind", [record("a", 1, 90, 9), *TWO, record("d", 1, 90, 9)], [8, 3, 5], threshold=3, length=8, step=8)
    add("the-second-sample", [record("c", 1, 5, 9, 1), record("c", 6, 9, 1, 9)], [4], sample=1, threshold=5, samples=2)
    add("a-gap-of-several-windows", [record("c", 1, 2, 5), record("c", 50, 51, 5)], [2, 0, 0, 0, 1, 1], threshold=5, length=10, step=10)
    add("windows-begin-at-the-first-record", [record("c", 1000, 1019, 5)], [7, 7, 6], threshold=5, length=7, step=7)
    add("single-positions", [record("c", p, None, p) for p in (3, 4, 9)], [1, 0, 1], threshold=4, length=3, step=3)
    add("no-such-sample", TWO, 17, sample=1)
    add("no-such-sample-on-a-contig-without-records", TWO, 17, sample=1, contig="d")
    for key in ("length", "step"):
        add(f"{key}-0", TWO, 17, **{key: 0})
        add(f"{key}-1000001", TWO, 17, **{key: 1000001})
        add(f"{key}-1000000", TWO, None, **{key: 1000000}) if key == "step" else add(f"{key}-1000000", TWO, [16], **{key: 1000000}, step=21, threshold=3)
    add("17-before-14", TWO, 17, length=0, places=0)
    add("to-the-last-position-there-is", [record("c", LAST - 9, LAST, 5)], [4, 4, 2], threshold=5, length=4, step=4)
    add("the-last-position-alone", [record("c", LAST, None, 5)], [1], threshold=5, length=1000000, step=1000000)
    add("two-thousand-million-positions", [record("c", 1, LAST, 5)], [1000000] * 2147 + [483647], threshold=5, length=1000000, step=1000000, places=2148)
    add("two-thousand-million-positions-short-windows", [record("c", 1, LAST, 5)], [3] * 2148, threshold=5, length=3, step=1000000, places=2148)
    add("two-thousand-million-positions-thin", [record("c", 1, LAST, 5)], [0] * 2148, threshold=6, length=3, step=1000000, places=2148)
    add("two-thousand-million-positions-no-room", [record("c", 1, LAST, 5)], 14, threshold=5, length=1, step=1, places=PLACES)


def refused():
    text = list_of(TWO)
    refuse("an-empty-text", "", 1)
    refuse("samples-0", "samples=0\n", 2)
    refuse("a-name-twice", "samples=2\nsample=S\nsample=S\nrecords=0\n", 3)
    refuse("a-line-behind-the-records", text + "x", 1, sample=9, length=0, places=0)
    refuse("a-record-missing", list_of(TWO, figure=3), 1)
    refuse("position-0", list_of([record("c", 0, None, 5)]), 4)
    refuse("positions-shared", list_of([TWO[0], record("c", 19, 30, 3)]), 4)
    refuse("contigs-out-of-order", list_of([record("d", 1, None, 5), record("c", 1, None, 5)]), 4)
    refuse("a-fault-on-another-contig", list_of([*TWO, record("d", 0, None, 5)]), 4, contig="c")
    refuse("an-allele-misspelt", text.replace("ref=A", "ref=X", 1), 5)
    refuse("no-non-ref", text.replace("alt=<NON_REF>", "alt=G", 1), 6)
    refuse("an-end-outside-a-block", text.replace("alt=<NON_REF>", "alt=G,<NON_REF>", 1), 7)
    refuse("a-pl-short", text.replace("pl=.", "pl=0,30", 1), 8)
    refuse("a-dp-misspelt", text.replace("dp=7", "dp=07", 1), 1)
    refuse("no-mindp", text.replace("mindp=.\n", "", 1), 1)


def generated(seed, count):
    rng = random.Random(seed)
    for number in range(count):
        samples, records = rng.randint(1, 3), []
        for contig in sorted(rng.sample("abc", rng.randint(1, 3))):
            at = rng.randint(1, 20)
            for _ in range(rng.randint(0, 6)):
                end = at + rng.randint(1, 30) if rng.random() < 0.6 else None
                records.append(record(contig, at, end, *(rng.choice([None, 0, 1, 5, 9, 30]) for _ in range(samples))))
                at = (end or at) + rng.choice([1, 1, 2, rng.randint(1, 40)])
        add(f"generated-{number}", records, None, sample=rng.randint(0, samples - (rng.random() < 0.9)), threshold=rng.choice([0, 1, 5, 6, 30]),
            length=rng.randint(1, 40), step=rng.randint(1, 40), contig=rng.choice("abc"), places=rng.choice([3, 40, 400]), samples=samples)


def written(cases):
    """What the program is fed for these calls, and what it must print."""
    stdin, stdout = "", ""
    for c in cases:
        stdin += f"{len(c.text)} 0 0 {c.places} {c.sample} {c.threshold} {c.length} {c.step} {c.contig} {c.name}\n{c.text}"
        stdout += c.name + (f" refused={c.answer}\n" if isinstance(c.answer, int) else " windows=" + "".join(f" {n}" for n in c.answer) + "\n")
    return stdin, stdout


def main():
    by_hand()
    refused()
    generated(3, 60)
    stdin, stdout = written(CASES)
    if len(stdin) > INPUT_ROOM:
        raise SystemExit(f"{len(stdin)} bytes of cases, and room for {INPUT_ROOM}")
    folder = Path("crates/replay_depth")
    (folder / "stdin").write_text(stdin)
    (folder / "stdout").write_text(stdout)
    print(f"{len(CASES)} calls, {len(stdin)} bytes")


if __name__ == "__main__":
    main()
