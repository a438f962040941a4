"""Writes crates/test_sheet/stdin, calls of the entry `selection_sheet`, and stdout, what each must give.

Run it in the repository's folder. The calls are of three sorts:
- by hand, below, with the sums beside each from reading documents 01 and 02;
- refused: a marker file or a called list with a fault, each with its number beside it;
- generated: small sheets, the same on every run.
`sums_of` is the answer once more, straight from Note 13. Every call without a fault goes through it, and where a sum by hand differs the tool stops
and names the case.
"""
import random
from collections import namedtuple
from pathlib import Path

INPUT_ROOM, OUT_ROOM = 262144, 8192  # what the program has room for
Marker = namedtuple("Marker", "name contig pos allele weight after")
Record = namedtuple("Record", "contig pos ref alts pls")  # a PL None: missing
Case = namedtuple("Case", "name room markers called answer")
CASES = []


# ---- texts


def marker(name, allele="G", weight=5, after=".", contig="c", pos=10):
    return Marker(name, contig, pos, allele, weight, after)


def record(pos, ref, alts, *pls, contig="c"):
    return Record(contig, pos, ref, alts, pls)


def markers_text(markers):
    return "".join(f"marker={m.name}\ncontig={m.contig}\npos={m.pos}\nallele={m.allele}\nweight={m.weight}\nafter={m.after}\n" for m in markers)


def record_text(r):
    text = f"contig={r.contig}\npos={r.pos}\nref={r.ref}\nalt={','.join(r.alts)}\n"
    for pl in r.pls:
        text += f"gq=.\ndp=8\nad=.\npl={'.' if pl is None else ','.join(map(str, pl))}\n"
    return text


def called_text(records, names, figure=None):
    head = f"samples={len(names)}\n" + "".join(f"sample={name}\n" for name in names)
    return head + f"records={len(records) if figure is None else figure}\n" + "".join(map(record_text, records))


# ---- the rules


def shows(m, r, sample):
    pl = r.pls[sample]
    if (m.contig, m.pos) != (r.contig, r.pos) or pl is None:
        return False
    alleles = [a.upper() for a in [r.ref] + r.alts]
    pairs = [(low, high) for high in range(len(alleles)) for low in range(high + 1)]
    return any(m.allele.upper() in (alleles[low], alleles[high]) for (low, high), p in zip(pairs, pl) if p == min(pl))


def sums_of(markers, records, names):
    sums = []
    for sample in range(len(names)):
        met, total = set(), 0
        for m in markers:
            first = [] if m.after == "." else m.after.split(",")
            if all(name in met for name in first) and any(shows(m, r, sample) for r in records):
                met.add(m.name)
                total += m.weight
        sums.append(total)
    return sums


def sheet_text(names, sums):
    return "".join(f"sample={name}\nsum={total}\n" for name, total in zip(names, sums))


# ---- cases


def sheet(name, markers, records, sums, names=None, room=OUT_ROOM):
    """A call without a fault, and its sums by hand (None: only by `sums_of`)."""
    names = names or [f"S{i}" for i in range(len(records[0].pls) if records else 1)]
    counted = sums_of(markers, records, names)
    if sums is not None and sums != counted:
        raise SystemExit(f"{name}: by hand {sums}, by the rules {counted}")
    CASES.append(Case(name, room, markers_text(markers), called_text(records, names), "\n" + sheet_text(names, counted)))


def refused(name, number, markers="", called=None, room=OUT_ROOM):
    """A call that is refused; the called list is a right one if none is given."""
    called = called_text([record(10, "A", ["G"], [0, 30, 300])], ["S0"]) if called is None else called
    markers = markers if isinstance(markers, str) else markers_text(markers)
    CASES.append(Case(name, room, markers, called, f" refused={number}\n"))


def by_hand():
    two = [record(10, "A", ["G"], [0, 30, 300], [40, 0, 50])]
    sheet("one-of-two", [marker("m")], two, [0, 5])
    sheet("wanted-ref", [marker("m", "A")], two, [5, 5])
    sheet("not-among-alleles", [marker("m", "T")], two, [0, 0])
    sheet("no-markers", [], two, [0, 0])
    sheet("no-records", [marker("m")], [], [0, 0], ["S0", "S1"])
    sheet("weights-1-and-100", [marker("m", weight=1), marker("n", weight=100)], two, [0, 101])
    sheet("small-letters", [marker("m", "g"), marker("n", "A", 7)], [record(10, "a", ["g"], [40, 0, 50])], [12])
    sheet("missing-pl", [marker("m", "A"), marker("n", "G", 7)], [record(10, "A", ["G"], None, [0, 1, 2])], [0, 5])
    sheet("tie-of-first-two", [marker("m", "A"), marker("n", "G", 7)], [record(10, "A", ["G"], [0, 0, 9])], [12])
    sheet("tie-of-first-and-last", [marker("m", "A"), marker("n", "G", 7)], [record(10, "A", ["G"], [4, 9, 4])], [12])
    sheet("least-is-not-zero", [marker("m", "A"), marker("n", "G", 7)], [record(10, "A", ["G"], [9, 8, 7])], [7])
    letters = [marker(a, a, w) for a, w in zip("ACG", (1, 2, 4))]
    orders = [[0 if i == least else 9 for i in range(6)] for least in range(6)]
    sheet("pairs-of-three-alleles", letters, [record(10, "A", ["C", "G"], *orders)], [1, 3, 2, 5, 6, 4])
    sheet("wanted-star", [marker("m", "*")], [record(10, "A", ["G", "*"], [9, 9, 9, 0, 9, 9], [9, 0, 9, 9, 9, 9])], [5, 0])
    sheet("non-ref-in-the-list", [marker("m", "G")], [record(10, "A", ["G", "<NON_REF>"], [9, 0, 9, 9, 9, 9])], [5])
    sheet("longer-ref", [marker("m", "GT"), marker("n", "G", 7)], [record(10, "AT", ["GT"], [9, 0, 9])], [5])
    other = [record(10, "A", ["G"], [0, 9, 9], contig="b"), record(10, "A", ["G"], [9, 9, 0])]
    sheet("same-position-elsewhere", [marker("m", contig="b"), marker("n", weight=7)], other, [7])
    sheet("no-record-there", [marker("m", pos=9), marker("n", pos=11), marker("o", contig="d"), marker("p", weight=7)], other, [7])
    sheet("longest-allele", [marker("m", "G" * 255)], [record(10, "A", ["g" * 255], [9, 0, 9])], [5])
    sheet("greatest-position", [marker("m", pos=2147483647)], [record(2147483647, "A", ["G"], [9, 0, 9])], [5])
    sheet("markers-not-in-order", [marker("m", pos=12), marker("n", weight=7), marker("o", "A", 9, pos=11)],
          [record(p, "A", ["G"], [9, 0, 9]) for p in (10, 11, 12)], [21])
    many = ["C" * i for i in range(1, 16)]
    sheet("sixteen-alleles", [marker("m", "C" * 15), marker("n", "A", 7)], [record(10, "A", many, [1] * 135 + [0])], [5])


def with_after():
    chain = [marker("m"), marker("n", "A", 7, "m"), marker("o", "A", 9, "n")]
    sheet("after-a-chain", chain, [record(10, "A", ["G"], [9, 0, 9], [0, 9, 9])], [21, 0])
    sheet("met-by-the-same-rule", [marker("m", "T"), marker("n", "A", 7, "m"), marker("o", "A", 9, "n")], [record(10, "A", ["G"], [0, 9, 9])], [0])
    sheet("one-of-two-is-not-met", [marker("m"), marker("n", "T"), marker("o", "A", 7, "m,n")], [record(10, "A", ["G"], [9, 0, 9])], [5])
    sheet("a-name-twice", [marker("m"), marker("n", "A", 7, "m,m")], [record(10, "A", ["G"], [9, 0, 9])], [12])
    four = [marker(n, weight=w) for n, w in zip("abcd", (1, 2, 4, 8))]
    sheet("four-names", four + [marker("m", "A", 16, "a,b,c,d")], [record(10, "A", ["G"], [9, 0, 9])], [31])
    refused("five-names", 19, four + [marker("m", after="a,b,c,d,a")])
    refused("its-own-name", 20, [marker("m", after="m")])
    refused("a-later-name", 20, [marker("m", after="n"), marker("n")])
    refused("one-name-not-listed", 20, [marker("m"), marker("n", after="m,o")])
    refused("small-letters-are-another-name", 20, [marker("m"), marker("n", after="M")])
    refused("no-name-after", 19, [marker("m", after="")])
    refused("dot-among-names", 20, [marker("m"), marker("n", after="m,.")])
    refused("a-comma-too-many", 19, [marker("m"), marker("n", after="m,")])


def faulty_markers():
    refused("19-before-20-in-a-group", 19, [marker("m", weight=0, after="n")])
    refused("repeated-before-20", 19, [marker("m"), marker("m", after="n")])
    refused("20-in-the-group-before", 20, [marker("m", after="n"), marker("o", weight=0)])
    refused("a-name-repeated", 19, [marker("m"), marker("n"), marker("m")])
    for weight in ("0", "101", "007", "", "-1", "4294967297"):
        refused(f"weight-{weight}", 19, [marker("m", weight=weight)])
    for pos in ("0", "2147483648", "010", ""):
        refused(f"position-{pos}", 19, [marker("m", pos=pos)])
    for case, allele in (("non-ref", "<NON_REF>"), ("none", ""), ("256-letters", "G" * 256), ("two-stars", "**"), ("letter-x", "GX"), ("two", "G,A")):
        refused(f"allele-{case}", 19, [marker("m", allele)])
    for case, name in (("none", ""), ("33-bytes", "m" * 33), ("blank", "m n"), ("comma", "m,n"), ("equals", "m=n")):
        refused(f"name-{case}", 19, [marker(name)])
        refused(f"contig-{case}", 19, [marker("m", contig=name)])
    right = markers_text([marker("m")])
    refused("five-lines", 19, right[: right.index("after")])
    refused("no-last-lf", 19, right[:-1])
    refused("an-empty-line", 19, right + "\n")
    refused("another-key", 19, right.replace("weight", "wait"))
    refused("lines-changed-about", 19, right.replace("contig=c\npos=10\n", "pos=10\ncontig=c\n"))
    refused("19-before-the-list", 19, [marker("m", weight=0)], called="")
    refused("20-before-the-list", 20, [marker("m", after="n")], called="")


def faulty_lists():
    right = called_text([record(10, "A", ["G"], [0, 30, 300])], ["S0"])
    refused("empty-list", 1, called="")
    refused("no-last-lf-of-the-list", 1, called=right[:-1])
    refused("one-record-missing", 1, called=right.replace("records=1", "records=2"))
    refused("one-record-more", 1, called=right.replace("records=1", "records=0"))
    refused("with-an-end-line", 1, called=right.replace("ref=A", "end=.\nref=A"))
    refused("with-a-gt-line", 1, called=right.replace("gq=.", "gt=0/0\ngq=."))
    refused("pl-not-a-number", 1, called=right.replace("pl=0", "pl=x"))
    refused("no-samples", 2, called="samples=0\nrecords=0\n")
    refused("65-samples", 2, called=called_text([], [f"S{i}" for i in range(65)]))
    refused("a-sample-twice", 3, called=called_text([], ["S0", "S1", "S0"]))
    pl = [0, 30, 300]
    for case, places in (("same-place", ((10, "c"), (10, "c"))), ("positions-back", ((11, "c"), (10, "c"))), ("contigs-back", ((10, "d"), (11, "c")))):
        refused(case, 4, called=called_text([record(p, "A", ["G"], pl, contig=c) for p, c in places], ["S0"]))
    refused("position-zero", 4, called=right.replace("pos=10", "pos=0"))
    for case, ref, alts in (("alt-is-ref", "A", ["a"]), ("alt-twice", "A", ["G", "g"]), ("star-as-ref", "*", ["G"]), ("alt-none", "A", [""]),
                            ("ref-256-letters", "A" * 256, ["G"]), ("17-alleles", "A", ["C" * i for i in range(1, 17)])):
        refused(case, 5, called=called_text([record(10, ref, alts, None)], ["S0"]))
    refused("pl-of-two-numbers", 8, called=right.replace("pl=0,30,300", "pl=0,30"))
    refused("pl-of-four-numbers", 8, called=right.replace("pl=0,30,300", "pl=0,30,300,9"))
    refused("ad-of-three-numbers", 8, called=right.replace("ad=.", "ad=1,2,3"))
    refused("4-before-8", 4, called=right.replace("pos=10", "pos=0").replace("pl=0,30,300", "pl=0"))
    refused("faulty-behind-all-markers", 8, [marker("m", pos=1)], called=right.replace("pl=0,30,300", "pl=0"))


def at_the_limits():
    one = [record(10, "A", ["G"], [9, 0, 9])]
    exact = len(sheet_text(["S0"], [5]))
    sheet("room-exact", [marker("m")], one, [5], room=exact)
    refused("room-one-short", 14, [marker("m")], called_text(one, ["S0"]), exact - 1)
    refused("no-room", 14, room=0)
    refused("14-comes-last", 8, called=called_text([record(10, "A", ["G"], [0])], ["S0"]), room=0)
    most = [marker(f"m{i}", "GA"[i % 2], 100, f"m{i - 1}" if i else ".") for i in range(500)]
    sheet("500-markers-of-a-chain", most, one, [50000])
    refused("501-markers", 19, most + [marker("last")])
    names = [f"S{i}" for i in range(64)]
    sheet("64-samples", [marker("m", "A", 1), marker("n", "G", 2)], [record(10, "A", ["G"], *[orders(i) for i in range(64)])],
          [(1, 3, 2)[i % 3] for i in range(64)], names)


def orders(i):
    return [0 if i % 3 == least else 9 for least in range(3)]


def generated(rng, number):
    samples = rng.choice((1, 1, 2, 3))
    places = sorted({(rng.choice(("1", "10", "2", "X")), rng.randint(1, 5)) for _ in range(rng.randint(0, 7))})
    records = []
    for contig, pos in places:
        alleles = rng.sample(("A", "C", "G", "AT", "GT"), 2)
        alleles += [a for a in rng.sample(("T", "*", "<NON_REF>"), 2) if rng.random() < 0.4]
        size = len(alleles) * (len(alleles) + 1) // 2
        pls = [None if rng.random() < 0.1 else [rng.choice((0, 0, 10, 20)) for _ in range(size)] for _ in range(samples)]
        records.append(Record(contig, pos, rng.choice((str.upper, str.lower))(alleles[0]), alleles[1:], pls))
    markers = []
    for i in range(rng.randint(0, 7)):
        contig, pos = rng.choice(places) if places and rng.random() < 0.8 else (rng.choice(("1", "X")), rng.randint(1, 6))
        there = [a for r in records if (r.contig, r.pos) == (contig, pos) for a in [r.ref] + r.alts if a != "<NON_REF>"]
        names = [rng.choice(markers).name for _ in range(rng.choice((0, 0, 1, 1, 2, 4)))] if markers else []
        markers.append(Marker(f"m{i}", contig, pos, rng.choice(there + ["G", "g"]), rng.randint(1, 100), ",".join(names) or "."))
    sheet(f"generated-{number}", markers, records, None, [f"S{i}" for i in range(samples)])


def main():
    by_hand()
    with_after()
    faulty_markers()
    faulty_lists()
    at_the_limits()
    rng = random.Random(13)
    for number in range(100):
        generated(rng, number)
    stdin = b""
    for case in CASES:
        markers, called = case.markers.encode(), case.called.encode()
        stdin += f"{len(markers)} {len(called)} 0 {case.room} {case.name}\n".encode() + markers + called
    if len(stdin) > INPUT_ROOM:
        raise SystemExit(f"{len(stdin)} bytes are too many")
    Path("crates/test_sheet/stdin").write_bytes(stdin)
    Path("crates/test_sheet/stdout").write_text("".join(case.name + case.answer for case in CASES))
    print(f"{len(CASES)} calls, {sum('refused' in case.answer for case in CASES)} refused, {len(stdin)} bytes")


if __name__ == "__main__":
    main()
