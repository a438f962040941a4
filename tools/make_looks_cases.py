"""Writes crates/replay_looks/stdin, calls of `search_looks::looks`, and stdout, what each must give.

Run it in the repository's folder. The calls are of three sorts:
- recorded: short cases of recorded/combine, asked for every contig that a site names and for one that none names, with 8,192 places and with 1 by turns.
- refused: the calls of make_replay_cases.py by hand, whose numbers stand there beside them from reading documents 01 and 02, asked for contig c and for
  one that no site names by turns. Where the list is refused with 14, or accepted, there is a figure.
- by hand, below, with the figure or the number beside each.
`counted` is the figure once more, straight from document 02 (Note 5 with Note 12's rule): for every kept interval, every sample, all its sites on the
contig. Every call goes through it, behind the rows of make_replay_cases.py; where a figure or number by hand differs, the tool stops and names the case.
The tool also stops if the cases no longer cover what COVERED names.
"""
import sys
from collections import namedtuple
from pathlib import Path

sys.dont_write_bytecode = True
import make_replay_cases as lists
from make_cohort_cases import BLOCK, SNP, TWO, Refused, header, model, site
from make_replay_cases import PLACES, at, one, segment, span

INPUT_ROOM, MOST_BYTES = 262144, 200000  # what the program has room for, and what the data may have
SHORT = 2500  # bytes of the texts of a recorded case or a refused one, for room
PER_SORT = 2  # recorded cases of each sort that is not by hand
NOWHERE = "nowhere"  # a contig that no site names
COVERED = {f"refused {n}" for n in range(1, 14)} | {
    "no clip", "empty clip", "clip of other contigs", "interval without a record", "contig without sites", "several contigs", "one place", "no place",
    "sites of a sample overlap", "several samples", "a list that 14 refuses", "over 1,024 breakpoints", "refused 11 on another contig",
    "refused 12 on another contig", "refused 13 on another contig", "clip cuts a block", "small letters",
}
Case = namedtuple("Case", "name cohort clip reference lent places contig")
CASES = []  # each with its answer: ("refused", row), ("looks", figure), or None for a figure that is counted


# ---- the rules


def intervals_of(sites, clip):
    """The kept intervals of a contig, by its sites and its clip spans: from each breakpoint to just before the next."""
    points = model.breakpoints(sites, clip)
    return [(a, b - 1) for a, b in zip(points, points[1:]) if model.kept(clip, a, b - 1)]


def counted(names, sites, clip):
    """The looks of a contig: for each kept interval and each sample, all its sites on the contig."""
    looks = 0
    for _ in intervals_of(sites, clip):
        for sample in range(len(names)):
            looks += sum(s.sample == sample for s in sites)
    return looks


def shown_of(case, sites, clip):
    """What an accepted call shows."""
    on = [s for s in sites if s.contig == case.contig]
    spans = None if clip is None else [c for c in clip if c["contig"] == case.contig]
    kept = intervals_of(on, spans) if on else []
    overlap = lambda a, b: a is not b and a.sample == b.sample and a.start <= b.end and b.start <= a.end
    shown = {
        "no clip": clip is None and on,
        "empty clip": clip == [] and on,
        "clip of other contigs": clip and on and not spans,
        "clip cuts a block": any(s.block and any(s.start < c["start"] <= s.end for c in spans or []) for s in on),
        "interval without a record": any(not any(s.start <= first <= s.end for s in on) for first, _ in kept),
        "contig without sites": sites and not on,
        "several contigs": on and len({s.contig for s in sites}) > 1,
        "one place": case.places == 1 and kept,
        "no place": case.places == 0,
        "sites of a sample overlap": kept and any(overlap(a, b) for a in on for b in on),
        "several samples": kept and len({s.sample for s in on}) > 1,
        "over 1,024 breakpoints": len(kept) >= 1024,
        "small letters": kept and any(s.alleles != s.spelled for s in on),
    }
    return {what for what, is_so in shown.items() if is_so}


def rows_of(sites, clip, reference, places):
    """Rows 10 to 13, contig by contig."""
    for contig in sorted({s.contig for s in sites}, key=str.encode):
        here = lambda gs: None if gs is None else [g for g in gs if g["contig"] == contig]
        lists.check_contig([s for s in sites if s.contig == contig], here(clip), here(reference), places)


def refusal_of(case, sites, clip, reference):
    """The row of 10 to 13 that refuses these sites, or None."""
    try:
        rows_of(sites, clip, reference, case.places)
    except Refused as refusal:
        return refusal.args[0]
    return None


def judged(case):
    """The answer of a call, and what it shows."""
    try:
        names, sites, clip, reference = lists.texts_of(case)
    except Refused as refusal:
        return ("refused", refusal.args[0]), {f"refused {refusal.args[0]}"}
    on, others = [s for s in sites if s.contig == case.contig], [s for s in sites if s.contig != case.contig]
    row = refusal_of(case, sites, clip, reference)
    if row is not None:
        elsewhere = row > 10 and on and refusal_of(case, others, clip, reference) == row
        return ("refused", row), {f"refused {row}"} | ({f"refused {row} on another contig"} if elsewhere else set())
    spans = None if clip is None else [c for c in clip if c["contig"] == case.contig]
    return ("looks", counted(names, on, spans)), shown_of(case, sites, clip)


# ---- recorded cases, and the refusals of the list


def recorded_cases():
    chosen = {}
    for line in Path("recorded/combine/INDEX.txt").read_text().splitlines():
        number, sort, *_ = line.split()
        texts = lists.texts_in(Path("recorded/combine") / number)
        if sum(map(len, texts[:3])) <= SHORT:
            chosen.setdefault(sort, []).append((number, texts))
    for sort, found in chosen.items():
        for i, (number, texts) in enumerate(found if sort == "by" else found[:PER_SORT]):
            sites = lists.texts_of(lists.Case("", *texts, PLACES, 0))[1]
            for k, contig in enumerate(sorted({s.contig for s in sites}) + ([NOWHERE] if i % 4 == 0 else [])):
                places = 1 if (i + k) % 2 else PLACES
                CASES.append((Case(f"recorded-{number}-{contig}", *texts, places, contig), None))


def refused_cases():
    """The list's calls by hand. What 14 refuses there has a figure here."""
    parts = (
        lists.cohort_cases, lists.clip_and_reference_cases, lists.place_cases, lists.letter_cases, lists.spelling_cases, lists.nested_cases,
        lists.merge_cases,
    )
    for part in parts:
        part()
    for i, (c, answer) in enumerate(lists.CASES):
        if len(c.cohort) + len(c.clip) + len(c.reference) > SHORT:
            continue
        expected = ("refused", answer) if isinstance(answer, int) and answer != 14 else None
        case = Case(f"list-{c.name}", c.cohort, c.clip, c.reference, c.lent, c.places, NOWHERE if expected and i % 2 else "c")
        CASES.append((case, expected))


# ---- cases by hand


def case(title, answer, cohort, clip=None, reference=None, contig="c", places=PLACES, row=None):
    lent = (clip is not None) + 2 * (reference is not None)
    texts = [(text or "").encode() for text in (cohort, clip, reference)]
    CASES.append((Case(title, *texts, lent, places, contig), ("looks", answer) if row is None else ("refused", row)))


def figure_cases():
    document = TWO + site(BLOCK) + site(SNP)  # a block at 10 to 11, a SNP at 10: breakpoints 10, 11, 12
    case("document-01", 2 * 2, document)
    case("document-01-other-contig", 0, document, contig="d")
    case("document-01-prefix-of-a-contig", 0, document.replace("contig=c", "contig=cc"))
    case("no-sites", 0, TWO)
    case("no-sites-no-place", 0, TWO, places=0)
    case("no-sites-clip-of-the-contig", 0, TWO, span("c", 1, 9))
    case("one-place", 2 * 2, document, places=1)
    case("two-places", 2 * 2, document, places=2)
    # a deletion of four letters has a breakpoint at each of them and behind: 10 to 14
    case("deletion", 4 * 1, TWO + at(0, "ACGT", "A"))
    # the last position: 2147483647 and 2147483648
    case("last-position", 1, TWO + at(0, "A", "G", start=2147483647))
    # a sample's sites over each other are all looked at: 1, 5, 10, 20, 31 by three sites
    nested = site(BLOCK, start=1, end=30) + site(BLOCK, start=5, end=19) + site(BLOCK, start=10, end=19)
    case("sites-over-each-other", 4 * 3, TWO + nested)
    case("equal-sites", 1 * 3, TWO + site(BLOCK) * 3)
    three = TWO + site(BLOCK) + at(1, "ACG", "A", contig="b") + at(0, "A", "G", contig="d") + site(SNP)
    for contig, figure in (("b", 3), ("c", 4), ("d", 1), ("a", 0), ("e", 0), ("", 0)):
        case(f"three-contigs-{contig or 'no-name'}", figure, three, contig=contig)
    # ten deletions of 128 letters, one behind the other: 1,281 breakpoints
    word = "ACGTTGCA" * 16
    case("over-1,024-breakpoints", 1280 * 10, TWO + "".join(at(i % 2, word, "A", start=10 + 128 * i) for i in range(10)))
    case("over-1,024-breakpoints-one-place", 1280 * 10, TWO + "".join(at(i % 2, word, "A", start=10 + 128 * i) for i in range(10)), places=1)
    # 64 samples with a block each
    case("64-samples", 64, header(*range(64)) + "".join(site(BLOCK, site=i) for i in range(64)))
    # the letter at 11 is there
    case("with-a-reference", 2 * 2, document, None, segment("c", 11, "T"))


def clip_cases():
    document = TWO + site(BLOCK) + site(SNP)
    case("empty-clip", 0, document, "")
    case("clip-of-another-contig", 0, document, span("d", 1, 99))
    case("clip-of-one-position", 1 * 2, document, span("c", 10, 10))
    case("clip-of-both", 2 * 2, document, span("c", 10, 11))
    # 1, 10, 11, 12, 31: 1 to 9 and 12 to 30 have no record and count
    case("clip-past-both-ends", 4 * 2, document, span("c", 1, 30))
    # 10, 11, 12, 20, 31: 20 to 30 lies in the clip, 12 to 19 does not
    case("clip-beside-the-sites", 1 * 2, document, span("c", 20, 30))
    # spans that overlap cut each other: 5, 10, 11, 12, 16
    case("clip-spans-that-overlap", 4 * 2, document, span("c", 5, 11) + span("c", 10, 15))
    case("clip-span-twice", 2 * 2, document, span("c", 10, 11) * 2)
    # two blocks with a gap: 10, 12, 20, 22; 12 to 19 counts where there is no clip
    case("gap-between-blocks", 3 * 2, TWO + site(BLOCK) + site(BLOCK, start=20, end=21))
    case("gap-left-out-by-the-clip", 2 * 2, TWO + site(BLOCK) + site(BLOCK, start=20, end=21), span("c", 10, 11) + span("c", 20, 21))


def refusal_cases():
    document = TWO + site(BLOCK) + site(SNP)
    case("10-no-place", None, document, places=0, row=10)
    case("10-no-place-contig-without-sites", None, document, contig="d", places=0, row=10)
    case("10-no-place-empty-clip", None, document, "", places=0, row=10)
    # contig b is in order, and d is not
    ahead = TWO + at(0, "A", "G", contig="b")
    apart = at(0, "AT", "A", contig="d") + at(1, "C", "G", contig="d")
    crowd = "".join(at(i, "A", *[letter + "T" * k for k in range(6)], contig="d") for i, letter in enumerate("CGT"))
    for contig in ("b", "d", NOWHERE):
        case(f"12-asked-{contig}", None, ahead + apart, contig=contig, row=12)
        case(f"11-asked-{contig}", None, ahead + site(BLOCK, contig="d"), span("b", 10, 10) + span("d", 11, 11), "", contig=contig, row=11)
        case(f"13-asked-{contig}", None, header("S0", "S1", "S2") + at(0, "A", "G", contig="b") + crowd, contig=contig, row=13)
    case("12-in-front-of-the-asked-contig", None, ahead.replace("contig=b", "contig=e") + apart, contig="e", row=12)
    # in byte order of name: 12 on a and 13 on d
    both = header("S0", "S1", "S2") + crowd + apart.replace("contig=d", "contig=a")
    case("12-before-13-by-the-contigs-order", None, both, contig="d", row=12)
    # the clip leaves the conflict out: 1, 10, 11, 21
    case("conflict-outside-the-clip", 3 * 1, ahead + apart, span("b", 1, 20), contig="b")
    case("conflict-outside-the-clip-its-contig", 0, ahead + apart, span("b", 1, 20), contig="d")
    case("1-empty-text", None, "", contig="c", row=1)
    case("9-clip", None, document, "\n", row=9)
    case("9-before-10", None, document, "\n", places=0, row=9)


# ---- the files


def main():
    for part in (figure_cases, clip_cases, refusal_cases, refused_cases, recorded_cases):
        part()
    assert len({c.name for c, _ in CASES}) == len(CASES)
    stdin, stdout, covered = b"", b"", {}
    fourteen = {f"list-{c.name}" for c, answer in lists.CASES if answer == 14}
    for c, expected in CASES:
        answer, shown = judged(c)
        if expected not in (None, answer):
            sys.exit(f"{c.name}: {expected} was expected, the rules in code say {answer}")
        if c.name in fourteen and answer[0] == "looks":
            shown.add("a list that 14 refuses")
        texts = (c.cohort, c.clip, c.reference)
        stdin += " ".join(map(str, [*map(len, texts), c.lent, c.places, c.contig, c.name])).encode() + b"\n" + b"".join(texts)
        stdout += f"{c.name} {answer[0]}={answer[1]}\n".encode()
        for what in shown:
            covered[what] = covered.get(what, 0) + 1
    if COVERED - covered.keys():
        sys.exit(f"not covered: {COVERED - covered.keys()}")
    assert len(stdin) <= min(INPUT_ROOM, MOST_BYTES), len(stdin)
    Path("crates/replay_looks/stdin").write_bytes(stdin)
    Path("crates/replay_looks/stdout").write_bytes(stdout)
    print(f"{len(CASES)} cases, {len(stdin)} bytes in, {len(stdout)} bytes out", *sorted(covered.items()), sep="\n")


if __name__ == "__main__":
    main()
