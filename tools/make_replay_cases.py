"""Writes crates/replay_combine/stdin, calls of the entry, and stdout, what each must give.

Run it in the repository's folder. The calls are of three sorts:
- recorded: all cases of recorded/combine that are by hand, and the first six of every other sort. The list is the Rust's, as recorded, and the model's
  where sites of a sample overlap, a letter is needed and no reference is lent, or letters are small. With B
  breakpoints on the busiest contig, those of other sorts have 8,192 places, 1, 2, B - 1, B and B + 1 by turns.
- tight: each recorded case by hand but those of letters, spelling and MIN_DP again, with 0, 1, B and B + 1 places and just the output that it needs, and
  with a byte less (14). With no place it is 10 if it has a site, and else the list.
- by hand, below: refusals, each with its number beside it from reading documents 01 and 02, and calls just inside the rules; among them contigs with
  more breakpoints than a call has places of its own.
`judged` is a second reading of the rules, in code: the texts by make_cohort_cases.py, the list by differential/model.py. Every call goes through it,
and where the two differ the tool stops and names the case. The lists of accepted cases by hand are the model's.
The tool also stops if the cases no longer cover what COVERED names.
"""
import re
import sys
from collections import namedtuple
from pathlib import Path

sys.dont_write_bytecode = True
import make_cohort_cases as rules
from make_cohort_cases import BLOCK, ONE, SMALL, SNP, TWO, Refused, check, header, model, pl, site

PLACES, ROOM, INPUT_ROOM = 8192, 65536, 524288  # what the program has room for
LONG = 15000  # bytes of a recorded cohort that is left out, for room
COVERED = {f"refused {n}" for n in range(1, 15)} | {
    "joined", "clip cuts a block", "deletion over a later position", "*", "REF grows", "missing value", "several contigs", "64 samples",
    "16 alleles", "letter from the reference", "letter from a sample", "no REF reaches", "a lower-numbered sample does not reach", "REFs that reach differ",
    "a block's letter against an unknown one", "an unknown letter joins a REF N", "clip keeps nothing", "no records", "a site hides another",
    "reference groups disagree", "over 1,024 breakpoints", "more breakpoints than places", "one place", "joined over 1,024 breakpoints",
    "a later site supersedes an earlier one in the file", "the first in the file starts last", "equal starts", "three deep", "a superseded deletion",
    "small letters", "REFs that are prefixes in either case alone", "an allele that samples spell in either case", "over 16 alleles as they are spelled",
    "a small letter from the reference", "a small letter from a sample", "blocks that differ only in case join",
    "MIN_DP", "MIN_DP above DP", "MIN_DP without DP", "blocks that agree in MIN_DP join", "blocks that differ in MIN_DP alone", "blocks of which one lacks MIN_DP alone",
    "a sample of which nothing is known joins one without a site",
}
CLIP, REFERENCE = ("contig", "start", "end"), ("contig", "first", "bases")
Case = namedtuple("Case", "name cohort clip reference lent places room")
CASES = []  # each with its answer: a number, a list, `pos end ref alt` of each record of a list that the model makes, or None for any such list


# ---- the rules


def span_of(contig, start, end):
    check(9, 1 <= rules.number(start) <= rules.number(end))
    return {"contig": rules.name(contig).decode(), "start": int(start), "end": int(end)}


def segment_of(contig, first, bases):
    check(9, 1 <= rules.number(first) and re.fullmatch(rb"[ACGTNacgtn]+", bases) and int(first) + len(bases) - 1 <= rules.MOST)
    return {"contig": rules.name(contig).decode(), "first": int(first), "bases": bases.decode()}


def groups(text, keys, group_of):
    """The groups of a clip or a reference; any fault is 9."""
    found, lines = [], rules.Lines(text)
    try:
        while lines.at < len(text):
            found.append(group_of(*[lines.value(key)[0] for key in keys]))
    except Refused:
        raise Refused(9)
    return found


def covering_at(sites, position):
    """For each sample its sites over a position, as they stand in the file."""
    covering = {}
    for s in sites:
        if s.start <= position <= s.end:
            covering.setdefault(s.sample, []).append(s)
    return covering


def nearest(covering):
    """The site that starts last; of equal starts the first, which `max` takes."""
    return max(covering, key=lambda s: s.start)


def shown_of_overlaps(covering):
    """What the sites of one sample over a position show."""
    taken, starts = nearest(covering), [s.start for s in covering]
    return {
        "a later site supersedes an earlier one in the file": taken is not covering[0],
        "the first in the file starts last": len(set(starts)) > 1 and taken is covering[0],
        "equal starts": starts.count(taken.start) > 1,
        "three deep": len(set(starts)) > 2,
        "a superseded deletion": taken.block and any(not s.block and s.start < taken.start for s in covering),
    }


def shown_of_letters(taken, start):
    """What the REFs show at a position where no site starts and no reference is lent: `reaching` has the letters there, lowest-numbered sample first."""
    reaching = [(sample, s.alleles[0][start - s.start :][:1]) for sample, s in sorted(taken.items())]
    letters = [letter for _, letter in reaching if letter]
    spelled = [letter for _, s in sorted(taken.items()) for letter in s.spelled[0][start - s.start :][:1]]
    return {
        "a small letter from a sample": bool(spelled) and spelled[0].islower(),
        "letter from a sample": bool(letters),
        "no REF reaches": not letters,
        "a lower-numbered sample does not reach": bool(letters) and not reaching[0][1],
        "REFs that reach differ": len(set(letters)) > 1,
    }


def shown_of_joins(sites, clip, reference, start, points):
    """What neighbouring blocks show by their letters, where no reference is lent: `start` begins the second one."""
    before = max((p for p in points if p < start), default=None)
    if reference is not None or before is None or not model.kept(clip, before, start - 1):
        return set()
    one, two = model.taken_at(sites, before), model.taken_at(sites, start)
    values = lambda taken: {sample: (s.block, s.gq, s.dp, s.min_dp, s.ad, s.pl) for sample, s in taken.items()}
    if not one or values(one) != values(two) or not all(s.block for s in one.values()):
        return set()
    starts = lambda taken, p: any(s.start == p for s in taken.values())
    spelled = lambda taken, p: {s.spelled[0] for s in taken.values() if s.start == p}
    known = starts(one, before), starts(two, start)
    refs = model.ref_of(one, before, None), model.ref_of(two, start, None)
    shown = {
        "a block's letter against an unknown one": known == (True, False) and refs[0] != "N" and one == two,
        "an unknown letter joins a REF N": known[0] != known[1] and refs == ("N", "N"),
        "blocks that differ only in case join": known == (True, True) and refs[0] == refs[1] and spelled(one, before) != spelled(two, start),
    }
    return {what for what, is_so in shown.items() if is_so}


def shown_of_min_dp(sites, clip, reference, start, points):
    """What neighbouring blocks show by MIN_DP, where all else agrees: `start` begins the second one."""
    before = max((p for p in points if p < start), default=None)
    if before is None or not model.kept(clip, before, start - 1):
        return set()
    one, two = model.taken_at(sites, before), model.taken_at(sites, start)
    blocks = lambda taken: taken and all(s.block for s in taken.values())
    if not blocks(one) or not blocks(two) or model.ref_of(one, before, reference) != model.ref_of(two, start, reference):
        return set()
    known = lambda taken: {i: (s.gq, s.dp, s.ad, s.pl) for i, s in taken.items() if (s.gq, s.dp, s.ad, s.pl) != (".", ".", None, None)}
    least = lambda taken: {i: s.min_dp for i, s in taken.items() if s.min_dp != "."}
    if known(one) != known(two):
        return set()
    shown = {
        "blocks that agree in MIN_DP join": least(one) and least(one) == least(two),
        "blocks that differ in MIN_DP alone": least(one) != least(two) and least(one).keys() == least(two).keys(),
        "blocks of which one lacks MIN_DP alone": least(one).keys() != least(two).keys(),
        "a sample of which nothing is known joins one without a site": least(one) == least(two) and one.keys() != two.keys(),
    }
    return {what for what, is_so in shown.items() if is_so}


def shown_of_spellings(taken, start, alleles):
    """What the spellings of the sites that start at a position show; `alleles` are the merged ones."""
    starting = [s for s in taken.values() if s.start == start]
    refs = [s.spelled[0] for s in starting]
    longest = max(refs, key=len, default="")
    grown = lambda s: [a for a in s.spelled[1:] if a not in ("*", "<NON_REF>")] if len(s.spelled[0]) == len(longest) else []
    letters, spelled = {a for s in starting for a in s.alleles[1:]}, {a for s in starting for a in s.spelled[1:]}
    return {
        "REFs that are prefixes in either case alone": any(not longest.startswith(r) for r in refs),
        "an allele that samples spell in either case": len(letters) < len(spelled),
        "over 16 alleles as they are spelled": len(alleles) == 16 and len({a for s in starting for a in grown(s)}) > 14,
    }


def check_interval(sites, reference, start):
    """Rows 11 to 13 of an interval, and what it shows. Nothing if no site covers it."""
    covering = covering_at(sites, start)
    taken = {sample: nearest(own) for sample, own in covering.items()}
    spelled = [g["bases"][start - g["first"]] for g in reference or [] if 0 <= start - g["first"] < len(g["bases"])]
    letters = {letter.upper() for letter in spelled}
    refs = [s.alleles[0] for s in taken.values() if s.start == start]
    if taken and not refs and reference is not None:
        check(11, letters)
    longest = max(refs, key=len, default="")
    check(12, all(longest.startswith(r) for r in refs))
    if not taken:
        return set()
    ref = model.ref_of(taken, start, reference)
    alleles = model.merged_alleles(taken, {i: s.read_at(start, ref) for i, s in taken.items()}, start, ref)
    check(13, len(alleles) <= 16)
    shown = {
        "*": "*" in alleles,
        "16 alleles": len(alleles) == 16,
        "REF grows": len(set(refs)) > 1,
        "deletion over a later position": any(s.start < start and min(map(len, s.alleles)) < len(s.alleles[0]) for s in taken.values()),
        "letter from the reference": not refs and reference is not None,
        "a small letter from the reference": not refs and spelled and spelled[0].islower(),
        "reference groups disagree": not refs and len(letters) > 1,
        "a site hides another": any(len(own) > 1 for own in covering.values()),
        "taken": True,
    } | shown_of_spellings(taken, start, alleles)
    if not refs and reference is None:
        shown |= shown_of_letters(taken, start)
    for own in covering.values():
        shown = {what: is_so or shown.get(what) for what, is_so in {**shown, **shown_of_overlaps(own)}.items()}
    return {what for what, is_so in shown.items() if is_so}


def check_contig(sites, clip, reference, places):
    """Rows 10 to 13 of a contig, what it shows, and how many breakpoints it has. A site names it, so no place at all is 10."""
    check(10, places > 0)
    points = model.breakpoints(sites, clip)
    shown, covered = set(), 0
    for start, after in zip(points, points[1:]):
        if model.kept(clip, start, after - 1):
            here = check_interval(sites, reference, start)
            covered += "taken" in here
            shown |= here - {"taken"} | shown_of_joins(sites, clip, reference, start, points)
            shown |= shown_of_min_dp(sites, clip, reference, start, points) if "taken" in here else set()
    if clip is not None and covered == 0:
        shown.add("clip keeps nothing")
    for s in sites:
        if s.block and any(s.start < c["start"] <= s.end or s.start <= c["end"] < s.end for c in clip or []):
            shown.add("clip cuts a block")
    return shown, covered, len(points)


def texts_of(case):
    """The names, sites, clip and reference of a case: rows 1 to 9."""
    lent = [case.clip if case.lent % 2 else None, case.reference if case.lent >= 2 else None]
    check(2, all(len(t) <= 16777216 for t in [case.cohort] + [t for t in lent if t is not None]))
    count, _ = rules.read(case.cohort)
    clip = None if lent[0] is None else groups(lent[0], CLIP, span_of)
    reference = None if lent[1] is None else groups(lent[1], REFERENCE, segment_of)
    pairs = [line.split("=", 1) for line in case.cohort.decode().split("\n")[:-1]]
    groups_of = model.groups(pairs[1 + count :], model.SITE_KEYS)
    sites = [model.Site(g) for g in groups_of]
    for s, g in zip(sites, groups_of):
        s.spelled = [g["ref"]] + g["alt"].split(",")
    return [name for _, name in pairs[1 : 1 + count]], sites, clip, reference


def judged(case):
    """The list of a call, what it shows, and the most breakpoints of a contig."""
    names, sites, clip, reference = texts_of(case)
    contigs = sorted({s.contig for s in sites}, key=str.encode)
    found, shown, covered, most = [], set(), 0, 0
    for contig in contigs:
        here = lambda gs: None if gs is None else [g for g in gs if g["contig"] == contig]
        parts = [s for s in sites if s.contig == contig], here(clip), here(reference)
        of_contig, intervals, points = check_contig(*parts, case.places)
        found += [record.text(contig) for record in model.contig_records(*parts, len(names))]
        shown, covered, most = shown | of_contig, covered + intervals, max(most, points)
    text = (model.header(names, len(found)) + "".join(found)).encode()
    check(14, len(text) <= case.room)
    whole = {
        "joined": len(found) < covered,
        "missing value": any(s.gq == "." or s.pl is None or s.ad is None for s in sites),
        "MIN_DP": any(s.min_dp != "." for s in sites),
        "MIN_DP above DP": any(s.min_dp != "." != s.dp and int(s.min_dp) > int(s.dp) for s in sites),
        "MIN_DP without DP": any(s.min_dp != "." == s.dp for s in sites),
        "several contigs": len(contigs) > 1,
        "small letters": any(s.alleles != s.spelled for s in sites),
        "64 samples": len(names) == 64 and sites,
        "no records": not found,
        "over 1,024 breakpoints": most > 1024,
        "joined over 1,024 breakpoints": most > 1024 and covered > 1024 > len(found),
        "more breakpoints than places": most > case.places,
        "one place": case.places == 1 and found,
    }
    return text, shown | {what for what, is_so in whole.items() if is_so}, most


# ---- recorded and tight cases


def texts_in(folder):
    read = lambda name: (folder / name).read_bytes() if (folder / name).exists() else None
    clip, reference = read("clip.kv"), read("reference.kv")
    lent = (clip is not None) + 2 * (reference is not None)
    return read("cohort.kv"), clip or b"", reference or b"", lent


def busiest(texts):
    """The breakpoints of the contig that has the most."""
    return judged(Case("", *texts, PLACES, ROOM))[2]


def few_and_many(most):
    """No place, one, and as many as there are breakpoints, and one more."""
    return sorted({0, 1, most, most + 1})


def tight(number, texts, combined):
    most = busiest(texts)
    for places in few_and_many(most):
        CASES.append((Case(f"tight-{number}-places-{places}", *texts, places, len(combined)), combined if places or not most else 10))
    CASES.append((Case(f"tight-{number}-a-byte-less", *texts, max(most, 1), len(combined) - 1), 14))


def recorded_cases():
    chosen = {}
    for line in Path("recorded/combine/INDEX.txt").read_text().splitlines():
        number, sort, *_ = line.split()
        chosen.setdefault(sort, []).append(number)
    for sort, numbers in chosen.items():
        for i, number in enumerate(numbers if sort in ("by", "letters", "spelling", "MIN_DP") else numbers[:6]):
            folder = Path("recorded/combine") / number
            texts, combined = texts_in(folder), (folder / "combined.kv").read_bytes()
            if len(texts[0]) > LONG:
                continue
            most = busiest(texts)
            places = [PLACES, 1, 2, max(most - 1, 1), most, most + 1][0 if sort == "by" else i % 6]
            CASES.append((Case(f"recorded-{number}", *texts, places, ROOM), combined))
            if sort == "by":
                tight(number, texts, combined)


# ---- cases by hand


def case(title, answer, cohort, clip=None, reference=None, places=PLACES, room=ROOM, lent=None):
    lent = (clip is not None) + 2 * (reference is not None) if lent is None else lent
    texts = [(text or "").encode("latin-1") for text in (cohort, clip, reference)]
    CASES.append((Case(title, *texts, lent, places, room), answer))


def lines(keys, *values):
    return "".join(f"{key}={value}\n" for key, value in zip(keys, values))


def span(contig, start, end):
    return lines(CLIP, contig, start, end)


def segment(contig, first, bases):
    return lines(REFERENCE, contig, first, bases)


def one(base=BLOCK, **changes):
    """A cohort of two samples with one site."""
    return TWO + site(base, **changes)


def at(place, *alleles, contig="c", start=10):
    """A site that is no block, without values."""
    return site(SMALL, site=place, contig=contig, start=start, end=start + len(alleles[0]) - 1, ref=alleles[0], alt=",".join(alleles[1:] + ("<NON_REF>",)))


def cohort_cases():
    case("1-empty-text", 1, "")
    case("1-start-010", 1, one(start="010"))
    case("1-end-2147483648", 1, one(end=rules.MOST + 1))
    case("1-last-line-without-lf", 1, one()[:-1])
    case("1-lines-swapped", 1, one().replace("gq=30\ndp=9\n", "dp=9\ngq=30\n"))
    case("1-mindp-missing", 1, one().replace("mindp=.\n", ""))
    case("1-mindp-missing-in-the-second-site", 1, TWO + site(mindp=9) + site(SNP).replace("mindp=.\n", ""))
    case("1-mindp-before-dp", 1, one().replace("dp=9\nmindp=.\n", "mindp=.\ndp=9\n"))
    case("1-mindp-misspelled", 1, one().replace("mindp", "min_dp"))
    case("1-mindp-05", 1, one(mindp="05"))
    case("1-mindp-2147483648", 1, one(mindp=rules.MOST + 1))
    case("1-name-with-comma", 1, header("a,b"))
    case("2-no-samples", 2, "samples=0\n")
    case("2-sixty-five-samples", 2, header(*range(65)))
    case("2-2147483647-samples", 2, "samples=2147483647\n")
    case("3-name-twice", 3, header("S0", "S0"))
    case("3-site-2-of-two", 3, one(site=2))
    case("4-end-before-start", 4, one(end=9))
    case("4-position-0", 4, one(start=0))
    case("5-alt-twice", 5, one(SNP, alt="G,G"))
    case("5-other-small-letter", 5, one(ref="r"))
    case("5-nine-alleles", 5, one(SNP, alt="C,G,T,N,AA,AC,*,<NON_REF>", ad=".", pl="."))
    case("5-129-letters", 5, one(SNP, ref="A" * 129, end=138))
    case("6-no-non-ref", 6, one(SNP, alt="G", pl=pl(3)))
    case("6-no-non-ref-where-the-clip-lets-nothing-through", 6, one(SNP, alt="G", pl=pl(3)), "")
    case("7-snp-10-to-12", 7, one(SNP, end=12))
    case("7-block-of-two-letters", 7, one(ref="AC"))
    case("8-two-pl", 8, one(pl="0,30"))
    case("8-three-ad", 8, one(ad="1,2,3"))
    case("8-in-the-second-site", 8, TWO + site() + site(pl="0,30"))
    case("cohort-8-then-1", 8, TWO + site(pl="0") + site(gq=""))
    case("cohort-3-and-4-in-one-group", 3, one(site=2, end=9))


def clip_and_reference_cases():
    good = one(SNP)
    for title, clip in (
        ("start-0", span("c", 0, 5)), ("end-before-start", span("c", 10, 9)), ("leading-zero", span("c", "01", 9)),
        ("2147483648", span("c", 1, rules.MOST + 1)), ("no-lf", span("c", 1, 9)[:-1]), ("name-with-space", span("c c", 1, 9)),
        ("name-of-33-bytes", span("c" * 33, 1, 9)), ("line-missing", span("c", 1, 9)[: -len("end=9\n")]), ("empty-line", "\n"),
        ("lines-swapped", lines(("contig", "end", "start"), "c", 9, 1)), ("second-group", span("c", 1, 9) + span("d", 1, "x")),
    ):
        case(f"9-clip-{title}", 9, good, clip)
    for title, reference in (
        ("other-letter", segment("c", 1, "AX")), ("other-small-letter", segment("c", 1, "ax")), ("no-letters", segment("c", 1, "")),
        ("first-0", segment("c", 0, "A")), ("past-the-end", segment("c", rules.MOST, "AC")), ("no-lf", segment("c", 1, "A")[:-1]),
        ("key-misspelled", segment("c", 1, "A").replace("bases", "base")), ("second-group", segment("c", 1, "A") + segment("", 1, "A")),
        ("contig-of-no-site", segment("x", 1, "*")),
    ):
        case(f"9-reference-{title}", 9, good, None, reference)
    case("9-clip-and-reference", 9, good, "clip\n", "reference\n")
    case("9-clip-where-there-are-no-sites", 9, TWO, "\n")
    case("cohort-8-then-9", 8, one(pl="0"), "\n")
    case("9-then-14", 9, good, "\n", room=0)
    case("not-lent-and-faulty", None, good, "clip\n", "reference\n", lent=0)
    case("to-the-last-position", None, one(start=rules.MOST, end=rules.MOST), span("c", 1, rules.MOST), segment("c", rules.MOST, "G"))


def place_cases():
    long, elsewhere = one(end=19), span("d", 12, 13)
    case("10-no-places", 10, long, places=0)
    case("one-place", None, long, places=1)
    case("two-places", None, long, places=2)
    case("no-sites-no-places", None, TWO, places=0)
    case("no-sites-no-places-with-clip-and-reference", None, TWO, span("c", 12, 13), segment("c", 1, "ACGT"), places=0)
    case("10-by-a-site-outside-the-clip", 10, long, span("c", 30, 33), places=0)
    case("one-place-with-the-clip", None, long, span("c", 12, 13), places=1)
    case("10-where-the-clip-lets-nothing-through", 10, long, "", places=0)
    case("one-place-where-the-clip-lets-nothing-through", None, long, "", places=1)
    case("10-clip-of-another-contig", 10, long, elsewhere, places=0)
    case("one-place-clip-of-another-contig", None, long, elsewhere, places=1)
    case("one-place-for-a-long-ref", None, TWO + at(0, "ACGT", "A"), places=1)
    case("one-place-for-each-of-two-contigs", None, TWO + site() + at(1, "AC", "A", contig="d"), places=1)
    case("9-in-the-clip-then-10", 9, long, "\n", places=0)
    case("9-in-the-reference-then-10", 9, long, None, "\n", places=0)
    case("8-then-10", 8, one(pl="0"), places=0)
    case("10-then-11", 10, long, span("c", 13, 14), "", places=0)
    case("11-with-one-place", 11, long, span("c", 13, 14), "", places=1)
    case("10-then-12", 10, TWO + at(0, "AT", "A") + at(1, "C", "G"), places=0)
    case("12-with-one-place", 12, TWO + at(0, "AT", "A") + at(1, "C", "G"), places=1)
    case("10-then-14", 10, long, places=0, room=0)
    case("14-with-one-place", 14, long, places=1, room=0)


def window_cases():
    """More breakpoints on a contig than the 1,024 places that a call has of its own, so that it goes through several windows."""
    # ten deletions of 128 letters, one behind the other: 1,281 breakpoints, and some of the clip, which shows the front, the end and where
    # windows are likely to meet: halfway of 1,024 places and of as many as there are breakpoints
    word = "ACgTtGcA" * 16
    deletions = [at(i % 2, word, "A", start=10 + 128 * i) for i in range(10)]
    shown = "".join(span("c", first, last) for first, last in ((1, 11), (514, 529), (648, 663), (1022, 1025), (1286, 1290)))
    ahead, back = TWO + "".join(deletions), TWO + "".join(deletions[::-1])
    most = busiest((ahead.encode(), shown.encode(), b"", 1))
    for places in (0, 1, 2, 1023, 1024, 1025, most - 1, most, most + 1):
        case(f"ten-deletions-{places}-places", None if places else 10, ahead, shown, places=places)
    for places in (1, 1024, most):
        case(f"ten-deletions-backwards-{places}-places", None, back, shown, places=places)
    # one block under 520 spans, each over the end of the one before it: 1,042 breakpoints and one record
    stairs = "".join(span("c", 4 * i + 5, 4 * i + 10) for i in range(520))
    for places in (1, 1041):
        case(f"a-block-joined-over-windows-{places}-places", None, one(start=1, end=3000), stairs, places=places)
    # REFs that disagree behind the first windows, and a list that is too long by its last record
    late = at(0, "AT", "A", start=3000) + at(1, "C", "G", start=3000)
    case("12-in-a-later-window", 12, ahead + late, places=1)
    case("14-in-a-later-window", 14, ahead, span("c", 1285, 1289), places=1, room=200)


def letter_cases():
    block, cut = one(start=10, end=20), span("c", 13, 14)
    case("11-need-13", 11, block, cut, segment("c", 1, "AC"))
    case("11-no-groups", 11, block, cut, "")
    case("11-another-contig", 11, block, cut, segment("d", 1, "A" * 30))
    case("11-one-before", 11, block, cut, segment("c", 1, "A" * 12))
    case("11-one-behind", 11, block, cut, segment("c", 14, "A" * 9))
    case("letter-at-13", None, block, cut, segment("c", 13, "G"))
    case("letter-at-13-of-the-second-group", None, block, cut, segment("c", 1, "ACGT") + segment("c", 12, "TT"))
    case("11-behind-a-snp", 11, TWO + site(BLOCK, end=12) + site(SNP), None, segment("c", 10, "A"))
    case("no-letter-needed", None, one(SNP), None, segment("d", 1, "A"))
    case("11-then-14", 11, block, cut, "", room=0)


def sample_letter_cases():
    """Letters without a reference: of the lowest-numbered sample whose taken site's REF reaches the position, else N."""
    block, cut, deletion = one(start=10, end=20), span("c", 13, 14), at(0, "ACG", "A")
    case("unknown-letter-at-13", ["13 14 N <NON_REF>"], block, cut)
    case("letter-at-13-is-not-of-a-reference-that-is-not-lent", ["13 14 N <NON_REF>"], block, cut, segment("c", 1, "G" * 20), lent=1)
    word = "ACGTTGCA" * 15 + "ACGTTGCN"
    case("the-127th-letter-and-the-128th", ["136 . C *,<NON_REF>", "137 . N *,<NON_REF>"], TWO + at(0, word, "A"), span("c", 136, 140))
    seen = ["10 . ACG A,<NON_REF>", "11 . C *,<NON_REF>", "12 . G *,<NON_REF>"]
    blocks = "".join(site(SMALL, site=i, start=5, end=20) for i in range(63))
    last = deletion.replace("site=0", "site=63")
    case("only-the-64th-sample-reaches", ["5 9 A <NON_REF>", *seen, "13 20 N <NON_REF>"], header(*range(64)) + blocks + last)
    other = site(SMALL, contig="d", start=5, end=20) + at(1, "T", "C", contig="d", start=12)
    case("letters-of-two-contigs", [*seen, "5 11 A <NON_REF>", "12 . T C,<NON_REF>", "13 20 N <NON_REF>"], TWO + deletion + other)
    ahead = site(SMALL, site=1, start=10, end=13)
    case("a-letter-that-parts-blocks", ["10 . A <NON_REF>", "11 13 N <NON_REF>"], TWO + ahead, span("c", 10, 10) + span("c", 11, 13))
    case("the-same-with-a-reference-that-does-not", ["10 13 A <NON_REF>"], TWO + ahead, span("c", 10, 10) + span("c", 11, 13), segment("c", 11, "A"))
    case("12-though-no-reference-is-lent", 12, TWO + deletion + at(1, "G", "T"))
    case("14-by-one-byte-of-an-unknown-letter", 14, block, cut, room=len("samples=2\nsample=S0\nsample=S1\nrecords=1\n"))


def patched_cases():
    """Groups that overlap and disagree: the first in the file that holds the position gives the letter. At 13, 14 and 15 stand three records."""
    cut = span("c", 13, 13) + span("c", 14, 14) + span("c", 15, 15)
    whole, fix = segment("c", 1, "aA" * 10), segment("c", 13, "gT")
    # sites elsewhere, so many that each size of the tables is taken
    for size, more in ((64, 0), (256, 60), (4096, 240)):
        cohort = one(start=10, end=20) + "".join(site(BLOCK, contig="d", start=i, end=i) for i in range(1, more + 1))
        case(f"a-correction-in-front-{size}", None, cohort, cut, fix + whole)
        if size < 4096:  # for room
            case(f"two-groups-behind-one-that-lacks-the-position-{size}", None, cohort, cut, segment("c", 16, "T") + fix + whole)
    block, elsewhere = one(start=10, end=20), segment("c", 9, "N")
    case("a-correction-behind", None, block, cut, whole + fix)
    case("a-correction-of-another-contig", None, block, cut, segment("d", 13, "GT") + whole)
    case("a-correction-inside-a-correction", None, block, cut, segment("c", 14, "C") + fix + whole)
    case("11-behind-groups-that-disagree", 11, block, cut, segment("c", 13, "G") + segment("c", 13, "TT"))
    # the table has rows for 1,024 groups; those behind them are looked for in the text
    for number in (1023, 1024, 1025):
        case(f"groups-{number}-and-{number + 1}-disagree", None, block, cut, elsewhere * (number - 1) + fix + segment("c", 12, "CCCC"))
    case("a-correction-in-a-row-of-a-group-in-the-text", None, block, cut, fix + elsewhere * 1023 + whole)


def spelling_cases():
    """Letters of either case are read as capitals; `<NON_REF>` and `*` have one spelling; names and contigs keep their case."""
    block, snp = one(start=10, end=20), lambda **alleles: one(SNP, ad=".", pl=".", **alleles)
    case("5-alt-twice-in-either-case", 5, snp(alt="G,g,<NON_REF>"))
    case("5-ref-as-alt-in-either-case", 5, snp(ref="a", alt="A,<NON_REF>"))
    case("5-non-ref-in-small-letters", 5, snp(alt="g,<non_ref>"))
    case("5-non-ref-with-one-small-letter", 5, snp(alt="g,<NOn_REF>"))
    case("6-small-letters-alone", 6, snp(ref="a", alt="g"))
    case("ref-a-alt-g", ["10 . A G,<NON_REF>"], one(SNP, ref="a", alt="g,<NON_REF>"))
    names = header("a", "A") + at(0, "a", contig="n") + at(1, "n", contig="N", start=11)
    case("names-and-contigs-in-either-case", ["11 . N <NON_REF>", "10 . A <NON_REF>"], names)
    case("refs-a-and-At", ["10 . AT A,GT,<NON_REF>", "11 . T *,<NON_REF>"], TWO + at(0, "a", "g") + at(1, "At", "a"))
    case("12-at-and-Ag", 12, TWO + at(0, "at", "A") + at(1, "Ag", "T"))
    case("12-a-and-G", 12, TWO + at(0, "a", "T") + at(1, "G", "T"))
    three, most = header("S0", "S1", "S2"), ["C", "G", "T", "AA", "AC", "AG", "AT", "CA", "CC", "CG", "CT", "GA", "GC", "GG"]
    small = [a.lower() for a in most]
    seen = [f"10 . A {','.join(most[8:] + most[2:8] + most[:2])},<NON_REF>"]
    case("fourteen-alts-six-in-either-case", seen, three + at(0, "a", *most[:6]) + at(1, "A", *small[2:8]) + at(2, "a", *small[8:]))
    case("13-fifteen-alts-in-either-case", 13, three + at(0, "a", *most[:6]) + at(1, "A", *small[6:12]) + at(2, "a", *most[12:], "tt"))
    joined = site(SMALL, start=10, end=12, ref="a") + site(SMALL, start=13, end=13) + site(SMALL, start=14, end=15, ref="a")
    case("blocks-a-and-A-join", ["10 15 A <NON_REF>", "16 . C <NON_REF>"], TWO + joined + site(SMALL, start=16, end=16, ref="c"))
    case("small-letter-at-13", ["13 14 G <NON_REF>"], block, span("c", 13, 14), segment("c", 13, "g"))
    parts = span("c", 10, 12) + span("c", 13, 13) + span("c", 14, 14) + span("c", 15, 15)
    case("letters-of-a-small-reference-join-and-part", ["10 13 A <NON_REF>", "14 15 T <NON_REF>"], block, parts, segment("c", 13, "atTN"))
    case("11-small-letters-elsewhere", 11, block, span("c", 13, 14), segment("c", 14, "acgtn"))
    case("small-letter-of-a-deletion", ["11 . C *,<NON_REF>", "12 . N *,<NON_REF>"], TWO + at(1, "acn", "A") + site(SMALL, start=5, end=20), span("c", 11, 12))
    word = "aCgtTGcA" * 16
    grown = f"10 . {word.upper()} A,{(word[::-1] + word[1:]).upper()},<NON_REF>"
    case("128-small-letters-lengthened-by-127", [grown], TWO + at(0, "a", word[::-1]) + at(1, word, "a"), span("c", 10, 10))


def min_dp_cases():
    """MIN_DP rides along as DP does; blocks join only if it agrees. Nothing binds it to DP."""
    parts = lambda *least: TWO + "".join(site(SMALL, start=10 + i, end=10 + i, dp=7, mindp=m) for i, m in enumerate(least))
    case("mindp-agrees", ["10 11 A <NON_REF>"], parts(5, 5))
    case("mindp-differs", ["10 . A <NON_REF>", "11 . A <NON_REF>"], parts(5, 6))
    case("mindp-missing-in-the-first", ["10 . A <NON_REF>", "11 . A <NON_REF>"], parts(".", 7))
    case("mindp-missing-in-the-second", ["10 . A <NON_REF>", "11 . A <NON_REF>"], parts(7, "."))
    case("mindp-2147483647-and-one-less", ["10 11 A <NON_REF>", "12 . A <NON_REF>"], parts(rules.MOST, rules.MOST, rules.MOST - 1))
    case("mindp-by-pairs", ["10 11 A <NON_REF>", "12 13 A <NON_REF>", "14 15 A <NON_REF>"], parts(0, 0, 7, 7, 0, 0))
    waiting = site(SMALL, site=1, start=10, end=10)
    case("nothing-known-then-no-site", ["10 11 A <NON_REF>"], parts(5, 5) + waiting)
    case("mindp-0-then-no-site", ["10 . A <NON_REF>", "11 . A <NON_REF>"], parts(5, 5) + waiting.replace("mindp=.", "mindp=0"))
    case("mindp-above-dp", ["10 . A G,<NON_REF>"], one(SNP, dp=8, mindp=9))
    case("mindp-and-nothing-else", ["10 . A G,<NON_REF>"], one(SNP, gq=".", dp=".", mindp=rules.MOST, ad=".", pl="."))
    # 64 samples, each with a MIN_DP of its own, and the last one's alone changes at 12
    many = "".join(site(SMALL, site=i, start=10, end=13 if i < 63 else 11, mindp=i) for i in range(64))
    last = ["10 11 A <NON_REF>", "12 13 A <NON_REF>"]
    case("mindp-of-64-samples", last, header(*range(64)) + many + site(SMALL, site=63, start=12, end=13, mindp=64), None, segment("c", 12, "A"))


def nested_cases():
    """Sites of one sample over each other: what refuses follows from the ones that start last."""
    long, inside = at(0, "ACGTACGT", "A"), at(0, "G", "T", start=12)
    cut = span("c", 12, 12)
    case("no-letter-needed-where-a-site-starts-in-a-deletion", None, TWO + long + inside, cut, "")
    case("the-same-in-the-other-order", None, TWO + inside + long, cut, "")
    case("11-behind-a-site-in-a-deletion", 11, TWO + long + inside, span("c", 13, 13), "")
    case("12-by-a-site-in-a-deletion", 12, TWO + long + inside + at(1, "C", "T", start=12))
    case("12-by-the-first-of-equal-starts", 12, TWO + at(0, "C", "T") + at(0, "A", "T") + at(1, "A", "G"))
    case("refs-differ-by-a-superseded-site", None, TWO + at(0, "A", "T") + at(0, "C", "T") + at(1, "A", "G"))
    crowd = [at(i, "A", *[letter + "T" * k for k in range(6)], start=20) for i, letter in enumerate("CGT")]
    three = header("S0", "S1", "S2")
    case("13-by-sites-in-a-deletion", 13, three + at(0, "A" * 30, "A") + "".join(crowd))
    case("thirteen-alleles-where-one-crowd-is-superseded", None, three + at(2, "A", "C", start=20) + "".join(crowd))
    # twenty sites of one sample, each inside the one before it, in both orders
    stack = [site(BLOCK, start=i, end=50 - i, gq=i) for i in range(1, 21)]
    case("twenty-deep", None, TWO + "".join(stack), places=1)
    case("twenty-deep-backwards", None, TWO + "".join(stack[::-1]))


def merge_cases():
    three = header("S0", "S1", "S2")
    for refs in (("A", "C", "AT"), ("AT", "A", "C"), ("C", "AT", "A"), ("AT", "AT", "AG")):
        case("12-" + "-".join(refs), 12, three + "".join(at(i, r, "G" * 3) for i, r in enumerate(refs)))
    case("12-at-and-c", 12, TWO + at(0, "AT", "A") + at(1, "C", "G"))
    case("12-blocks", 12, TWO + site(BLOCK) + site(BLOCK, site=1, ref="C"))
    case("refs-differ-where-the-clip-does-not-go", None, TWO + at(0, "AT", "A") + at(1, "C", "G"), span("c", 11, 11))
    case("refs-differ-in-one-sample", None, TWO + at(0, "AT", "A") + at(0, "C", "G"))
    new = [[letter + "T" * k for k in range(6)] for letter in "CGT"]
    many = lambda *counts: three + "".join(at(i, "A", *new[i][:n]) for i, n in enumerate(counts))
    case("13-six-new-alts-each", 13, many(6, 6, 6))
    case("13-fifteen-alts", 13, many(5, 5, 5))
    case("fourteen-alts", None, many(5, 5, 4))
    case("13-by-a-star", 13, many(5, 5) + at(2, "A", *new[2][:4], "*"))
    case("13-then-14", 13, many(6, 6, 6), room=0)
    case("12-and-13-in-one-interval", 12, header("S0", "S1", "S2", "S3") + many(6, 6, 6)[len(three) :] + at(3, "C", "G"))
    wrong, crowd = at(0, "AT", "A", start=30) + at(1, "C", "G", start=30), many(6, 6, 6)[len(three) :]
    case("13-then-12", 13, three + wrong + crowd)
    case("12-then-13", 12, three + crowd + wrong.replace("start=30", "start=5").replace("end=30", "end=5").replace("end=31", "end=6"))
    case("12-in-the-first-contig", 12, three + at(0, "ACGT", "A", contig="d") + wrong, places=1)
    case("12-in-the-second-contig", 12, three + at(0, "ACGT", "A", contig="b") + wrong, places=1)
    case("10-then-12-in-the-first-contig", 10, three + at(0, "ACGT", "A", contig="d") + wrong, places=0)
    case("11-then-12", 11, three + wrong + site(BLOCK, site=2, end=12), span("c", 11, 40), segment("c", 30, "AT"))
    case("contigs-in-byte-order", 13, three + wrong.replace("contig=c", "contig=a") + crowd.replace("contig=c", "contig=Z"))
    case("14-no-room", 14, one(), room=0)
    case("14-no-room-no-sites", 14, TWO, room=0)


# ---- the files


def answer_of(case):
    try:
        text, shown, _ = judged(case)
        return text, shown
    except Refused as refusal:
        return refusal.args[0], {f"refused {refusal.args[0]}"}


def heads_of(text):
    """The `pos`, `end`, `ref` and `alt` of each record of a list."""
    return [" ".join(head) for head in re.findall(r"\npos=(.*)\nend=(.*)\nref=(.*)\nalt=(.*)\n", text.decode())]


def checked(case, answer):
    """The answer of a case, and what it shows. The tool stops if it is not what was expected."""
    found, shown = answer_of(case)
    right = isinstance(found, bytes) and (answer is None or answer == heads_of(found))
    if found != answer and not right:
        sys.exit(f"{case.name}: {answer} was expected, the rules in code say {found}")
    return found, shown


def printed(name, answer):
    if isinstance(answer, int):
        return f"{name} refused={answer}\n".encode()
    return f"{name} written={len(answer)}\n".encode() + answer


def main():
    for part in (
        recorded_cases, cohort_cases, clip_and_reference_cases, place_cases, window_cases, letter_cases, sample_letter_cases, spelling_cases,
        patched_cases, nested_cases, merge_cases, min_dp_cases,
    ):
        part()
    assert len({c.name for c, _ in CASES}) == len(CASES)
    stdin, stdout, covered = b"", b"", {}
    for c, expected in CASES:
        answer, shown = checked(c, expected)
        texts = (c.cohort, c.clip, c.reference)
        stdin += " ".join(map(str, [*map(len, texts), c.lent, c.places, c.room, c.name])).encode() + b"\n" + b"".join(texts)
        stdout += printed(c.name, answer)
        for what in shown:
            covered[what] = covered.get(what, 0) + 1
    if COVERED - covered.keys():
        sys.exit(f"not covered: {COVERED - covered.keys()}")
    assert len(stdin) <= INPUT_ROOM
    Path("crates/replay_combine/stdin").write_bytes(stdin)
    Path("crates/replay_combine/stdout").write_bytes(stdout)
    print(f"{len(CASES)} cases, {len(stdin)} bytes in, {len(stdout)} bytes out", *sorted(covered.items()), sep="\n")


if __name__ == "__main__":
    main()
