"""Writes crates/replay_call/stdin, calls of the entry `call`, and stdout, what each must give.

Run it in the repository's folder. The calls are of three sorts:
- recorded: all lists of recorded/call. The called list is the Rust's, as recorded.
- tight: each recorded list by hand again, with just the output that it needs, and with a byte less (14).
- by hand, below: refusals, each with its number beside it from reading document 01, and a few lists just inside the rules.
`judged` is a second reading of the rules, in code: the list by the rules below, the called list by differential/model.py. Every call goes through
it, and where the two differ the tool stops and names the case. The tool also stops if the cases no longer cover what COVERED names.
A text over 16,777,216 bytes is not among the cases: a program's stack is smaller.
"""
import re
import sys
from pathlib import Path

sys.dont_write_bytecode = True
from make_cohort_cases import Lines, Refused, alike, check, header, model, name, number, numbers
from make_replay_cases import printed

ROOM, INPUT_ROOM = 65536, 524288  # what the program has room for
COVERED = {f"refused {n}" for n in (*range(1, 9), 14)} | {"a record is dropped", "several records", "no records", "64 samples", "16 alleles", "*", "missing value"}
COVERED |= {"small letters in a kept record", "small letters in a dropped record", "MIN_DP in a kept record", "MIN_DP in a dropped record"}
HEAD, SAMPLE = ("contig", "pos", "end", "ref", "alt"), ("gt", "gq", "dp", "mindp", "ad", "pl")
LETTERS = re.compile(rb"[ACGTNacgtn]{1,255}")
CASES = []  # name, answer (a number, a list, `ref alt` of each record of a list that the model makes, or None for any such list), text, room


# ---- the rules


def optional(v):
    return None if v == b"." else number(v)


def gt(v, n):
    if v == b".":
        return
    low, high = (number(part) for part in v.split(b"/")) if v.count(b"/") == 1 else check(1, False)
    check(1, low <= high < n)


def read_sample(lines, n):
    gt(lines.value("gt")[0], n)
    values = [read(lines.value(key)[0]) for key, read in zip(SAMPLE[1:], (optional, optional, optional, numbers, numbers))]
    return values[2:]


def alleles_fault(ref, alts):
    spelled = all(a in (b"*", b"<NON_REF>") or LETTERS.fullmatch(a) for a in alts)
    return not LETTERS.fullmatch(ref) or not spelled or len(alts) > 15 or alike(ref, alts)


def read_record(lines, samples, last):
    """The contig and the last position of a record, and what it shows. Nothing behind an empty `last` is out of order."""
    contig, pos, end, ref, alt = [read(lines.value(key)[0]) for key, read in zip(HEAD, (name, number, optional, bytes, bytes))]
    alts = alt.split(b",")
    n = len(alts) + 1
    values = [read_sample(lines, n) for _ in range(samples)]
    check(4, pos >= 1 and (end is None or end > pos) and (last is None or (last[0] == contig and last[1] < pos) or last[0] < contig))
    check(5, not alleles_fault(ref, alts))
    check(6, b"<NON_REF>" in alts)
    check(7, end is None or (n == 2 and len(ref) == 1))
    check(8, all((ad is None or len(ad) == n) and (pl is None or len(pl) == n * (n + 1) // 2) for _, ad, pl in values))
    dropped, small = n == 2 or all(pl is None for _, _, pl in values), any(a != a.upper() for a in alts + [ref])
    least = any(min_dp is not None for min_dp, _, _ in values)
    shown = {
        "a record is dropped": dropped,
        "small letters in a kept record": small and not dropped,
        "small letters in a dropped record": small and dropped,
        "MIN_DP in a kept record": least and not dropped,
        "MIN_DP in a dropped record": least and dropped,
        "16 alleles": n == 16,
        "*": b"*" in alts,
        "missing value": any(ad is None or pl is None for _, ad, pl in values),
    }
    return (contig, pos if end is None else end), {what for what, is_so in shown.items() if is_so}


def judged(text, room):
    """The called list, and what the list shows."""
    lines = Lines(text)
    count = number(lines.value("samples")[0])
    check(2, 1 <= count <= 64)
    names, shown, last = [], set(), None
    for _ in range(count):
        names.append(name(lines.value("sample")[0]))
        check(3, names[-1] not in names[:-1])
    records = number(lines.value("records")[0])
    for _ in range(records):
        last, here = read_record(lines, count, last)
        shown |= here
    check(1, lines.at == len(text))
    rows = [line.split("=", 1) for line in text.decode().split("\n")[:-1]][2 + count :]
    size = len(HEAD) + len(SAMPLE) * count
    found = [model.called_record(rows[i : i + size], count) for i in range(0, len(rows), size)]
    found = [record for record in found if record is not None]
    called = (model.header([n.decode() for n in names], len(found)) + "".join(found)).encode()
    check(14, len(called) <= room)
    whole = {"several records": records > 1, "no records": records == 0, "64 samples": count == 64}
    return called, shown | {what for what, is_so in whole.items() if is_so}


# ---- recorded and tight cases


def recorded_cases():
    for line in Path("recorded/call/INDEX.txt").read_text().splitlines():
        place, sort = line.split()[:2]
        folder = Path("recorded/call") / place
        text, called = (folder / "combined.kv").read_bytes(), (folder / "called.kv").read_bytes()
        CASES.append((f"recorded-{place}", called, text, ROOM))
        if sort == "by":
            CASES.append((f"tight-{place}", called, text, len(called)))
            CASES.append((f"tight-{place}-a-byte-less", 14, text, len(called) - 1))


# ---- cases by hand

BLOCK = dict(zip(HEAD, "c 10 . A <NON_REF>".split()))
SNP = dict(zip(HEAD, "c 20 . A G,<NON_REF>".split()))
TWO = dict(zip(SAMPLE, "0/0 30 9 . 9,0 0,30,300".split()))
THREE = dict(zip(SAMPLE, "0/1 40 8 . 4,4,0 40,0,50,60,70,80".split()))
NONE = dict(zip(SAMPLE, "......"))


def lines_of(base, changes):
    return "".join(f"{key}={value}\n" for key, value in {**base, **changes}.items())


def group(base, values, **changes):
    """A record with its samples' lines."""
    return lines_of(base, changes) + "".join(lines_of(v, {}) for v in values)


def block(**changes):
    return group(BLOCK, [TWO], **changes)


def snp(values=(THREE,), **changes):
    return group(SNP, values, **changes)


def with_value(**changes):
    return snp([{**THREE, **changes}])


def listed(*records, names=("S0",), figure=None):
    return header(*names) + f"records={len(records) if figure is None else figure}\n" + "".join(records)


def case(title, answer, text, room=ROOM):
    CASES.append((title, answer, text.encode("latin-1"), room))


def line_cases():
    good = listed(block(), snp())
    case("block-and-snp", None, good)
    case("1-empty-text", 1, "")
    case("1-no-records-line", 1, header("S0"))
    case("1-records-misspelled", 1, header("S0") + "record=0\n")
    case("1-records-01", 1, header("S0") + "records=01\n")
    case("1-records-2147483648", 1, listed(figure=2147483648))
    case("1-last-line-without-lf", 1, good[:-1])
    case("1-pos-010", 1, listed(block(pos="010")))
    case("1-lines-swapped", 1, listed(snp()).replace("gq=40\ndp=8\n", "dp=8\ngq=40\n"))
    case("1-gt-line-missing", 1, listed(snp()).replace("gt=0/1\n", ""))
    case("1-name-with-comma", 1, listed(names=("a,b",)))
    case("1-first-group-missing", 1, listed(figure=1))
    case("1-third-group-missing", 1, listed(block(), snp(), figure=3))
    case("1-figure-2147483647", 1, listed(block(), figure=2147483647))
    case("1-group-past-the-figure", 1, listed(block(), snp(), figure=1))
    case("1-group-past-the-figure-0", 1, listed(snp(), figure=0))
    case("1-text-past-the-figure", 1, good + "\n")
    for value in ("2/0", "0/3", "0", "0/0/0", "0|1", "./.", "00/1", "/", "", "1/-1", "0/ 1"):
        case("1-gt-" + value.replace(" ", "_"), 1, listed(with_value(gt=value)))
    case("gt-2/2", None, listed(with_value(gt="2/2")))
    case("gt-missing", None, listed(with_value(gt=".")))
    case("2-no-samples", 2, "samples=0\nrecords=0\n")
    case("2-sixty-five-samples", 2, listed(names=range(65)))
    case("3-name-twice", 3, listed(names=("S0", "S0")))
    case("3-before-a-wrong-records-line", 3, header("S0", "S0"))


def min_dp_cases():
    """The line stands behind dp in every sample's lines, with a number or nothing; a called list has none."""
    good = listed(block(), snp())
    case("1-mindp-missing-everywhere", 1, good.replace("mindp=.\n", ""))
    case("1-mindp-missing-in-the-first-record", 1, good.replace("dp=9\nmindp=.\n", "dp=9\n"))
    case("1-mindp-missing-in-the-last-record", 1, good.replace("dp=8\nmindp=.\n", "dp=8\n"))
    case("1-mindp-missing-in-the-second-sample", 1, listed(snp([THREE, NONE]), names=("S0", "S1")).replace("dp=.\nmindp=.\n", "dp=.\n"))
    case("1-mindp-before-dp", 1, good.replace("dp=8\nmindp=.\n", "mindp=.\ndp=8\n"))
    case("1-mindp-behind-ad", 1, good.replace("mindp=.\nad=4,4,0\n", "ad=4,4,0\nmindp=.\n"))
    case("1-mindp-twice", 1, good.replace("dp=8\nmindp=.\n", "dp=8\nmindp=.\nmindp=.\n"))
    case("1-mindp-misspelled", 1, good.replace("mindp", "min_dp"))
    for value in ("05", "", "..", "5,6", "-1", "2147483648"):
        case(f"1-mindp-{value or 'empty'}", 1, listed(with_value(mindp=value)))
    case("mindp-below-dp", None, listed(with_value(mindp=5)))
    case("mindp-above-dp", None, listed(with_value(mindp=9)))
    case("mindp-0-without-dp", None, listed(with_value(dp=".", mindp=0)))
    case("mindp-2147483647", None, listed(with_value(mindp=2147483647)))
    case("mindp-in-a-dropped-record", [], listed(with_value(mindp=7, pl=".")))
    case("4-and-1-by-mindp-in-one-group", 1, listed(snp([{**THREE, "mindp": "x"}], pos=0)))


def record_cases():
    case("4-position-0", 4, listed(block(pos=0)))
    case("4-end-at-pos", 4, listed(block(end=10)))
    case("4-end-before-pos", 4, listed(block(end=9)))
    case("4-same-position", 4, listed(snp(), snp()))
    case("4-in-the-block-before", 4, listed(block(end=20), snp()))
    case("behind-the-block-before", None, listed(block(end=19), snp()))
    case("4-position-before", 4, listed(snp(), block()))
    case("4-contig-before", 4, listed(snp(contig="d"), snp()))
    case("contigs-in-byte-order", None, listed(snp(contig="Z"), snp(contig="c"), snp(contig="c1", pos=1)))
    case("5-alt-twice", 5, listed(snp(alt="G,G")))
    case("5-alt-as-ref", 5, listed(snp(alt="A,<NON_REF>")))
    case("5-other-small-letter", 5, listed(snp(ref="r")))
    case("5-256-letters", 5, listed(snp(ref="A" * 256)))
    case("255-letters", None, listed(snp(ref="A" * 255)))
    alts = [letter + "T" * k for letter in "CG" for k in range(8)]
    many = lambda n: group(SNP, [NONE], alt=",".join(alts[: n - 2] + ["<NON_REF>"]))
    case("5-17-alleles", 5, listed(many(17)))
    full = {**NONE, "ad": ",".join("7" for _ in range(16)), "pl": ",".join(str(1000 - p) for p in range(136))}
    case("16-alleles", None, listed(group(SNP, [full], alt=",".join(alts[:7] + ["<NON_REF>"] + alts[7:14]))))
    case("6-no-non-ref", 6, listed(with_value(ad="4,4", pl="40,0,50").replace(",<NON_REF>", "")))
    case("7-end-of-a-snp", 7, listed(snp(end=22)))
    case("7-end-of-two-letters", 7, listed(block(ref="AC", end=22)))
    case("two-letters-without-end", None, listed(block(ref="AC")))
    case("8-five-pl", 8, listed(with_value(pl="0,1,2,3,4")))
    case("8-seven-pl", 8, listed(with_value(pl="0,1,2,3,4,5,6")))
    case("8-two-ad", 8, listed(with_value(ad="4,4")))
    case("8-four-ad", 8, listed(with_value(ad="4,4,0,0")))
    case("8-in-the-second-sample", 8, listed(snp([THREE, {**THREE, "pl": "0"}]), names=("S0", "S1")))
    case("star", None, listed(with_value(pl="9,8,7,6,5,4").replace("alt=G", "alt=*")))
    case("no-pl", None, listed(with_value(pl=".")))
    case("sixty-four-samples", None, listed(snp([THREE, NONE] * 32), names=range(64)))


def spelling_cases():
    """Letters of either case are read as capitals; `<NON_REF>` and `*` have one spelling; names and contigs keep their case."""
    shown = lambda ref, alt: [f"{ref} {alt}"]
    case("ref-a-alt-g", shown("A", "G"), listed(snp(ref="a", alt="g,<NON_REF>")))
    case("small-letters-and-star", shown("ACGTN", "*,ACG"), listed(snp([{**NONE, "pl": "9,8,7,6,5,4,3,2,1,0"}], ref="acgTn", alt="*,<NON_REF>,aCg")))
    case("small-255-letters", shown("ACGTN" * 51, "G"), listed(snp(ref="acgtN" * 51, alt="g,<NON_REF>")))
    case("5-small-256-letters", 5, listed(snp(ref="acgtN" * 51 + "a")))
    two = snp([THREE, NONE], contig="N", ref="n", alt="a,<NON_REF>"), snp([NONE, THREE], contig="n", alt="n,<NON_REF>")
    case("names-and-contigs-in-either-case", shown("N", "A") + shown("A", "N"), listed(*two, names=("a", "A")))
    case("a-block-of-a-small-letter", [], listed(block(ref="n", end=15)))
    case("5-alt-twice-in-either-case", 5, listed(snp(alt="G,g")))
    case("5-alt-twice-in-either-case-apart", 5, listed(group(SNP, [NONE], alt="gT,T,<NON_REF>,Gt")))
    case("5-alt-as-ref-in-either-case", 5, listed(snp(ref="aC", alt="Ac,<NON_REF>")))
    case("5-non-ref-in-small-letters", 5, listed(snp(alt="g,<non_ref>")))
    case("5-non-ref-with-one-small-letter", 5, listed(snp(alt="g,<NOn_REF>")))
    case("6-small-letters-alone", 6, listed(snp(ref="a", alt="g,t")))
    case("7-end-of-two-small-letters", 7, listed(block(ref="ac", end=22)))


def order_cases():
    case("4-and-1-in-one-group", 1, listed(snp([{**THREE, "pl": "01"}], pos=0)))
    case("5-and-1-in-one-group", 1, listed(snp([{**THREE, "gt": "3/3"}], ref="R")))
    case("4-and-5-in-one-group", 4, listed(snp(pos=0, alt="G,G")))
    case("5-and-8-in-one-group", 5, listed(snp([{**THREE, "pl": "0"}], ref="R")))
    case("6-and-8-in-one-group", 6, listed(snp(alt="G")))
    case("6-and-7-in-one-group", 6, listed(snp(alt="G,T", end=22)))
    case("7-and-8-in-one-group", 7, listed(snp([{**THREE, "pl": "0"}], end=22)))
    case("8-then-1", 8, listed(with_value(pl="0"), block(contig="d", pos="x")))
    case("1-then-4", 1, listed(snp(pos="x"), block(pos=0)))
    case("4-then-a-group-past-the-figure", 4, listed(block(pos=0), snp(), figure=1))
    case("8-then-14", 8, listed(with_value(pl="0")), room=0)
    case("14-no-room", 14, listed(snp()), room=0)
    case("14-no-room-no-records", 14, listed(), room=0)


# ---- the files


def answer_of(text, room):
    try:
        return judged(text, room)
    except Refused as refusal:
        return refusal.args[0], {f"refused {refusal.args[0]}"}


def heads_of(called):
    """The `ref` and `alt` of each record of a called list."""
    return [" ".join(head) for head in re.findall(r"\nref=(.*)\nalt=(.*)\n", called.decode())]


def checked(title, answer, text, room):
    """The answer of a case, and what it shows. The tool stops if it is not what was expected."""
    found, shown = answer_of(text, room)
    right = isinstance(found, bytes) and (answer is None or answer == heads_of(found))
    if found != answer and not right:
        sys.exit(f"{title}: {answer} was expected, the rules in code say {found}")
    return found, shown


def main():
    for part in (recorded_cases, line_cases, min_dp_cases, record_cases, spelling_cases, order_cases):
        part()
    assert len({c[0] for c in CASES}) == len(CASES) and not any(" " in c[0] for c in CASES)
    stdin, stdout, covered = b"", b"", {}
    for title, expected, text, room in CASES:
        answer, shown = checked(title, expected, text, room)
        stdin += f"{len(text)} 0 0 {room} {title}\n".encode() + text
        stdout += printed(title, answer)
        for what in shown:
            covered[what] = covered.get(what, 0) + 1
    if COVERED - covered.keys():
        sys.exit(f"not covered: {COVERED - covered.keys()}")
    assert len(stdin) <= INPUT_ROOM
    Path("crates/replay_call/stdin").write_bytes(stdin)
    Path("crates/replay_call/stdout").write_bytes(stdout)
    print(f"{len(CASES)} cases, {len(stdin)} bytes in, {len(stdout)} bytes out", *sorted(covered.items()), sep="\n")


if __name__ == "__main__":
    main()
