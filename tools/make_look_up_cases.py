"""Writes crates/replay_look_up/stdin, calls of `position_lookup::look_up`, and stdout, what each must give.

Run it in the repository's folder. The calls are of two sorts:
- recorded: short lists of recorded/call, asked for each record's first and last position, those just before and behind, and a contig past all.
- by hand, below, each with its answer beside it from reading documents 01 and 02 (Note 9).
`judged` is a second reading of the rules, in code: the list's by make_call_cases.py, the pairs' and the plain search below. Every call goes through
it, and where the two differ the tool stops and names the case. The tool also stops if the cases no longer cover what COVERED names.
A text over 16,777,216 bytes is not among the cases: a program's stack is smaller.
"""
import sys
from pathlib import Path

sys.dont_write_bytecode = True
from make_call_cases import block, listed, read_record, snp
from make_cohort_cases import Lines, Refused, check, header, name, number

INPUT_ROOM, PLACES = 262144, 1100  # what the program has room for
SHORT = 700  # bytes of a recorded list
COVERED = {f"refused {n}" for n in (*range(1, 9), 14, 18)} | {
    "no pairs", "1,024 pairs", "equal pairs", "before all records", "between records", "past all records", "in a stretch behind its start", "several contigs",
    "none on its contig", "some records unread", "all records read", "position 0", "position 2147483647", "exactly enough places", "no records",
}
CASES = []  # name, answer (a number, or the numbers with None for none and the groups read; None for any), list, asked, places


# ---- the rules


def read_pairs(asked):
    lines, pairs = Lines(asked), []
    while lines.at < len(asked):
        pair = name(lines.value("contig")[0]), number(lines.value("pos")[0])
        check(18, len(pairs) < 1024 and (not pairs or pairs[-1] <= pair))
        pairs.append(pair)
    return pairs


def read_stretches(text, last_pair):
    """The stretches of the records that are read, and whether any record is left."""
    lines = Lines(text)
    count = number(lines.value("samples")[0])
    check(2, 1 <= count <= 64)
    names = []
    for _ in range(count):
        names.append(name(lines.value("sample")[0]))
        check(3, names[-1] not in names[:-1])
    records, stretches, last = number(lines.value("records")[0]), [], None
    if last_pair is None:
        return stretches, records > 0
    while len(stretches) < records:
        pos = text[lines.at :].split(b"\n", 2)[1:2]
        last, _ = read_record(lines, count, last)
        stretches.append((last[0], int(pos[0][4:]), last[1]))
        if last_pair <= last:
            return stretches, len(stretches) < records
    check(1, lines.at == len(text))
    return stretches, False


def judged(text, asked, places):
    """The answers and the record groups read, and what the call shows."""
    pairs = read_pairs(asked)
    stretches, more = read_stretches(text, pairs[-1] if pairs else None)
    held = lambda contig, pos: [i for i, (c, first, end) in enumerate(stretches) if c == contig and first <= pos <= end]
    found = [next(iter(held(*pair)), None) for pair in pairs]
    check(14, len(pairs) <= places)
    contigs = {c for c, _, _ in stretches}
    shown = {
        "no pairs": not pairs,
        "1,024 pairs": len(pairs) == 1024,
        "equal pairs": len(set(pairs)) < len(pairs),
        "before all records": stretches and pairs[0] < stretches[0][:2],
        "between records": any(a[0] == b[0] == c and a[2] < pos < b[1] for a, b in zip(stretches, stretches[1:]) for c, pos in pairs),
        "past all records": pairs and (not stretches or stretches[-1][::2] < pairs[-1]),
        "in a stretch behind its start": any(i is not None and stretches[i][1] < pos for i, (_, pos) in zip(found, pairs)),
        "several contigs": len({stretches[i][0] for i in found if i is not None}) > 1,
        "none on its contig": any(c not in contigs for c, _ in pairs) and contigs,
        "some records unread": more,
        "all records read": stretches and not more,
        "position 0": any(pos == 0 for _, pos in pairs),
        "position 2147483647": any(pos == 2147483647 for _, pos in pairs),
        "exactly enough places": pairs and len(pairs) == places,
        "no records": pairs and not stretches,
    }
    return (found, len(stretches)), {what for what, is_so in shown.items() if is_so}


# ---- recorded cases


def pair(contig, pos):
    return f"contig={contig}\npos={pos}\n"


def around(text):
    """Pairs at the borders of each record, in list order, and one past all."""
    lines = [line.split("=", 1) for line in text.decode().split("\n")[:-1]]
    pairs, here = set(), None
    for key, value in lines:
        if key == "contig":
            here = value
        elif key in ("pos", "end") and value != ".":
            pairs |= {(here, int(value) + d) for d in (-1, 0, 1) if 0 <= int(value) + d <= 2147483647}
    pairs = sorted(pairs, key=lambda p: (p[0].encode(), p[1]))
    return "".join(pair(*p) for p in pairs) + pair("~", 1)


def recorded_cases():
    for line in Path("recorded/call/INDEX.txt").read_text().splitlines():
        place = line.split()[0]
        text = (Path("recorded/call") / place / "combined.kv").read_bytes()
        if len(text) <= SHORT:
            asked = around(text)
            CASES.append((f"recorded-{place}", None, text, asked.encode(), PLACES))
            half = asked.split("contig=")[1:]
            first = "".join("contig=" + part for part in half[: len(half) // 2])
            CASES.append((f"recorded-{place}-first-half", None, text, first.encode(), len(half) // 2))


# ---- cases by hand

THREE = listed(block(end="12"), snp(), block(contig="d", pos="5", end="2147483647"))  # c 10 to 12, c 20, d 5 to the last


def case(title, answer, text, asked, places=PLACES):
    CASES.append((title, answer, text.encode("latin-1"), asked.encode("latin-1"), places))


def pair_cases():
    c = lambda *positions: "".join(pair("c", p) for p in positions)
    case("a-record", ([0], 1), THREE, c(10))
    case("inside-a-stretch", ([0, 0], 1), THREE, c(11, 12))
    case("before-between-and-past", ([None, None, None, 2], 3), THREE, c(9, 13, 21) + pair("d", 5))
    case("before-all", ([None], 1), THREE, pair("b", 7))
    case("a-contig-before-all", ([None, 0], 1), THREE, pair("b", 2147483647) + c(10))
    case("between-contigs", ([None], 3), THREE, pair("cc", 1))
    case("past-all", ([1, None], 3), THREE, c(20) + pair("e", 1))
    case("last-position", ([2], 3), THREE, pair("d", 2147483647))
    case("position-0", ([None, 0], 1), THREE, c(0, 10))
    case("equal-pairs", ([0, 0, 0, 1, 1], 2), THREE, c(11, 11, 11, 20, 20))
    case("no-pairs", ([], 0), THREE, "")
    case("no-records", ([None, None], 0), listed(), c(1, 2))
    case("stretch-of-a-deletion-is-pos-alone", ([0, None], 1), listed(snp(ref="ACG", alt="A,<NON_REF>")), c(20, 21))
    case("18-position-falls", 18, THREE, c(11, 10))
    case("18-contig-falls", 18, THREE, pair("d", 1) + c(10))
    case("18-third-falls", 18, THREE, c(10, 12) + c(11))
    case("1-before-18", 1, THREE, c("010", 9))
    case("18-before-1", 18, THREE, c(10, 9, "010"))
    case("1-number-too-large", 1, THREE, c(2147483648))
    case("1-no-contig", 1, THREE, "contig=\npos=1\n")
    case("1-a-key", 1, THREE, "contig=c\nposition=1\n")
    case("1-no-position", 1, THREE, "contig=c\n")
    case("1-no-line-feed", 1, THREE, "contig=c\npos=1")
    case("1-an-empty-line", 1, THREE, "\n")
    case("1-long-name", 1, THREE, pair("c" * 33, 1))
    case("longest-name", ([0], 1), listed(block(contig="c" * 32)), pair("c" * 32, 10))
    case("1024-pairs", ([0] * 1024, 1), THREE, c(10) * 1024)
    case("1024-pairs-exactly-enough-places", ([0] * 1023 + [None], 2), THREE, c(10) * 1023 + c(13), 1024)
    case("1025-pairs", 18, THREE, c(10) * 1025)
    case("1-before-the-1025th", 1, THREE, c(10) * 1024 + c("x"))
    case("1025-pairs-over-a-faulty-list", 18, "x", c(10) * 1025)


def place_cases():
    two = pair("c", 10) + pair("c", 20)
    case("two-places", ([0, 1], 2), THREE, two, 2)
    case("14-one-place", 14, THREE, two, 1)
    case("14-no-place", 14, THREE, two, 0)
    case("no-place-no-pairs", ([], 0), THREE, "", 0)
    case("18-before-14", 18, THREE, pair("d", 1) + two, 0)
    case("1-before-14", 1, "", two, 0)
    case("8-before-14", 8, listed(snp(alt="G,T,<NON_REF>")), two, 0)


def fault_cases():
    """A fault is seen up to the record that reaches the last pair."""
    at10, at20, past = pair("c", 10), pair("c", 20), pair("e", 1)
    case("fault-right-behind-the-stop", ([0], 1), listed(block(), snp(alt="G"), figure=2), at10)
    case("fault-in-the-last-read", 6, listed(block(), snp(alt="G")), at20)
    case("fault-before-the-stop", 6, listed(snp(alt="G"), snp(pos="30")), at20)
    case("4-position-falls", 4, listed(snp(), block()), past)
    case("4-shares-a-position", 4, listed(block(end="20"), snp()), past)
    case("4-unseen", ([0], 1), listed(block(end="20"), snp()), at20)
    case("5-allele-twice", 5, listed(snp(alt="G,g,<NON_REF>")), at20)
    case("7-end-outside-a-block", 7, listed(snp(end="21")), at20)
    case("text-behind-the-figure", 1, THREE + "x", past)
    case("text-behind-the-figure-unseen", ([2], 3), THREE + "x", pair("d", 9))
    case("a-group-more-than-the-figure", 1, listed(block(), snp(), figure=1), at20)
    case("a-group-more-unseen", ([0], 1), listed(block(), snp(), figure=1), at10)
    case("a-group-less-than-the-figure", 1, listed(block(), figure=2), at20)
    case("a-group-less-unseen", ([0], 1), listed(block(), figure=2147483647), at10)
    case("no-line-feed-at-the-end", 1, listed(block())[:-1], at10)
    case("no-pairs-over-a-faulty-record", ([], 0), listed(snp(alt="G")), "")
    case("no-pairs-over-a-missing-record", ([], 0), listed(figure=3), "")
    case("no-pairs-over-no-records-line", 1, header("S0"), "")
    case("1-empty-list", 1, "", at10)
    case("2-no-samples", 2, "samples=0\n", "")
    case("3-name-twice", 3, "samples=2\nsample=S\nsample=S\nrecords=0\n", "")
    case("18-before-the-list", 18, "samples=0\n", at20 + at10)


# ---- the files


def printed(title, answer):
    if isinstance(answer, int):
        return f"{title} refused={answer}\n"
    found, groups = answer
    return title + "".join(" ." if i is None else f" {i}" for i in found) + f" groups={groups}\n"


def checked(title, expected, text, asked, places):
    try:
        answer, shown = judged(text, asked, places)
    except Refused as refusal:
        answer, shown = refusal.args[0], {f"refused {refusal.args[0]}"}
    if expected is not None and answer != expected:
        sys.exit(f"{title}: {answer}, by hand {expected}")
    return answer, shown


def main():
    for part in (pair_cases, place_cases, fault_cases, recorded_cases):
        part()
    assert len({c[0] for c in CASES}) == len(CASES) and not any(" " in c[0] for c in CASES)
    stdin, stdout, covered = b"", "", {}
    for title, expected, text, asked, places in CASES:
        answer, shown = checked(title, expected, text, asked, places)
        stdin += f"{len(text)} {len(asked)} 0 {places} {title}\n".encode() + text + asked
        stdout += printed(title, answer)
        for what in shown:
            covered[what] = covered.get(what, 0) + 1
    if COVERED - covered.keys():
        sys.exit(f"not covered: {COVERED - covered.keys()}")
    assert len(stdin) <= INPUT_ROOM
    Path("crates/replay_look_up/stdin").write_bytes(stdin)
    Path("crates/replay_look_up/stdout").write_text(stdout)
    print(f"{len(CASES)} cases, {len(stdin)} bytes in, {len(stdout)} bytes out", *sorted(covered.items()), sep="\n")


if __name__ == "__main__":
    main()
