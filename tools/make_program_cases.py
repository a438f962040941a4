"""Writes crates/program_cases/data, files that the programs `combine`, `looks` and `call` read there, and stdout, what they must print.

Run it in the repository's folder. What each case must print stands beside it, from examples/orchard and from reading document 01. `judged` of
make_replay_cases.py, make_looks_cases.py and make_call_cases.py is a second reading of the rules, in code: where the two differ, the tool stops
and names the case.
"""
import re
import sys
from pathlib import Path

sys.dont_write_bytecode = True
import make_call_cases
import make_looks_cases
import make_replay_cases
from make_cohort_cases import Refused, check, name

MOST = 65536  # bytes of a file
FILES = {"empty.kv": b""}
PRINTED = []


# ---- files


def conflict():
    """AT and C at 10, row 12's example."""
    text = "samples=2\nsample=S0\nsample=S1\n"
    for sample, ref, end in ((0, "AT", 11), (1, "C", 10)):
        text += f"site={sample}\ncontig=c\nstart=10\nend={end}\nref={ref}\nalt=G,<NON_REF>\ngq=40\ndp=8\nmindp=8\nad=4,4,0\npl=40,0,50,60,70,80\n"
    return text.encode()


def clip(size):
    """So many bytes: a span that holds 10, and spans of other contigs, the last one with as long a name as it takes."""
    span = lambda contig, start: f"contig={contig}\nstart={start}\nend={start + 8}\n"
    text, start = "contig=c\nstart=1\nend=100\n", 1
    while True:
        name = size - len(text) - len(span("", start))
        if 1 <= name <= 32:
            return (text + span("e" * name, start)).encode()
        text, start = text + span("d", start), start + 10


def blocks(size):
    """So many bytes: a combined list of blocks, some with as long a DP as it takes."""

    def text(count, more):
        found = f"samples=1\nsample=S0\nrecords={count}\n"
        for i in range(count):
            digits = min(9, more)
            found += f"contig=c\npos={10 * i + 10}\nend={10 * i + 15}\nref=A\nalt=<NON_REF>\ngt=0/0\ngq=30\ndp={'1' * (1 + digits)}\nmindp=7\nad=9,0\npl=0,30,300\n"
            more -= digits
        return found.encode()

    count = 1
    while len(text(count + 1, 0)) <= size:
        count += 1
    return text(count, size - len(text(count, 0)))


def write_files():
    for part in ("cohort", "clip", "reference", "combined"):
        FILES[f"orchard_{part}.kv"] = Path(f"examples/orchard/{part}.kv").read_bytes()
    FILES["example.kv"] = Path("crates/combine/data/cohort.kv").read_bytes()
    FILES["conflict.kv"] = conflict()
    FILES["contig_c.kv"], FILES["contig_d.kv"], FILES["two_contigs.kv"] = b"contig=c\n", b"contig=d\n", b"contig=c\ncontig=d\n"
    FILES["no_name.kv"], FILES["contig_without_lf.kv"] = b"contig=\n", b"contig=c"
    FILES["full_clip.kv"], FILES["long_clip.kv"] = clip(MOST), clip(MOST + 1)
    FILES["full_list.kv"], FILES["long_list.kv"] = blocks(MOST), blocks(MOST + 1)
    assert [len(FILES[f]) for f in ("full_clip.kv", "long_clip.kv", "full_list.kv", "long_list.kv")] == [MOST, MOST + 1] * 2


# ---- cases


def answered(judge, files):
    """What a program prints by a second reading of the rules."""
    if any(len(f) > MOST for f in files if f is not None):
        return b"refused=2\n"
    try:
        return judge()
    except Refused as refused:
        return b"refused=%d\n" % refused.args[0]


def combine(expected, cohort=None, clip=None, reference=None):
    files = [FILES[f] if f else None for f in (cohort, clip, reference)]
    lent = (clip is not None) + 2 * (reference is not None)
    case = make_replay_cases.Case("", *(f or b"" for f in files), lent, make_replay_cases.PLACES, make_replay_cases.ROOM)
    found = answered(lambda: make_replay_cases.judged(case)[0], files)
    assert found == expected, (cohort, clip, reference, found)
    PRINTED.append(expected)


def asked(text):
    """The contig that contig.kv asks for, in one line."""
    found = re.fullmatch(rb"contig=([^\n]*)\n", text)
    check(1, found)
    return name(found[1])


def looks(expected, cohort=None, clip=None, reference=None, contig=None):
    files = [FILES[f] if f else None for f in (cohort, clip, reference, contig)]
    lent = (clip is not None) + 2 * (reference is not None)
    texts = [f or b"" for f in files]

    def judge():
        case = make_looks_cases.Case("", *texts[:3], lent, make_replay_cases.PLACES, asked(texts[3]).decode())
        what, number = make_looks_cases.judged(case)[0]
        return f"{what}={number}\n".encode()

    found = answered(judge, files)
    assert found == expected, (cohort, clip, reference, contig, found)
    PRINTED.append(expected)


def call(expected, combined=None):
    text = FILES[combined] if combined else None
    found = answered(lambda: make_call_cases.judged(text or b"", make_call_cases.ROOM)[0], [text])
    assert found == expected, (combined, found)
    PRINTED.append(expected)


def main():
    write_files()
    combine(Path("examples/orchard/combined.kv").read_bytes(), "orchard_cohort.kv", "orchard_clip.kv", "orchard_reference.kv")
    combine(b"samples=2\nsample=S0\nsample=S1\nrecords=0\n", "example.kv", "empty.kv")
    combine(b"refused=12\n", "conflict.kv", "full_clip.kv")
    combine(b"refused=2\n", "long_clip.kv")
    combine(b"refused=2\n", "conflict.kv", "long_clip.kv")
    combine(b"refused=2\n", "conflict.kv", None, "long_clip.kv")
    combine(b"refused=1\n")
    # two sites and three breakpoints: two intervals
    looks(b"looks=4\n", "example.kv", None, None, "contig_c.kv")
    looks(b"looks=0\n", "example.kv", "empty.kv", None, "contig_c.kv")
    looks(b"looks=0\n", "example.kv", None, None, "contig_d.kv")
    looks(b"refused=1\n", "example.kv")
    looks(b"refused=1\n", "example.kv", None, None, "two_contigs.kv")
    looks(b"refused=1\n", "example.kv", None, None, "no_name.kv")
    looks(b"refused=1\n", "example.kv", None, None, "contig_without_lf.kv")
    looks(b"refused=12\n", "conflict.kv", "full_clip.kv", None, "contig_d.kv")
    looks(b"refused=2\n", "conflict.kv", None, None, "long_clip.kv")
    looks(b"refused=2\n", "conflict.kv", "long_clip.kv", None, "two_contigs.kv")
    looks(b"refused=1\n", None, None, None, "two_contigs.kv")
    looks(b"refused=1\n", None, None, None, "contig_c.kv")
    call(Path("examples/orchard/called.kv").read_bytes(), "orchard_combined.kv")
    call(b"samples=1\nsample=S0\nrecords=0\n", "full_list.kv")
    call(b"refused=2\n", "long_list.kv")
    call(b"refused=1\n")
    folder = Path("crates/program_cases")
    (folder / "data").mkdir(exist_ok=True)
    for name, text in FILES.items():
        (folder / "data" / name).write_bytes(text)
    (folder / "stdout").write_bytes(b"".join(PRINTED))


if __name__ == "__main__":
    main()
