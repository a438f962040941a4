"""Writes crates/read_cohorts/stdin, cohort texts at the edges of document 01's rules, and stdout, what the rules say of each.

Run it in the repository's folder. Every case has its answer beside it, from reading the rules. `read` is a second reading, in code:
it knows nothing of the program, only the rules and the columns of crates/tables/specs/Tables.antt. Where the two differ the tool stops
and names the case. The rows of accepted cases come from `read`, and differential/model.py must read the same sites.
A text over 16,777,216 bytes is not among the cases: a program's stack is smaller.
"""
import re
import sys

sys.dont_write_bytecode = True
sys.path.insert(0, "differential")
import model

MOST, MISSING = 2147483647, 4294967295
INPUT_ROOM, TEXT_ROOM = 131072, 320000  # what the program has room for
KEYS = ("site", "contig", "start", "end", "ref", "alt", "gq", "dp", "mindp", "ad", "pl")
LETTERS = re.compile(rb"[ACGTNacgtn]{1,128}")


# ---- the rules


class Refused(Exception):
    pass


def check(row, holds):
    if not holds:
        raise Refused(row)


def number(v):
    check(1, re.fullmatch(rb"0|[1-9][0-9]*", v) and int(v) <= MOST)
    return int(v)


def name(v):
    check(1, 1 <= len(v) <= 32 and all(33 <= b <= 126 and b not in b"=," for b in v))
    return v


def numbers(v):
    return None if v == b"." else [number(n) for n in v.split(b",")]


class Lines:
    """The lines of a text that are left, each with the offset of its value."""

    def __init__(self, text):
        self.text, self.at = text, 0

    def value(self, key):
        end, begin = self.text.find(b"\n", self.at), self.at + len(key) + 1
        check(1, end >= 0 and self.text[self.at : end].startswith(key.encode() + b"="))
        self.at = end + 1
        return self.text[begin:end], begin


def as_read(allele):
    """Letters of either case have one meaning (document 02, Note 6); `<NON_REF>` has one spelling."""
    return allele.upper() if re.fullmatch(rb"[ACGTNacgtn]+", allele) else allele


def alike(ref, alts):
    """Whether an allele stands twice, in whatever case."""
    return len(set(map(as_read, alts + [ref]))) <= len(alts)


def alleles_fault(ref, alts):
    spelled = all(a in (b"*", b"<NON_REF>") or LETTERS.fullmatch(a) for a in alts)
    return not LETTERS.fullmatch(ref) or not spelled or len(alts) > 7 or alike(ref, alts)


def faults(g, before, samples):
    """The rows from 2 on that a group with no fault of spelling breaks."""
    start, end, ref, alts = g["start"], g["end"], g["ref"], g["alt"].split(b",")
    n, block = len(alts) + 1, alts == [b"<NON_REF>"]
    pl, ad = g["pl"], g["ad"]
    return {
        2: before >= 4096,
        3: g["site"] >= samples,
        4: start < 1 or end < start,
        5: alleles_fault(ref, alts),
        6: b"<NON_REF>" not in alts,
        7: len(ref) != 1 if block else end != start + len(ref) - 1,
        8: pl is not None and len(pl) != n * (n + 1) // 2 or ad is not None and len(ad) > n,
    }


def read_site(lines, before, samples):
    g, where = {}, {}
    readers = {"contig": name, "ref": bytes, "alt": bytes, "ad": numbers, "pl": numbers}
    for key in KEYS:
        v, at = lines.value(key)
        optional = key in ("gq", "dp", "mindp") and v == b"."
        g[key] = MISSING if optional else readers.get(key, number)(v)
        where[key] = [at, at + len(v)] if g[key] is not None else [at + 1, at + 1]
    for row, broken in faults(g, before, samples).items():
        check(row, not broken)
    return g, where


def list_columns(numbers, where, words):
    """A list's columns: how many numbers stand in those behind, two in each; or 0 and where the text has them."""
    if not numbers or len(numbers) > 2 * words:
        return ([0] + where + [0] * words)[: words + 1]
    padded = numbers + [0] * (2 * words - len(numbers))
    return [len(numbers)] + [padded[2 * j] + (padded[2 * j + 1] << 32) for j in range(words)]


def row_of(g, where, contigs):
    contigs.append(g["contig"])
    block = int(g["alt"] == b"<NON_REF>")
    numbers = [g["site"], contigs.index(g["contig"]), g["start"], g["end"], block, g["gq"], g["dp"] + (g["mindp"] << 32)]
    parts = [at for key in ("contig", "ref", "alt") for at in where[key]]
    return numbers + parts + list_columns(g["ad"], where["ad"], 2) + list_columns(g["pl"], where["pl"], 5)


def read(text):
    """The number of samples, and the rows."""
    check(2, len(text) <= 16777216)
    lines = Lines(text)
    count = number(lines.value("samples")[0])
    check(2, 1 <= count <= 64)
    names, rows, contigs = [], [], []
    for _ in range(count):
        names.append(name(lines.value("sample")[0]))
        check(3, names[-1] not in names[:-1])
    while lines.at < len(text):
        rows.append(row_of(*read_site(lines, len(rows), count), contigs))
    return count, rows


def same_sites(text, samples, rows):
    """Whether the model reads the sites that the rows stand for: the rows say where the text has the alleles, as spelled."""
    pairs = [line.split("=", 1) for line in text.decode().split("\n")[:-1]][1 + samples :]
    part = lambda row, k: text[row[k] : row[k + 1]].decode() or "."
    stored = lambda row, k: ",".join(str(row[k + 1 + i // 2] >> 32 * (i % 2) & 0xFFFFFFFF) for i in range(row[k]))
    values = lambda row, k: stored(row, k) or part(row, k + 1)
    coded = lambda v: MISSING if v == "." else int(v)
    for row, s in zip(rows, map(model.Site, model.groups(pairs, model.SITE_KEYS)), strict=True):
        ours = row[:1] + row[2:6] + [row[6] & 0xFFFFFFFF, row[6] >> 32] + [part(row, 7), part(row, 9).upper(), part(row, 11).upper(), values(row, 13), values(row, 16)]
        place = [s.sample, s.start, s.end, int(s.block), coded(s.gq), coded(s.dp), coded(s.min_dp), s.contig]
        if ours != place + [s.alleles[0], model.commas(s.alleles[1:]), model.commas(s.ad), model.commas(s.pl)]:
            return False
    return True


# ---- the cases: name, answer by the rules (a row, or samples and sites), and the text as head, tail, times, foot

CASES = []
BLOCK = dict(zip(KEYS, "0 c 10 11 A <NON_REF> 30 9 . 9,0 0,30,300".split()))
SNP = dict(zip(KEYS, "1 c 10 10 A G,<NON_REF> 40 8 . 4,4,0 40,0,50,60,70,80".split()))
SMALL = dict(zip(KEYS, "0 c 1 1 A <NON_REF> . . . . .".split()))


def case(title, answer, head, tail="", times=0, foot=""):
    CASES.append((title, answer, [part.encode("latin-1") for part in (head, tail, foot)], times))


def header(*names):
    return f"samples={len(names)}\n" + "".join(f"sample={n}\n" for n in names)


TWO, ONE = header("S0", "S1"), header("S0")


def site(base=BLOCK, **changes):
    return "".join(f"{key}={value}\n" for key, value in {**base, **changes}.items())


def sites(title, answer, base=BLOCK, **changes):
    """A cohort of two samples with one site. Accepted, it has one site."""
    case(title, answer or (2, 1), TWO + site(base, **changes))


def pl(n):
    return ",".join(str(10 * i) for i in range(n))


def edited(title, answer, old, new):
    """A cohort of two samples and two sites, in which one piece of text is replaced."""
    text = TWO + site(BLOCK) + site(SNP)
    assert text.count(old) == 1, title
    case(title, answer, text.replace(old, new))


def accepted_cases():
    case("document-01", (2, 2), TWO + site(BLOCK) + site(SNP))
    case("no-sites", (2, 0), TWO)
    sites("nothing-known", None, gq=".", dp=".", mindp=".", ad=".", pl=".")
    case("contigs-c-d-c", (2, 3), TWO + site(BLOCK) + site(SNP, contig="d") + site(BLOCK, start=7))


def header_cases():
    case("empty-text", 1, "")
    case("one-empty-line", 1, "\n")
    for title, value, answer in (
        ("empty", "", 1), ("leading-zero", "02", 1), ("plus", "+2", 1), ("space-before", " 2", 1), ("space-behind", "2 ", 1),
        ("missing", ".", 1), ("cr", "2\r", 1), ("two-equals", "=2", 1), ("2147483648", "2147483648", 1), ("2147483647", "2147483647", 2),
    ):
        case(f"samples-{title}", answer, f"samples={value}\nsample=S0\nsample=S1\n")
    case("samples-key-misspelled", 1, ONE.replace("samples", "sampels"))
    case("samples-key-upper-case", 1, ONE.replace("samples", "Samples"))
    case("samples-line-missing", 1, "sample=S0\n")
    case("samples-line-without-lf", 1, "samples=1")
    case("samples-0", 2, "samples=0\n")
    case("samples-0-with-sites", 2, "samples=0\n" + site())
    case("samples-1", (1, 1), ONE + site())
    case("samples-64", (64, 1), header(*range(64)) + site(SMALL, site=63))
    case("samples-65", 2, header(*range(65)) + site(SMALL))
    case("sample-line-without-lf", 1, TWO[:-1])
    case("sample-line-missing", 1, "samples=2\nsample=S0\n")
    case("sample-line-missing-before-site", 1, "samples=2\nsample=S0\n" + site())
    case("sample-line-too-many", 1, "samples=1\nsample=S0\nsample=S1\n" + site())
    case("sample-empty-line-between", 1, "samples=2\nsample=S0\n\nsample=S1\n")


def name_cases():
    for title, value, right in (
        ("32-bytes", "N" * 32, True), ("33-bytes", "N" * 33, False), ("empty", "", False), ("with-equals", "a=b", False),
        ("with-comma", "a,b", False), ("with-space", "a b", False), ("with-tab", "a\tb", False), ("with-cr", "a\r", False),
        ("bytes-33-and-126", "!~", True), ("byte-127", "a\x7f", False), ("byte-233", "\xe9", False), ("dot", ".", True),
    ):
        case(f"name-{title}", (1, 0) if right else 1, header(value))
        sites(f"contig-{title}", None if right else 1, contig=value)
    case("name-twice", 3, header("S0", "S0"))
    case("name-first-and-last-of-64", 3, header(*range(63), 0))
    case("names-alike-but-for-case", (2, 0), header("s0", "S0"))
    case("name-a-prefix", (2, 0), header("S0", "S"))


def line_cases():
    text = TWO + site(BLOCK) + site(SNP)
    case("last-line-without-lf", 1, text[:-1])
    case("last-line-missing", 1, text[: text.rindex("pl=")])
    case("only-one-line-of-a-group", 1, TWO + "site=0\n")
    edited("line-missing-inside", 1, "gq=30\n", "")
    edited("line-twice", 1, "gq=30\n", "gq=30\ngq=30\n")
    edited("lines-swapped-gq-dp", 1, "gq=30\ndp=9\n", "dp=9\ngq=30\n")
    edited("lines-swapped-start-end", 1, "start=10\nend=11\n", "end=11\nstart=10\n")
    edited("unknown-line", 1, "dp=9\n", "dp=9\nmq=60\n")
    edited("key-misspelled", 1, "dp=9", "pd=9")
    edited("key-upper-case", 1, "dp=9", "DP=9")
    edited("key-with-space", 1, "dp=9", "dp =9")
    edited("key-alone", 1, "dp=9", "dp")
    edited("lines-with-cr", 1, "dp=9\n", "dp=9\r\n")
    case("empty-line-behind-header", 1, TWO + "\n" + site())
    case("empty-line-between-groups", 1, TWO + site() + "\n" + site())
    case("empty-line-at-the-end", 1, TWO + site() + "\n")
    case("space-at-the-end", 1, TWO + site() + " ")


def min_dp_cases():
    """The line stands behind dp, in every group, and holds a number or nothing; no rule binds it to DP."""
    edited("min-dp-line-missing", 1, "dp=9\nmindp=.\n", "dp=9\n")
    edited("min-dp-line-twice", 1, "dp=9\nmindp=.\n", "dp=9\nmindp=.\nmindp=.\n")
    edited("min-dp-before-dp", 1, "dp=9\nmindp=.\n", "mindp=.\ndp=9\n")
    edited("min-dp-behind-ad", 1, "dp=9\nmindp=.\nad=9,0\n", "dp=9\nad=9,0\nmindp=.\n")
    case("min-dp-line-missing-in-every-group", 1, (TWO + site(BLOCK) + site(SNP)).replace("mindp=.\n", ""))
    for key in ("MIN_DP", "min_dp", "mindp ", "mindpp", "mind", "dp"):
        edited("min-dp-key-" + key.replace(" ", "-and-space"), 1, "dp=9\nmindp=", f"dp=9\n{key}=")
    for title, value in (("list", "5,6"), ("minus", "-1"), ("plus", "+5"), ("leading-zero", "05"), ("space", "5 "), ("cr", "5\r"), ("far-past-64-bits", "1" + "0" * 30)):
        sites(f"mindp-{title}", 1, mindp=value)
    sites("mindp-below-dp", None, dp=9, mindp=5)
    sites("mindp-above-dp", None, dp=5, mindp=9)
    sites("mindp-without-dp", None, dp=".", mindp=5)
    sites("dp-without-mindp", None, dp=MOST, mindp=".")
    sites("dp-and-mindp-2147483647", None, dp=MOST, mindp=MOST)
    sites("dp-0-mindp-2147483647", None, dp=0, mindp=MOST)
    sites("mindp-of-a-snp", None, SNP, dp=3, mindp=4)
    case("mindp-of-three-sites", (2, 3), TWO + site(mindp=1) + site(SNP, mindp=".") + site(start=12, end=12, mindp=2))
    sites("mindp-1-and-3", 1, site=2, mindp="05")
    case("mindp-8-then-1", 8, TWO + site(pl="0") + site(mindp="x"))


def number_cases():
    sites("start-010", 1, start="010")
    sites("start-0", 4, start=0)
    sites("start-1", None, start=1)
    for title, value in (("empty", ""), ("missing", "."), ("minus", "-1"), ("plus", "+1"), ("space", "1 "), ("two-equals", "1=1"), ("letter", "1e1")):
        sites(f"start-{title}", 1, start=value)
    sites("start-2147483647", None, start=MOST, end=MOST)
    sites("start-2147483648", 1, start=MOST + 1, end=MOST)
    sites("end-2147483647", None, end=MOST)
    sites("end-2147483648", 1, end=MOST + 1)
    sites("end-far-past-64-bits", 1, end="1" + "0" * 30)
    sites("end-missing", 1, end=".")
    sites("site-missing", 1, site=".")
    sites("site-00", 1, site="00")
    for key in ("gq", "dp", "mindp"):
        sites(f"{key}-empty", 1, **{key: ""})
        sites(f"{key}-0", None, **{key: 0})
        sites(f"{key}-00", 1, **{key: "00"})
        sites(f"{key}-2147483647", None, **{key: MOST})
        sites(f"{key}-2147483648", 1, **{key: MOST + 1})
        sites(f"{key}-two-dots", 1, **{key: ".."})
    for title, value in (("empty", ""), ("comma-behind", "9,0,"), ("comma-before", ",9"), ("dot-inside", "9,."), ("leading-zero", "9,00"), ("space", "9, 0")):
        sites(f"ad-{title}", 1, ad=value)
        sites(f"pl-{title}", 1, pl=value)
    sites("pl-2147483647", None, pl=f"0,0,{MOST}")
    sites("pl-2147483648", 1, pl=f"0,0,{MOST + 1}")


def limit_cases():
    small, wrong = site(SMALL), site(SMALL, gq="")
    case("sites-4096", (1, 4096), ONE, small, 4096)
    case("sites-4097", 2, ONE, small, 4097)
    case("sites-4097-no-such-sample-in-the-last", 2, ONE, small, 4096, site(SMALL, site=1))
    case("sites-4097-last-misspelled", 1, ONE, small, 4096, wrong)
    case("sites-4097-last-lacks-a-line", 1, ONE, small, 4096, small[:-5])
    case("sites-4096-and-an-empty-line", 1, ONE, small, 4096, "\n")
    case("sites-4097-4096th-lacks-non-ref", 6, ONE, small, 4095, site(SMALL, alt="G") + small)
    case("sites-4098-first-of-no-such-sample", 3, ONE + site(SMALL, site=1), small, 4097)
    case("sites-4098-4097th-right-4098th-misspelled", 2, ONE, small, 4097, wrong)


def sample_and_place_cases():
    sites("site-1-of-two", None, site=1)
    sites("site-2-of-two", 3, site=2)
    sites("site-2147483647-of-two", 3, site=MOST)
    sites("end-before-start", 4, end=9)
    sites("end-0", 4, end=0)
    sites("start-0-end-0", 4, start=0, end=0)
    sites("end-is-start", None, end=10)


def allele_cases():
    long = "ACGTN" * 25 + "ACG"
    sites("ref-128-letters", None, SNP, ref=long, end=137)
    sites("ref-129-letters", 5, SNP, ref=long + "T", end=138)
    sites("alt-128-letters", None, SNP, alt=long + ",<NON_REF>")
    sites("alt-129-letters", 5, SNP, alt=long + "T,<NON_REF>")
    for title, value in (
        ("empty", ""), ("missing", "."), ("small-other-letter", "r"), ("other-letter", "R"), ("star", "*"), ("non-ref", "<NON_REF>"),
        ("two-equals", "A=C"), ("comma", "A,C"), ("cr", "A\r"), ("space", " A"),
    ):
        sites(f"ref-{title}", 5, ref=value)
    for title, value in (
        ("empty", ""), ("missing", "."), ("cr", "<NON_REF>\r"), ("small-other-letter", "r,<NON_REF>"), ("other-symbol", "<DEL>,<NON_REF>"),
        ("small-non-ref", "<non_ref>"), ("non-ref-with-a-small-letter", "<nON_REF>"),
        ("nothing-between-commas", "G,,<NON_REF>"), ("comma-behind", "G,<NON_REF>,"),
        ("comma-before", ",<NON_REF>"), ("space", "G, <NON_REF>"), ("equals", "G=T,<NON_REF>"), ("letter-and-star", "G*,<NON_REF>"),
        ("twice", "G,G,<NON_REF>"), ("twice-apart", "G,<NON_REF>,G"), ("star-twice", "*,*,<NON_REF>"), ("non-ref-twice", "<NON_REF>,<NON_REF>"),
        ("is-ref", "A,<NON_REF>"), ("is-ref-in-lower-case", "a,<NON_REF>"), ("twice-in-either-case", "G,g,<NON_REF>"),
        ("twice-without-non-ref", "G,G"),
    ):
        sites(f"alt-{title}", 5, SNP, alt=value, pl=".", ad=".")
    sites("ref-small-letter", None, ref="a")
    sites("ref-of-either-case", None, SNP, ref="aC", end=11)
    sites("alt-small-letter", None, SNP, alt="g,<NON_REF>", pl=".", ad=".")
    sites("alt-small-letters", None, SNP, alt=long.lower() + ",<NON_REF>")
    sites("alt-star", None, SNP, alt="*,<NON_REF>")
    sites("alt-non-ref-first", None, SNP, alt="<NON_REF>,G")
    sites("alt-non-ref-between", None, SNP, alt="G,<NON_REF>,T", pl=pl(10))
    sites("alleles-8", None, SNP, alt="C,G,T,N,AA,*,<NON_REF>", ad=pl(8), pl=pl(36))
    sites("alleles-9", 5, SNP, alt="C,G,T,N,AA,AC,*,<NON_REF>", ad=pl(8), pl=pl(45))
    sites("alt-g", 6, SNP, alt="G", pl=pl(3))
    sites("alt-star-alone", 6, SNP, alt="*", pl=pl(3))
    sites("alleles-8-without-non-ref", 6, SNP, alt="C,G,T,N,AA,AC,*", pl=pl(36))


def spelling_cases():
    """Letters of either case are the same letters; `<NON_REF>` has one spelling, and so have names."""
    long = "acgtn" * 25 + "ACg"
    for letter in "cgtn":
        sites(f"small-ref-{letter}", None, ref=letter)
    for title, letter in (("past-t", "u"), ("before-a", "`"), ("past-n", "o")):
        sites(f"ref-{title}", 5, ref=letter)
    sites("small-ref-and-alts", None, SNP, ref="acGTn", end=14, alt="ACgt,*,aCgtnA,<NON_REF>", ad=pl(5), pl=pl(15))
    sites("small-128-letters", None, SNP, ref=long, end=137)
    sites("small-129-letters", 5, SNP, ref=long + "t", end=138)
    sites("small-alt-129-letters", 5, SNP, alt=long + "t,<NON_REF>")
    for title, value in (
        ("twice-apart", "g,T,<NON_REF>,G"), ("twice-in-a-long-one", "GattaCA,T,gAttaca,<NON_REF>"), ("non-ref-second-n", "g,<NOn_REF>"),
        ("non-ref-beside", "<NOn_REF>,<NON_REF>"), ("non-ref-in-small", "g,<non_ref>"), ("twice-without-non-ref", "G,g"),
    ):
        sites(f"small-alt-{title}", 5, SNP, alt=value, pl=".", ad=".")
    sites("small-ref-is-alt", 5, SNP, ref="a", alt="A,<NON_REF>")
    sites("small-ref-is-alt-of-three", 5, SNP, ref="aCg", end=12, alt="T,AcG,<NON_REF>", ad=".", pl=".")
    sites("small-alleles-that-differ-at-the-end", None, SNP, ref="aCg", end=12, alt="AcT,<NON_REF>")
    sites("small-alleles-8", None, SNP, ref="a", alt="c,g,t,n,aA,*,<NON_REF>", ad=pl(8), pl=pl(36))
    sites("small-alleles-9", 5, SNP, ref="a", alt="c,g,t,n,aA,aC,*,<NON_REF>", ad=pl(8), pl=pl(45))
    sites("small-alt-without-non-ref", 6, SNP, alt="g", pl=pl(3))
    sites("small-block-of-two-letters", 7, ref="ac")
    sites("small-letters-10-to-11", 7, SNP, ref="acg", end=11)
    case("small-names-and-contigs-keep-their-case", (2, 2), header("n", "N") + site(contig="a", ref="a") + site(contig="A", ref="a"))


def end_cases():
    sites("block-of-one-position", None, end=10)
    sites("block-of-two-letters", 7, ref="AC")
    sites("block-of-two-letters-at-one-position", 7, ref="AC", end=10)
    sites("block-to-the-last-position", None, start=1, end=MOST)
    sites("snp-10-to-12", 7, SNP, end=12)
    sites("snp-10-to-11", 7, SNP, end=11)
    sites("two-letters-10-to-10", 7, SNP, ref="AC")
    sites("two-letters-10-to-11", None, SNP, ref="AC", end=11)
    sites("two-letters-10-to-12", 7, SNP, ref="AC", end=12)
    sites("two-letters-at-the-end", None, SNP, ref="AC", start=MOST - 1, end=MOST)
    sites("two-letters-past-the-end", 7, SNP, ref="AC", start=MOST, end=MOST)
    sites("two-letters-past-the-end-as-written", 1, SNP, ref="AC", start=MOST, end=MOST + 1)


def count_cases():
    for base, title, n in ((BLOCK, "block", 2), (SNP, "snp", 3)):
        full = n * (n + 1) // 2
        for count in (1, full - 1, full, full + 1):
            sites(f"{title}-{count}-pl", None if count == full else 8, base, pl=pl(count))
        for count in (1, n, n + 1):
            sites(f"{title}-{count}-ad", None if count <= n else 8, base, ad=pl(count))
        sites(f"{title}-no-pl", None, base, pl=".")
        sites(f"{title}-no-ad", None, base, ad=".")
    sites("alleles-8-35-pl", 8, SNP, alt="C,G,T,N,AA,*,<NON_REF>", ad=pl(8), pl=pl(35))
    sites("alleles-8-9-ad", 8, SNP, alt="C,G,T,N,AA,*,<NON_REF>", ad=pl(9), pl=pl(36))


def order_cases():
    sites("in-group-1-last-line-and-3-first-line", 1, site=2, pl="x")
    sites("in-group-1-and-4-to-8", 1, start=0, ref="r", alt="G", dp="09", pl="0")
    sites("in-group-3-and-4", 3, site=2, start=0)
    sites("in-group-3-and-8", 3, site=2, pl="0")
    sites("in-group-4-and-5", 4, end=9, ref="R")
    sites("in-group-4-and-7", 4, SNP, end=9)
    sites("in-group-5-and-6", 5, alt="R")
    sites("in-group-5-and-7", 5, SNP, ref="AR")
    sites("in-group-5-and-8", 5, alt="A,<NON_REF>")
    sites("in-group-6-and-7", 6, SNP, alt="G", end=12)
    sites("in-group-6-and-8", 6, alt="G", end=10, pl="0")
    sites("in-group-7-and-8", 7, SNP, end=12, pl="0")
    sites("in-group-8-twice", 8, pl="0", ad="1,2,3")
    case("groups-8-then-1", 8, TWO + site(pl="0") + site(gq=""))
    case("groups-7-then-3", 7, TWO + site(SNP, end=12) + site(site=2))
    case("groups-5-then-5-then-2-lines", 5, TWO + site(ref="R") + site(alt="R") + "site=0\nstart=1\n")
    case("groups-right-then-3-then-1", 3, TWO + site() + site(site=2) + site(gq=""))
    case("groups-right-right-then-4", 4, TWO + site() + site(SNP) + site(end=9))
    case("header-3-then-site-1", 3, header("S0", "S0") + site(gq=""))
    case("header-2-then-all-wrong", 2, "samples=65\nname\n\n")
    case("header-1-then-site-3", 1, header("S0", "S 1") + site(site=2))
    case("header-3-then-header-1", 3, "samples=3\nsample=S0\nsample=S0\nsample=\n")
    case("header-1-then-header-3", 1, "samples=3\nsample=S0\nsample=\nsample=S0\n")


# ---- the files


def answer_of(text):
    try:
        samples, rows = read(text)
    except Refused as refusal:
        return refusal.args[0], []
    assert same_sites(text, samples, rows)
    return (samples, len(rows)), rows


def printed(title, answer, rows):
    if isinstance(answer, int):
        return f"{title} refused={answer}\n"
    shown = rows if len(rows) <= 3 else []
    return f"{title} samples={answer[0]} sites={answer[1]}\n" + "".join(" ".join(map(str, row)) + "\n" for row in shown)


def main():
    for part in (
        accepted_cases, header_cases, name_cases, line_cases, min_dp_cases, number_cases, limit_cases,
        sample_and_place_cases, allele_cases, spelling_cases, end_cases, count_cases, order_cases,
    ):
        part()
    assert len({title for title, *_ in CASES}) == len(CASES)
    stdin, stdout = b"", ""
    for title, answer, (head, tail, foot), times in CASES:
        text = head + tail * times + foot
        assert len(text) <= TEXT_ROOM
        found, rows = answer_of(text)
        if found != answer:
            sys.exit(f"{title}: {answer} was expected, the rules in code say {found}")
        stdin += f"{len(head)} {len(tail)} {len(foot)} {times} {title}\n".encode() + head + tail + foot
        stdout += printed(title, answer, rows)
    assert len(stdin) <= INPUT_ROOM
    with open("crates/read_cohorts/stdin", "wb") as f:
        f.write(stdin)
    with open("crates/read_cohorts/stdout", "w") as f:
        f.write(stdout)
    refused = sum(isinstance(answer, int) for _, answer, *_ in CASES)
    print(f"{len(CASES)} cases, {refused} refused, {len(stdin)} bytes")


if __name__ == "__main__":
    main()
