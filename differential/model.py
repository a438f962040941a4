#!/usr/bin/env python3
"""A plain model of the scope's lists and values, written from documents 01 and 02 alone, held
against recorded answers of the Rust:

    python3 model.py ../recorded

It assumes accepted inputs and prints what differs. A part that the folder lacks is passed over, so it
also takes a folder that `compare lists` wrote, which has the library's answers."""

import struct
import sys
from fractions import Fraction
from pathlib import Path

NON_REF, SPAN_DEL = "<NON_REF>", "*"
SITE_KEYS = 11
CAPITALS = str.maketrans("acgtn", "ACGTN")
SAMPLE_KEYS = ("gt", "gq", "dp", "mindp", "ad", "pl")


def lines(path):
    return [line.split("=", 1) for line in path.read_text().split("\n")[:-1]]


def groups(rows, size):
    return [dict(rows[i : i + size]) for i in range(0, len(rows), size)]


def numbers(value):
    return None if value == "." else [int(v) for v in value.split(",")]


def commas(values):
    return "." if values is None else ",".join(map(str, values))


def pairs(n):
    return [(j, k) for k in range(n) for j in range(k + 1)]


def place(j, k):
    j, k = min(j, k), max(j, k)
    return k * (k + 1) // 2 + j


def read_allele(spelling):
    """An allele as read: letters as capitals; `<NON_REF>` and `*` have one spelling."""
    return spelling if spelling in (NON_REF, SPAN_DEL) else spelling.translate(CAPITALS)


def read_alleles(spellings):
    return [read_allele(a) for a in spellings.split(",")]


# The combined list.


class Site:
    def __init__(self, group):
        self.sample, self.contig = int(group["site"]), group["contig"]
        self.start, self.end = int(group["start"]), int(group["end"])
        self.alleles = [read_allele(group["ref"])] + read_alleles(group["alt"])
        self.gq, self.dp, self.min_dp = group["gq"], group["dp"], group["mindp"]
        self.ad, self.pl = numbers(group["ad"]), numbers(group["pl"])
        self.block = self.alleles[1:] == [NON_REF]

    def read_at(self, start, ref):
        """The site's alleles as lengthened, or as read where it starts earlier."""
        own = self.alleles[0]
        if self.start == start:
            ending = ref[len(own) :]
            named = lambda a: a if a in (NON_REF, SPAN_DEL) else a + ending
            return [ref] + [named(a) for a in self.alleles[1:]]
        shorter = lambda a: SPAN_DEL if len(a) < len(own) else None
        return [None] + [a if a == NON_REF else shorter(a) for a in self.alleles[1:]]


def breakpoints(sites, clip):
    found = set()
    for s in sites:
        found |= {s.start, s.end + 1}
        if not s.block:
            found |= set(range(s.start + 1, s.end + 1))
    for c in clip or []:
        found |= {int(c["start"]), int(c["end"]) + 1}
    return sorted(found)


def taken_at(sites, position):
    """Of each sample's sites over the position the one that starts last; of equal starts the first in the file."""
    taken = {}
    for s in sites:
        if s.start <= position <= s.end and (s.sample not in taken or taken[s.sample].start < s.start):
            taken[s.sample] = s
    return taken


def kept(clip, start, end):
    return clip is None or any(int(c["start"]) <= start and end <= int(c["end"]) for c in clip)


def letter_of_a_sample(taken, position):
    """The letter at the position of the lowest-numbered sample whose taken site's REF reaches it; if none does, N."""
    for sample in sorted(taken):
        ref, offset = taken[sample].alleles[0], position - taken[sample].start
        if offset < len(ref):
            return ref[offset]
    return "N"


def ref_of(taken, start, reference):
    starting = [s.alleles[0] for s in taken.values() if s.start == start]
    if starting:
        return max(starting, key=len)
    if reference is None:
        return letter_of_a_sample(taken, start)
    for g in reference:  # the first group in the file that holds the position
        offset = start - int(g["first"])
        if 0 <= offset < len(g["bases"]):
            return g["bases"][offset].translate(CAPITALS)
    raise ValueError("refusal 11")


def merged_alleles(taken, read, start, ref):
    letters, star = [], False
    for sample in sorted(taken, reverse=True):
        for allele in read[sample][1:]:
            if allele == SPAN_DEL:
                star = True
            elif allele not in (None, NON_REF) and allele not in letters:
                letters.append(allele)
        if taken[sample].start < start and not taken[sample].block:
            star = True
    return [ref] + letters + [SPAN_DEL] * star + [NON_REF]


def sample_values(site, own, alleles):
    mapped = [0] + [own.index(a) if a in own else own.index(NON_REF) for a in alleles[1:]]
    pl, ad, gt = None, None, "."
    if site.pl is not None:
        pl = [site.pl[place(mapped[j], mapped[k])] for j, k in pairs(len(alleles))]
        gt = "%d/%d" % pairs(len(alleles))[pl.index(min(pl))]
    if site.ad is not None:
        ad = [site.ad[m] if m < len(site.ad) else 0 for m in mapped]
    return (gt, site.gq, site.dp, site.min_dp, commas(ad), commas(pl))


class Record:
    def __init__(self, start, end, alleles, samples):
        self.pos, self.alleles, self.samples = start, alleles, samples
        self.block = len(alleles[0]) == 1 and alleles[1:] == [NON_REF]
        self.last = end if self.block else start

    def joins(self, before):
        values = lambda r: [s[1:] for s in r.samples]
        touch = before.block and self.block and before.last + 1 == self.pos
        return touch and before.alleles == self.alleles and values(before) == values(self)

    def text(self, contig):
        end = self.last if self.block and self.last > self.pos else "."
        out = f"contig={contig}\npos={self.pos}\nend={end}\n"
        out += f"ref={self.alleles[0]}\nalt={commas(self.alleles[1:])}\n"
        for s in self.samples:
            out += "".join(f"{key}={value}\n" for key, value in zip(SAMPLE_KEYS, s))
        return out


def contig_records(sites, clip, reference, samples):
    records = []
    places = breakpoints(sites, clip)
    for start, after in zip(places, places[1:]):
        if not kept(clip, start, after - 1):
            continue
        taken = taken_at(sites, start)
        if not taken:
            continue
        ref = ref_of(taken, start, reference)
        read = {sample: s.read_at(start, ref) for sample, s in taken.items()}
        alleles = merged_alleles(taken, read, start, ref)
        values = [
            sample_values(taken[i], read[i], alleles) if i in taken else (".",) * len(SAMPLE_KEYS)
            for i in range(samples)
        ]
        record = Record(start, after - 1, alleles, values)
        if records and record.joins(records[-1]):
            records[-1].last = record.last
        else:
            records.append(record)
    return records


def combined_list(folder):
    rows = lines(folder / "cohort.kv")
    names = [name for _, name in rows[1 : 1 + int(rows[0][1])]]
    sites = [Site(g) for g in groups(rows[1 + len(names) :], SITE_KEYS)]
    lent = {}
    for name in ("clip", "reference"):
        path = folder / f"{name}.kv"
        lent[name] = groups(lines(path), 3) if path.exists() else None
    out, count = "", 0
    for contig in sorted({s.contig for s in sites}, key=str.encode):
        here = lambda found: None if found is None else [g for g in found if g["contig"] == contig]
        of_contig = [s for s in sites if s.contig == contig]
        clip, reference = here(lent["clip"]), here(lent["reference"])
        for record in contig_records(of_contig, clip, reference, len(names)):
            out += record.text(contig)
            count += 1
    return header(names, count) + out


def header(names, records):
    listed = "".join(f"sample={n}\n" for n in names)
    return f"samples={len(names)}\n{listed}records={records}\n"


# The called list.


def dropped_pl(pl, keep, non_ref):
    out = []
    for j, k in pairs(len(keep)):
        a, b = keep[j], keep[k]
        least = [pl[place(a, b)]]
        if a == b or a == 0:
            least.append(pl[place(b, non_ref)])
        if a == b == 0:
            least.append(pl[place(non_ref, non_ref)])
        out.append(min(least))
    return [p - min(out) for p in out]


def gq_of(pl):
    least = sorted(pl)
    return 0 if len(pl) < 2 or least[0] == least[1] else min(99, least[1] - least[0])


def called_record(group, samples):
    contig, pos, _, ref, alt = [value for _, value in group[:5]]
    alleles = [read_allele(ref)] + read_alleles(alt)
    non_ref = alleles.index(NON_REF)
    keep = [a for a in range(len(alleles)) if a != non_ref]
    each = len(SAMPLE_KEYS)
    values = [dict(group[5 + each * i : 5 + each * (i + 1)]) for i in range(samples)]
    if len(keep) < 2 or all(v["pl"] == "." for v in values):
        return None
    out = f"contig={contig}\npos={pos}\nref={alleles[0]}\nalt={commas([alleles[a] for a in keep[1:]])}\n"
    for v in values:
        pl, ad = numbers(v["pl"]), numbers(v["ad"])
        pl = None if pl is None else dropped_pl(pl, keep, non_ref)
        ad = None if ad is None else [ad[a] for a in keep]
        gq = "." if pl is None else gq_of(pl)
        out += f"gq={gq}\ndp={v['dp']}\nad={commas(ad)}\npl={commas(pl)}\n"
    return out


def called_list(folder):
    rows = lines(folder / "combined.kv")
    names = [name for _, name in rows[1 : 1 + int(rows[0][1])]]
    rows, size = rows[2 + len(names) :], 5 + len(SAMPLE_KEYS) * len(names)
    found = [called_record(rows[i : i + size], len(names)) for i in range(0, len(rows), size)]
    found = [record for record in found if record is not None]
    return header(names, len(found)) + "".join(found)


# Groups. Floats are compared as numbers, so the signs of zeros are not.


def floats(value):
    return [] if value == "." else [struct.unpack(">d", bytes.fromhex(v))[0] for v in value.split(",")]


def trim(g):
    alleles = read_alleles(g["alleles"])
    letters = [a for a in alleles if a not in (NON_REF, SPAN_DEL)]
    shortest, cut = min(map(len, letters)), 0
    if len(letters) > 1:
        while cut < shortest - 1 and len({a[len(a) - 1 - cut] for a in letters}) == 1:
            cut += 1
    cut_off = lambda a: a[: len(a) - cut] if a in letters else a
    return commas([cut_off(a) for a in alleles]) == g["trimmed"]


def likelihoods(g):
    pl, log10 = numbers(g["pl"]), floats(g["log10"])
    near = all(2**53 * abs(10 * Fraction(v) + p) <= p for p, v in zip(pl, log10))
    return near and [-p / 10.0 for p in pl] == log10


def gq(g):
    return gq_of(numbers(g["pl"])) == int(g["gq"])


def picked(gl, keep):
    values = [gl[place(keep[j], keep[k])] for j, k in pairs(len(keep))]
    return [v - max(values) for v in values]


def subset(g):
    return picked(floats(g["gl"]), numbers(g["keep"]) or []) == floats(g["subset"])


def unused_alts(g):  # reads no allele: the ALTs stay as they are given
    alts = [] if g["alt"] == "." else g["alt"].split(",")
    gt = numbers(g["gt"]) or []
    keep = [0] + [a for a in range(1, len(alts) + 1) if a in gt]
    if len(keep) == len(alts) + 1:
        return all(g[key] == g["kept_" + key] for key in ("alt", "gl", "ad"))
    ad, kept_alts = g["ad"].split(","), [alts[a - 1] for a in keep[1:]]
    return (
        picked(floats(g["gl"]), keep) == floats(g["kept_gl"])
        and commas([ad[a] for a in keep]) == g["kept_ad"]
        and (commas(kept_alts) or ".") == g["kept_alt"]
    )


KINDS = {trim: 2, likelihoods: 2, gq: 2, subset: 4, unused_alts: 7}


def main(recorded):
    faults = 0
    for part, answer, make in (
        ("combine", "combined.kv", combined_list),
        ("call", "called.kv", called_list),
    ):
        if not (recorded / part).is_dir():
            continue
        cases = sorted(p for p in (recorded / part).iterdir() if p.is_dir())
        different = [p for p in cases if make(p) != (p / answer).read_text()]
        print(f"{part}: {len(cases)} lists, {len(different)} differ", *different)
        faults += len(different)
    for kind, size in KINDS.items():
        if not (recorded / f"{kind.__name__}.kv").exists():
            continue
        found = groups(lines(recorded / f"{kind.__name__}.kv"), size)
        different = [g for g in found if not kind(g)]
        print(f"{kind.__name__}: {len(found)} groups, {len(different)} differ", *different)
        faults += len(different)
    return min(faults, 1)


if __name__ == "__main__":
    sys.exit(main(Path(sys.argv[1])))
