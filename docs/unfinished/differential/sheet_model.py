"""The selection sheet as a plain model, written from documents 01 and 02 (Notes 6, 8 and 13) and from reading 9 alone.

    python3 sheet_model.py MARKERS CALLED        prints the sheet, or `refused=` and the number

`selection_sheet(markers, called, room)` gives the sheet, or the number of the row that refuses it. Texts are str of one character a byte (latin-1).
differential/sheets.py holds the library to it."""

import re
import sys
from collections import namedtuple
from pathlib import Path

TEXT_LIMIT = 16_777_216
SAMPLES, MARKERS, AFTER, ALLELES, LETTERS, WEIGHT = 64, 500, 4, 16, 255, 100
GREATEST = 2_147_483_647
MARKER_KEYS = ("marker", "contig", "pos", "allele", "weight", "after")
RECORD_KEYS = ("contig", "pos", "ref", "alt")
SAMPLE_KEYS = ("gq", "dp", "ad", "pl")

Marker = namedtuple("Marker", "name contig pos allele weight after")
Record = namedtuple("Record", "contig pos alleles pls")


class Refused(Exception):
    """The row that refuses a text."""


def lines_of(text):
    """The lines. One that no LF ends is None, a line out of form whatever it says."""
    *ended, rest = text.split("\n")
    return ended + [None] * (rest != "")


def value_of(lines, at, key, row):
    line = lines[at] if at < len(lines) else None
    if line is None or not line.startswith(key + "="):
        raise Refused(row)
    return line[len(key) + 1 :]


def number_of(value, row):
    if not re.fullmatch("0|[1-9][0-9]{0,9}", value) or int(value) > GREATEST:
        raise Refused(row)
    return int(value)


def name_of(value, row):
    if not 1 <= len(value) <= 32 or any(not 33 <= ord(c) <= 126 or c in "=," for c in value):
        raise Refused(row)
    return value


def letters_of(value):
    """The allele that a value spells by letters of either case, in capitals; None if it spells none."""
    return value.upper() if re.fullmatch("[ACGTNacgtn]{1,%d}" % LETTERS, value) else None


# The marker file: rows 19 and 20.


def weight_of(value):
    weight = number_of(value, 19)
    if not 1 <= weight <= WEIGHT:
        raise Refused(19)
    return weight


def wanted_of(value):
    allele = value if value == "*" else letters_of(value)
    if allele is None:
        raise Refused(19)
    return allele


def after_of(value):
    if value == ".":
        return []
    names = [name_of(name, 19) for name in value.split(",")]
    if len(names) > AFTER:
        raise Refused(19)
    return names


def marker_of(lines, at, before):
    name, contig, pos, allele, weight, after = (value_of(lines, at + i, key, 19) for i, key in enumerate(MARKER_KEYS))
    marker = Marker(name_of(name, 19), name_of(contig, 19), number_of(pos, 19), wanted_of(allele), weight_of(weight), after_of(after))
    names = [m.name for m in before]
    if marker.pos < 1 or marker.name in names or len(before) == MARKERS:
        raise Refused(19)
    if any(other not in names for other in marker.after):
        raise Refused(20)
    return marker


def markers_of(text):
    lines, markers = lines_of(text), []
    for at in range(0, len(lines), len(MARKER_KEYS)):
        markers.append(marker_of(lines, at, markers))
    return markers


# The called list: rows 1 to 5 and 8.


def header_of(lines):
    """The names, the records figure, and where the first record group begins."""
    count = number_of(value_of(lines, 0, "samples", 1), 1)
    if not 1 <= count <= SAMPLES:
        raise Refused(2)
    names = []
    for at in range(1, 1 + count):
        name = name_of(value_of(lines, at, "sample", 1), 1)
        if name in names:
            raise Refused(3)
        names.append(name)
    return names, number_of(value_of(lines, 1 + count, "records", 1), 1), 2 + count


def numbers_of(value):
    return None if value == "." else [number_of(number, 1) for number in value.split(",")]


def alleles_of(ref, alt):
    alleles = [letters_of(ref)] + [a if a in ("*", "<NON_REF>") else letters_of(a) for a in alt.split(",")]
    if None in alleles or not 2 <= len(alleles) <= ALLELES or len(set(alleles)) < len(alleles):
        raise Refused(5)
    return alleles


def sample_values(lines, at):
    """AD and PL of a sample, None where missing; its GQ and DP are looked at for row 1 alone."""
    gq, dp, ad, pl = (value_of(lines, at + i, key, 1) for i, key in enumerate(SAMPLE_KEYS))
    for single in (gq, dp):
        if single != ".":
            number_of(single, 1)
    return numbers_of(ad), numbers_of(pl)


def place_of(record):
    return record.contig, record.pos


def record_of(lines, at, samples, before):
    contig, pos, ref, alt = (value_of(lines, at + i, key, 1) for i, key in enumerate(RECORD_KEYS))
    contig, pos = name_of(contig, 1), number_of(pos, 1)
    values = [sample_values(lines, at + len(RECORD_KEYS) + i * len(SAMPLE_KEYS)) for i in range(samples)]
    if pos < 1 or before and not place_of(before[-1]) < (contig, pos):
        raise Refused(4)
    alleles = alleles_of(ref, alt)
    n = len(alleles)
    for ad, pl in values:
        if ad is not None and len(ad) != n or pl is not None and len(pl) != n * (n + 1) // 2:
            raise Refused(8)
    return Record(contig, pos, alleles, [pl for _, pl in values])


def called_of(text):
    lines = lines_of(text)
    names, figure, at = header_of(lines)
    size, records = len(RECORD_KEYS) + len(SAMPLE_KEYS) * len(names), []
    while len(records) < figure:
        records.append(record_of(lines, at, len(names), records))
        at += size
    if at < len(lines):
        raise Refused(1)
    return names, records


# The sheet.


def least_pairs(pl, alleles):
    """The pairs of allele numbers with the least PL, in the order of PL."""
    pairs, least = [(j, k) for k in range(alleles) for j in range(k + 1)], min(pl)
    return [pair for pair, value in zip(pairs, pl) if value == least]


def shows(record, sample, allele):
    """Whether the allele stands in some pair of the sample's least PL."""
    pl = record.pls[sample]
    if pl is None or allele not in record.alleles:
        return False
    return any(record.alleles.index(allele) in pair for pair in least_pairs(pl, len(record.alleles)))


def at_marker(marker, records):
    return [r for r in records if place_of(r) == (marker.contig, marker.pos)]


def met_markers(markers, records, sample):
    met = set()
    for m in markers:
        if any(shows(r, sample, m.allele) for r in at_marker(m, records)) and all(name in met for name in m.after):
            met.add(m.name)
    return met


def sheet_of(markers, names, records):
    sheet = ""
    for sample, name in enumerate(names):
        met = met_markers(markers, records, sample)
        sheet += f"sample={name}\nsum={sum(m.weight for m in markers if m.name in met)}\n"
    return sheet


def selection_sheet(markers, called, room):
    try:
        if max(len(markers), len(called)) > TEXT_LIMIT:
            raise Refused(2)
        asked = markers_of(markers)
        sheet = sheet_of(asked, *called_of(called))
        if len(sheet) > room:
            raise Refused(14)
        return sheet
    except Refused as refused:
        return refused.args[0]


def main(markers, called):
    answer = selection_sheet(*(Path(p).read_bytes().decode("latin-1") for p in (markers, called)), TEXT_LIMIT)
    print(answer if isinstance(answer, str) else f"refused={answer}\n", end="")


if __name__ == "__main__":
    main(*sys.argv[1:])
