"""Generated marker files and called lists for sheets.py: accepted ones, and ones with faults of every row that refuses a sheet.

A text is held as groups of lines, each a key and a value, so that a fault can be put where it is wanted. `drawn(rng)` gives the kind, the two texts
and how many bytes of output are lent."""

import re

import sheet_model as model

ROOM = 8192
CONTIGS = ("1", "10", "2", "X", "chr1", "chrA", "~", "!")
SPELLINGS = ("A", "C", "G", "T", "N", "a", "c", "g", "t", "n", "AT", "GT", "gT", "TT", "ATT", "GTT", "CAT")
OTHERS = ("*", "<NON_REF>")


# Accepted texts.


def drawn_alleles(rng):
    count = rng.choice((2, 2, 2, 3, 3, 4, 5, 16) if rng.random() < 0.2 else (2, 2, 3, 4))
    ref = rng.choice(SPELLINGS)
    alleles = [ref]
    while len(alleles) < count:
        one = rng.choice(SPELLINGS + OTHERS) if count < 9 else "".join(rng.choice("ACGTn") for _ in range(rng.randint(1, 5)))
        if rng.random() < 0.25:
            one = "*"
        if one.upper() not in [a.upper() for a in alleles]:
            alleles.append(one)
    return alleles


def drawn_pl(rng, alleles):
    """PLs of n alleles: one least pair or several, a least above 0, all alike, great numbers, or none."""
    count = alleles * (alleles + 1) // 2
    sort = rng.random()
    if sort < 0.1:
        return "."
    if sort < 0.15:
        return ",".join(["7"] * count)
    least = rng.choice((0, 0, 0, 5, 2147483640))
    pl = [least + rng.randint(1, 7) for _ in range(count)]
    for _ in range(1 if sort < 0.5 else rng.randint(2, 3)):
        pl[rng.randrange(count)] = least
    return ",".join(map(str, pl))


def drawn_group(rng, contig, pos, samples):
    alleles = drawn_alleles(rng)
    group = [["contig", contig], ["pos", str(pos)], ["ref", alleles[0]], ["alt", ",".join(alleles[1:])]]
    for _ in range(samples):
        ad = "." if rng.random() < 0.3 else ",".join(str(rng.randint(0, 30)) for _ in alleles)
        gq, dp = (rng.choice((".", "0", "99", "2147483647")) for _ in range(2))
        group += [["gq", gq], ["dp", dp], ["ad", ad], ["pl", drawn_pl(rng, len(alleles))]]
    return group


def drawn_places(rng):
    contigs = rng.sample(CONTIGS, rng.randint(1, 3))
    top = rng.choice((3, 6, 20, 2147483647))
    places = {(rng.choice(contigs), rng.randint(1, top)) for _ in range(rng.randint(0, 8))}
    if places and rng.random() < 0.5:  # one position on two contigs
        places.add((rng.choice(CONTIGS), rng.choice(sorted(places))[1]))
    return sorted(places)


def drawn_called(rng, samples):
    names = rng.sample(("S0", "S1", "s1", "S", ".", "a-very-long-sample-name-32-bytes", "~!\"#$%&'()*+-./:;<>?@[]^_`{|}"), min(samples, 7))
    names += [f"N{i}" for i in range(samples - len(names))]
    places = drawn_places(rng)
    header = [[["samples", str(samples)]]] + [[["sample", n]] for n in names] + [[["records", str(len(places))]]]
    return header, [drawn_group(rng, contig, pos, samples) for contig, pos in places]


def wanted_place(rng, records):
    """A contig, a position and an allele: of a record, of its position on another contig, or anywhere."""
    if not records or rng.random() < 0.1:
        return rng.choice(CONTIGS), str(rng.choice((1, 2, 3, 2147483647))), rng.choice(SPELLINGS)
    group = rng.choice(records)
    contig, pos, ref, alt = (value for _, value in group[:4])
    allele = rng.choice([ref] + alt.split(","))
    if allele == "<NON_REF>" or rng.random() < 0.1:
        allele = rng.choice(SPELLINGS + ("*",))
    if rng.random() < 0.3:
        allele = allele.swapcase()
    return contig if rng.random() < 0.9 else rng.choice(CONTIGS), pos, allele


def drawn_after(rng, before):
    if not before or rng.random() < 0.4:
        return "."
    return ",".join(rng.choice(before[-rng.choice((1, 3, 500)) :]) for _ in range(rng.choice((1, 1, 1, 2, 3, 4))))


def drawn_markers(rng, records, count):
    odd = ["~", "M0", "m00", "m", "<NON_REF>", "*", "marker-with-a-name-of-32-bytes--"]
    names, groups = [], []
    for i in range(count):
        name = rng.choice(odd) if rng.random() < 0.1 else f"m{i}"
        name = f"m{i}" if name in names else name
        contig, pos, allele = wanted_place(rng, records)
        after, weight = drawn_after(rng, names), str(rng.choice((1, 2, 10, 99, 100)))
        groups.append([[key, value] for key, value in zip(model.MARKER_KEYS, (name, contig, pos, allele, weight, after))])
        names.append(name)
    if groups and rng.random() < 0.03:  # a marker named `.` is no name where `after` has it alone
        groups[0][0][1] = "."
        groups = [[[key, "." if key == "after" and "m0" in value.split(",") else value] for key, value in group] for group in groups]
    return groups


# Faults: each changes the groups, and may leave them as they are where they have no place for it.


BAD_NUMBERS = ("", "x", "01", "00", "+1", "-1", "1 ", " 1", "1.", "2147483648", "4294967297", "18446744073709551617", "1=1", "1,1", "\u00b2")
BAD_NAMES = ("", "n" * 33, "a,b", "a=b", "a b", "a\t", "\x7f", "\u00e9", "a\r")
BAD_ALLELES = ("", ".", "X", "A*", "**", "<non_ref>", "<NON_REF", "A\r", " A", "A" * 256, "<nON_REF>", "u", "G=")


def put(rng, group, key, values):
    lines = [line for line in group if line[0] == key]
    if lines:
        rng.choice(lines)[1] = rng.choice(values)


def bad_line(rng, group):
    """A line that is missing, doubled, exchanged with the next, or has another key."""
    at, sort = rng.randrange(len(group)), rng.randrange(6)
    if sort == 0:
        del group[at]
    elif sort == 1:
        group.insert(at, list(group[at]))
    elif sort == 2 and at + 1 < len(group):
        group[at], group[at + 1] = group[at + 1], group[at]
    elif sort == 3:
        group[at][0] = rng.choice(("", "x", "gt", "mindp", group[at][0].upper(), group[at][0] + " ", group[at][0][:-1]))
    elif sort == 4:
        group.insert(at, list(rng.choice((("end", "."), ("gt", "0/1"), ("mindp", "."), ("", "")))))
    else:
        group[at][1] += rng.choice((" ", "\r", ",", "=", "\n"))


def bad_marker(rng, markers, called):
    """Row 19."""
    if not markers:
        return
    at = rng.randrange(len(markers))
    group = markers[at]
    sort = rng.randrange(8)
    if sort == 0:
        bad_line(rng, group)
    elif sort == 1:
        put(rng, group, rng.choice(("marker", "contig")), BAD_NAMES)
    elif sort == 2:
        put(rng, group, "pos", BAD_NUMBERS + ("0",) * 8)
    elif sort == 3:
        put(rng, group, "allele", BAD_ALLELES + ("<NON_REF>", "A,C"))
    elif sort == 4:
        put(rng, group, "weight", BAD_NUMBERS + ("0", "101", "256", "257") * 3)
    elif sort == 5:
        put(rng, group, "marker", [g[0][1] for g in markers[:at]] or [""])
    else:
        names = [g[0][1] for g in markers[:at]] or ["m0"]
        five = [",".join(rng.choice(names) for _ in range(n)) for n in (5, 5, 5, 6, 9)]
        put(rng, group, "after", five + ["", ",", names[0] + ",", "," + names[0], "m0,,m1", "a b", "n" * 33, ".,"])


def bad_after(rng, markers, called):
    """Row 20."""
    if not markers:
        return
    at = rng.randrange(len(markers))
    names = [g[0][1] for g in markers]
    own, earlier = names[at], names[:at] or ["m"]
    known = rng.choice(earlier)
    put(rng, markers[at], "after", [own, f"{known},{own}", names[-1], "nowhere", f"{known},nowhere,{known}", known.swapcase(), known[:-1] or "q", known + "0", ".,."])


def bad_header(rng, markers, called):
    """Rows 1 to 3."""
    header, records = called
    if [] in header:  # an earlier fault took the line
        return
    sort = rng.randrange(6)
    if sort == 0:
        bad_line(rng, rng.choice(header))
    elif sort == 1:
        header[0][0][1] = rng.choice(BAD_NUMBERS + ("0", "65", "66", "2147483647") * 3)
    elif sort == 2:
        header[-1][0][1] = rng.choice(BAD_NUMBERS + (str(len(records) + 1), str(max(0, len(records) - 1)), "2147483647") * 4)
    elif sort == 3:
        rng.choice(header[1:-1])[0][1] = rng.choice(BAD_NAMES)
    else:
        rng.choice(header[1:-1])[0][1] = rng.choice(header[1:-1])[0][1]


def bad_place(rng, markers, called):
    """Row 4."""
    _, records = called
    if not records:
        return
    at, sort = rng.randrange(len(records)), rng.randrange(4)
    if sort == 0:
        records[at][1][1] = "0"
    elif sort == 1:
        records[at][1][1] = rng.choice(records)[1][1]
    elif sort == 2:
        records[at][0][1] = rng.choice(CONTIGS)
    elif at + 1 < len(records):
        records[at], records[at + 1] = records[at + 1], records[at]


def bad_alleles(rng, markers, called):
    """Row 5."""
    _, records = called
    if not records:
        return
    group = rng.choice(records)
    ref, alt = group[2][1], group[3][1]
    if rng.random() < 0.4:
        group[2][1] = rng.choice(BAD_ALLELES + OTHERS + (alt.split(",")[0].swapcase(),))
    else:
        again = (alt + "," + ref, ref.swapcase(), alt + "," + alt.split(",")[0].swapcase(), alt + ",*,*", "<NON_REF>,<NON_REF>", alt + ",")
        group[3][1] = rng.choice(BAD_ALLELES + again)


def bad_values(rng, markers, called):
    """Rows 1 and 8."""
    _, records = called
    if not records:
        return
    group, sort = rng.choice(records), rng.randrange(5)
    key = rng.choice(("ad", "pl", "pl"))
    line = rng.choice([line for line in group if line[0] == key] or group)
    if sort == 0:
        line[1] += ",0"
    elif sort == 1:
        line[1] = line[1].rpartition(",")[0] or "0"
    elif sort == 2:
        put(rng, group, rng.choice(("gq", "dp", "ad", "pl", "pos")), BAD_NUMBERS)
    elif sort == 3:
        put(rng, group, "contig", BAD_NAMES)
    else:
        bad_line(rng, group)


FAULTS = (bad_marker, bad_marker, bad_after, bad_after, bad_header, bad_place, bad_alleles, bad_values)


# Texts.


def written(groups):
    return "".join(f"{key}={value}\n" for group in groups for key, value in group)


def changed(rng, text):
    """A byte changed, put in or taken out, the text cut off, a line left out or doubled."""
    if not text:
        return rng.choice(("\n", "x", "=", "\0"))
    at, sort = rng.randrange(len(text)), rng.randrange(7)
    byte = rng.choice(("\n", "=", ",", ".", "0", "1", "A", "a", "*", "\r", "\0", " ", "\xff", chr(rng.randrange(256))))
    if sort == 0:
        return text[:at] + byte + text[at + 1 :]
    if sort == 1:
        return text[:at] + byte + text[at:]
    if sort == 2:
        return text[:at] + text[at + 1 :]
    if sort == 3:
        return text[:at]
    if sort == 4:
        return text[:-1]
    lines = re.split("(?<=\n)", text)
    at = rng.randrange(len(lines))
    return "".join(lines[:at] + (lines[at : at + 1] * 2 if sort == 5 else []) + lines[at + 1 :])


def drawn_limits(rng):
    """500 and 501 markers, 64 and 65 samples, 16 and 17 alleles, 255 and 256 letters, names of 32 and 33 bytes."""
    header, records = drawn_called(rng, rng.choice((1, 3, 64, 65)))
    markers = drawn_markers(rng, records, rng.choice((1, 20, 499, 500, 500, 501, 502)))
    if records and rng.random() < 0.3:
        count, group = rng.choice((15, 16, 17)), records[-1]
        alts = ["".join("ACGT"[i >> b & 3] for b in (0, 2)) + "N" for i in range(count - 1)]
        group[2][1], group[3][1] = "A", ",".join(alts)
        for line in group[4:]:
            if line[0] in ("ad", "pl") and line[1] != ".":
                line[1] = ",".join(str(rng.randint(0, 3)) for _ in range(count if line[0] == "ad" else count * (count + 1) // 2))
        rng.choice(markers)[3][1] = alts[-1]
    if records and rng.random() < 0.3:
        group, marker = rng.choice(records), rng.choice(markers)
        long = "".join(rng.choice("ACGTN") for _ in range(rng.choice((254, 255, 255, 256))))
        group[2][1] = long
        marker[1][1], marker[2][1], marker[3][1] = group[0][1], group[1][1], long.lower()
    if rng.random() < 0.2:
        rng.choice(markers + header[1:-1] + records)[0][1] = "n" * rng.choice((31, 32, 33))
    if rng.random() < 0.3 and len(markers) > 5:
        markers[-1][5][1] = ",".join(g[0][1] for g in markers[: rng.choice((4, 5))])
    return markers, (header, records)


def drawn_room(rng, markers, called):
    """How many bytes are lent: all there are, just enough, one fewer, none, or any."""
    if rng.random() < 0.7:
        return ROOM
    sheet = model.selection_sheet(markers, called, ROOM)
    length = len(sheet) if isinstance(sheet, str) else 40
    return rng.choice((length, length, length - 1, length - 1, 0, length + 1, rng.randint(0, length)))


def drawn(rng):
    sort, kind = rng.random(), "accepted"
    if sort < 0.03:
        kind, (markers, called) = "limits", drawn_limits(rng)
    else:
        called = drawn_called(rng, rng.choice((1, 1, 2, 3, 5)))
        markers = drawn_markers(rng, called[1], rng.choice((0, 1, 2, 3, 5, 8, 12)))
    if 0.03 <= sort < 0.33 or sort < 0.005:
        kind = "faults"
        for _ in range(rng.choice((1, 1, 1, 2, 3))):
            rng.choice(FAULTS)(rng, markers, called)
    texts = [written(markers), written(called[0] + called[1])]
    if 0.33 <= sort < 0.43:
        kind, at = "changed", rng.randrange(2)
        texts[at] = changed(rng, texts[at])
    return kind, texts[0], texts[1], drawn_room(rng, *texts)
