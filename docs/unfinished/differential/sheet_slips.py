"""Slips put into sheet_model.py, one at a time, so that sheets.py can show that its run tells them. A slip is what it puts in place of which name."""

import re
from contextlib import contextmanager

import sheet_model as model
from sheet_model import Record, Refused

PLAIN = {name: getattr(model, name) for name in dir(model)}


def plain(name):
    return PLAIN[name]


# A marker that is met, or is not.


def first_least_pair(pl, alleles):
    return plain("least_pairs")(pl, alleles)[:1]


def pairs_of_least_zero(pl, alleles):
    return plain("least_pairs")(pl, alleles) if min(pl) == 0 else []


def both_alleles(record, sample, allele):
    pl = record.pls[sample]
    if pl is None or allele not in record.alleles:
        return False
    at = record.alleles.index(allele)
    return (at, at) in model.least_pairs(pl, len(record.alleles))


def ref_never(record, sample, allele):
    return allele != record.alleles[0] and plain("shows")(record, sample, allele)


def star_never(record, sample, allele):
    return allele != "*" and plain("shows")(record, sample, allele)


def missing_shows_ref(record, sample, allele):
    return record.alleles[0] == allele if record.pls[sample] is None else plain("shows")(record, sample, allele)


def any_contig(marker, records):
    return [r for r in records if r.pos == marker.pos]


def next_position(marker, records):
    return [r for r in records if r.contig == marker.contig and r.pos in (marker.pos, marker.pos + 1)]


def first_record_of_position(marker, records):
    return [r for r in records if r.pos == marker.pos][:1]


def met_by(passes):
    """Which markers are met, where `passes(marker, met, shown)` says whether those in `after` let it pass."""

    def met_markers(markers, records, sample):
        shown = {m.name for m in markers if any(model.shows(r, sample, m.allele) for r in model.at_marker(m, records))}
        met = set()
        for m in markers:
            if m.name in shown and passes(m, met, shown):
                met.add(m.name)
        return met

    return met_markers


def letters_as_spelled(value):
    return value if plain("letters_of")(value) else None


def sums_without_after(markers, names, records):
    return plain("sheet_of")([m for m in markers if not m.after], names, records)


# Rows.


def weights_in(low, high):
    def value_of(value):
        number = model.number_of(value, 19)
        if not low <= number <= high:
            raise Refused(19)
        return number

    return value_of


def marker_checked(zero=False, repeated=False, unknown=False, own=False, known_first=False):
    """`marker_of` with one of its checks left out or in another place."""

    def marker_of(lines, at, before):
        values = [model.value_of(lines, at + i, key, 19) for i, key in enumerate(model.MARKER_KEYS)]
        names = [m.name for m in before]
        if known_first and values[5] != "." and any(n not in names for n in values[5].split(",")):
            raise Refused(20)
        name, contig, pos = model.name_of(values[0], 19), model.name_of(values[1], 19), model.number_of(values[2], 19)
        marker = model.Marker(name, contig, pos, model.wanted_of(values[3]), model.weight_of(values[4]), model.after_of(values[5]))
        if pos < 1 and not zero or name in names and not repeated or len(before) == model.MARKERS:
            raise Refused(19)
        if not unknown and any(n not in names and not (own and n == name) for n in marker.after):
            raise Refused(20)
        return marker

    return marker_of


def known_behind_all(text):
    """Row 19 of every group before row 20 of any."""
    with slipped_by({"marker_of": marker_checked(unknown=True)}):
        plain("markers_of")(text)
    return plain("markers_of")(text)


def after_once(value):
    names = plain("after_of")(value)
    if len(set(names)) < len(names):
        raise Refused(19)
    return names


def wanted_non_ref(value):
    return value if value == "<NON_REF>" else plain("wanted_of")(value)


def list_first(markers, called, room):
    try:
        model.called_of(called)
    except Refused as refused:
        return refused.args[0]
    return plain("selection_sheet")(markers, called, room)


def room_of_one_more(markers, called, room):
    return plain("selection_sheet")(markers, called, room - 1)


def room_first(markers, called, room):
    return 14 if room == 0 else plain("selection_sheet")(markers, called, room)


def non_ref_needed(ref, alt):
    alleles = plain("alleles_of")(ref, alt)
    if "<NON_REF>" not in alleles:
        raise Refused(6)
    return alleles


def non_ref_refused(ref, alt):
    alleles = plain("alleles_of")(ref, alt)
    if "<NON_REF>" in alleles:
        raise Refused(5)
    return alleles


def repeats_pass(ref, alt):
    alleles = [model.letters_of(ref)] + [a if a in ("*", "<NON_REF>") else model.letters_of(a) for a in alt.split(",")]
    if None in alleles or not 2 <= len(alleles) <= model.ALLELES:
        raise Refused(5)
    return alleles


def record_checked(same_place=False, any_order=False, short_ad=False):
    """`record_of` with one of its checks left out."""

    def record_of(lines, at, samples, before):
        contig, pos, ref, alt = (model.value_of(lines, at + i, key, 1) for i, key in enumerate(model.RECORD_KEYS))
        here = contig, pos = model.name_of(contig, 1), model.number_of(pos, 1)
        values = [model.sample_values(lines, at + 4 + 4 * i) for i in range(samples)]
        last = model.place_of(before[-1]) if before else ("", 0)
        if pos < 1 or not (last < here or any_order or same_place and last == here):
            raise Refused(4)
        alleles = model.alleles_of(ref, alt)
        n = len(alleles)
        for ad, pl in values:
            if ad is not None and len(ad) != n and not (short_ad and len(ad) < n) or pl is not None and len(pl) != n * (n + 1) // 2:
                raise Refused(8)
        return Record(contig, pos, alleles, [pl for _, pl in values])

    return record_of


def rest_passes(text):
    lines = model.lines_of(text)
    names, figure, at = model.header_of(lines)
    size = 4 + 4 * len(names)
    return plain("called_of")("".join(f"{line}\n" for line in lines[: at + figure * size] if line is not None))


def names_repeated_pass(lines):
    count = model.number_of(model.value_of(lines, 0, "samples", 1), 1)
    if not 1 <= count <= model.SAMPLES:
        raise Refused(2)
    names = [model.name_of(model.value_of(lines, at, "sample", 1), 1) for at in range(1, 1 + count)]
    return names, model.number_of(model.value_of(lines, 1 + count, "records", 1), 1), 2 + count


def repeats_behind_all_names(lines):
    found = names_repeated_pass(lines)
    if len(set(found[0])) < len(found[0]):
        raise Refused(3)
    return found


def longer_names(value, row):
    return plain("name_of")(value[:-1] if len(value) == 33 else value, row) and value


def leading_zeros(value, row):
    return plain("number_of")(value.lstrip("0") or "0" if re.fullmatch("[0-9]+", value) else value, row)


def unended_line(text):
    return text.split("\n")[:-1] + [rest for rest in text.split("\n")[-1:] if rest]


SLIPS = {
    "only the first least pair": {"least_pairs": first_least_pair},
    "a least PL above 0 shows nothing": {"least_pairs": pairs_of_least_zero},
    "only the pair of the allele twice": {"shows": both_alleles},
    "REF is never met": {"shows": ref_never},
    "* is never met": {"shows": star_never},
    "missing PL shows REF": {"shows": missing_shows_ref},
    "another contig's same position": {"at_marker": any_contig},
    "the first record of the position on any contig": {"at_marker": first_record_of_position},
    "the next position too": {"at_marker": next_position},
    "`after` ignored": {"met_markers": met_by(lambda m, met, shown: True)},
    "`after` by what is shown, not met": {"met_markers": met_by(lambda m, met, shown: all(n in shown for n in m.after))},
    "one of `after` is enough": {"met_markers": met_by(lambda m, met, shown: not m.after or any(n in met for n in m.after))},
    "only the first name of `after`": {"met_markers": met_by(lambda m, met, shown: all(n in met for n in m.after[:1]))},
    "only the first three names of `after`": {"met_markers": met_by(lambda m, met, shown: all(n in met for n in m.after[:3]))},
    "markers with `after` not summed": {"sheet_of": sums_without_after},
    "letters as spelled": {"letters_of": letters_as_spelled},
    "weight 0": {"weight_of": weights_in(0, 100)},
    "weight 101": {"WEIGHT": 101},
    "weight 100 refused": {"WEIGHT": 99},
    "pos=0": {"marker_of": marker_checked(zero=True)},
    "a marker's name repeated": {"marker_of": marker_checked(repeated=True)},
    "its own name in `after`": {"marker_of": marker_checked(own=True)},
    "any name in `after`": {"marker_of": marker_checked(unknown=True)},
    "20 before 19 in a group": {"marker_of": marker_checked(known_first=True)},
    "19 of any group before 20": {"markers_of": known_behind_all},
    "five names in `after`": {"AFTER": 5},
    "four names in `after` refused": {"AFTER": 3},
    "a name twice in `after` refused": {"after_of": after_once},
    "501 markers": {"MARKERS": 501},
    "500 markers refused": {"MARKERS": 499},
    "<NON_REF> wanted": {"wanted_of": wanted_non_ref},
    "256 letters": {"LETTERS": 256},
    "255 letters refused": {"LETTERS": 254},
    "17 alleles": {"ALLELES": 17},
    "16 alleles refused": {"ALLELES": 15},
    "65 samples": {"SAMPLES": 65},
    "64 samples refused": {"SAMPLES": 63},
    "names of 33 bytes": {"name_of": longer_names},
    "numbers with leading zeros": {"number_of": leading_zeros},
    "a last line without LF": {"lines_of": unended_line},
    "the list before the markers": {"selection_sheet": list_first},
    "one byte more needed": {"selection_sheet": room_of_one_more},
    "14 first, if there is no room": {"selection_sheet": room_first},
    "<NON_REF> needed in the list": {"alleles_of": non_ref_needed},
    "<NON_REF> refused in the list": {"alleles_of": non_ref_refused},
    "an allele twice": {"alleles_of": repeats_pass},
    "records sharing a position": {"record_of": record_checked(same_place=True)},
    "records in any order": {"record_of": record_checked(any_order=True)},
    "AD with fewer entries": {"record_of": record_checked(short_ad=True)},
    "lines behind the last record": {"called_of": rest_passes},
    "a sample's name repeated": {"header_of": names_repeated_pass},
    "3 behind all names": {"header_of": repeats_behind_all_names},
}


@contextmanager
def slipped_by(changes):
    before = {name: getattr(model, name) for name in changes}
    for name, value in changes.items():
        setattr(model, name, value)
    try:
        yield
    finally:
        for name, value in before.items():
            setattr(model, name, value)


def slipped(name):
    return slipped_by(SLIPS[name])
