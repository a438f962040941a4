"""Names the markers whose weights come or go when seedlings are added. Standard library only.

    unstable_markers.py markers.kv BEFORE AFTER
    unstable_markers.py markers.kv CALLED

A marker's allele is compared with the record's as spelled, and the spelling follows REF: G is GT where REF grows from A to AT. And an allele, REF too,
counts only where a record was called. So a seedling's sum may change though nothing about that seedling did.

With two called lists, of before and after seedlings were added: each marker that a sample of both shows in one and not in the other, why, and for which
samples, and each that is to be spelled otherwise now; markers that are met otherwise only because of those that they name; and the sums that changed.
With one called list: for each marker whether the next seedlings may change it for those already there. It is open if no allele of the list answers it; else
it holds while REF at its place stays as it is, and `*` in any case.

Ends with 0 if no marker changed, or is open, with 1 if some are, with 2 if a text is refused (rows as for a sheet).
"""
import sys
from pathlib import Path

sys.dont_write_bytecode = True
sys.path.insert(0, str(Path(__file__).resolve().parent.parent / "differential"))
import sheet_model as model


def record_at(marker, records):
    return next(iter(model.at_marker(marker, records)), None)


def shown_by(marker, names, records):
    """The samples that show the marker's allele."""
    record = record_at(marker, records)
    return {name for i, name in enumerate(names) if record and model.shows(record, i, marker.allele)}


def met_by(markers, names, records):
    """For each sample's name the markers that it meets, those in `after` met too."""
    return {name: model.met_markers(markers, records, i) for i, name in enumerate(names)}


# Spellings.


def lengthened(allele, ending):
    return allele if allele in ("*", "<NON_REF>") else allele + ending


def carried(allele, before, after):
    """How the record after spells an allele of the record before; None if it has none for it, or if neither REF begins with the other."""
    old, new = before.alleles[0], after.alleles[0]
    if new.startswith(old) or allele == "*":
        return lengthened(allele, new[len(old) :])
    shorter = [a for a in after.alleles if old.startswith(new) and lengthened(a, old[len(new) :]) == allele]
    return shorter[0] if shorter else None


def respelled(allele, record):
    """Alleles of the record that the wanted one may be: with letters that end REF put behind it, or with its own last letters taken off."""
    ref = record.alleles[0]
    longer = [lengthened(allele, ref[i:]) for i in range(1, len(ref))]
    shorter = [allele[:i] for i in range(1, len(allele))]
    return [a for a in longer + shorter if a in record.alleles]


def place(marker):
    return f"{marker.name}, {marker.allele} at {marker.contig}:{marker.pos}"


# Two lists.


def why_spelled(wanted, before, after):
    """Why, where REF is another one."""
    old, new, here, there = before.alleles[0], after.alleles[0], wanted in before.alleles, wanted in after.alleles
    how = "grew" if new.startswith(old) else "shrank" if old.startswith(new) else "changed"
    spelled = f"REF {how} from {old} to {new}"
    now = carried(wanted, before, after) if here else None
    was = carried(wanted, after, before) if there else None
    if now in after.alleles:
        return f"{spelled}: {wanted} is spelled {now} now" + (f", and {wanted} is another allele" if there else "")
    if was in before.alleles:
        return f"{spelled}: what is {wanted} now was spelled {was}"
    return f"{spelled}, and {wanted} is {'another allele' if here and there else 'an allele only before' if here else 'an allele only after'}"


def why(wanted, before, after):
    if before is None or after is None:
        record, when = (after, "before") if before is None else (before, "after")
        return f"no record was called {when}, and {'REF' if wanted == record.alleles[0] else wanted} counts only where one was"
    if wanted in before.alleles and carried(wanted, before, after) == wanted and wanted in after.alleles:
        return "PL differ: these are not lists of the same sites"
    if before.alleles[0] != after.alleles[0]:
        return why_spelled(wanted, before, after)
    return f"{wanted} is an allele only {'before' if wanted in before.alleles else 'after'}, and these samples have a least PL at <NON_REF>"


def is_respelled(wanted, before, after):
    """Whether the record before has the wanted allele, and the record after does not spell it so."""
    return None not in (before, after) and wanted in before.alleles and carried(wanted, before, after) != wanted


def changes(markers, before, after):
    """The markers that are spelled otherwise now, or that some sample of both lists shows in one and not in the other: why, and the samples that show it
    only after, and only before."""
    for marker in markers:
        old, new = shown_by(marker, *before), shown_by(marker, *after)
        gained = [name for name in before[0] if name in after[0] and name in new - old]
        lost = [name for name in before[0] if name in after[0] and name in old - new]
        records = record_at(marker, before[1]), record_at(marker, after[1])
        if gained or lost or is_respelled(marker.allele, *records):
            yield marker, why(marker.allele, *records), gained, lost


def followers(markers, before, after, named):
    """The markers, none of those named, that some sample of both lists meets in one and not in the other; with those in `after` that are why."""
    old, new = met_by(markers, *before), met_by(markers, *after)
    changed = set().union(*(old[name] ^ new[name] for name in old if name in new))
    return [(m, [n for n in m.after if n in changed]) for m in markers if m.name in changed and m not in named]


def changed_sums(markers, before, after):
    old, new = met_by(markers, *before), met_by(markers, *after)
    total = lambda met: sum(m.weight for m in markers if m.name in met)
    return [(name, total(old[name]), total(new[name])) for name in old if name in new and total(old[name]) != total(new[name])]


def two_lists(markers, before, after):
    found = list(changes(markers, before, after))
    for marker, reason, gained, lost in found:
        print(f"{place(marker)}: {reason}")
        for when, names in (("after", gained), ("before", lost)):
            if names:
                print(f"    shown only {when}: {', '.join(names)}")
        if not gained and not lost:
            print("    shown before and after by the same samples of both lists, or by none")
    following = followers(markers, before, after, [marker for marker, *_ in found])
    for marker, of in following:
        print(f"{place(marker)}: shown as before, but met otherwise for {', '.join(of)} in its `after`")
    for name, old, new in changed_sums(markers, before, after):
        print(f"sum of {name}: {old} before, {new} after")
    print(f"{len(found)} of {len(markers)} markers changed, {len(following)} more met otherwise")
    return found


# One list.


def open_reason(marker, record):
    """Why the next seedlings may change the marker for those already in the list though REF stays; None if they cannot."""
    if record is None:
        return "open: no record. Not met by anyone; if one is called here, by each who shows it, REF too"
    if marker.allele in record.alleles:
        return None
    others = respelled(marker.allele, record)
    if others:
        return f"open: not an allele where REF is {record.alleles[0]}. Spelled for another REF? Here it would be {' or '.join(others)}"
    return f"open: not an allele here (REF {record.alleles[0]}). If a seedling brings it, samples with a least PL at <NON_REF> show it too"


def one_list(markers, names, records):
    found = []
    for marker in markers:
        record = record_at(marker, records)
        reason = open_reason(marker, record)
        found += [marker] if reason else []
        print(f"{place(marker)}: {reason or ('holds' if marker.allele == '*' else f'holds while REF is {record.alleles[0]}')}")
    print(f"{len(found)} of {len(markers)} markers open")
    return found


def main(markers, *lists):
    read = lambda path: Path(path).read_bytes().decode("latin-1")
    try:
        asked, called = model.markers_of(read(markers)), [model.called_of(read(path)) for path in lists]
    except model.Refused as refused:
        print(f"refused={refused.args[0]}")
        return 2
    found = two_lists(asked, *called) if len(called) == 2 else one_list(asked, *called[0])
    return 1 if found else 0


if __name__ == "__main__":
    if len(sys.argv) not in (3, 4):
        sys.exit(__doc__)
    sys.exit(main(*sys.argv[1:]))
