"""Writes crates/replay_alleles/stdin, calls of the functions of one record, and stdout, what each must give.

Run it in the repository's folder. The calls are of three sorts:
- recorded: all cases of recorded/*.kv, with the Rust's answers. PLs without an allele come from recorded/call: those of the lists by hand, and the
  first of each allele count and place of `<NON_REF>`.
- tight: the first twelve of each again, with just the output that they need, and with a place less in each output (14).
- by hand, below: document 01's examples, and refusals 5 and 15, each with its number beside it from reading document 01.
`faults` is a second reading of rows 5, 14 and 15, in code. Every call goes through it, and where the two differ the tool stops and names the case.
The tool also stops if a condition of a row is never the only one that a call breaks.
The Rust's no-call, -1 in `gt`, is given as the greatest number that is read. Both zeros are printed alike.
"""
import re
import struct
import sys
from collections import Counter
from pathlib import Path

sys.dont_write_bytecode = True
sys.path.insert(0, "differential")
import model

BYTES, PLACES, AD_PLACES, INPUT_ROOM = 4096, 256, 32, 524288  # what the program has room for
NO_CALL = "2147483647"
COVERED = {
    "trim": {"written", "small letters", "14", "5 no letters", "5 count", "5 repeat"},
    "gq": {"written"},
    "drop": {"written"},
    "log10": {"written", "14"},
    "subset": {"written", "14", "15 allele count", "15 value count", "15 not finite", "15 size", "15 keep count", "15 no allele"},
    "unused": {"copied", "written", "small letters", "14", "15 allele count", "15 value count", "15 not finite", "15 size", "15 AD"},
}
CASES = []  # name, function, arguments, answer: a number or the lists that are written


# ---- the rules


def entries(text):
    return [] if text == "." else text.split(",")


def value_of(bits):
    return struct.unpack(">d", bytes.fromhex(bits))[0]


def value_faults(gl, alleles):
    values = [value_of(v) for v in entries(gl)]
    return {
        "15 value count": len(values) != alleles * (alleles + 1) // 2,
        "15 not finite": any(v != v or abs(v) == float("inf") for v in values),
        "15 size": any(2**31 < abs(v) < float("inf") for v in values),
    }


def trim_faults(room, alleles):
    fields = alleles.split(",") if alleles != "." else [""]
    letters = lambda a: re.fullmatch("[ACGTNacgtn]{1,255}", a)  # of either case, with one meaning (document 02, Note 6)
    as_read = [a.upper() if letters(a) else a for a in fields]
    return {
        "5 no letters": not letters(fields[0]) or not all(letters(a) or a in ("*", "<NON_REF>") for a in fields[1:]),
        "5 count": len(fields) > 16,
        "5 repeat": len(set(as_read)) < len(fields),
    }


def subset_faults(room, alleles, keep, gl):
    count, numbers = int(alleles), [int(a) for a in entries(keep)]
    return value_faults(gl, count) | {
        "15 allele count": not 1 <= count <= 16,
        "15 keep count": len(numbers) > 16,
        "15 no allele": any(a >= count for a in numbers),
    }


def unused_faults(alts_room, gl_room, ad_room, alts, gt, gl, ad):
    count = 1 + len(entries(alts))
    keep = [0] + [a for a in range(1, count) if str(a) in entries(gt)]
    found = {"15 allele count": count > 16}
    if len(keep) < count:
        found |= value_faults(gl, count) | {"15 AD": any(a >= len(entries(ad)) for a in keep)}
    return found


def lengths(function, lists):
    """How many places each list takes in its output: ALTs and alleles are texts."""
    length = lambda text: len("" if text == "." else text)
    if function == "trim":
        return [length(lists[0])]
    return [length(lists[0])] * (function == "unused") + [len(entries(l)) for l in lists[function == "unused" :]]


RULES = {"trim": trim_faults, "subset": subset_faults, "unused": unused_faults}


def faults(function, arguments, lists):
    """The conditions that a call breaks, and the row that refuses it. `lists` would be written with enough room."""
    broken = {what for what, holds in RULES[function](*arguments).items() if holds} if function in RULES else set()
    if broken:
        return broken, int(min(what.split()[0] for what in broken))
    if function not in ("gq", "drop") and any(int(room) < n for room, n in zip(arguments, lengths(function, lists))):
        return {"14"}, 14
    return set(), None


# ---- recorded and tight cases


def case(name, function, arguments, answer, needed=None):
    """A call: its answer is a row, or the lists that are written; for row 14 `needed` are those that would be."""
    CASES.append((name, function, [str(a) for a in arguments], answer, needed))


def with_rooms(name, function, arguments, lists):
    """A call with all room there is."""
    rooms = {"trim": [BYTES], "unused": [PLACES, PLACES, AD_PLACES]}.get(function, [PLACES])
    case(name, function, rooms + arguments, lists)


def tight(name, function, arguments, lists):
    """The same with just the room it needs, and with a place less in each output that has one."""
    rooms = lengths(function, lists)
    case(f"tight-{name}", function, rooms + arguments, lists)
    for i, room in enumerate(rooms):
        if room > 0:
            case(f"tight-{name}-less-{i}", function, rooms[:i] + [room - 1] + rooms[i + 1 :] + arguments, 14, lists)


def without_signs(values):
    return values.replace("8000000000000000", "0000000000000000")


def recorded(file, keys):
    found = [dict(line.split("=", 1) for line in group) for group in grouped(Path("recorded", file).read_text().splitlines(), len(keys))]
    assert found and all(list(g) == keys for g in found)
    return found


def grouped(lines, size):
    assert len(lines) % size == 0
    return [lines[i : i + size] for i in range(0, len(lines), size)]


def recorded_with_rooms(function, file, keys, call):
    for i, g in enumerate(recorded(file, keys)):
        for make in (with_rooms, tight) if i < 12 else (with_rooms,):
            make(f"recorded-{function}-{i}", function, *call(g))


def unused_call(g):
    gt = ",".join(NO_CALL if a == "-1" else a for a in g["gt"].split(","))
    return [g["alt"], gt, g["gl"], g["ad"]], [g["kept_alt"], without_signs(g["kept_gl"]), g["kept_ad"]]


def recorded_cases():
    recorded_with_rooms("trim", "trim.kv", ["alleles", "trimmed"], lambda g: ([g["alleles"]], [g["trimmed"]]))
    for i, g in enumerate(recorded("gq.kv", ["pl", "gq"])):
        case(f"recorded-gq-{i}", "gq", [g["pl"]], [g["gq"]])
    recorded_with_rooms("log10", "likelihoods.kv", ["pl", "log10"], lambda g: ([g["pl"]], [without_signs(g["log10"])]))
    recorded_with_rooms(
        "subset", "subset.kv", ["gl", "alleles", "keep", "subset"],
        lambda g: ([g["alleles"], g["keep"], g["gl"]], [without_signs(g["subset"])]),
    )
    recorded_with_rooms("unused", "unused_alts.kv", ["alt", "gt", "gl", "ad", "kept_alt", "kept_gl", "kept_ad"], unused_call)


# ---- PLs without an allele


def records(path, head, sample):
    """The records of a list: the lines before the samples', and each sample's, as dictionaries."""
    rows = model.lines(path)
    samples = int(rows[0][1])
    group = [(dict(r[:head]), [dict(s) for s in grouped(r[head:], sample)]) for r in grouped(rows[2 + samples :], head + samples * sample)]
    return {(r["contig"], r["pos"]): (r, values) for r, values in group}


def drop_cases():
    seen = set()
    for line in Path("recorded/call/INDEX.txt").read_text().splitlines():
        number, sort, *_ = line.split()
        before, after = (records(Path("recorded/call", number, name), *sizes) for name, sizes in (("combined.kv", (5, 6)), ("called.kv", (4, 4))))
        for at in after:
            alts = before[at][0]["alt"].split(",")
            shape = len(alts) + 1, alts.index("<NON_REF>") + 1
            for i, (old, new) in enumerate(zip(before[at][1], after[at][1])):
                if old["pl"] != "." and (sort == "by" or shape not in seen):
                    seen.add(shape)
                    case(f"recorded-call-{number}-{at[0]}-{at[1]}-{i}", "drop", [*shape, old["pl"]], [new["pl"], new["gq"]])
    assert len(seen) > 20


# ---- cases by hand


def bits(*values):
    """f64 values by their bits: +0, -0 and infinity too."""
    return ",".join(struct.pack(">d", float(v)).hex() for v in values) or "."


def trim_cases():
    with_rooms("trim-AAT-AT", "trim", ["AAT,AT"], ["AA,A"])
    with_rooms("trim-CAT-GAT", "trim", ["CAT,GAT"], ["C,G"])
    with_rooms("trim-AT-T", "trim", ["AT,T"], ["AT,T"])
    with_rooms("trim-255-letters", "trim", ["A" + "C" * 254 + ",G" + "C" * 254], ["A,G"])
    for alleles, trimmed in (("aat,AT", "AA,A"), ("cAt,gaT", "C,G"), ("n", "N"), ("At,t,*,<NON_REF>", "AT,T,*,<NON_REF>"), ("a,c,g,t", "A,C,G,T")):
        with_rooms(f"trim-{alleles}", "trim", [alleles], [trimmed])
    with_rooms("trim-acgtn", "trim", ["acgtn"], ["ACGTN"])
    with_rooms("trim-small-255-letters", "trim", ["a" + "cC" * 127 + ",g" + "C" * 254], ["A,G"])
    tight("trim-AAt-GaT", "trim", ["AAt,GaT"], ["A,G"])
    sixteen = [letter * n for n in range(252, 256) for letter in "ACGT"]
    with_rooms("trim-16-alleles", "trim", [",".join(sixteen)], [",".join(sixteen)])
    for title, alleles in (
        ("repeated-ref", "AT,AT"), ("repeated-alt", "A,C,C"), ("repeated-star", "A,*,*"), ("repeated-non-ref", "A,<NON_REF>,<NON_REF>"),
        ("ref-star", "*,A"), ("ref-non-ref", "<NON_REF>,A"), ("ref-small-other", "r,C"), ("empty-text", "."), ("empty-ref", ",A"), ("empty-alt", "A,"),
        ("alt-small-other", "A,r"), ("alt-del", "AAT,AT,<DEL>"), ("17-alleles", ",".join(sixteen + ["N"])), ("ref-256-letters", "A" * 256),
        ("alt-256-letters", "A," + "C" * 256), ("repeated-ref-in-either-case", "a,A"), ("repeated-alt-in-either-case", "A,C,c"),
        ("small-non-ref", "A,<non_ref>"), ("non-ref-with-one-small-letter", "A,<NOn_REF>"), ("small-256-letters", "a" * 256),
        ("repeated-long-ref-in-either-case", "aT,G,At"),
    ):
        case(f"trim-5-{title}", "trim", [BYTES, alleles], 5)
    case("trim-5-before-14", "trim", [0, "AT,AT"], 5)
    case("trim-14-no-room", "trim", [0, "AAT,AT"], 14, ["AA,A"])


def pl_cases():
    case("gq-0-0-5", "gq", ["0,0,5"], ["0"])
    case("gq-0-150-200", "gq", ["0,150,200"], ["99"])
    case("drop-third-of-three", "drop", [3, 2, "90,80,70,10,20,30"], ["0,10,10", "10"])


def subset_cases():
    three, most = bits(-3, 0, -7.5), 2.0**31
    call = lambda title, answer, alleles, keep, gl, room=PLACES: case(f"subset-{title}", "subset", [room, alleles, keep, gl], answer)
    call("15-two-values-two-alleles", 15, 2, "0,1", bits(-3, 0))
    call("15-four-values-two-alleles", 15, 2, "0,1", bits(-3, 0, -7.5, -1))
    call("15-no-values", 15, 1, "0", ".")
    call("15-no-alleles", 15, 0, ".", ".")
    call("15-17-alleles", 15, 17, "0", bits(*range(-152, 1)))
    for title, value in (("infinity", "inf"), ("minus-infinity", "-inf"), ("above-2^31", most * (1 + 2**-52)), ("below-minus-2^31", -most * (1 + 2**-52))):
        call(f"15-{title}", 15, 2, "0,1", bits(-3, value, 0))
        call(f"15-{title}-not-picked", 15, 2, "0", bits(-3, 0, value))
    call("15-17-numbers", 15, 2, ",".join("01010101010101010"), three)
    call("15-number-2-of-two", 15, 2, "0,2", three)
    call("15-greatest-number", 15, 2, NO_CALL, three)
    call("15-before-14", 15, 2, "0,2", three, 0)


def unused_cases():
    three, six, most = bits(-3, 0, -7.5), bits(-3, 0, -7.5, -8, -9, -10), 2.0**31
    # no allele is read: ALTs stay as they are given
    with_rooms("unused-small-letters", "unused", ["g,aC", "0,2", six, "1,2,3"], ["aC", bits(0, -5, -7), "1,3"])
    with_rooms("unused-alts-alike-but-for-case", "unused", ["G,g", "2,1", six, "1,2,3"], ["G,g", six, "1,2,3"])
    with_rooms("unused-other-letters", "unused", ["<non_ref>,x", "0,1", six, "1,2,3"], ["<non_ref>", three, "1,2"])
    call = lambda title, answer, *arguments, rooms=(PLACES, PLACES, AD_PLACES): case(f"unused-{title}", "unused", [*rooms, *arguments], answer)
    many = ",".join("A" * n for n in range(2, 18))
    call("15-17-alleles", 15, many, "0,1", bits(*range(-152, 1)), ",".join(map(str, range(17))))
    call("15-17-alleles-all-assigned", 15, many, ",".join(map(str, range(17))), bits(*range(-152, 1)), ",".join(map(str, range(17))))
    call("15-one-value-three-alleles", 15, "G,T", "0,1", bits(0), "1,2,3")
    call("15-seven-values-three-alleles", 15, "G,T", "0,1", six + "," + bits(0), "1,2,3")
    for title, value in (("infinity", "inf"), ("minus-infinity", "-inf"), ("above-2^31", most * (1 + 2**-52)), ("below-minus-2^31", -most * (1 + 2**-52))):
        call(f"15-{title}", 15, "G,T", "0,1", bits(-3, 0, -7.5, -8, -9, value), "1,2,3")
    call("15-no-ad", 15, "G,T", "0,1", six, ".")
    call("15-ad-of-ref-alone", 15, "G,T", "0,1", six, "1")
    call("15-ad-without-the-second-alt", 15, "G,T", "0,2", six, "1,2")
    call("15-before-14", 15, "G,T", "0,1", bits(0), "1,2,3", rooms=(0, 0, 0))


# ---- the files


def printed(function, answer):
    if isinstance(answer, int):
        return f"refused={answer}"
    if function == "gq":
        return f"gq={answer[0]}"
    if function == "drop":
        return f"written={len(entries(answer[0]))} {answer[0]} gq={answer[1]}"
    return " ".join(["written=" + ",".join(map(str, lengths(function, answer)))] + answer)


def shown(name, function, arguments, answer, needed):
    """What a case shows. The tool stops if the rules in code give another answer."""
    broken, row = faults(function, arguments, answer if needed is None else needed)
    if row != (answer if isinstance(answer, int) else None):
        sys.exit(f"{name}: {answer} was expected, the rules in code say {row} for {broken}")
    if len(broken) > 1:
        return "several"
    if broken:
        return broken.pop()
    alleles = {"trim": arguments[1:2], "unused": arguments[3:4]}.get(function, [""])[0]
    if re.search("[acgtn]", alleles):
        return "small letters"
    return "copied" if function == "unused" and answer == arguments[3:4] + [without_signs(arguments[5])] + arguments[6:] else "written"


def main():
    for part in (recorded_cases, drop_cases, trim_cases, pl_cases, subset_cases, unused_cases):
        part()
    assert len({c[0] for c in CASES}) == len(CASES)
    covered = Counter((c[1], shown(*c)) for c in CASES)
    missing = {(function, what) for function, all in COVERED.items() for what in all} - covered.keys()
    if missing:
        sys.exit(f"not covered: {missing}")
    stdin = "".join(" ".join([name, function, *arguments]) + "\n" for name, function, arguments, _, _ in CASES)
    stdout = "".join(f"{name} {printed(function, answer)}\n" for name, function, _, answer, _ in CASES)
    assert len(stdin) <= INPUT_ROOM
    Path("crates/replay_alleles/stdin").write_text(stdin)
    Path("crates/replay_alleles/stdout").write_text(stdout)
    print(f"{len(CASES)} cases, {len(stdin)} bytes in, {len(stdout)} bytes out", *sorted(covered.items()), sep="\n")


if __name__ == "__main__":
    main()
