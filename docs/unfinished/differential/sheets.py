"""Holds `selection_sheet::selection_sheet` to the plain model sheet_model.py, on generated marker files and called lists.

    sheets.py SEED COUNT [PROGRAM]             in the repository's folder; PROGRAM is target/bin/test_sheet (rt check test_sheet)
    sheets.py --slips SEED COUNT [PROGRAM]     puts slips into the model, one at a time, and says at which sheet each is told, and at how many

The program is fed as many calls at a time as it has room for; every answer is compared, bytes of the sheet or number of the row."""

import random
import subprocess
import sys
import tempfile
from collections import Counter
from pathlib import Path

sys.dont_write_bytecode = True
import sheet_draws as draws
import sheet_model as model
from sheet_slips import SLIPS, slipped

INPUT_ROOM = 262_144


def cases(seed, count):
    """The cases of a seed, each the same however many are drawn."""
    for i in range(count):
        yield (i, *draws.drawn(random.Random(f"{seed} {i}")))


def written(case):
    i, _, markers, called, room = case
    return f"{len(markers)} {len(called)} 0 {room} case{i}\n{markers}{called}".encode("latin-1")


def batches(found):
    batch, size = [], 0
    for case in found:
        length = len(written(case))
        if size + length > INPUT_ROOM:
            yield batch
            batch, size = [], 0
        batch.append(case)
        size += length
    if batch:
        yield batch


def answers(program, batch):
    """What the program gave for each case: the sheet, or the row's number."""
    ran = subprocess.run([program], input=b"".join(map(written, batch)), capture_output=True)
    if ran.returncode != 0:
        sys.exit(f"{program} ended with {ran.returncode} between cases {batch[0][0]} and {batch[-1][0]}")
    found = []
    for line in ran.stdout.decode("latin-1").split("\n")[:-1]:
        if line.startswith(("sample=", "sum=")):
            found[-1][1] += line + "\n"
        else:
            name, _, row = line.partition(" refused=")
            found.append([name, int(row) if row else ""])
    if [name for name, _ in found] != [f"case{i}" for i, *_ in batch]:
        sys.exit(f"other cases answered than asked between {batch[0][0]} and {batch[-1][0]}")
    return [answer for _, answer in found]


def keep(case, answer, wanted):
    """Writes the texts of a case that differs, and says what was found."""
    i, kind, markers, called, room = case
    folder = Path(tempfile.mkdtemp())
    (folder / "markers.kv").write_bytes(markers.encode("latin-1"))
    (folder / "called.kv").write_bytes(called.encode("latin-1"))
    print(f"case {i} ({kind}, {room} bytes lent), in {folder}:\nfound {answer!r}\nwanted {wanted!r}")


def compare(seed, count, program):
    shown, kinds, different = Counter(), Counter(), 0
    for batch in batches(cases(seed, count)):
        for case, answer in zip(batch, answers(program, batch)):
            wanted = model.selection_sheet(*case[2:])
            shown[wanted if isinstance(wanted, int) else 0] += 1
            kinds[case[1]] += 1
            if answer != wanted:
                different += 1
                if different == 1:
                    keep(case, answer, wanted)
    print(f"{count} calls, {different} differ; drawn: " + ", ".join(f"{kind} {n}" for kind, n in sorted(kinds.items())))
    print(f"sheets {shown.pop(0, 0)}; refused with " + ", ".join(f"{row}: {n}" for row, n in sorted(shown.items())))
    return min(different, 1)


def told(seed, count, program):
    """For each slip the first case at which the program and the slipped model differ, and how many do."""
    first, differ = {}, Counter()
    for batch in batches(cases(seed, count)):
        found = answers(program, batch)
        for name in SLIPS:
            with slipped(name):
                for (i, _, markers, called, room), answer in zip(batch, found):
                    if model.selection_sheet(markers, called, room) != answer:
                        first.setdefault(name, i)
                        differ[name] += 1
    for name in SLIPS:
        print(f"{name}: first {first.get(name, 'not told')}, {differ[name]} of {count}")
    return min(len(SLIPS) - len(first), 1)


def main(run, seed, count, program="target/bin/test_sheet"):
    sys.exit(run(seed, int(count), program))


if __name__ == "__main__":
    if sys.argv[1] == "--slips":
        main(told, *sys.argv[2:])
    main(compare, *sys.argv[1:])
