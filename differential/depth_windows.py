"""Holds `depth_windows::depth_windows` to a count position by position, on generated lists.

    depth_windows.py SEED COUNT        in the repository's folder; crates/replay_depth/out/replay_depth must be built (rt run in crates/replay_depth)

The lists and the count are those of tools/make_depth_cases.py: one to three contigs of up to six records, blocks and single positions, with gaps;
thresholds, lengths and steps of all sorts, samples that are not there (17), too few places (14). The program is fed as many calls at a time as it
has room for, and every line that it prints is compared.
"""
import subprocess
import sys
from pathlib import Path

sys.dont_write_bytecode = True
sys.path.insert(0, str(Path(__file__).resolve().parent.parent / "tools"))
import make_depth_cases as depth

PER_RUN = 150


def main(seed, count):
    shown = {}
    for start in range(0, count, PER_RUN):
        depth.CASES.clear()
        depth.generated(f"{seed} {start}", min(PER_RUN, count - start))
        stdin, wanted = depth.written(depth.CASES)
        if len(stdin) > depth.INPUT_ROOM:
            sys.exit(f"{len(stdin)} bytes, and room for {depth.INPUT_ROOM}")
        found = subprocess.run(["crates/replay_depth/out/replay_depth"], input=stdin, capture_output=True, text=True).stdout
        if found != wanted:
            for a, b in zip(found.splitlines(), wanted.splitlines()):
                if a != b:
                    sys.exit(f"run {start}: {a} found, {b} wanted")
            sys.exit(f"run {start}: {len(found)} bytes found, {len(wanted)} wanted")
        for c in depth.CASES:
            sort = f"refused {c.answer}" if isinstance(c.answer, int) else "windows" if any(c.answer) else "no window" if not c.answer else "all thin"
            shown[sort] = shown.get(sort, 0) + 1
    print(f"{count} calls without a difference:", ", ".join(f"{n} {sort}" for sort, n in sorted(shown.items())))


main(sys.argv[1], int(sys.argv[2]))
