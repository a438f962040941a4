"""Prints the table of docs/TIMES.md from what `.ci/run` printed: python3 tools/times_table.py LOG

For each crate, in the order of crates.txt: its functions, the seconds of its check, and its must-fail edits with the fewest and the most seconds."""
import re
import sys


def main(path):
    functions, checks, edits, order, last = {}, {}, {}, [], None
    for line in open(path, errors="replace"):
        if m := re.search(r"^logic=proved functions=(\d+)", line):
            last = int(m.group(1))
        elif m := re.match(r"rt: (\w+) proved \((\d+) s\)", line):
            order.append(m.group(1))
            functions[m.group(1)], checks[m.group(1)] = last, int(m.group(2))
        elif m := re.match(r"rt: must-fail (\w+)/\w+: refused.*; (\d+) s\)", line):
            edits.setdefault(m.group(1), []).append(int(m.group(2)))
    print("| crate | functions | check | must-fail edits |\n|---|---|---|---|")
    listed = [line.split(":")[0] for line in open("crates.txt") if re.match(r"\w+:", line)]
    for crate in sorted(order, key=listed.index):
        seconds = edits.get(crate)
        least, most = (min(seconds), max(seconds)) if seconds else (0, 0)
        tried = "–" if not seconds else f"{len(seconds)}, {least} s" if least == most else f"{len(seconds)}, {least} to {most} s"
        print(f"| `{crate}` | {functions[crate] or '–'} | {checks[crate]} s | {tried} |")
    over = sorted(((s, c) for c, s in checks.items() if s > 40), reverse=True)
    print("\nOver 40 s: " + ", ".join(f"`{c}` ({s} s)" for s, c in over) + ".")


main(sys.argv[1])
