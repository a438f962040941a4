"""Draws what the program `depth` printed as an SVG along the contig, thin stretches marked. Standard library only.

    depth_plot.py depth.kv WINDOWS OUT.svg [THIN]

WINDOWS is the program's output, a line `window=FIRST,COUNT` for each window; depth.kv is what it was asked. A window is thin if fewer than THIN
percent of its positions are deep enough (50 unless said). Windows that overlap are drawn as far as the next one.
"""
import sys
from html import escape
from pathlib import Path

WIDTH, HEIGHT = 960, 300
LEFT, RIGHT, TOP, BOTTOM = 64, 20, 56, 74  # the margins around the bars
DEEP, THIN, GRID, INK, SOFT = "#2f7d5b", "#c2452d", "#d9dde2", "#1f2933", "#616e7c"


def asked(path):
    return dict(line.split("=", 1) for line in Path(path).read_text().splitlines())


def windows(path):
    """The first position and the count of each window."""
    found = []
    for line in Path(path).read_text().splitlines():
        key, _, value = line.partition("=")
        if key != "window":
            sys.exit(f"{path}: nothing to draw: {line}")
        found.append(tuple(int(n) for n in value.split(",")))
    return found


def runs(thin, width):
    """Thin windows that touch, as stretches from a first position to just before a last."""
    found = []
    for begin in thin:
        if found and found[-1][1] >= begin:
            found[-1][1] = begin + width
        else:
            found.append([begin, begin + width])
    return found


def round_step(span):
    """A round distance between ticks: about eight of them."""
    step = 1
    while span / step > 8:
        step = step * 2 if str(step)[0] == "1" else step * 5 // 2 if str(step)[0] == "2" else step * 2
    return step


def text(x, y, words, size=12, anchor="middle", ink=SOFT, more=""):
    return f'<text x="{x:.1f}" y="{y:.1f}" font-size="{size}" text-anchor="{anchor}" fill="{ink}"{more}>{escape(words)}</text>'


def box(x, y, width, height, fill, title=""):
    inside = f"<title>{escape(title)}</title></rect>" if title else "</rect>"
    return f'<rect x="{x:.2f}" y="{y:.2f}" width="{max(width, 0.4):.2f}" height="{height:.2f}" fill="{fill}">{inside}'


def frame(scale, first, past):
    """The grid, the shares on the left, and the positions below."""
    base = HEIGHT - BOTTOM
    for share in range(0, 101, 25):
        y = base - (base - TOP) * share / 100
        yield f'<line x1="{LEFT}" y1="{y:.1f}" x2="{WIDTH - RIGHT}" y2="{y:.1f}" stroke="{GRID}"/>'
        yield text(LEFT - 8, y + 4, f"{share} %", anchor="end")
    step = round_step(past - first)
    for position in range(-(-first // step) * step, past, step):
        yield f'<line x1="{scale(position):.1f}" y1="{base}" x2="{scale(position):.1f}" y2="{base + 5}" stroke="{SOFT}"/>'
        yield text(scale(position), base + 34, f"{position:,}")


def picture(question, found, least):
    length, step = int(question["length"]), int(question["step"])
    width = min(length, step)
    first, past = found[0][0], found[-1][0] + width
    scale = lambda position: LEFT + (WIDTH - LEFT - RIGHT) * (position - first) / (past - first)
    base = HEIGHT - BOTTOM
    thin = [begin for begin, count in found if count * 100 < least * length]
    head = f"{question['contig']}, sample {question['sample']}: positions with DP {question['threshold']} or more"
    below = f"windows of {length:,} positions, every {step:,}; {len(thin)} of {len(found)} thin (under {least} %)"
    parts = [
        f'<svg xmlns="http://www.w3.org/2000/svg" width="{WIDTH}" height="{HEIGHT}" viewBox="0 0 {WIDTH} {HEIGHT}" font-family="sans-serif">',
        f'<rect width="{WIDTH}" height="{HEIGHT}" fill="#ffffff"/>',
        text(LEFT, 24, head, 16, "start", INK, ' font-weight="bold"'),
        text(LEFT, 43, below, 12, "start"),
        *frame(scale, first, past),
    ]
    for begin, count in found:
        tall = (base - TOP) * count / length
        is_thin = count * 100 < least * length
        title = f"{begin:,}: {count:,} of {length:,}"
        parts.append(box(scale(begin), base - tall, scale(begin + width) - scale(begin), tall, THIN if is_thin else DEEP, title))
    for begin, end in runs(thin, width):
        parts.append(box(scale(begin), base + 8, scale(end) - scale(begin), 6, THIN, f"thin: {begin:,} to {end - 1:,}"))
    parts += [text(WIDTH / 2, HEIGHT - 12, "position on the contig"), "</svg>"]
    return "\n".join(parts) + "\n"


def main(words):
    if len(words) not in (3, 4):
        sys.exit(__doc__)
    found = windows(words[1])
    if not found:
        sys.exit("no window: the contig has no record")
    Path(words[2]).write_text(picture(asked(words[0]), found, int(words[3]) if len(words) == 4 else 50))


main(sys.argv[1:])
