"""Draws docs/crates.svg, the crates by layer, from crates.txt: lower layers below, colours by section, test programs in a row of their own.

Run it in the repository's folder. A line goes up from a crate to one that leans on it; what follows from other lines is left out. A crate stands
above all that it leans on, and as high as what leans on it allows. Lines run between boxes, never over them. Standard library only.
"""
from html import escape
from pathlib import Path

TARGET = Path("docs/crates.svg")
COLOURS = ["#5b6b7b", "#1b6ca8", "#b8860b", "#2e8b57", "#8e44ad", "#c0392b", "#6d4c41"]
CHAR, HIGH, GAP, ROW, PAD = 7.3, 26, 14, 62, 24  # width of a letter, height of a box, room between boxes, from row to row, margin
SWEEPS = 60


def read():
    """Sections, and of each crate its section, what it is, and the crates it leans on."""
    sections, crates, said = [], {}, ""
    for line in Path("crates.txt").read_text().splitlines():
        if line.startswith("## "):
            sections.append(line[3:])
        elif line.startswith("#"):
            said = line[1:].strip()
        elif ":" in line:
            name, deps = line.split(":")
            crates[name] = (len(sections) - 1, said, deps.split())
    return sections, {n: (s, what, [d for d in deps if d in crates]) for n, (s, what, deps) in crates.items()}


def reduced(crates):
    """Of the crates that a crate leans on, those that none of the others leans on."""
    below = {}
    for name, (_, _, deps) in crates.items():
        below[name] = set(deps).union(*(below[d] for d in deps))
    return {n: [d for d in deps if not any(d in below[e] for e in deps)] for n, (_, _, deps) in crates.items()}


def layers(lines):
    """The layer of each crate, from 0: as low as it can be; then raised towards what leans on it, where it has no more lines below than above."""
    low = {}
    for name, deps in lines.items():
        low[name] = max((low[d] + 1 for d in deps), default=0)
    for name in reversed(list(lines)):
        users = [u for u, deps in lines.items() if name in deps]
        if users and len(users) >= len(lines[name]):
            low[name] = max(low[name], min(low[u] for u in users) - 1)
    return low


def rows_and_links(lines, layer):
    """Rows of nodes from below, and the links between neighbouring rows. A node is a crate, or (crate, row) where its line goes on upwards."""
    rows = [[n for n in lines if layer[n] == k] for k in range(max(layer.values()) + 1)]
    links = set()
    for name in lines:
        users = [u for u, deps in lines.items() if name in deps]
        at = name
        for k in range(layer[name] + 1, max((layer[u] for u in users), default=0) + 1):
            links |= {(at, u) for u in users if layer[u] == k}
            if any(layer[u] > k for u in users):
                rows[k].append((name, k))
                links.add((at, (name, k)))
                at = (name, k)
    return rows, links


def crossings(rows, links):
    place = {n: i for row in rows for i, n in enumerate(row)}
    where = {n: k for k, row in enumerate(rows) for n in row}
    found = 0
    for k in range(len(rows) - 1):
        ends = sorted((place[a], place[b]) for a, b in links if where[a] == k)
        found += sum(1 for i, (a, b) in enumerate(ends) for c, d in ends[i + 1:] if a < c and b > d)
    return found


def ordered(rows, links):
    """The rows with few crossings: each node towards the middle of its neighbours, upwards and downwards by turns."""
    up, down = {}, {}
    for a, b in links:
        up.setdefault(a, []).append(b)
        down.setdefault(b, []).append(a)
    best, least = [list(r) for r in rows], crossings(rows, links)
    for turn in range(SWEEPS):
        near = down if turn % 2 == 0 else up
        for k in range(len(rows)) if near is down else reversed(range(len(rows))):
            beside = rows[k - 1] if near is down and k else rows[k + 1] if near is up and k + 1 < len(rows) else []
            place = {n: i / max(1, len(beside) - 1) for i, n in enumerate(beside)}
            own = {n: i / max(1, len(rows[k]) - 1) for i, n in enumerate(rows[k])}
            middle = lambda n: sum(place[m] for m in near[n]) / len(near[n]) if near.get(n) and beside else own[n]
            rows[k].sort(key=middle)
        now = crossings(rows, links)
        if now < least:
            best, least = [list(r) for r in rows], now
    return best


def width(node):
    return 4 if isinstance(node, tuple) else len(node) * CHAR + 16


def spread(row, wanted):
    """Places of a row's nodes, nearest to those wanted, in this order and without touching (neighbours that would are moved as one)."""
    offset, runs = 0.0, []
    for i, node in enumerate(row):
        if i:
            offset += (width(row[i - 1]) + width(node)) / 2 + (GAP if not isinstance(node, tuple) or not isinstance(row[i - 1], tuple) else GAP / 2)
        weight = 4 if isinstance(node, tuple) else 1
        runs.append([(wanted[node] - offset) * weight, weight, [(node, offset)]])
        while len(runs) > 1 and runs[-2][0] / runs[-2][1] > runs[-1][0] / runs[-1][1]:
            total, weight, nodes = runs.pop()
            runs[-1][0] += total
            runs[-1][1] += weight
            runs[-1][2] += nodes
    return {node: total / weight + off for total, weight, nodes in runs for node, off in nodes}


def placed(rows, links):
    """Where the middle of each node stands, from left to right."""
    beside = {}
    for a, b in links:
        beside.setdefault(a, []).append(b)
        beside.setdefault(b, []).append(a)
    x = {}
    for row in rows:
        x.update(spread(row, {n: 0.0 for n in row}))
    for turn in range(SWEEPS):
        for row in rows if turn % 2 else reversed(rows):
            x.update(spread(row, {n: sum(x[m] for m in beside[n]) / len(beside[n]) if n in beside else x[n] for n in row}))
    left = min(x[n] - width(n) / 2 for n in x)
    return {n: x[n] - left + PAD for n in x}


def box(name, x, y, crates):
    section, what, deps = crates[name]
    colour = COLOURS[section % len(COLOURS)]
    return (f'<g><title>{escape(name)}: {escape(what)}. Leans on {escape(", ".join(deps) or "nothing")}.</title>'
            f'<rect x="{x - width(name) / 2:.1f}" y="{y:.1f}" width="{width(name):.1f}" height="{HIGH}" rx="4" fill="{colour}" fill-opacity="0.13" stroke="{colour}"/>'
            f'<text x="{x:.1f}" y="{y + 17:.1f}" text-anchor="middle">{escape(name)}</text></g>')


def curve(x0, y0, x1, y1, colour):
    half = (y0 + y1) / 2
    return f'<path d="M{x0:.1f} {y0:.1f} C{x0:.1f} {half:.1f} {x1:.1f} {half:.1f} {x1:.1f} {y1:.1f}" fill="none" stroke="{colour}" stroke-opacity="0.55"/>'


def legend(sections, wide):
    """The names of the sections, beside their colours, in rows as wide as the picture; and where the next thing may stand."""
    out, x, y = [], PAD, 14
    for k, title in enumerate(sections):
        if x + 20 + len(title) * CHAR > wide - PAD:
            x, y = PAD, y + 20
        colour = COLOURS[k % len(COLOURS)]
        out.append(f'<rect x="{x:.1f}" y="{y}" width="12" height="12" rx="2" fill="{colour}" fill-opacity="0.4" stroke="{colour}"/>')
        out.append(f'<text x="{x + 18:.1f}" y="{y + 11}">{escape(title)}</text>')
        x += 44 + len(title) * CHAR
    return out, y + 40


def tests_row(tests, y, wide, crates):
    """Boxes of the test crates, in rows; and where the next thing may stand."""
    out, x = [f'<text x="{PAD}" y="{y}">Tests, without their lines; test_cases is their library:</text>'], PAD
    y += 10
    for name in tests:
        if x + width(name) > wide - PAD:
            x, y = PAD, y + HIGH + 10
        out.append(box(name, x + width(name) / 2, y, crates))
        x += width(name) + GAP
    return out, y + HIGH + 28


def main():
    sections, crates = read()
    tests = [n for n, (_, what, _) in crates.items() if what.startswith("test")]
    lines = {n: deps for n, deps in reduced(crates).items() if n not in tests}
    layer = layers(lines)
    rows, links = rows_and_links(lines, layer)
    rows = ordered(rows, links)
    x = placed(rows, links)
    wide = max(x[n] + width(n) / 2 for n in x) + PAD
    out, top = legend(sections, wide)
    boxes, top = tests_row(tests, top, wide, crates)
    out += boxes
    y = {n: top + (len(rows) - 1 - k) * ROW for k, row in enumerate(rows) for n in row}
    high = top + len(rows) * ROW - (ROW - HIGH) + PAD
    for a, b in sorted(links, key=str):
        colour = COLOURS[crates[a if isinstance(a, str) else a[0]][0] % len(COLOURS)]
        out.append(curve(x[a], y[a], x[b], y[b] + HIGH, colour))
        if isinstance(b, tuple):
            out.append(f'<path d="M{x[b]:.1f} {y[b] + HIGH:.1f} V{y[b]:.1f}" stroke="{colour}" stroke-opacity="0.55"/>')
    out += [box(n, x[n], y[n], crates) for row in rows for n in row if isinstance(n, str)]
    head = f'<svg xmlns="http://www.w3.org/2000/svg" width="{wide:.0f}" height="{high:.0f}" viewBox="0 0 {wide:.0f} {high:.0f}" font-family="DejaVu Sans Mono, monospace" font-size="12">'
    TARGET.write_text("\n".join([head, f'<rect width="{wide:.0f}" height="{high:.0f}" fill="white"/>', *out, "</svg>"]) + "\n")


main()
