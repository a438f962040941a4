"""Draws the ratio of both sides by size: python3 plot.py TABLE > FILE.svg, where TABLE is what bench or instructions.sh printed."""
import sys

COLOURS = {"mixed": "#1b6ca8", "dense": "#c0392b", "blocks": "#2e8b57", "contigs": "#b8860b", "overlaps": "#6a3d9a"}
WIDTH, HEIGHT, LEFT, TOP, BOTTOM = 760, 380, 60, 30, 70


def main():
    rows = [line.split() for line in open(sys.argv[1])]
    head, rows = rows[0], rows[1:]
    ratio = head.index("ratio")
    sizes, lines = [], {}
    for row in rows:
        size = f"{row[1]}×{row[2]}"
        if size not in sizes:
            sizes.append(size)
        lines.setdefault(row[0], []).append((sizes.index(size), float(row[ratio])))
    most = max(r for points in lines.values() for _, r in points) * 1.1
    x = lambda i: LEFT + i * (WIDTH - LEFT - 110) / (len(sizes) - 1)
    y = lambda r: TOP + (HEIGHT - TOP - BOTTOM) * (1 - r / most)
    out = [f'<svg xmlns="http://www.w3.org/2000/svg" width="{WIDTH}" height="{HEIGHT}" font-family="sans-serif" font-size="12">',
           f'<rect width="{WIDTH}" height="{HEIGHT}" fill="white"/>',
           f'<text x="{LEFT}" y="18">The Rust\'s time over Wintabol\'s, by samples × sites (above 1: Wintabol is faster)</text>']
    for k in range(int(most) + 1):
        out.append(f'<line x1="{LEFT}" y1="{y(k):.1f}" x2="{x(len(sizes) - 1):.1f}" y2="{y(k):.1f}" stroke="#ddd"/>')
        out.append(f'<text x="{LEFT - 20}" y="{y(k) + 4:.1f}">{k}</text>')
    for i, size in enumerate(sizes):
        out.append(f'<text x="{x(i):.1f}" y="{HEIGHT - BOTTOM + 18}" text-anchor="middle" font-size="10">{size}</text>')
    for n, (shape, points) in enumerate(lines.items()):
        path = " ".join(f"{x(i):.1f},{y(r):.1f}" for i, r in points)
        colour = COLOURS.get(shape, "black")
        out.append(f'<polyline points="{path}" fill="none" stroke="{colour}" stroke-width="2"/>')
        out.append(f'<text x="{x(len(sizes) - 1) + 10:.1f}" y="{TOP + 20 + 18 * n}" fill="{colour}">{shape}</text>')
    out.append("</svg>")
    print("\n".join(out))


main()
