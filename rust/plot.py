#!/usr/bin/env python3
"""Draws the times of `compare speed`: nanoseconds for one record by size.

  python3 tools/measure.py >docs/speed.txt
  python3 rust/plot.py docs/speed.txt docs/speed.svg
"""
import math
import re
import sys

ROW = re.compile(r'(\d+) records +\d+ +(\d+)' + 4 * r' +([\d.]+\b)' + r' +[\d.]+ +[\d.]+$')
# What each column of times is called, and its colour.
CURVES = [('our sizing call', '#ca8a04', 0), ('our lowering call', '#b03a2e', 1), ('the Rust, tree ready', '#5499c7', 2),
          ('the Rust with reading', '#1f618d', 3)]
WIDTH, HEIGHT, LEFT, RIGHT, TOP, FOOT = 640, 360, 60, 150, 30, 50


def rows(path):
    """Records of a sheet, and nanoseconds for one of them, for each curve."""
    with open(path, encoding='utf-8') as file:
        found = [match for match in map(ROW.match, file) if match]
    return [(int(m[2]), [1000 * float(time) / int(m[2]) for time in m.groups()[2:]]) for m in found]


def draw(table):
    sizes = [records for records, _ in table]
    most = 50 * math.ceil(max(max(times) for _, times in table) / 50)

    def x(records):
        return LEFT + (WIDTH - LEFT - RIGHT) * math.log(records / sizes[0]) / math.log(sizes[-1] / sizes[0])

    def y(nanos):
        return HEIGHT - FOOT - (HEIGHT - TOP - FOOT) * nanos / most

    out = [f'<svg xmlns="http://www.w3.org/2000/svg" width="{WIDTH}" height="{HEIGHT}" '
           'font-family="sans-serif" font-size="12">',
           f'<rect width="{WIDTH}" height="{HEIGHT}" fill="white"/>',
           f'<text x="{LEFT}" y="18">nanoseconds for one record</text>']
    for nanos in range(0, most + 1, 50):
        out.append(f'<path d="M{LEFT} {y(nanos):.1f}H{WIDTH - RIGHT}" stroke="#ddd"/>')
        out.append(f'<text x="{LEFT - 8}" y="{y(nanos) + 4:.1f}" text-anchor="end">{nanos}</text>')
    for records in sizes:
        out.append(f'<text x="{x(records):.1f}" y="{HEIGHT - FOOT + 18}" text-anchor="middle">{records:,}</text>')
    middle = (LEFT + WIDTH - RIGHT) / 2
    out.append(f'<text x="{middle}" y="{HEIGHT - 12}" text-anchor="middle">records of a sheet</text>')
    free = HEIGHT
    for name, colour, column in sorted(CURVES, key=lambda curve: table[-1][1][curve[2]]):
        points = [(x(records), y(times[column])) for records, times in table]
        path = ' '.join(f'{a:.1f},{b:.1f}' for a, b in points)
        out.append(f'<polyline points="{path}" fill="none" stroke="{colour}" stroke-width="2"/>')
        out.extend(f'<circle cx="{a:.1f}" cy="{b:.1f}" r="3" fill="{colour}"/>' for a, b in points)
        # From the lowest curve up, no label on another.
        free = min(points[-1][1] + 4, free - 14)
        out.append(f'<text x="{points[-1][0] + 10:.1f}" y="{free:.1f}" fill="{colour}">{name}</text>')
    return '\n'.join(out + ['</svg>', ''])


def main():
    source, target = sys.argv[1:]
    with open(target, 'w', encoding='utf-8') as file:
        file.write(draw(rows(source)))


main()
