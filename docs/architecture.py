#!/usr/bin/env python3
"""Draws docs/architecture.svg from crates.txt: a box for each crate, an arrow to each crate that it uses and does not reach through another.

    docs/architecture.py            writes the picture
    docs/architecture.py --check    answers 1 if the picture is not what it would write
"""
import os
import sys

ROOT = os.path.join(os.path.dirname(os.path.abspath(__file__)), '..')
PICTURE = os.path.join(ROOT, 'docs', 'architecture.svg')
WIDTH, HEIGHT, ACROSS, DOWN, MARGIN = 132, 34, 22, 40, 16
LEGEND = 30


def read_crates():
    """The crates in the file's order, each with the crates of this repository on its line. A word behind the name says of what kind it is."""
    crates = {}
    with open(os.path.join(ROOT, 'crates.txt')) as file:
        for line in file:
            name, colon, uses = line.split('#')[0].partition(':')
            if colon:
                crates[name.split()[0]] = uses.split()
    return {name: [used for used in uses if used in crates] for name, uses in crates.items()}


def reached(crates, name):
    """Every crate that a crate uses, itself or through another."""
    found = set()
    for used in crates[name]:
        found |= {used} | reached(crates, used)
    return found


def direct(crates, name):
    """The crates that a crate uses and does not reach through another."""
    return [used for used in crates[name] if not any(used in reached(crates, other) for other in crates[name])]


def level(crates, name):
    return 1 + max((level(crates, used) for used in crates[name]), default=-1)


def is_program(name):
    return os.path.exists(os.path.join(ROOT, 'crates', name, 'src', 'main.rt'))


def places(crates):
    """The upper left corner of each box: a row for each level, the lowest at the bottom, libraries left of programs."""
    rows = {}
    for name in sorted(crates, key=is_program):
        rows.setdefault(level(crates, name), []).append(name)
    corners = {}
    for number, names in rows.items():
        for index, name in enumerate(names):
            corners[name] = (MARGIN + index * (WIDTH + ACROSS), MARGIN + (max(rows) - number) * (HEIGHT + DOWN))
    return corners


def box(x, y, name, program):
    kind, corner = ('program', 14) if program else ('library', 3)
    return [f'<rect class="{kind}" x="{x}" y="{y}" width="{WIDTH}" height="{HEIGHT}" rx="{corner}"/>',
            f'<text x="{x + WIDTH // 2}" y="{y + HEIGHT // 2 + 4}">{name}</text>']


def arrow(start, end):
    """From the middle of a box's bottom to the middle of another's top; past a row in between through the gap beside the lower box."""
    (x, y), (u, v) = start, end
    x, y, middle, top = x + WIDTH // 2, y + HEIGHT, u + WIDTH // 2, v - 3
    way = f'M{x} {y} '
    if v - y > DOWN:
        gap = u - ACROSS // 2 if u + WIDTH // 2 > x else u + WIDTH + ACROSS // 2
        way += f'C{x} {y + DOWN // 2} {gap} {y + DOWN // 2} {gap} {y + DOWN} L{gap} {v - DOWN} '
        x, y = gap, v - DOWN
    way += f'C{x} {y + DOWN // 2} {middle} {v - DOWN // 2} {middle} {top}'
    return f'<path class="uses" marker-end="url(#head)" d="{way}"/>'


def picture(crates):
    corners = places(crates)
    right = max(x for x, _ in corners.values()) + WIDTH + MARGIN
    bottom = max(y for _, y in corners.values()) + HEIGHT + MARGIN
    lines = [f'<svg xmlns="http://www.w3.org/2000/svg" viewBox="0 0 {right} {bottom + LEGEND}" font-family="sans-serif" font-size="13">',
             '<style>text{text-anchor:middle}.note{text-anchor:start;font-size:12px}.library{fill:#e8eef7;stroke:#345}'
             '.program{fill:#f6efdf;stroke:#543}.uses{fill:none;stroke:#555}</style>',
             '<defs><marker id="head" viewBox="0 0 8 8" refX="7" refY="4" markerWidth="7" markerHeight="7" orient="auto">'
             '<path d="M0 0 L8 4 L0 8 z" fill="#555"/></marker></defs>',
             f'<rect width="{right}" height="{bottom + LEGEND}" fill="white"/>']
    for name in crates:
        lines += [arrow(corners[name], corners[used]) for used in direct(crates, name)]
    for name in crates:
        lines += box(*corners[name], name, is_program(name))
    lines.append(f'<text class="note" x="{MARGIN}" y="{bottom + 12}">square: a library; round: a program; an arrow leads to what a crate uses</text>')
    return '\n'.join(lines + ['</svg>', ''])


def main():
    drawn = picture(read_crates())
    if sys.argv[1:] == ['--check']:
        with open(PICTURE) as file:
            sys.exit(0 if file.read() == drawn else 'docs/architecture.svg is not what crates.txt gives: run docs/architecture.py')
    with open(PICTURE, 'w') as file:
        file.write(drawn)


main()
