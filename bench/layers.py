#!/usr/bin/env python3
"""Draws docs/layers.svg from crates.txt: each crate above those that it stands on, with a line to each that no other of them stands on too."""
import os
from html import escape

ROOT = os.path.dirname(os.path.dirname(os.path.abspath(__file__)))
WIDTH, HEIGHT, GAP_X, GAP_Y, MARGIN = 150, 26, 14, 44, 20
FAMILIES = (
    (("rtl_",), "#dbeafe", "register transfers"),
    (("md_", "recogniser", "shipped"), "#dcfce7", "descriptions"),
    (("c_",), "#fef3c7", "C"),
    (("asm_", "machine_"), "#fce7f3", "assembly and the machine"),
    ((), "#f3f4f6", "the outside, runs and the program"),
)


def crates():
    """Each crate with the crates of this repository that it stands on."""
    with open(f"{ROOT}/crates.txt") as file:
        lines = [line.partition("#")[0] for line in file]
    named = {line.partition(":")[0].strip(): line.partition(":")[2].split() for line in lines if ":" in line}
    return {name: [other for other in below if other in named] for name, below in named.items()}


def family(name):
    return next(number for number, (heads, _, _) in enumerate(FAMILIES) if not heads or name.startswith(heads))


def main():
    below = crates()
    reach, level = {}, {}

    def visit(name):
        if name not in reach:
            for other in below[name]:
                visit(other)
            reach[name] = set(below[name]).union(*(reach[other] for other in below[name]))
            level[name] = 1 + max((level[other] for other in below[name]), default=-1)

    for name in below:
        visit(name)
    rows = [[name for name in below if level[name] == row] for row in range(1 + max(level.values()))]
    widest = max(map(len, rows))
    place = {}
    for row, names in enumerate(rows):
        names.sort(key=lambda name: (family(name), sum(place[other][0] for other in below[name]) / max(len(below[name]), 1)))
        left = MARGIN + (widest - len(names)) * (WIDTH + GAP_X) / 2
        for number, name in enumerate(names):
            place[name] = left + number * (WIDTH + GAP_X), MARGIN + (len(rows) - 1 - row) * (HEIGHT + GAP_Y)
    width = 2 * MARGIN + widest * (WIDTH + GAP_X)
    height = 2 * MARGIN + len(rows) * (HEIGHT + GAP_Y)
    parts = [f'<svg xmlns="http://www.w3.org/2000/svg" viewBox="0 0 {width:.0f} {height:.0f}" font-family="monospace" font-size="12">', '<rect width="100%" height="100%" fill="white"/>']
    for name, others in below.items():
        x, y = place[name]
        for other in others:
            if not any(other in reach[between] for between in others):
                to_x, to_y = place[other]
                parts.append(f'<line x1="{x + WIDTH / 2:.0f}" y1="{y + HEIGHT:.0f}" x2="{to_x + WIDTH / 2:.0f}" y2="{to_y:.0f}" stroke="#9ca3af"/>')
    for name, (x, y) in place.items():
        parts.append(f'<rect x="{x:.0f}" y="{y:.0f}" width="{WIDTH}" height="{HEIGHT}" rx="4" fill="{FAMILIES[family(name)][1]}" stroke="#6b7280"/>')
        parts.append(f'<text x="{x + WIDTH / 2:.0f}" y="{y + 17:.0f}" text-anchor="middle">{escape(name)}</text>')
    for number, (_, colour, title) in enumerate(FAMILIES):
        y = MARGIN + number * 20
        parts.append(f'<rect x="{MARGIN}" y="{y}" width="14" height="14" fill="{colour}" stroke="#6b7280"/><text x="{MARGIN + 20}" y="{y + 11}">{title}</text>')
    parts.append("</svg>\n")
    with open(f"{ROOT}/docs/layers.svg", "w") as file:
        file.write("\n".join(parts))


if __name__ == "__main__":
    main()
