#!/usr/bin/env python3
"""Measures how many bytes the processor moves for a datagram in and out, by each semantics, with `genie cost`.

Writes the picture docs/copying.svg, and the tables of the section "Measured" of docs/COPYING.md. The numbers are counts of
the program and no times, so they are the same on every machine.
"""

import argparse
import os
import re
import subprocess
import sys
import tempfile

import scripts

HERE = os.path.dirname(os.path.abspath(__file__))
TOP = os.path.dirname(HERE)
PROGRAM = os.path.join(TOP, "crates", "genie", "out", "genie")

DATAGRAM = 61440
SIZES = [256, 512, 1024, 1536, 2048, 3072, 4096, 6144, 8192, 12288, 16384, 20480, 28672, 36864, 45056, 53248, 61440]
NAMES = {"c": "copy", "ec": "emulated copy", "s": "share", "es": "emulated share", "m": "move", "em": "emulated move",
         "w": "weak move", "ew": "emulated weak move"}
COLORS = {"c": "#c0392b", "ec": "#2471a3", "s": "#b9770e", "es": "#7d6608", "m": "#6c3483", "em": "#117864", "w": "#566573",
          "ew": "#1b2631"}


def costs(program, kind, semantics, size):
    """The numbers of the line of cost of each event of three datagrams, behind those that make the process ready."""
    ready = ["map 0 0 16"]
    lines = scripts.boot(64, kind) + ready
    events = []
    for number in range(3):
        events += scripts.passing(kind, semantics, size, 2 * number + 1)
    scripts.write_lines("script", lines + [line for line, _ in events])
    scripts.write_stream("input", size, 3)
    ended = subprocess.run([program, "cost", "script"], stdin=subprocess.DEVNULL, stdout=subprocess.PIPE, check=True)
    said = ended.stdout.decode().splitlines()[-2 * len(events):]
    if said[0::2] != [reply for _, reply in events]:
        sys.exit("copying: %s of %d bytes on an %s device: the replies aren't as expected" % (semantics, size, kind))
    words = [line.split()[0] for line, _ in events]
    return list(zip(words, [[int(number) for number in line.split()[2::2]] for line in said[1::2]]))


def moved(program, kind, semantics, size):
    """The bytes that the processor moves for the third datagram, in and out."""
    events = costs(program, kind, semantics, size)
    last = events[len(events) // 3 * 2:]
    begins = [word for word, _ in last].index("out")
    return [sum(sum(numbers[:4]) for _, numbers in part) for part in (last[:begins], last[begins:])]


def picture(rows):
    """The picture: for early and pooled devices a panel, with a line for each semantics over the sizes."""
    width, height, left, top = 430, 300, 70, 40
    out = ['<svg xmlns="http://www.w3.org/2000/svg" viewBox="0 0 %d %d" font-family="sans-serif" font-size="12">' % (2 * (width + left) + 20, height + 190)]
    out.append('<rect width="100%" height="100%" fill="white"/>')
    for panel, kind in enumerate(["early", "pooled"]):
        x, y = left + panel * (width + left), top
        most = max(sum(pair) for semantics in scripts.SEMANTICS for pair in rows[kind, semantics])
        out.append('<text x="%d" y="%d" font-size="14">%s device</text>' % (x, y - 14, kind))
        out.append('<rect x="%d" y="%d" width="%d" height="%d" fill="none" stroke="#888"/>' % (x, y, width, height))
        for step in range(5):
            at = y + height - height * step // 4
            out.append('<text x="%d" y="%d" text-anchor="end">%d</text>' % (x - 6, at + 4, most * step // 4))
            out.append('<line x1="%d" y1="%d" x2="%d" y2="%d" stroke="#ddd"/>' % (x, at, x + width, at))
        for size in [4096, 16384, 28672, 45056, 61440]:
            out.append('<text x="%d" y="%d" text-anchor="middle">%d</text>' % (x + width * size // DATAGRAM, y + height + 16, size))
        for number, semantics in enumerate(scripts.SEMANTICS):
            points = []
            for size, pair in zip(SIZES, rows[kind, semantics]):
                points.append("%.1f,%.1f" % (x + width * size / DATAGRAM, y + height - height * sum(pair) / most - number / 2))
            out.append('<polyline points="%s" fill="none" stroke="%s" stroke-width="2"/>' % (" ".join(points), COLORS[semantics]))
    for number, semantics in enumerate(scripts.SEMANTICS):
        x, y = left + 230 * (number % 4), top + height + 60 + 22 * (number // 4)
        out.append('<line x1="%d" y1="%d" x2="%d" y2="%d" stroke="%s" stroke-width="2"/>' % (x, y - 4, x + 24, y - 4, COLORS[semantics]))
        out.append('<text x="%d" y="%d">%s</text>' % (x + 30, y, NAMES[semantics]))
    out.append('<text x="%d" y="%d">Bytes moved by the processor for a datagram in and out (up), by its size in bytes (right).</text>' % (left, top + height + 120))
    out.append('<text x="%d" y="%d">Lines of the same height are drawn one beside the other.</text>' % (left, top + height + 138))
    out.append("</svg>")
    return "\n".join(out) + "\n"


def table(program):
    """The bytes moved for a datagram of 61,440 bytes, in and out, by semantics and device."""
    lines = ["| Semantics | " + " | ".join("%s, in | %s, out" % (kind, kind) for kind in scripts.KINDS) + " |", "|---" * 7 + "|"]
    for semantics in scripts.SEMANTICS:
        cells = [str(number) for kind in scripts.KINDS for number in moved(program, kind, semantics, DATAGRAM)]
        lines.append("| %s | %s |" % (NAMES[semantics], " | ".join(cells)))
    return "\n".join(lines)


def main():
    parser = argparse.ArgumentParser(description=__doc__.split("\n")[0])
    parser.add_argument("--program", default=PROGRAM, help="the program, else the one that the gate built")
    program = os.path.abspath(parser.parse_args().program)
    with tempfile.TemporaryDirectory() as folder:
        os.chdir(folder)
        rows = {(kind, semantics): [moved(program, kind, semantics, size) for size in SIZES] for kind in ["early", "pooled"] for semantics in scripts.SEMANTICS}
        measured = table(program)
    with open(os.path.join(TOP, "docs", "copying.svg"), "w") as file:
        file.write(picture(rows))
    name = os.path.join(TOP, "docs", "COPYING.md")
    with open(name, encoding="utf-8") as file:
        text = file.read()
    text = re.sub(r"(?<=<!-- measured -->\n).*?(?=<!-- end -->)", lambda _: measured + "\n", text, flags=re.S)
    with open(name, "w", encoding="utf-8") as file:
        file.write(text)


main()
