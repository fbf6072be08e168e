#!/usr/bin/env python3
"""Measures the program, and writes the table of what it measured to a file. README.md says what each line means."""

import argparse
import filecmp
import os
import re
import shutil
import subprocess
import sys
import tempfile
import time

import scripts

HERE = os.path.dirname(os.path.abspath(__file__))
PROGRAM = os.path.join(os.path.dirname(HERE), "crates", "genie", "out", "genie")

DATAGRAM = 61440


def stop(text):
    sys.exit("bench: " + text)


def run(words, replies):
    """The seconds that a command takes, whose standard output goes to a file. It has to end with status 0."""
    with open(replies, "wb") as file:
        start = time.perf_counter()
        ended = subprocess.run(words, stdin=subprocess.DEVNULL, stdout=file, stderr=subprocess.PIPE)
        seconds = time.perf_counter() - start
    if ended.returncode != 0:
        stop("%s ended with status %d: %s" % (" ".join(words), ended.returncode, ended.stderr.decode(errors="replace").strip()))
    return seconds


def same(name, expected):
    """Stops where a file isn't as expected: what is measured has to be right."""
    if not filecmp.cmp(name, expected, shallow=False):
        stop("%s isn't as expected; the run is left in %s" % (name, os.getcwd()))


def replay(program):
    seconds = run([program, "replay", "script"], "replies")
    same("replies", "expected")
    return seconds


class Table:
    """The lines of the table, which are shown as they come."""

    def __init__(self):
        self.lines = []

    def add(self, *lines):
        for line in lines:
            print(line, flush=True)
            self.lines.append(line)

    def head(self, title, about, *columns):
        self.add("", "## " + title, "", about, "", "| " + " | ".join(columns) + " |", "|" + "---|" * len(columns))

    def row(self, *cells):
        self.add("| " + " | ".join(cells) + " |")


def measure_datagrams(table, program, loop, count, repeats):
    """Datagrams in and out by each semantics on each kind of device, beside a bare loop over the same files."""
    table.head(
        "Datagrams in and out",
        "%d datagrams of %d bytes in each line; the least of %d runs." % (count, DATAGRAM, repeats),
        "Device", "Semantics", "Program, s", "Loop, s", "Ratio", "Datagrams a second", "MB a second",
    )
    scripts.write_stream("input", DATAGRAM, count)
    for kind in scripts.KINDS:
        sums = [0.0, 0.0]
        for semantics in scripts.SEMANTICS:
            scripts.datagrams(kind, semantics, DATAGRAM, count)
            bare, ours = [], []
            for _ in range(repeats):
                bare.append(run([loop, "input", "copy", str(DATAGRAM + 8), str(count)], "nothing"))
                ours.append(replay(program))
                same("output", "input")
                same("copy", "input")
            datagram_row(table, kind, semantics, count, min(ours), min(bare))
            sums[0] += min(ours)
            sums[1] += min(bare)
        datagram_row(table, kind, "all", count * len(scripts.SEMANTICS), sums[0], sums[1])
    for name in ["input", "output", "copy"]:
        os.remove(name)


def datagram_row(table, kind, semantics, count, ours, bare):
    table.row(
        kind, semantics, "%.3f" % ours, "%.3f" % bare, "%.2f" % (ours / bare), "%.0f" % (count / ours),
        "%.0f" % (count * DATAGRAM / ours / 1e6),
    )


def measure_rates(table, program, made_rounds, reads, repeats):
    """A made script, and a script of reads."""
    table.head("Rates", "The least of %d runs." % repeats, "Run", "Events", "Seconds", "Events a second")
    made = 27 * made_rounds + 3
    seconds = min(run([program, "make", "7", str(made_rounds)], "replies") for _ in range(repeats))
    with open("replies") as file:
        if file.readline() != "events %d\n" % made:
            stop("the made script hasn't %d events" % made)
    rate_row(table, "`make 7 %d`" % made_rounds, made, seconds)
    scripts.reads(reads)
    seconds = min(replay(program) for _ in range(repeats))
    rate_row(table, "`read` events of a script", reads, seconds)


def rate_row(table, name, events, seconds):
    table.row(name, "%d" % events, "%.3f" % seconds, "%.0f" % (events / seconds))


def instructions(program):
    """The instructions of a whole run of the script, by callgrind."""
    words = ["valgrind", "--tool=callgrind", "--callgrind-out-file=/dev/null", program, "replay", "script"]
    ended = subprocess.run(words, stdin=subprocess.DEVNULL, stdout=subprocess.PIPE, stderr=subprocess.PIPE)
    found = re.search(r"Collected\s*:\s*(\d+)", ended.stderr.decode(errors="replace"))
    with open("expected", "rb") as file:
        if ended.returncode != 0 or found is None or ended.stdout != file.read():
            stop("the run under valgrind isn't as expected; it is left in " + os.getcwd())
    return int(found.group(1))


def measure_instructions(table, program, rounds):
    """Instructions per event, as the difference of a run and one of four times as many rounds."""
    if shutil.which("valgrind") is None:
        table.add("", "There is no valgrind here, so no instructions were counted.")
        return
    table.head(
        "Instructions",
        "By callgrind, over %d rounds of 8 events; what the start and the end of a run take is left out." % (3 * rounds),
        "Page frames", "Instructions per event",
    )
    for frames in [64, 4096]:
        few = scripts.rounds(frames, rounds)
        start = instructions(program)
        many = scripts.rounds(frames, 4 * rounds)
        table.row("%d" % frames, "%.0f" % ((instructions(program) - start) / (many - few)))


def parse():
    parser = argparse.ArgumentParser(description="Measures the program, and writes a table of it as Markdown.")
    parser.add_argument("table", help="the file that the table is written to")
    parser.add_argument("--program", default=PROGRAM, help="the program; else the one that the gate built")
    parser.add_argument("--datagrams", type=int, default=1600, help="datagrams a line (1600)")
    parser.add_argument("--made-rounds", type=int, default=5000, help="rounds of the made script (5000)")
    parser.add_argument("--reads", type=int, default=900000, help="reads of a script (900000)")
    parser.add_argument("--counted-rounds", type=int, default=50, help="rounds of the shorter run under valgrind (50)")
    parser.add_argument("--repeats", type=int, default=3, help="runs of each measure, of which the least counts (3)")
    parser.add_argument("--folder", help="where the inputs and outputs are written, in a folder that is removed after")
    return parser.parse_args()


def main():
    words = parse()
    program = os.path.abspath(words.program)
    target = os.path.abspath(words.table)
    compiler = shutil.which(os.environ.get("CC", "gcc"))
    if not os.access(program, os.X_OK):
        stop("there is no program %s: run ./genie, or the gate, first" % program)
    if compiler is None:
        stop("there is no C compiler")
    room = tempfile.mkdtemp(prefix="genie-bench-", dir=words.folder)
    os.chdir(room)
    subprocess.run([compiler, "-O2", "-o", "loop", os.path.join(HERE, "loop.c")], check=True)
    table = Table()
    table.add("# What the program takes", "", "Measured on %s." % time.strftime("%Y-%m-%d"))
    measure_datagrams(table, program, os.path.join(room, "loop"), words.datagrams, words.repeats)
    measure_rates(table, program, words.made_rounds, words.reads, words.repeats)
    measure_instructions(table, program, words.counted_rounds)
    with open(target, "w") as file:
        file.write("\n".join(table.lines) + "\n")
    os.chdir(HERE)
    shutil.rmtree(room)


main()
