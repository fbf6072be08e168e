#!/usr/bin/env python3
"""Checks what `genie cost datagrams` says, on standard input, event by event, beside the script in the current folder.

An output by emulated copy moves no byte by the processor at its call, and one by copy at most its length. A datagram that
comes in and goes out by emulated semantics on the early device, device 0, moves none in all of its events.
"""

import sys

PAYLOAD = 61440
EMULATED = ["ec", "es", "em", "ew"]


def events():
    """Each event of the script, as words, with the bytes that the processor moved in it."""
    with open("datagrams") as file:
        lines = [line.split() for line in file]
    script = [words for words in lines if words[0] not in ("boot", "device")]
    said = sys.stdin.read().splitlines()[1:]
    costs = [line.split() for line in said[1::2]]
    if len(said) != 2 * len(script) or any(words[0] != "#" for words in costs):
        sys.exit("not each event has a line of cost")
    for words, cost in zip(script, costs):
        yield words, sum(int(number) for number in cost[2:9:2])


def main():
    semantics = ""
    for words, moved in events():
        about = " ".join(words)
        if words[0] in ("in", "out"):
            semantics, device = words[2], words[3]
        if words[0] == "out" and semantics == "c" and moved > PAYLOAD:
            sys.exit(f"{about}: {moved} bytes were moved")
        if words[0] == "out" and semantics == "ec" and moved > 0:
            sys.exit(f"{about}: {moved} bytes were moved")
        if words[0] in ("in", "recv", "done", "out", "send") and device == "0" and semantics in EMULATED and moved > 0:
            sys.exit(f"{about}, by {semantics}: {moved} bytes were moved")


main()
