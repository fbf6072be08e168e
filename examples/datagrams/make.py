#!/usr/bin/env python3
"""Writes a script with 48 datagrams of 61,440 bytes, its three input files, and the replies and outputs expected.

Each of three devices, early, pooled and outboard, receives eight datagrams, one by each semantics, and sends each of
them again. So each output has to be equal to its input. The files are written to the current folder.
"""

import os

PAYLOAD = 61440
RECORD = PAYLOAD + 8
SEMANTICS = ["c", "ec", "s", "es", "m", "em", "w", "ew"]
KINDS = ["early", "pooled", "outboard"]
SYSTEM = 2097152


def stream():
    header = bytes([0x47, 0x44, 0, 9]) + PAYLOAD.to_bytes(4, "big")
    return b"".join(header + bytes((i + j) % 256 for j in range(PAYLOAD)) for i in range(8))


def datagram(device, semantics, first):
    """The lines of one datagram in and out, with their replies."""
    system = SEMANTICS.index(semantics) >= 4
    address = SYSTEM if system else 0
    lines = [
        (f"in {device} {semantics} {device} 9 {'-' if system else 0} {PAYLOAD}", f"id {first}"),
        (f"recv {device} {RECORD}", f"got {RECORD}"),
        (f"done {first}", f"in {address} {PAYLOAD}" if system else f"in {PAYLOAD}"),
        (f"out {device} {semantics} {device} 9 {address} {PAYLOAD}", f"id {first + 1}"),
    ]
    if KINDS[device] == "outboard":
        lines.append((f"send {device} {RECORD}", f"staged {PAYLOAD}"))
    lines.append((f"send {device} {RECORD}", f"sent {RECORD}"))
    lines.append((f"done {first + 1}", f"out {PAYLOAD}"))
    return lines


def main():
    boot = ["boot 4096 64 256 1024 2048"]
    boot += [f"device {d} {kind} i{d} o{d} 1 0" for d, kind in enumerate(KINDS)]
    lines = []
    number = 1
    os.makedirs("expected", exist_ok=True)
    for device in range(3):
        lines += [(f"spawn {device}", "ok"), (f"map {device} 0 15", "ok")]
        for semantics in SEMANTICS:
            lines += datagram(device, semantics, number)
            number += 2
        for name in [f"i{device}", f"expected/o{device}"]:
            with open(name, "wb") as file:
                file.write(stream())
    with open("datagrams", "w") as file:
        file.write("\n".join(boot + [line for line, _ in lines]) + "\n")
    with open("expected/replies", "w") as file:
        file.write("\n".join(["ok"] + [reply for _, reply in lines]) + "\n")


main()
