"""Makes the scripts and streams that the benchmark runs, each with the replies that it has to have.

The formats are those of docs/FORMATS.md.
"""

PAGE = 4096
PORT = 9

SEMANTICS = ["c", "ec", "s", "es", "m", "em", "w", "ew"]
SYSTEM_SEMANTICS = ["m", "em", "w", "ew"]
KINDS = ["early", "pooled", "outboard"]

# The first place of the system's half of an address space, page 512: each system input here lands there, since the
# region before it is gone or moved out.
SYSTEM_ADDRESS = 512 * PAGE


def record(payload):
    """A record of a device stream, without a flow."""
    return b"GD" + PORT.to_bytes(2, "big") + len(payload).to_bytes(4, "big") + payload


def write_stream(name, size, count):
    """A stream of so many datagrams of this size, whose bytes differ from one to the next."""
    row = bytes(range(256)) * (size // 256 + 2)
    with open(name, "wb") as file:
        for number in range(count):
            start = number % 256
            file.write(record(row[start:start + size]))


def write_lines(name, lines):
    with open(name, "w") as file:
        for line in lines:
            file.write(line + "\n")


def boot(frames, kind):
    """The boot part with one device, which reads from the file `input` and writes to `output`, and one process."""
    return ["boot %d %d 256 1024 2048" % (PAGE, frames), "device 0 %s input output 1 0" % kind, "spawn 0"]


def passing(kind, semantics, size, first):
    """The events that take one datagram in and send it again, with their replies."""
    system = semantics in SYSTEM_SEMANTICS
    address = SYSTEM_ADDRESS if system else 0
    whole = size + 8
    events = [
        ("in 0 %s 0 %d %s %d" % (semantics, PORT, "-" if system else 0, size), "id %d" % first),
        ("recv 0 %d" % whole, "got %d" % whole),
        ("done %d" % first, "in %d %d" % (address, size) if system else "in %d" % size),
        ("out 0 %s 0 %d %d %d" % (semantics, PORT, address, size), "id %d" % (first + 1)),
    ]
    if kind == "outboard":
        events.append(("send 0 %d" % whole, "staged %d" % size))
    events.append(("send 0 %d" % whole, "sent %d" % whole))
    events.append(("done %d" % (first + 1), "out %d" % size))
    return events


def write_script(head, events):
    """A script of these lines and events in the file `script`, and its replies in `expected`."""
    write_lines("script", head + [event for event, _ in events])
    write_lines("expected", ["ok"] * (1 + len(head) - 2) + [reply for _, reply in events])


def datagrams(kind, semantics, size, count):
    """Takes so many datagrams in and sends them again, by one semantics on one kind of device."""
    pages = (size + PAGE - 1) // PAGE
    events = []
    for number in range(count):
        events += passing(kind, semantics, size, 2 * number + 1)
    write_script(boot(64, kind) + ["map 0 0 %d" % pages], events)


def reads(count):
    """So many reads of 16 bytes, behind a write of them."""
    bytes_read = "00112233445566778899aabbccddeeff"
    write_lines("input", [])
    write_script(
        boot(64, "early") + ["map 0 0 1", "write 0 0 " + bytes_read],
        [("read 0 0 16", "data " + bytes_read)] * count,
    )


def rounds(frames, count):
    """So many rounds of eight events: a write, an emulated copy in and out of two pages, and a read.

    The machine has this many page frames.
    """
    size = 2 * PAGE
    write_stream("input", size, count)
    events = []
    for number in range(count):
        datagram = passing("early", "ec", size, 2 * number + 1)
        seen = bytes((number + place) % 256 for place in range(16)).hex()
        events += [("write 0 0 00112233", "ok")] + datagram + [("read 0 0 16", "data " + seen)]
    write_script(boot(frames, "early") + ["map 0 0 2"], events)
    return len(events)
