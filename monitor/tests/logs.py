#!/usr/bin/env python3
"""logs.py FOLDER N: N random event logs, the same ones each time. They use pins, timers and windows that meet each other;
one in eight ends in bytes that stop it."""
import random
import struct
import sys

folder, count = sys.argv[1], int(sys.argv[2])
ENTRIES, VECTORS, MARK = range(0x10, 0x40), range(0x20, 0x30), b"\x7e\xb5"


def entry_word(r, index):
    """A value for a low word, mostly one that makes its pin eligible sooner or later, or for a high word."""
    if index % 2:
        return r.randrange(256) << 24
    mode, masked = r.choice((0, 0, 0, r.randrange(8))), r.choice((0, 0, 0, 1))
    return r.choice(VECTORS) | mode << 8 | r.randrange(2) << 11 | r.randrange(2) << 13 | r.randrange(2) << 15 | masked << 16


def write(window, width, offset, value):
    return MARK + struct.pack("<BBBHQ", 2, window, width, offset, value)


def read(window, width, offset):
    return MARK + struct.pack("<BBBH", 1, window, width, offset)


def timers(r, offset, value):
    """A timer register written whole, as its two halves in either order, or as one of them."""
    low, high = write(1, 4, offset, value % 2**32), write(1, 4, offset + 4, value // 2**32)
    return r.choice((write(1, 8, offset, value), write(1, 8, offset, value), low + high, high + low, low, high))


def records(r):
    """A few records that belong together."""
    kind = r.randrange(10)
    if kind == 0:
        index = r.choice(ENTRIES)
        return write(0, 4, 0, index) + write(0, 4, 0x10, entry_word(r, index))
    if kind == 1:
        return write(0, 4, 0, r.choice((0, 1, 2, *ENTRIES))) + read(0, 4, 0x10)
    if kind == 2:
        return MARK + bytes((3, r.randrange(24), r.randrange(2)))
    if kind == 3:
        return MARK + bytes((4, r.choice(VECTORS)))
    if kind == 4:
        return MARK + struct.pack("<BI", 5, r.choice((0, 1, 2, 5, 40, r.getrandbits(16), r.getrandbits(32), 2**32 - 1)))
    if kind == 5:
        return MARK + b"\x06"
    if kind == 6:
        at = 0x100 + 0x20 * r.randrange(3)
        comparator = r.choice((1, 3, 10, r.getrandbits(16), r.getrandbits(64)))
        return timers(r, at, r.getrandbits(14)) + timers(r, at + 8, comparator)
    if kind == 7:
        return timers(r, 0x10, r.randrange(2)) if r.randrange(3) else timers(r, 0x20, r.randrange(8))
    if kind == 8:
        width = r.choice((4, 8))
        at = r.choice((0, 0x10, 0x20, 0xF0, 0x100, 0x108, 0x120, 0x128, 0x140, 0x148))
        return read(1, width, at + r.randrange(0, 8, width))
    return r.choice((
        read(r.randrange(3), r.choice((1, 2, 4, 8)), r.randrange(0x410)),
        write(r.randrange(3), r.choice((1, 2, 4, 8)), r.randrange(0x410), r.getrandbits(64)),
        write(0, 4, 0x10, r.getrandbits(33)),
        MARK + bytes((3, r.randrange(256), r.randrange(256))),
        timers(r, 0xF0, r.choice((0, 2**32 - 2, 2**64 - 2, r.getrandbits(64)))),
    ))


for n in range(count):
    r = random.Random(n)
    log = b"".join(records(r) for _ in range(r.randrange(1, 400)))
    if n % 8 == 7:
        log += r.choice((b"\x7e", MARK, MARK + b"\x05\x01", b"\x7f\xb5\x06", MARK + b"\x07", MARK + b"\x00"))
    with open(f"{folder}/{n:03}", "wb") as out:
        out.write(log)
