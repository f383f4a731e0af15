"""What the lines of crates/vectors/stdin and stdout are made of.

Bytes are given as segments, each `count:bytes;` with the count in 5 hex digits and the bytes in hex, repeated so often. An answer is
`refused N`, or `read N` with a value, then the bytes written in hex (up to 500 of them) or their checksum. Every buffer is filled with aa
before a call; a byte that is touched and must not be ends the line with ` touched`, which is never expected.
"""
from notation import RECORD

ROOM = None  # as much as is needed, and 3 bytes more


def segments(data):
    """Bytes as (count, bytes) pairs: long runs of a few bytes or of one record are folded."""
    if len(data) <= 400:
        return [(1, data)] if data else []
    for size in (1, 2, 3, 4, 5, 6, 7, 8, 9, 10, 12, 16, RECORD):
        unit = data[:size]
        k = len(data) // size
        if unit * k == data[:size * k]:
            return [(k, unit)] + ([(1, data[size * k:])] if data[size * k:] else [])
    half = len(data) // RECORD // 2 * RECORD
    return segments(data[:half]) + segments(data[half:])


def spelled(data):
    return "".join(f"{k:05x}:{unit.hex()};" for k, unit in segments(data))


def checksum(data):
    total = 0
    for b in data:
        total = (total * 31 + b) % 0x1000000
    return total


def refused(number):
    return f"refused {number}"


def value(number, data=b""):
    return f"read {number} " + (data.hex() if len(data) <= 500 else f"sum {checksum(data):06x}")
