#!/usr/bin/env python3
"""journals.py DIR: writes the journals that are measured into DIR, each of nearly 65,536 bytes, the most that the program takes.

Of 64 consumers: contracts, commits and releases after a fixed year; meters, readings, then a close; refused, commits that are all refused; tests, tests of
96 readings, then a fix. Of one consumer: closes, closes that all meet number 14.

Of 300 consumers: contracts-300; meters-300; fixes-300, fixes that all meet 13; closes-300, closes that all meet 14, each by the last consumer alone;
early-closes-300 and late-closes-300, closes that all meet 4, before the fix and behind a close."""
import struct
import sys

LIMIT = 65536

# the greatest consumer that a field of one byte names
BYTE_CONSUMERS = 64

YEAR = b"YR" + struct.pack("<HHB", 720, 120, 4)


def test_of(unit, readings):
    """a complete test"""
    count = len(readings)
    return b"TS" + struct.pack("<BBBBB", unit, 0, 0, count, count) + struct.pack(f"<{count}I", *readings)


def of_consumer(mark, consumer, behind, before=b""):
    """a record that names a consumer; above 64 its mark has small letters, and the consumer two bytes"""
    if consumer > BYTE_CONSUMERS:
        return mark.lower() + before + struct.pack("<H", consumer) + behind
    return mark + before + struct.pack("<B", consumer) + behind


def declare(consumer, d):
    return of_consumer(b"DM", consumer, struct.pack("<II", d, 2000))


def commit(producer, consumer, q):
    return of_consumer(b"CM", consumer, struct.pack("<I", q), struct.pack("<B", producer))


def release(producer, consumer, q):
    return of_consumer(b"RL", consumer, struct.pack("<I", q), struct.pack("<B", producer))


def meter(consumer, dreal):
    return of_consumer(b"MT", consumer, struct.pack("<I", dreal))


def fix(dmp):
    return b"FX" + struct.pack("<I", dmp)


def close(i):
    return b"CL" + struct.pack("<H", 1 + i % 2500)


UNITS = b"".join(
    b"UN" + struct.pack("<BBBBIIIII", unit, 1 + (unit - 1) % 16, 1, 17, 0, 0, 0, 0, 0)
    + test_of(unit, [25000] * 4)
    + b"AV" + struct.pack("<BBIIII", unit, 0, 900, 60, 40, 10)
    for unit in range(1, 49)
)
FIX = fix(100000)
CLOSE = b"CL" + struct.pack("<H", 890)


def declarations(consumers):
    """consumers 1 to so many, of nearly the same demand"""
    return b"".join(declare(c, 1000 + c) for c in range(1, consumers + 1))


def filled(start, record, end=b""):
    """start, as many records as fit, end"""
    parts, size, i = [start], len(start) + len(end), 0
    while True:
        r = record(i)
        if size + len(r) > LIMIT:
            return b"".join(parts) + end
        parts.append(r)
        size += len(r)
        i += 1


def contract(i):
    pair = i // 2
    act = commit if i % 2 == 0 else release
    return act(1 + pair % 16, 1 + pair % 64, 1 + pair % 700)


def contract_300(i):
    """a commitment and its release for one pair after the other, none twice, each far from the one before"""
    pair = i // 2
    act = commit if i % 2 == 0 else release
    return act(1 + (pair + pair // 300) % 16, 1 + 77 * pair % 300, 1 + pair % 700)


def refused(i):
    return commit(1 + i % 16, 1 + i % 64, 3000000)


def test(i):
    return test_of(1 + i % 48, [20000 + (i * 96 + k) * 37 % 10000 for k in range(96)])


# the example of number 14 in document 01: D 1, DMP 3,000,000, Dreal 2
above = YEAR + b"DM" + struct.pack("<BII", 1, 1, 1) + fix(3000000) + meter(1, 2)
fixed = YEAR + UNITS + declarations(64) + FIX
fixed_300 = YEAR + UNITS + declarations(300) + FIX
# the readings of all but the last consumer, whose own is to be chosen
read_299 = b"".join(meter(c, 900 + c) for c in range(1, 300))
above_300 = YEAR + declarations(300) + fix(3000000) + read_299 + meter(300, 3000000)
closed_300 = YEAR + declarations(300) + FIX + read_299 + meter(300, 900) + CLOSE
declared_0 = YEAR + b"".join(declare(c, 0) for c in range(1, 301))
for name, data in {
    "contracts": filled(fixed, contract),
    "meters": filled(fixed, lambda i: meter(1 + i % 64, 900 + i % 300), CLOSE),
    "refused": filled(fixed, refused),
    "tests": filled(YEAR + UNITS, test, declarations(64) + FIX),
    "closes": filled(above, close),
    "contracts-300": filled(fixed_300, contract_300),
    "meters-300": filled(fixed_300, lambda i: meter(1 + i % 300, 900 + i % 301), CLOSE),
    "fixes-300": filled(declared_0, lambda i: fix(100000 + i)),
    "closes-300": filled(above_300, close),
    "early-closes-300": filled(YEAR + declarations(300), close),
    "late-closes-300": filled(closed_300, close),
}.items():
    with open(f"{sys.argv[1]}/{name}.journal", "wb") as out:
        out.write(data)
