#!/usr/bin/env python3
"""cases.py [all]: writes the items of crates/record_cases/stdin to standard output: a length of two bytes, low byte first, and as many bytes.
With the word `all`, every pair of bytes stands where otherwise only the marks that matter do."""
import sys

POWER, ENERGY, MINUTES = 3_000_000, 4_000_000_000, 1_052_640
UNIT, PRODUCER, COMPONENT = (1, 1, 48), (1, 1, 16), (1, 0, 2)
# a consumer of a record that takes the first 64, and of one for those above
CONSUMER, ABOVE_64 = (1, 1, 64), (2, 65, 300)

# call: mark, then width, least and greatest value of each field
TABLE = {
    "year": (b"\x59\x52", [(2, 1, 744), (2, 1, 744), (1, 1, 24)]),
    "unit": (
        b"\x55\x4e",
        [UNIT, PRODUCER, (1, 1, 8), (1, 0, 31), (4, 0, POWER), (4, 0, POWER), (4, 0, ENERGY), (4, 0, ENERGY), (4, 0, ENERGY)],
    ),
    "test": (b"\x54\x53", [UNIT, COMPONENT, (1, 0, 2), (1, 4, 96), (1, 0, 96)]),
    "availability": (b"\x41\x56", [UNIT, COMPONENT, (4, 0, MINUTES), (4, 0, MINUTES), (4, 0, MINUTES), (4, 0, MINUTES)]),
    "declare": (b"\x44\x4d", [CONSUMER, (4, 0, POWER), (4, 0, POWER)]),
    "fix": (b"\x46\x58", [(4, 1, POWER)]),
    "commit": (b"\x43\x4d", [PRODUCER, CONSUMER, (4, 1, POWER)]),
    "release": (b"\x52\x4c", [PRODUCER, CONSUMER, (4, 1, POWER)]),
    "meter": (b"\x4d\x54", [CONSUMER, (4, 0, POWER)]),
    "close": (b"\x43\x4c", [(2, 1, 2500)]),
    "mean": (b"\x41\x54", [CONSUMER, (4, 0, POWER)]),
    "declare above 64": (b"\x64\x6d", [ABOVE_64, (4, 0, POWER), (4, 0, POWER)]),
    "commit above 64": (b"\x63\x6d", [PRODUCER, ABOVE_64, (4, 1, POWER)]),
    "release above 64": (b"\x72\x6c", [PRODUCER, ABOVE_64, (4, 1, POWER)]),
    "meter above 64": (b"\x6d\x74", [ABOVE_64, (4, 0, POWER)]),
    "mean above 64": (b"\x61\x74", [ABOVE_64, (4, 0, POWER)]),
}

# the marks that document 02 gives to records of requests, unknown until the request has landed
LATER = ["5947", "4c56", "5450"]

# values in range of each call; the second unit is of kind 2, which alone uses PPR
BASE = {
    "year": [[720, 120, 4]],
    "unit": [[1, 1, 8, 11, 5000, 0, 6000, 7000, 8000], [48, 16, 2, 27, 5000, 4000, 0, 0, 0]],
    "test": [[1, 0, 0, 4, 4]],
    "availability": [[1, 0, 900, 60, 40, 10]],
    "declare": [[1, 1000, 1100]],
    "fix": [[10_000]],
    "commit": [[1, 2, 501]],
    "release": [[1, 2, 1]],
    "meter": [[9, 900]],
    "close": [[890]],
    "mean": [[6, 300]],
    "declare above 64": [[65, 1000, 1100]],
    "commit above 64": [[1, 300, 501]],
    "release above 64": [[1, 256, 1]],
    "meter above 64": [[255, 900]],
    "mean above 64": [[257, 300]],
}


def record(call, values, readings=()):
    mark, fields = TABLE[call]
    body = b"".join(v.to_bytes(w, "little") for (w, _, _), v in zip(fields, values))
    return mark + body + b"".join(r.to_bytes(4, "little") for r in readings)


def whole(call, values):
    """A record with as many readings as its count says."""
    return record(call, values, [2500] * values[4] if call == "test" else ())


def ends(width, least, greatest):
    """Both ends of a range, one beyond each, and the ends of the width."""
    top = 256**width - 1
    return sorted({v for v in (0, least - 1, least, greatest, greatest + 1, top) if 0 <= v <= top})


def fields_at_their_ends():
    for call, (_, fields) in TABLE.items():
        for values in BASE[call]:
            yield whole(call, values)
            for i, field in enumerate(fields):
                for v in ends(*field):
                    yield whole(call, values[:i] + [v] + values[i + 1 :])
        yield whole(call, [least for _, least, _ in fields])
        yield whole(call, [greatest for _, _, greatest in fields])


def truncations():
    for call in TABLE:
        for values in BASE[call]:
            full = whole(call, values)
            for n in range(len(full)):
                yield full[:n]
        size = len(record(call, BASE[call][0]))
        for n in range(2, size):
            yield TABLE[call][0] + b"\xff" * (n - 2)


def with_more_behind():
    for call in TABLE:
        full = whole(call, BASE[call][0])
        yield full + b"\x00"
        yield full + b"\x59"
        yield full + full


def kinds_and_flags():
    for kind in range(10):
        for flags in range(256):
            yield record("unit", [1, 1, kind, flags, 0, 0, 0, 0, 0])
    for kind in range(10):
        for flags in (0, 8, 16, 24):
            for i, greatest in ((4, POWER), (5, POWER), (6, ENERGY), (7, ENERGY), (8, ENERGY)):
                for v in (1, greatest, greatest + 1):
                    values = [1, 1, kind, flags, 0, 0, 0, 0, 0]
                    values[i] = v
                    yield record("unit", values)


def readings():
    for count in (0, 1, 2, 95, 96, 97, 128, 255):
        for ending in (0, 1, 2, 3):
            full = record("test", [1, 0, ending, 96, count], [2500] * count)
            yield full
            yield full + b"\x00\x00"
        for n in (len(full) - 1, len(full) - 4, 8, 7):
            yield full[:n]
    for count in (1, 2, 5, 96):
        for place in sorted({0, count // 2, count - 1}):
            for reading in (0, 1, 749_999, 750_000, 750_001, 2**32 - 1):
                lent = [2500] * count
                lent[place] = reading
                yield record("test", [48, 2, 1, 96, count], lent)
    yield record("test", [1, 0, 0, 4, 97], [750_001] * 97)


def consumers():
    """Every consumer of a field of one byte, and of two those about the ends of the range, those whose low byte is a consumer of one byte, and those
    whose bytes are swapped."""
    for call, (_, fields) in TABLE.items():
        for i, field in enumerate(fields):
            if field == CONSUMER:
                numbers = range(256)
            elif field == ABOVE_64:
                low = [1, 2, 63, 64, 65, 66, 127, 128, 254, 255]
                numbers = sorted({0, *low, *range(252, 305), *(256 + b for b in low), *(512 + b for b in low), *(256 * b for b in low)})
            else:
                continue
            for number in numbers:
                values = BASE[call][0]
                yield record(call, values[:i] + [number] + values[i + 1 :])


def replies():
    """The examples of the table of numbered replies, as far as they are bytes of a journal."""
    yield b"\x59"
    yield b"\x00\x00"
    yield record("unit", [1, 1, 9, 0, 0, 0, 0, 0, 0])
    yield record("commit", [1, 1, 9000])
    yield record("unit", [1, 1, 1, 17, 0, 0, 0, 0, 0])
    yield record("test", [2, 0, 0, 4, 4], [2500] * 4)
    yield record("test", [1, 1, 0, 4, 4], [2500] * 4)
    yield record("test", [1, 0, 0, 4, 3], [2500] * 3)
    yield record("availability", [1, 0, 0, 0, 0, 0])
    yield record("meter", [9, 900])
    yield record("commit", [1, 2, 501])
    yield record("release", [1, 1, 1])
    yield record("fix", [10_000])
    yield record("declare", [1, 1, 1])
    yield record("fix", [3_000_000])
    yield record("meter", [1, 2])
    yield record("mean", [9, 900])
    yield record("close", [890])


def case_j():
    yield record("year", [720, 120, 4])
    yield record("unit", [1, 1, 1, 17, 0, 0, 0, 0, 0])
    yield record("test", [1, 0, 0, 4, 4], [2500] * 4)
    yield record("availability", [1, 0, 900, 60, 40, 10])
    for consumer, d, a in ((1, 1000, 1000), (2, 1000, 1100), (3, 1000, 1000)):
        yield record("declare", [consumer, d, a])
    yield record("fix", [10_000])
    yield record("commit", [1, 1, 9000])
    yield record("commit", [1, 2, 501])
    yield record("release", [1, 1, 1000])
    yield record("commit", [1, 2, 1500])
    for consumer, dreal in ((1, 900), (2, 1200), (3, 1000)):
        yield record("meter", [consumer, dreal])
    yield record("close", [890])


def any_bytes():
    """Each mark before bytes of a generator, of lengths around that of its record; those for consumers above 64 behind the others."""
    s = 1
    above_64 = [call for call in TABLE if call.endswith(" above 64")]
    for calls in [call for call in TABLE if call not in above_64], above_64:
        for turn in range(40):
            for call in calls:
                size = len(record(call, BASE[call][0]))
                body = bytearray()
                while len(body) < size + turn % 9 - 4:
                    s = (s * 1_103_515_245 + 12_345) % 2**31
                    body.append(s >> 16 & 0xFF)
                yield TABLE[call][0] + bytes(body)


def every_mark():
    for mark in range(65_536):
        yield mark.to_bytes(2, "big")


def marks_that_matter():
    """Known marks and later ones, with their bytes swapped; what differs from them by 1 or by one bit in one byte; each pair of a first
    and a second byte of theirs; and each of these bytes beside 00 and FF."""
    marks = [mark for mark, _ in TABLE.values()] + [bytes.fromhex(mark) for mark in LATER]
    chosen = set(marks)
    for a, b in marks:
        chosen.add(bytes([b, a]))
        for other in (a - 1, a + 1, *(a ^ 1 << k for k in range(8))):
            chosen.add(bytes([other, b]))
        for other in (b - 1, b + 1, *(b ^ 1 << k for k in range(8))):
            chosen.add(bytes([a, other]))
    chosen |= {bytes([a, b]) for a in {m[0] for m in marks} | {0, 255} for b in {m[1] for m in marks} | {0, 255}}
    yield from sorted(chosen)


def items(marks):
    yield b""
    for b in range(256):
        yield bytes([b])
    yield from marks()
    for group in (fields_at_their_ends, truncations, with_more_behind, kinds_and_flags, readings, replies, case_j, any_bytes, consumers):
        yield from group()


for item in items(every_mark if sys.argv[1:] == ["all"] else marks_that_matter):
    sys.stdout.buffer.write(len(item).to_bytes(2, "little") + item)
