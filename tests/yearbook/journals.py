#!/usr/bin/env python3
"""journals.py JOURNAL DIR: writes journals that no text stands for into DIR, named NAME.journal.

Case J (JOURNAL) cut behind each byte, with unknown marks and with odd counts; a text in place of a journal; fields that are all 0 and
all 255; the largest inputs of 65,536 bytes, whole and cut, and longer ones; a listing with every line there can be, and the longest replies;
printed closes about the end of a page, and those with the widest figures; the first refusal at each place, with each end behind it; means in place of
readings, and one silent consumer at each end and in the middle, with the others within their limit and above it; and what consumers.py has."""
import sys

sys.dont_write_bytecode = True
from consumers import journals_of_300
from records import FIELDS, LIMIT, availability, close, closed, commit, declare, filled, fix, mean, meter, test, unit, year


def widest():
    """every unit, producer and consumer, with figures as large as they get"""
    most = [750000] * 4
    calls = [year()]
    for u in range(1, 49):
        calls += [unit(u, 1 + (u - 1) % 16), test(u, most), availability(u)]
    calls += [declare(c, 3000000 if c % 2 else 1, 3000000) for c in range(1, 65)]
    calls += [fix(3000000)]
    calls += [commit(p, 1 + p % 64, 3000000) for p in range(1, 17) for _ in range(3)]
    calls += [meter(c, 3000000 if c % 3 else 0) for c in range(1, 65)]
    return b"".join(calls) + close(2500)


def closes():
    """years of 49, 50, 51 and 64 consumers, the first with a credit and the last with a charge; and years with the widest figures"""
    every = range(1, 65)
    for count in (49, 50, 51, 64):
        numbers = [consumer for consumer in every if consumer % 5 or count == 64][:count]
        readings = {**dict.fromkeys(numbers, 100), numbers[0]: 0, numbers[-1]: 200}
        yield f"consumers-{count}", closed(dict.fromkeys(numbers, (100, 200)), 100 * count, readings, 890)
    most, charged = 3000000, (0, 1)
    for name, one in ("credit-first", 1), ("credit-last", 64):
        declared, readings = dict.fromkeys(every, charged), dict.fromkeys(every, most)
        yield name, closed({**declared, one: (most, most)}, most, {**readings, one: 0}, 2500)
    yield "one-charged", closed({**dict.fromkeys(range(1, 64), (1, 1)), 64: charged}, most, {**dict.fromkeys(range(1, 64), 0), 64: 63}, 2500)
    yield "all-charged", closed({**dict.fromkeys(every, charged), 1: (1, 2)}, 1, dict.fromkeys(every, most), 2500)


def first_refusals():
    """no refusal, the first one at place 0, of the only record, in the middle and of the last record, each with the journal's end, a record cut short
    and an unknown mark behind it; refusals later than the first have other numbers, and records behind the mark are not read"""
    opened, declared, range_3, stage_4, sum_13 = year(), declare(1, 1, 1), fix(0), close(1), fix(1)
    for where, start in (
        ("none", opened + declared),
        ("place-0", stage_4 + opened + sum_13 + declared),
        ("alone", range_3),
        ("middle", opened + sum_13 + declared + range_3 + stage_4 + declared),
        ("last", opened + declared + stage_4),
    ):
        for end, more in ("end", b""), ("stop-1", meter(1, 1)[:-1]), ("stop-2", b"ZZ" + range_3 + opened):
            yield f"first-refusal-{where}-{end}", start + more


def same_bytes(byte):
    """each record with every byte of its fields the same; a test has as many readings as this byte counts"""
    return b"".join(mark + byte * (size + (4 * byte[0] if mark == b"TS" else 0)) for mark, size in FIELDS.items())


def refused_closes(behind):
    """65,536 bytes of closes behind a fixed year and more records, the last one cut or not: they meet 14 where consumer 1 has a reading of 2, and 16,
    with the longest replies, where it has none"""
    return filled(year() + declare(1, 1, 1) + fix(3000000) + behind, close(2500), LIMIT)


def silent_consumers():
    """64 consumers, all but one with a mean: a close meets 16, wherever the silent one stands; behind its reading, a close is accepted where every DFA
    is within 3,000,000, and meets 14 where all the others are above"""
    fixed = year() + b"".join(declare(consumer, 100, 200) for consumer in range(1, 65)) + fix(12800)
    for silent in (1, 2, 33, 63, 64):
        for where, dreal in ("within", 1500000), ("above", 1500001):
            means = b"".join(mean(consumer, dreal) for consumer in range(1, 65) if consumer != silent)
            yield f"silent-{silent:02}-{where}", fixed + means + close(890) + meter(silent, 0) + close(890)


def means_of_j(j):
    """case J, whose readings are the three records before the close, with a mean for one reading or for all, with neither, and with a mean of 0 before
    and behind the reading"""
    start, readings, end = j[:-25], [j[-25:-18], j[-18:-11], j[-11:-4]], j[-4:]
    yield "j-means", start + b"".join(b"AT" + reading[2:] for reading in readings) + end
    for at in range(3):
        before, own, behind = readings[:at], readings[at], readings[at + 1:]
        for name, records in (
            ("mean", [b"AT" + own[2:]]), ("neither", []), ("mean-before", [mean(at + 1, 0), own]), ("mean-behind", [own, mean(at + 1, 0)])
        ):
            yield f"j-{name}-{at + 1}", start + b"".join(before + records + behind) + end


def journals(j):
    yield "empty", b""
    for n in range(1, len(j)):
        yield f"cut-{n:03}", j[:n]
    for mark in (b"\0\0", b"yr", b"RY", b"ZZ", b"YR"[::-1]):
        yield f"mark-{mark.hex()}", j + mark + j
    yield "byte-behind", j + b"Y"
    yield "marks-first", b"\0\0" + j
    yield "text", b"year 720 120 4\n"
    yield "all-0", same_bytes(b"\0")
    yield "all-255", same_bytes(b"\xff")
    yield "refused-last", year() + close(1)
    yield "count-97", year() + unit(1, 1) + test(1, [1] * 97, tc=96) + declare(1, 1, 1)
    yield "count-255", year() + unit(1, 1) + test(1, [1] * 255, tc=96) + declare(1, 1, 1)
    yield "count-255-cut", year() + unit(1, 1) + test(1, [1] * 254, tc=96, count=255)
    yield "widest", widest()
    yield "largest", filled(widest()[:-4], meter(1, 1), LIMIT)
    yield "largest-whole", filled(year() + declare(1, 1, 1) + fix(1), meter(1, 1), LIMIT - (LIMIT - 24) % 7)
    yield "largest-means", filled(widest()[:-4], mean(64, 3000000), LIMIT)
    yield "longest-replies", refused_closes(mean(2, 1))
    yield "longest-replies-whole", refused_closes(b"")
    yield "closes-above", refused_closes(meter(1, 2))
    yield "closes-above-whole", refused_closes(meter(1, 2) * 4)
    yield from closes()
    yield from first_refusals()
    yield from silent_consumers()
    yield from means_of_j(j)
    yield from journals_of_300(j)
    yield "too-long", filled(widest()[:-4], meter(1, 1), LIMIT + 1)
    yield "too-long-closed", filled(widest(), close(1), LIMIT + 1)
    yield "far-too-long", filled(year(), year(), 3 * LIMIT)


def main():
    source, folder = sys.argv[1:]
    with open(source, "rb") as file:
        j = file.read()
    for name, data in journals(j):
        with open(f"{folder}/{name}.journal", "wb") as out:
            out.write(data)


main()
