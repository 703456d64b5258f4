"""Journals about request A7: consumers above 64 and their records, the converter, and the limit on charges."""
from records import (
    FIELDS_ABOVE_64, LIMIT, availability, calls_of, close, closed, commit, declare, filled, fix, mean, meter, release, test, unit, year
)

ALL = range(1, 301)
BOUNDARIES = (1, 64, 65, 255, 256, 299, 300)
# numbers that a field of one byte does not take, and those that one of two does not take
NOT_IN_A_BYTE = (0, 65, 66, 128, 255)
NOT_ABOVE_64 = (0, 1, 63, 64, 301, 320, 321, 512, 65535)
MOST = 3000000


def marks(j):
    """a record with each mark for consumers above 64: alone, in front of case J, in its middle and behind it, cut, beside a stop, and with a consumer
    that it does not take; an unknown mark before it decides before it does"""
    for record in calls_of(65):
        name = record[:2].decode()
        yield f"mark-{name}", record
        yield f"mark-{name}-first", record + j
        yield f"mark-{name}-gathering", j[:109] + record + j[109:]
        yield f"mark-{name}-firm", j[:115] + record + j[115:]
        yield f"mark-{name}-last", j + record
        for n in range(2, len(record)):
            yield f"mark-{name}-cut-{n}", j + record[:n]
        yield f"mark-{name}-and-cut", j + record + record[:-1]
        yield f"mark-{name}-and-byte", j + record + b"Y"
        yield f"mark-{name}-and-unknown", j + record + b"ZZ" + record
        yield f"mark-{name}-behind-unknown", j + b"ZZ" + record
        yield f"mark-{name}-behind-later", j + b"YG" + record
    for consumer in NOT_ABOVE_64:
        for record in calls_of(consumer, True):
            yield f"mark-{record[:2].decode()}-of-{consumer}", j + record
    for mark, size in FIELDS_ABOVE_64.items():
        for byte in b"\0", b"\xff":
            yield f"mark-{mark.decode()}-all-{byte[0]}", j + mark + byte * size


def foreign_numbers():
    """a firm year with consumers of both forms, and behind it each call in each form with a consumer that the form does not take, one declared or not;
    all in one byte, which leaves a journal for 64 consumers, in two, and both"""
    start = year() + unit(1, 1) + test(1, [750000] * 4) + availability(1)
    in_a_byte = b"".join(b"".join(calls_of(consumer, False)) for consumer in (*NOT_IN_A_BYTE, 200, 254))
    above_64 = b"".join(b"".join(calls_of(consumer, True)) for consumer in NOT_ABOVE_64)
    for name, declared in ("few", (1, 64)), ("many", (1, 2, 44, 64, *range(65, 301, 5), 66, 128, 254, 256)):
        firm = start + b"".join(declare(consumer, 1, 1) for consumer in declared) + fix(len(declared))
        end = b"".join(meter(consumer, 1) for consumer in declared) + close(1)
        for kind, calls in ("byte", in_a_byte), ("two-bytes", above_64), ("both", in_a_byte + above_64):
            yield f"foreign-{name}-{kind}", firm + calls + end + calls
            yield f"foreign-{name}-{kind}-gathering", start + calls + firm[len(start):] + end


def one_consumer():
    """years of one consumer, with contracts"""
    start = year() + unit(1, 1) + test(1, [250] * 4) + availability(1)
    for consumer in BOUNDARIES:
        firm = start + declare(consumer, 500, 600) + fix(1000)
        calls = commit(1, consumer, 1000) + commit(1, consumer, 1) + release(1, consumer, 400) + release(1, consumer, 601)
        end = meter(consumer, 300) + mean(consumer, 501) + close(890)
        yield f"one-consumer-{consumer}", firm + calls + end
        others = b"".join(b"".join(calls_of(other)) for other in BOUNDARIES if other != consumer)
        yield f"one-consumer-{consumer}-of-others", firm + others + calls + others + end


def pages():
    """years about the end of each page, up to the sixth, the first consumer with a credit and the last with a charge"""
    for count in (99, 100, 101, 150, 151, 200, 201, 250, 251, 299, 300):
        numbers = list(ALL)[-count:]
        readings = {**dict.fromkeys(numbers, 100), numbers[0]: 0, numbers[-1]: 200}
        yield f"consumers-{count}", closed(dict.fromkeys(numbers, (100, 200)), 100 * count, readings, 890)


def charged(numbers, dmp, one):
    """a firm year in which one consumer has declared 1 kW and the others 0 kW, so that these are charged for DMP times their reading"""
    return year() + b"".join(declare(consumer, int(consumer == one), 1) for consumer in numbers) + fix(dmp)


def charges():
    """closes about 6,000,000,000,000 cents, which 67 consumers come to with 3,000,000 kW each at 2,500; a close meets 16 before 14, and 14 before 19"""

    def year_of(numbers, last, p, one=1, dreal_of_one=0):
        """the last of the others reads `last`, the rest 3,000,000 kW"""
        others = [consumer for consumer in numbers if consumer != one]
        readings = {**dict.fromkeys(others, MOST), others[-1]: last, one: dreal_of_one}
        return charged(numbers, 1, one) + b"".join(meter(consumer, dreal) for consumer, dreal in readings.items()) + close(p)

    yield "charges-limit", year_of(range(1, 69), 2000000, 2500)
    yield "charges-limit-high", year_of(range(233, 301), 2000000, 2500, 300)
    yield "charges-limit-undistributed", year_of(range(1, 69), 2000000, 2500, 1, 1)
    yield "charges-above", year_of(range(1, 69), 2000001, 2500)
    yield "charges-above-high", year_of(range(233, 301), 2000001, 2500, 300)
    yield "charges-above-undistributed", year_of(range(1, 69), 2000001, 2500, 1, 1)
    # 823,723,229 kW at 607 come to 36 cents more than the limit
    yield "charges-36-above", year_of(range(25, 301), 1723229, 607, 25)
    yield "charges-36-above-less-a-kw", year_of(range(25, 301), 1723228, 607, 25)
    yield "charges-of-66", year_of(range(1, 68), MOST, 2500)
    yield "charges-of-67", year_of(range(1, 69), MOST, 2500)
    yield "charges-of-299", year_of(ALL, MOST, 2500)
    yield "charges-of-299-below", year_of(ALL, 2000000, 558)
    yield "charges-again-and-again", filled(year_of(range(1, 69), MOST, 2500), close(2500), LIMIT)
    half = MOST // 2
    dreal = {1: 0, **dict.fromkeys(range(2, 69), half)}
    for silent in (1, 68):
        known = b"".join(meter(consumer, kw) for consumer, kw in dreal.items() if consumer != silent)
        for above in (2, 64, 65, 67):
            calls = mean(above, half + 1), meter(silent, dreal[silent]), mean(above, half), mean(68, 1000001), mean(68, 1000000)
            yield f"charges-{above}-above-{silent}-silent", charged(range(1, 69), 2, 1) + known + b"".join(call + close(2500) for call in calls)
    # one silent consumer, and the others within 3,000,000 kW, who are charged more than the limit without it
    for silent in (1, 2, 65, 70):
        known = b"".join(meter(consumer, half) for consumer in range(1, 71) if consumer != silent)
        yield f"charges-{silent}-silent", charged(range(1, 71), 2, 1) + known + close(2500) + mean(silent, 0) + close(2500) + close(2000)


def silent_of_300():
    """300 consumers, all but one with a mean, as silent_consumers in journals.py has them of 64"""
    fixed = year() + b"".join(declare(consumer, 100, 200) for consumer in ALL) + fix(60000)
    for silent in (1, 64, 65, 255, 256, 300):
        for where, dreal in ("within", 1500000), ("above", 1500001):
            means = b"".join(mean(consumer, dreal) for consumer in ALL if consumer != silent)
            yield f"silent-{silent:03}-of-300-{where}", fixed + means + close(100) + meter(silent, 0) + close(100)


def widest_of_300():
    """every unit, producer and consumer, with figures as large as they get"""
    calls = [year()]
    for u in range(1, 49):
        calls += [unit(u, 1 + (u - 1) % 16), test(u, [750000] * 4), availability(u)]
    calls += [declare(c, MOST if c % 2 else 1, MOST) for c in ALL]
    calls += [fix(MOST)]
    calls += [commit(p, 300 - p * 17 % 300, MOST) for p in range(1, 17) for _ in range(3)]
    calls += [meter(c, MOST if c % 3 else 0) for c in ALL]
    return b"".join(calls) + close(2500)


def journals_of_300(j):
    yield from marks(j)
    yield from foreign_numbers()
    yield from one_consumer()
    yield from pages()
    yield from charges()
    yield from silent_of_300()
    yield "widest-300", widest_of_300()
    yield "largest-300", filled(widest_of_300()[:-4], meter(300, 1), LIMIT)
    yield "largest-mark-last", year() * 4 + close(0) * ((LIMIT - 28 - 8) // 4) + mean(300, 1)
    yield "too-long-mark", filled(year() + declare(65, 1, 1), year(), LIMIT + 1)
