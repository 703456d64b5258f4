"""The records of a journal as bytes, of a consumer in the form that its number picks, and years made of them."""
import struct

LIMIT = 65536
# the bytes behind each mark, with no reading, and behind the marks for consumers above 64
FIELDS = {b"YR": 5, b"UN": 24, b"TS": 5, b"AV": 18, b"DM": 9, b"FX": 4, b"CM": 6, b"RL": 6, b"MT": 5, b"CL": 2, b"AT": 5}
FIELDS_ABOVE_64 = {b"dm": 10, b"cm": 7, b"rl": 7, b"mt": 6, b"at": 6}


def year():
    return b"YR" + struct.pack("<HHB", 720, 120, 4)


def unit(number, producer, kind=1, flags=17, pic=0):
    return b"UN" + struct.pack("<BBBBIIIII", number, producer, kind, flags, pic, 0, 0, 0, 0)


def test(number, readings, tc=4, ending=0, component=0, count=None):
    count = len(readings) if count is None else count
    return b"TS" + struct.pack("<BBBBB", number, component, ending, tc, count) + struct.pack(f"<{len(readings)}I", *readings)


def availability(number):
    return b"AV" + struct.pack("<BBIIII", number, 0, 1, 0, 0, 0)


def of_consumer(mark, before, consumer, values, above_64=None):
    """a record with these bytes before the consumer and these values behind it; in the other form where above_64 tells so"""
    above_64 = consumer > 64 if above_64 is None else above_64
    mark, field = (mark.lower(), struct.pack("<H", consumer)) if above_64 else (mark, struct.pack("<B", consumer))
    return mark + before + field + struct.pack(f"<{len(values)}I", *values)


def declare(consumer, d, a, above_64=None):
    return of_consumer(b"DM", b"", consumer, [d, a], above_64)


def fix(dmp):
    return b"FX" + struct.pack("<I", dmp)


def commit(producer, consumer, q, above_64=None):
    return of_consumer(b"CM", bytes([producer]), consumer, [q], above_64)


def release(producer, consumer, q, above_64=None):
    return of_consumer(b"RL", bytes([producer]), consumer, [q], above_64)


def meter(consumer, dreal, above_64=None):
    return of_consumer(b"MT", b"", consumer, [dreal], above_64)


def close(p):
    return b"CL" + struct.pack("<H", p)


def mean(consumer, kw, above_64=None):
    return of_consumer(b"AT", b"", consumer, [kw], above_64)


def calls_of(consumer, above_64=None):
    """the five calls of a consumer"""
    return [
        declare(consumer, 1, 1, above_64), commit(1, consumer, 1, above_64), release(1, consumer, 1, above_64), meter(consumer, 1, above_64),
        mean(consumer, 1, above_64),
    ]


def closed(declared, dmp, readings, p):
    """a year that closes, from D and A by consumer, the last one declared first, and from readings by consumer"""
    calls = [declare(consumer, d, a) for consumer, (d, a) in reversed(list(declared.items()))]
    calls += [fix(dmp)] + [meter(consumer, dreal) for consumer, dreal in readings.items()]
    return year() + b"".join(calls) + close(p)


def filled(start, record, size):
    """start and records behind it up to a size, the last one cut"""
    return (start + record * ((size - len(start)) // len(record) + 1))[:size]
