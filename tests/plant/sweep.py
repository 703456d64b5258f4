#!/usr/bin/env python3
"""sweep.py FOLDER: writes a test of every TC from 0 to 255, ending from 0 to 3 and count from 0 to 97, as lines for the program plant_cases,
into FOLDER/000.txt and on.

Each test stands behind a fresh unit; one that is accepted stands there twice, so that a second trip is met. A file has at most 65,536 bytes, and
begins with a fresh unit."""
import pathlib
import sys

MOST_BYTES = 65_536
COUNTS = range(98)


def lent(count):
    """The count, the length and so many readings, by turns one above and one below a whole number m. 4,000S is 4,000m times the count, or 4,000
    more, so that 4,000S / count is at least 4,000m, and 4,000S / TC less where the count is below TC. Over an odd count from 3 on it is no whole
    kW."""
    m = 2 + count % 7
    readings = [m - 1 if place % 2 else m + 1 for place in range(count)]
    return " ".join(map(str, (count, 4 * count, *readings)))


def accepted(ending, tc, count):
    """Numbers 3 and 8 are not met."""
    return 4 <= tc <= 96 and (ending == 0 and count == tc or ending in (1, 2) and count < tc)


def cases():
    """A fresh unit with its tests, for each TC, ending and count."""
    ends = [lent(count) for count in COUNTS]
    for tc in range(256):
        for ending in range(4):
            for count in COUNTS:
                test = f"1 0 {ending} {tc} {ends[count]}\n"
                yield "0 0 0\n" + test * (2 if accepted(ending, tc, count) else 1)


def files():
    """The cases one behind the other, as many at a time as a file has room for."""
    text = ""
    for case in cases():
        if len(text) + len(case) > MOST_BYTES:
            yield text
            text = ""
        text += case
    yield text


for place, text in enumerate(files()):
    (pathlib.Path(sys.argv[1]) / f"{place:03}.txt").write_text(text)
