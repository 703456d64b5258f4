#!/usr/bin/env python3
"""pages.py PROGRAM FOLDER: compares what `yearbook page` prints of some years in FOLDER, about the end of a page and with the widest figures, with
the lines that are written here. Nothing is refused in these years, so nothing is said of them."""
import subprocess
import sys

PROGRAM, FOLDER = sys.argv[1:]
HEADINGS = [f"PAGE    {page}                           " for page in range(1, 7)]

# lines of the consumer whose number is put in
CREDITED = "{:3}     100      100         1068000"
EVEN = "{:3}     100        0               0"
CHARGED = "{:3}     100     -100        -1068000"
MOST_CHARGED = "{:3}       0 -3000000    -90000000000"
MOST_CREDITED = "{:3} 3000000  3000000   5670000000000"
# the greatest charges that are accepted, in one credit
LIMIT_CREDITED = "{:3}       1        1   6000000000000"
LAST_CHARGED = "{:3}       0 -2000000    -60000000000"


def lines(numbers, usual, **others):
    """a line for each consumer: the usual one, or one of the others, `first` and `last`"""
    texts = [usual] * len(numbers)
    for place, at in ("first", 0), ("last", -1):
        texts[at] = others.get(place, texts[at])
    return [text.format(number) for text, number in zip(texts, numbers)]


ALL = list(range(1, 65))
GAPS = [number for number in ALL if number % 5]
OF_300 = list(range(1, 301))
YEARS = {
    "consumers-1": lines([9], CHARGED),
    "consumers-49": lines(GAPS[:49], EVEN, first=CREDITED, last=CHARGED),
    "consumers-50": lines(GAPS[:50], EVEN, first=CREDITED, last=CHARGED),
    "consumers-51": lines(GAPS[:51], EVEN, first=CREDITED, last=CHARGED),
    "consumers-64": lines(ALL, EVEN, first=CREDITED, last=CHARGED),
    "widest-pair": ["  1 3000000  3000000     90000000000", "  2       0 -3000000    -90000000000"],
    "credit-first": lines(ALL, MOST_CHARGED, first=MOST_CREDITED),
    "credit-last": lines(ALL, MOST_CHARGED, last=MOST_CREDITED),
    "one-charged": lines([1, 2, 3], "{:3}   47620    47620      1428600000") + lines(ALL[3:], "{:3}   47619    47619      1428570000", last=MOST_CHARGED),
    "all-charged": lines(ALL, MOST_CHARGED, first="{:3}       1 -2999999    -89999970000"),
    "charges-limit": lines(OF_300[:68], MOST_CHARGED, first=LIMIT_CREDITED, last=LAST_CHARGED),
    "charges-limit-undistributed": lines(OF_300[:68], MOST_CHARGED, first="{:3}       1        0               0", last=LAST_CHARGED),
}
# the last ones of 300 consumers, as many as the year's name tells
for count in (99, 100, 101, 150, 151, 200, 201, 250, 251, 299, 300):
    YEARS[f"consumers-{count}"] = lines(OF_300[-count:], EVEN, first=CREDITED, last=CHARGED)

# how many lines a text has, and some of them by their place, from 1: the same once more, to be read
PLACES = {
    "consumers-1": (2, {1: HEADINGS[0], 2: "  9     100     -100        -1068000"}),
    "consumers-49": (50, {1: HEADINGS[0], 2: "  1     100      100         1068000", 50: " 61     100     -100        -1068000"}),
    "consumers-50": (51, {1: HEADINGS[0], 6: "  6     100        0               0", 51: " 62     100     -100        -1068000"}),
    "consumers-51": (53, {51: " 62     100        0               0", 52: HEADINGS[1], 53: " 63     100     -100        -1068000"}),
    "consumers-64": (66, {51: " 50     100        0               0", 52: HEADINGS[1], 53: " 51     100        0               0"}),
    "widest-pair": (3, {1: HEADINGS[0]}),
    "credit-first": (66, {2: "  1 3000000  3000000   5670000000000", 66: " 64       0 -3000000    -90000000000"}),
    "credit-last": (66, {2: "  1       0 -3000000    -90000000000", 66: " 64 3000000  3000000   5670000000000"}),
    "one-charged": (66, {4: "  3   47620    47620      1428600000", 52: HEADINGS[1], 66: " 64       0 -3000000    -90000000000"}),
    "all-charged": (66, {2: "  1       1 -2999999    -89999970000", 53: " 51       0 -3000000    -90000000000"}),
    "charges-limit": (70, {2: "  1       1        1   6000000000000", 52: HEADINGS[1], 70: " 68       0 -2000000    -60000000000"}),
    "charges-limit-undistributed": (70, {2: "  1       1        0               0", 70: " 68       0 -2000000    -60000000000"}),
    "consumers-99": (101, {2: "202     100      100         1068000", 52: HEADINGS[1], 101: "300     100     -100        -1068000"}),
    "consumers-100": (102, {51: "250     100        0               0", 52: HEADINGS[1], 102: "300     100     -100        -1068000"}),
    "consumers-101": (104, {102: "299     100        0               0", 103: HEADINGS[2], 104: "300     100     -100        -1068000"}),
    "consumers-150": (153, {103: HEADINGS[2], 153: "300     100     -100        -1068000"}),
    "consumers-151": (155, {154: "PAGE    4                           ", 155: "300     100     -100        -1068000"}),
    "consumers-200": (204, {154: HEADINGS[3], 155: "251     100        0               0"}),
    "consumers-201": (206, {205: HEADINGS[4], 206: "300     100     -100        -1068000"}),
    "consumers-250": (255, {2: " 51     100      100         1068000", 205: HEADINGS[4], 255: "300     100     -100        -1068000"}),
    "consumers-251": (257, {256: "PAGE    6                           ", 257: "300     100     -100        -1068000"}),
    "consumers-299": (305, {2: "  2     100      100         1068000", 256: HEADINGS[5], 305: "300     100     -100        -1068000"}),
    "consumers-300": (306, {2: "  1     100      100         1068000", 256: HEADINGS[5], 257: "251     100        0               0"}),
}


def wrong(name):
    """what is wrong with the page of a year, if anything is"""
    run = subprocess.run([PROGRAM, "page", f"{FOLDER}/{name}.journal"], stdin=subprocess.DEVNULL, stdout=subprocess.PIPE, stderr=subprocess.PIPE)
    if run.returncode or run.stderr:
        return f"status {run.returncode}, {run.stderr.decode()}"
    printed = run.stdout.decode().split("\n")
    if printed.pop() != "":
        return "the last line has no line feed"
    if any(len(line) != 36 for line in printed):
        return "a line that has not 36 columns"
    count, places = PLACES[name]
    if len(printed) != count:
        return f"{len(printed)} lines"
    for place, line in places.items():
        if printed[place - 1] != line:
            return f"line {place} is {printed[place - 1]!r}"
    year = YEARS[name]
    if printed != [line for page, heading in enumerate(HEADINGS) if year[50 * page :] for line in (heading, *year[50 * page : 50 * page + 50])]:
        return "other lines:\n" + run.stdout.decode()
    return None


assert YEARS.keys() == PLACES.keys()
for name in YEARS:
    found = wrong(name)
    if found:
        sys.exit(f"test-page: FAILED, {name}: {found}")
print(f"test-page: the program prints {len(YEARS)} years as they are written")
