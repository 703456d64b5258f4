"""What occurs in a journal, from its bytes and from what is printed of it: the numbers that are met, its pages, where the first refusal is and how the
reading ends, the consumers at the ends of what the two forms of a record take, the charges at their limit, and the answers of the converter."""
import re
import struct

NUMBERS = *range(1, 15), 16, 19
PAGES = "1 page", "2 pages", "3 pages", "4 pages", "5 pages", "6 pages", "a page refused with 4"
FIRST_REFUSALS = "no refusal", "first refusal at place 0", "first refusal in the middle", "first refusal as the last record read"
ENDS = "end of journal", "stop 1", "stop 2"
PAIRS = [f"{first}, {end}" for first in FIRST_REFUSALS for end in ENDS]
CALLS = "declare", "commit", "release", "meter", "mean"
# consumers that a record takes, each in the form that it has, and those that a field of one byte and one of two do not take
TAKEN = [f"{call} of {consumer}" for call in CALLS for consumer in (1, 64, 65, 255, 256, 300)]
FOREIGN = [f"{call} of {consumer} in {field}" for call in CALLS for field, consumers in (
    ("a byte", (0, 65, 255)), ("two bytes", (0, 1, 64, 301, 65535))) for consumer in consumers]
LIMIT = "charges of exactly 6,000,000,000,000 cents"
NARROW = "accepted by narrow", *(f"refused by narrow with {number}" for number in (1, 2, 18))
MARKS = "a mark above 64 at place 0", "a mark above 64 and end of journal", "a mark above 64 before stop 1", "a mark above 64 before stop 2"
KINDS = *NUMBERS, *PAGES, *PAIRS, *TAKEN, *FOREIGN, LIMIT, *NARROW, *MARKS


def pages(page, page_findings):
    """which of PAGES a journal has"""
    headings = page.count(b"PAGE ")
    if headings:
        yield PAGES[headings - 1]
    elif b": no page, " in page_findings:
        yield PAGES[-1]


def end_of(replies):
    """which of ENDS the last line of the replies tells"""
    stop = re.search(rb"^\d+ stop: (\d) ", replies.splitlines()[-1])
    return ENDS[int(stop[1]) if stop else 0]


def pair(replies):
    """which of PAIRS a journal is, from the line of each record and that of the end"""
    refused = [b": 0 " not in line for line in replies.splitlines()[:-1]]
    if not any(refused):
        first = 0
    elif refused[0]:
        first = 1
    else:
        first = 3 if refused.index(True) == len(refused) - 1 else 2
    return f"{FIRST_REFUSALS[first]}, {end_of(replies)}"


def consumers(journal, replies):
    """which of TAKEN the records have that did not meet 3, and which of FOREIGN those that did, whose consumer is shown as 0"""
    for place, one, two, consumer, number in re.findall(rb"(?m)^(\d+) (?:(declare|meter|mean)|(commit|release) \d+) (\d+) .*: (\d+) ", replies):
        call, at = (one or two).decode(), int(place) + (3 if two else 2)
        if consumer != b"0":
            if number != b"3":
                yield f"{call} of {consumer.decode()}"
        elif number == b"3":
            in_a_byte = journal[int(place) : int(place) + 2].isupper()
            own, field = (journal[at], "a byte") if in_a_byte else (struct.unpack_from("<H", journal, at)[0], "two bytes")
            yield f"{call} of {own} in {field}"


def narrowed(narrow_findings, replies):
    """which of NARROW and MARKS a journal has"""
    met = re.search(rb"at byte (\d+): (\d+) ", narrow_findings)
    if not met:
        yield NARROW[0]
        return
    yield f"refused by narrow with {int(met[2])}"
    if met[2] == b"18":
        end = end_of(replies)
        yield f"a mark above 64 and {end}" if end == ENDS[0] else f"a mark above 64 before {end}"
        if met[1] == b"0":
            yield MARKS[0]


def occurrences(journal, listing, replies, page, page_findings, narrow_findings):
    """all that occurs in a journal, as often as it does; nothing where it is too long to be read"""
    if replies == b"X\n":
        return
    yield from map(int, re.findall(rb": (\d+) ", replies))
    yield from pages(page, page_findings)
    yield pair(replies)
    yield from consumers(journal, replies)
    if b"\nT 6000000000000 " in listing:
        yield LIMIT
    yield from narrowed(narrow_findings, replies)
