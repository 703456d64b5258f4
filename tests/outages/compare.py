#!/usr/bin/env python3
"""compare.py LOGS EXPECTED WRITTEN: compares two files of answers to outage logs line by line. LOGS has each log behind its length of two bytes,
low byte first; an answer is `0 HD HMP HIF HED`, or the number alone that the log met.

Shows the first log with another answer, which then stands in LOGS.different. Prints how many logs were of each kind: which number a log meets,
and by what, is told here a third time, from the log alone. Fails if an answer differs or one of the kinds never occurred."""
import collections
import itertools
import struct
import sys

HEAD, ENTRY = struct.Struct("<III"), struct.Struct("<IIB")
MINUTE, MINUTES, ENTRIES = 4_000_000_000, 1_052_640, 1_000
OUTAGES = {1: "planned", 2: "forced"}
SHOWN = 20

# what an accepted log may have
ACCEPTED = [
    "no entry", "one entry", "1,000 entries", "entries of both kinds", "entries that touch", "entries of two kinds that touch in the window",
    "entry before the window", "entry up to the window's start", "entry across the window's start alone", "entry from the window's start on",
    "entry across both edges", "entry of just the window",
    "entry up to the window's end", "entry across the window's end alone", "entry from the window's end on", "entry behind the window",
    "no minute available", "window of 1 minute", "window of 1,052,640 minutes", "window from 0 on", "entry from 0 on",
    "window across 2,147,483,648", "window end at 4,000,000,000", "entry end at 4,000,000,000", "HED 0", "HED 1,052,640", "HED above the window",
]
# what meets 3, or 17; of each there must be a log that meets this number by nothing else
LENGTHS = ["no byte", "fewer than 12 bytes", "a byte more", "a byte fewer"]
BEYOND = [f"{what} at {minute:,}" for what in ("window start", "window end", "entry start", "entry end") for minute in (MINUTE + 1, 2**32 - 1)]
OUT_OF_RANGE = [*LENGTHS, *BEYOND, "HED 1,052,641", "kind 0", "kind 3", "kind 255", "1,001 entries"]
WINDOWS = ["window end at its start", "window end before its start", "window of 1,052,641 minutes", "window longer still"]
PLACES = ["before the window", "in the window", "behind the window"]
ENTRY_ORDER = ["entry end at its start", "entry end before its start", "entry a minute too early", "entry earlier still"]
OUT_OF_ORDER = [*WINDOWS, *(f"{what}, {where}" for what in ENTRY_ORDER for where in PLACES)]
# starts that are in range, though no end can be after them
LAST_STARTS = ["window start at 4,000,000,000", "entry start at 4,000,000,000"]
# what meets 3 where 17 would be met too
BOTH = [
    "kind or minute behind an entry out of order", "kind or minute before an entry out of order",
    "HED, and out of order", "length, and out of order", "1,001 entries, and out of order",
]
KINDS = [(number, name) for number, names in ((0, ACCEPTED), (3, OUT_OF_RANGE + BOTH), (17, OUT_OF_ORDER + LAST_STARTS)) for name in names]


def items(path):
    """the logs of a file"""
    with open(path, "rb") as file:
        data = file.read()
    place, logs = 0, []
    while place < len(data):
        start = place + 2
        place = start + int.from_bytes(data[place:start], "little")
        logs.append(data[start:place])
    return logs


def lines(path):
    """the lines of a file"""
    with open(path, encoding="ascii") as file:
        return file.read().splitlines()


def parts(log):
    """window start, window end, HED and the entries, as far as there are bytes for them"""
    whole = max(len(log) - HEAD.size, 0) // ENTRY.size * ENTRY.size
    return *HEAD.unpack(log[:HEAD.size].ljust(HEAD.size, b"\0")), list(ENTRY.iter_unpack(log[HEAD.size:HEAD.size + whole]))


def out_of_range(log):
    """what meets 3, and the places of the entries that do"""
    start, end, hed, entries = parts(log)
    if len(log) < HEAD.size:
        return {"fewer than 12 bytes" if log else "no byte"}, []
    met, places = set(), []
    more = (len(log) - HEAD.size) % ENTRY.size
    if more:
        met.add({1: "a byte more", ENTRY.size - 1: "a byte fewer"}.get(more, "another length"))
    met.update(f"{what} at {minute:,}" for what, minute in (("window start", start), ("window end", end)) if minute > MINUTE)
    if hed > MINUTES:
        met.add(f"HED {hed:,}")
    if len(entries) > ENTRIES:
        met.add(f"{len(entries):,} entries")
    for place, (first, behind, kind) in enumerate(entries):
        if first > MINUTE or behind > MINUTE or kind not in OUTAGES:
            places.append(place)
            met.update(f"{what} at {minute:,}" for what, minute in (("entry start", first), ("entry end", behind)) if minute > MINUTE)
            met.update([f"kind {kind}"] if kind not in OUTAGES else [])
    return met, places


def where(start, end, first, behind):
    """which of PLACES two minutes are, the first and the end of an entry"""
    low, high = sorted((first, behind))
    holds = high <= start, start <= low and high <= end, low >= end
    return next((place for place, one in zip(PLACES, holds, strict=True) if one), "across an edge")


def out_of_order(log):
    """what meets 17, and the places of the entries that do"""
    start, end, _, entries = parts(log)
    met, places, ended = set(), [], 0
    if end <= start:
        met.add(WINDOWS[0] if end == start else WINDOWS[1])
    elif end - start > MINUTES:
        met.add(WINDOWS[2] if end - start == MINUTES + 1 else WINDOWS[3])
    for place, (first, behind, _) in enumerate(entries):
        wrong = []
        if behind <= first:
            wrong.append(ENTRY_ORDER[0] if behind == first else ENTRY_ORDER[1])
        if first < ended:
            wrong.append(ENTRY_ORDER[2] if first == ended - 1 else ENTRY_ORDER[3])
        if wrong:
            places.append(place)
            met.update(f"{what}, {where(start, end, first, behind)}" for what in wrong)
        ended = behind
    return met, places


def last_starts(log):
    """which of LAST_STARTS a log has"""
    start, _, _, entries = parts(log)
    holds = start == MINUTE, any(first == MINUTE for first, *_ in entries)
    return [name for name, one in zip(LAST_STARTS, holds, strict=True) if one]


def both(range_met, range_places, order_met, order_places):
    """which of BOTH a log is"""
    alone = len(range_met) == 1
    holds = [
        alone and range_places and order_places and max(order_places) < min(range_places),
        alone and range_places and order_places and max(range_places) < min(order_places),
        alone and range_met & {"HED 1,052,641"} and order_met,
        alone and range_met & {"a byte more", "a byte fewer"} and order_met,
        alone and range_met & {"1,001 entries"} and order_met,
    ]
    return [name for name, one in zip(BOTH, holds, strict=True) if one]


def accepted(log, figures):
    """which of ACCEPTED a log is"""
    start, end, hed, entries = parts(log)
    pairs = [(behind, kind, later) for (_, behind, kind), (first, _, later) in itertools.pairwise(entries) if behind == first]

    def some(holds):
        return any(holds(first, behind) for first, behind, _ in entries)

    holds = [
        not entries, len(entries) == 1, len(entries) == ENTRIES, {kind for *_, kind in entries} == {1, 2}, pairs,
        any(start < minute < end and kind != later for minute, kind, later in pairs),
        some(lambda first, behind: behind < start), some(lambda first, behind: behind == start),
        some(lambda first, behind: first < start < behind < end), some(lambda first, behind: first == start and behind < end),
        some(lambda first, behind: first < start and behind > end), some(lambda first, behind: first == start and behind == end),
        some(lambda first, behind: first > start and behind == end), some(lambda first, behind: start < first < end < behind),
        some(lambda first, behind: first == end), some(lambda first, behind: first > end),
        figures[0] == 0, end - start == 1, end - start == MINUTES, start == 0, some(lambda first, behind: first == 0),
        start < 2**31 < end, end == MINUTE, some(lambda first, behind: behind == MINUTE), hed == 0, hed == MINUTES, hed > end - start,
    ]
    return [name for name, one in zip(ACCEPTED, holds, strict=True) if one]


def kinds(log, answer):
    """the number that a log meets, and of which kinds it is, the figures being those of the answer"""
    (range_met, range_places), (order_met, order_places) = out_of_range(log), out_of_order(log)
    if range_met:
        return 3, [*(range_met if len(range_met) == 1 else []), *both(range_met, range_places, order_met, order_places)]
    if order_met:
        return 17, [*(order_met if len(order_met) == 1 else []), *last_starts(log)]
    return 0, accepted(log, [int(figure) for figure in answer.split()[1:]])


def shown(log):
    """a log in words, its first entries and those that meet a number"""
    if len(log) < HEAD.size:
        yield f"{len(log)} bytes: {log.hex(' ')}"
        return
    start, end, hed, entries = parts(log)
    yield f"{len(log)} bytes: window {start} to {end}, which is {end - start} minutes, HED {hed}, {len(entries)} entries"
    places = {*range(min(SHOWN, len(entries)))}
    for number, (met, wrong) in ((3, out_of_range(log)), (17, out_of_order(log))):
        if met:
            yield f"what meets {number}: " + "; ".join(sorted(met))
        places.update(wrong[:SHOWN])
    for place in sorted(places):
        first, behind, kind = entries[place]
        yield f"entry {place + 1}: {first} to {behind}, kind {kind}, {OUTAGES.get(kind, 'which there is not')}"
    if len(entries) > len(places):
        yield f"and {len(entries) - len(places)} more"


def differs(path, place, log, *words):
    """ends, having shown and kept the log that differs"""
    with open(f"{path}.different", "wb") as file:
        file.write(len(log).to_bytes(2, "little") + log)
    print(f"test-outages: FAILED, log {place}, which stands in {path}.different:", *words, *shown(log), sep="\n  ")
    sys.exit(1)


def main():
    path, *answers = sys.argv[1:]
    logs, (expected, written) = items(path), map(lines, answers)
    if len(expected) != len(logs) or len(written) > len(logs):
        sys.exit(f"test-outages: FAILED, {len(logs)} logs have {len(expected)} answers expected and {len(written)} written")
    met = collections.Counter()
    for place, (log, theirs, ours) in enumerate(itertools.zip_longest(logs, expected, written, fillvalue="nothing"), 1):
        if ours != theirs:
            differs(path, place, log, f"written:  {ours}", f"expected: {theirs}")
        number, found = kinds(log, theirs)
        if theirs.split()[0] != str(number):
            differs(path, place, log, f"written, and expected: {theirs}", f"told from the log: {number}")
        met.update((number, name) for name in found)
    for number, name in KINDS:
        print(f"{number:2}  {name:48} {met[number, name]:6}")
    missing = [f"{number} {name}" for number, name in KINDS if not met[number, name]]
    if missing:
        sys.exit("test-outages: FAILED, never met: " + "; ".join(missing))


if __name__ == "__main__":
    main()
