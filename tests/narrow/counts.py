#!/usr/bin/env python3
"""counts.py ANSWERS: how many of the journals in ANSWERS, a line `NUMBER LENGTH` each and as many bytes, were accepted and refused with which number.

Fails if a number of the converter was never met, or no accepted journal was empty, longer than the program reads, or had a short buffer to meet 15."""
import collections
import sys

MOST_BYTES = 65536

met, kinds = collections.Counter(), collections.Counter()
with open(sys.argv[1], "rb") as answers:
    for line in answers:
        number, length = map(int, line.split())
        answers.read(length)
        met[number] += 1
        if number == 0:
            kinds.update({"empty": length == 0, "with short buffers, which meet 15": length > 0, "longer than the program reads": length > MOST_BYTES})
refused = ", ".join(f"{met[number]} refused with {number}" for number in (1, 2, 18))
accepted = ", ".join(f"{count} {kind}" for kind, count in kinds.items())
print(f"{met.total()} journals: {met[0]} accepted ({accepted}), {refused}")
if set(met) != {0, 1, 2, 18} or len(kinds) != 3 or not all(kinds.values()):
    sys.exit(1)
