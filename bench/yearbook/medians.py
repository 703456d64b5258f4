#!/usr/bin/env python3
"""medians.py JOURNAL RUNS OURS.. -- THEIRS..: runs the two programs in turn on the journal, whole processes, and prints both medians in microseconds."""
import os
import statistics
import sys
import time

journal, runs = sys.argv[1], int(sys.argv[2])
words = sys.argv[3:]
cut = words.index("--")
programs = [words[:cut], words[cut + 1:]]


def once(program):
    actions = [
        (os.POSIX_SPAWN_OPEN, 0, journal, os.O_RDONLY, 0),
        (os.POSIX_SPAWN_OPEN, 1, os.devnull, os.O_WRONLY, 0),
        (os.POSIX_SPAWN_OPEN, 2, os.devnull, os.O_WRONLY, 0),
    ]
    start = time.perf_counter_ns()
    pid = os.posix_spawn(program[0], program, os.environ, file_actions=actions)
    os.waitpid(pid, 0)
    return (time.perf_counter_ns() - start) / 1000


times = [[], []]
for turn in range(runs + 20):
    for i in (0, 1) if turn % 2 == 0 else (1, 0):
        t = once(programs[i])
        if turn >= 20:
            times[i].append(t)
print(*(f"{statistics.median(t):.0f}" for t in times))
