#!/usr/bin/env python3
"""odd.py: writes lines that are none of the forms of the program plant_cases, which it answers all the same, to standard output: a number ends at
any byte that is no digit, what is missing counts as 0, and a number without a byte behind it is none."""
import sys

LINES = [
    b"4 1 5 2\n", b"4  1 5\n", b" 4 1 5\n", b"+4 1 5\n", b"4 1 5 2 7\r\n", b"4 1 5 2 7 \n", b"4,1,5\n", b"4 1 -5\n", b"4 1\x005\n", b"4 1 5 \xe9\n",
    b"4 1 4294967289\n", b"4 1 4294967290\n", b"4 1 4294967295\n", b"4 1 4294967296\n", b"4 1 99999999999999999999\n", b"4 007 0005\n",
    b"5 1 5\n", b"255 1 5\n", b"4\n", b"\n", b"2\n", b"2 0 1\n", b"2 3 1 0 0 0\n", b"2 9 0 0 0 0\n", b"2 0 1 0 0 0 7\n", b"2 0 1 0 0 2\n",
    b"1 0 0 4 4 428\n", b"1 0 0 4 4 424\n", b"0\n", b"0 1\n", b"4 " + b"1 5 " * 60 + b"\n", b"2 0 1 0 0 2",
]
sys.stdout.buffer.write(b"".join(LINES))
