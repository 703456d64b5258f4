#!/usr/bin/env python3
"""messages.py PROGRAM: gives `outages`, built from examples/outages.c, logs that are right and wrong, and compares both outputs and the status with
what is written here."""
import os
import pathlib
import subprocess
import sys

PROGRAM = sys.argv[1]
EXAMPLE = "examples/outages.txt"
RANGE = "3 field outside its range: "
ORDER = "17 outage log out of order: "
WORD = "unknown word; the words are window, planned and forced"
cases = 0


def expect(name, log, output, said, words=(), closed=None, to=subprocess.PIPE, status=None):
    """both outputs and the status of a run with these words on a log, text, bytes or a descriptor"""
    global cases
    cases += 1
    given = {"stdin": log} if isinstance(log, int) else {"input": log if isinstance(log, bytes) else log.encode()}
    run = subprocess.run(
        [PROGRAM, *words], stdout=to, stderr=subprocess.PIPE, preexec_fn=None if closed is None else lambda: os.close(closed), **given
    )
    got = (run.stdout or b"").decode(), run.stderr.decode(), run.returncode
    wanted = output, said, (1 if said else 0) if status is None else status
    if got != wanted:
        sys.exit(f"outages-example: FAILED, {name}: {got} instead of {wanted}")


def takes(name, log, figures):
    """the log has these figures, and nothing is said"""
    expect(name, log, figures + "\n", "")


def refuses(log, line, reason):
    """this line of the log is named, with this reason alone, and standard output stays empty"""
    expect(reason, log, "", f"outages: line {line}: {reason}\n")


# the example, in every way that it can be given
TEXT = pathlib.Path(EXAMPLE).read_bytes()
FIGURES = pathlib.Path("examples/outages.figures").read_text()
expect("the example as a file", b"", FIGURES, "", [EXAMPLE])
expect("the example on standard input", TEXT, FIGURES, "")
expect("the example with carriage returns", TEXT.replace(b"\n", b"\r\n"), FIGURES, "")
expect("the example with tabs", TEXT.replace(b" ", b"\t"), FIGURES, "")
expect("the example without comments", b"".join(line.split(b"#")[0] + b"\n" for line in TEXT.splitlines()), FIGURES, "")

# what counts
WINDOW = "window 1000 2000 10\n"
takes("a window alone", WINDOW, "1000 0 0 10")
takes("across each edge", WINDOW + "planned 900 1001\nforced 1999 2100\n", "998 1 1 10")
takes("over the whole window", WINDOW + "planned 0 4000000000\n", "0 1000 0 10")
takes("outside", WINDOW + "planned 0 500\nforced 500 1000\nplanned 2000 2001\nforced 2001 2002\n", "1000 0 0 10")
takes("one behind the other", WINDOW + "planned 1000 1100\nforced 1100 1101\nplanned 1101 1200\n", "800 199 1 10")
takes("the greatest numbers", "window 3998947360 4000000000 1052640\nforced 3999999999 4000000000\n", "1052639 0 1 1052640")
takes("the least", "window 0 1 0\nforced 0 1\n", "0 0 1 0")
takes("1,000 entries", WINDOW + "".join(f"planned {1000 + k} {1001 + k}\n" for k in range(1000)), "0 1000 0 10")

# how a log is written
ENTRIES = "planned 1000 1060\nforced 1060 1100\n"
takes("no last line feed", WINDOW + ENTRIES[:-1], "900 60 40 10")
takes("a carriage return in its place", WINDOW + ENTRIES[:-1] + "\r", "900 60 40 10")
takes("comments and empty lines", "# a\n\n \t\n\r\n" + WINDOW.replace("\n", "#b\n\n") + ENTRIES.replace("\n", " # c # d\n") + "#", "900 60 40 10")
takes("blanks and tabs", (WINDOW + ENTRIES).replace(" ", " \t ").replace("\n", "\t \n \t"), "900 60 40 10")
takes("zeros in front", "window 0001000 00000000000002000 010\n", "1000 0 0 10")
takes("any bytes in a comment", b"# \0 \377 \r \xc3\xa1\n" + WINDOW.encode(), "1000 0 0 10")
takes("a byte-order mark", "\ufeff" + WINDOW + ENTRIES, "900 60 40 10")
takes("a byte-order mark before a comment", "\ufeff# a\n" + WINDOW + ENTRIES, "900 60 40 10")
takes("a line of 1,024 bytes", WINDOW + "#" * 1024 + "\n" + ENTRIES, "900 60 40 10")

# 3: the first line outside its range, whatever stands before it and behind it
refuses("window 4000000001 2000 10\n", 1, RANGE + "START is above 4,000,000,000")
refuses("window 1000 4000000001 10\n", 1, RANGE + "END is above 4,000,000,000")
refuses("window 1000 2000 1052641\n", 1, RANGE + "HED is above 1,052,640")
refuses(WINDOW + "planned 4000000001 4000000002\n", 2, RANGE + "START is above 4,000,000,000")
refuses(WINDOW + "planned 1000 4000000001\nforced 1 4000000001\n", 2, RANGE + "END is above 4,000,000,000")
for number in 2**32 - 1, 2**32, 2**32 + 1500, 2**64 + 1500, 10**500:
    refuses(WINDOW + f"planned 1000 1001\nforced 1400 {number}\n", 3, RANGE + "END is above 4,000,000,000")
refuses("window 2000 1000 10\nplanned 5 4\n# a comment\nforced 3 4000000001\n", 4, RANGE + "END is above 4,000,000,000")
MANY = "# many\n" + WINDOW + "\n" + "".join(f"forced {k} {k + 1}\n" for k in range(1001))
refuses(MANY, 1004, RANGE + "more than 1,000 entries")
refuses(MANY + "planned 1 2\n" * 100000, 1004, RANGE + "more than 1,000 entries")
refuses(MANY.replace("forced 500 501\n", "forced 500 4000000001\n"), 504, RANGE + "END is above 4,000,000,000")
refuses(MANY.replace("forced 500 501\n", "forced 501 500\n"), 1004, RANGE + "more than 1,000 entries")

# 17: the first line out of order
refuses("window 1000 1000 10\n", 1, ORDER + "END is not after START")
refuses("window 1001 1000 10\nplanned 5 4\n", 1, ORDER + "END is not after START")
refuses("window 1000 1053641 10\n", 1, ORDER + "the window has more than 1,052,640 minutes")
refuses(WINDOW + "planned 1000 1000\nforced 1 1\n", 2, ORDER + "END is not after START")
refuses(WINDOW + "planned 1000 1100\n\n# a comment\nforced 1099 1200\nplanned 1 2\n", 5, ORDER + "the entry before it has not ended")
refuses(WINDOW + "planned 1000 1100\nforced 1000 1100\n", 3, ORDER + "the entry before it has not ended")
refuses(WINDOW + "planned 1 3\nforced 2 4\n", 3, ORDER + "the entry before it has not ended")
refuses(WINDOW + "planned 3000 3001\nforced 1500 1501\n", 3, ORDER + "the entry before it has not ended")

# lines that are none, whatever else is wrong
refuses("", 1, "the log ends without a window")
refuses("\ufeff\ufeff" + WINDOW, 1, WORD)
refuses("# a comment\n\n# without a line feed", 4, "the log ends without a window")
refuses(ENTRIES, 1, "an entry before the window")
refuses(WINDOW + ENTRIES + WINDOW, 4, "a second window")
for word in "maintenance", "Planned", "plan", "plannedx", "1", "window,", "forced\0", "\ufeffforced", "\rforced":
    refuses(WINDOW + f"\n{word} 1000 1060\n", 3, WORD)
for numbers in "", "1000", "1000 # 2000", "1000 2000 10", "1 2 3 4 5 6 7 8 9":
    for word in "planned", "forced":
        refuses(WINDOW + f"{word} {numbers}\n", 2, f"{word} has 2 fields, START END")
for numbers in "", "1000", "1000 2000", "1000 2000 10 0":
    refuses(f"window {numbers}\n", 1, "window has 3 fields, START END HED")
for number in "-1", "+1", "1.5", "1,000", "0x10", "1e3", "ten", "1\0", "\r", "1\r", "\u0661":
    refuses(WINDOW + f"planned {number} 2000\n", 2, "START is not a number")
    refuses(WINDOW + f"forced 1000 {number}#\n", 2, "END is not a number")
    refuses(f"window 1000 2000 {number} \n", 1, "HED is not a number")
refuses(MANY + "forced\n", 1005, "forced has 2 fields, START END")
refuses("window 2000 1000 10\nforced 5000000000 1\nx\n", 3, WORD)
for length in 1025, 1026, 10**6:
    refuses(WINDOW + "#" * length + "\nx\n", 2, "longer than 1024 bytes")
refuses(WINDOW + "\0" * 10**6, 2, "longer than 1024 bytes")

# what cannot be read or written, and what is no file
expect("a missing file", b"", "", "outages: tests/missing: No such file or directory\n", ["tests/missing"])
expect("a folder", b"", "", "outages: tests: Is a directory\n", ["tests"])
expect("a folder on standard input", os.open("tests", os.O_RDONLY), "", "outages: standard input: Is a directory\n")
expect("no standard input", subprocess.DEVNULL, "", "outages: standard input: Bad file descriptor\n", closed=0)
expect("no standard output", TEXT, "", "outages: standard output: Bad file descriptor\n", closed=1)
with open("/dev/full", "wb") as full:
    expect("a full disk", TEXT, "", "outages: standard output: No space left on device\n", to=full)
expect("an argument too many", b"", "", "usage: outages [LOG]\n", [EXAMPLE, EXAMPLE], status=2)

print(f"{cases} logs and failures")
