#!/usr/bin/env python3
"""messages.py PROGRAM FOLDER FAILING: runs `yearbook` as a trader would, rightly and wrongly, and compares both outputs with what is written here and
in narrow.py; expect.py says what the arguments are."""
import os
import pathlib
import signal
import subprocess
import sys
import tempfile
import threading
import time

sys.dont_write_bytecode = True
from expect import FAILING, FOLDER, FULL, J, LONG, PROGRAM, USAGE, expect, file, tried
from narrow import ABOVE_64, NARROW_SAID, narrow

J_LISTING = (FOLDER / "j.listing").read_text()
J_REPLIES = """\
0 year 720 120 4: 0 accepted
7 unit 1 1 1 17 0 0 0 0 0: 0 accepted
33 test 1 0 0 4 4 2500 2500 2500 2500: 0 accepted
56 availability 1 0 900 60 40 10: 0 accepted
76 declare 1 1000 1000: 0 accepted
87 declare 2 1000 1100: 0 accepted
98 declare 3 1000 1000: 0 accepted
109 fix 10000: 0 accepted
115 commit 1 1 9000: 0 accepted
123 commit 1 2 501: 11 above the producer's efficient offers
131 release 1 1 1000: 0 accepted
139 commit 1 2 1500: 0 accepted
147 meter 1 900: 0 accepted
154 meter 2 1200: 0 accepted
161 meter 3 1000: 0 accepted
168 close 890: 0 accepted
172 end of journal
"""
J_RUN = """\
records read: 16
accepted: 15
refused: 1
reading stopped at byte 172: end of journal
first refused record at byte 123: 11 producer's balances + q exceed its units' efficient offers
"""
J_PAGE = "PAGE    1" + " " * 27 + """
  1    3334      334         7123560
  2    3333     -667        -7123560
  3    3333        0               0
"""
J_SAID = "yearbook: 1 of 16 records refused, the first at byte 123: 11 above the producer's efficient offers\n"
J_CUT_LISTING = "".join(line for line in J_LISTING.splitlines(True) if line[0] in "UPD") + "R 15 14 1\n"
HELP = USAGE + """\
Reads a journal of the firm capacity book, FILE or standard input, of at most 65536 bytes.
  without a word  the listing: U units, P producers, D demands, S settlements, T totals, R records
  replies         each record's place, call, number and meaning, and where the reading stopped
  run             the counts, where and why the reading stopped, and the first refused record with its number
  page            the printed close: a line of 36 columns for each declared consumer, 50 to a page
  narrow          the same journal, for programs of 64 consumers, where no record has a mark for those above; no book is run
  help            these words
A journal holds binary records; scripts/journal of the sources makes them from lines of text.
Where the program ends by itself, standard error is empty exactly when all was read and accepted, and all that was asked for was written.
"""


def run_lines(read, refused, end, first="no record refused"):
    """the five lines of a run, from the records read and refused, the place and the words of the end, and the last line"""
    return f"records read: {read}\naccepted: {read - refused}\nrefused: {refused}\nreading stopped at byte {end}\n{first}\n"


# a year as document 01 has it, with one refusal, in every way that it can be given
expect("J on standard input", [], J_LISTING, J_SAID, J)
expect("J as a file", [file("j.journal")], J_LISTING, J_SAID)
expect("replies to J", ["replies"], J_REPLIES, J_SAID, J)
expect("replies to J as a file", ["replies", file("j.journal")], J_REPLIES, J_SAID)
expect("the run of J", ["run"], J_RUN, J_SAID, J)
expect("the run of J as a file", ["run", file("j.journal")], J_RUN, J_SAID)
expect("the page of J", ["page"], J_PAGE, J_SAID, J)
expect("the page of J as a file", ["page", file("j.journal")], J_PAGE, J_SAID)
piece, end = os.pipe()


def in_pieces():
    for at in range(0, len(J), 50):
        os.write(end, J[at : at + 50])
        time.sleep(0.02)
    os.close(end)


writer = threading.Thread(target=in_pieces)
writer.start()
expect("J in pieces", [], J_LISTING, J_SAID, piece)
writer.join()

# nothing is said where all went well
expect("a year without a refusal", [file("silent.journal")], "R 1 1 0\n", "")
expect("no bytes", [], "R 0 0 0\n", "")
expect("replies to no bytes", ["replies"], "0 end of journal\n", "")
expect("the run of a year without a refusal", ["run", file("silent.journal")], run_lines(1, 0, "7: end of journal"), "")
expect("the run of no bytes", ["run"], run_lines(0, 0, "0: end of journal"), "")
expect("the run of J without its refused record", ["run"], run_lines(15, 0, "164: end of journal"), "", J[:123] + J[131:])
expect("the page of J without its refused record", ["page"], J_PAGE, "", J[:123] + J[131:])

# a trader's commonest mistakes: a wrong field, a consumer not declared, one without a reading, a journal cut, a text given as a journal
expect(
    "a wrong field", ["replies", file("field.journal")],
    "0 year 720 120 4: 0 accepted\n7 unit 70 1 1 17 0 0 0 0 0: 3 field outside its range\n33 end of journal\n",
    "yearbook: 1 of 2 records refused, the first at byte 7: 3 field outside its range\n",
)
expect(
    "the run of a wrong field", ["run", file("field.journal")],
    run_lines(2, 1, "33: end of journal", "first refused record at byte 7: 3 field outside its range; a division's T, weights or their number"),
    "yearbook: 1 of 2 records refused, the first at byte 7: 3 field outside its range\n",
)
expect(
    "a consumer not declared", ["replies", file("undeclared.journal")],
    "0 year 720 120 4: 0 accepted\n7 declare 1 1000 1000: 0 accepted\n18 fix 10000: 0 accepted\n"
    "24 meter 2 900: 10 consumer not declared\n31 meter 1 900: 0 accepted\n38 end of journal\n",
    "yearbook: 1 of 5 records refused, the first at byte 24: 10 consumer not declared\n",
)
expect(
    "the run of a consumer not declared", ["run", file("undeclared.journal")],
    run_lines(5, 1, "38: end of journal", "first refused record at byte 24: 10 consumer not declared (commit, release, meter, mean)"),
    "yearbook: 1 of 5 records refused, the first at byte 24: 10 consumer not declared\n",
)
J_SILENT = J[:123] + J[131:161] + J[168:]
J_SILENT_SAID = "yearbook: 1 of 14 records refused, the first at byte 153: 16 consumer without a reading or a mean\n"
expect(
    "replies to J without its refused record and the last reading", ["replies"],
    "".join(J_REPLIES.splitlines(True)[:9])
    + "123 release 1 1 1000: 0 accepted\n131 commit 1 2 1500: 0 accepted\n139 meter 1 900: 0 accepted\n146 meter 2 1200: 0 accepted\n"
    + "153 close 890: 16 consumer without a reading or a mean\n157 end of journal\n",
    J_SILENT_SAID, J_SILENT,
)
expect(
    "the run of J without its refused record and the last reading", ["run"],
    run_lines(14, 1, "157: end of journal", "first refused record at byte 153: 16 close while a declared consumer has neither a reading nor a mean"),
    J_SILENT_SAID, J_SILENT,
)
for at_87, consumer in (J[87:89] + b"\x41", 0), (b"dm\x40\0", 0), (b"dm\x41\0", 65):
    # a consumer that the record takes is its number, one that it does not is 0
    given, width = J[:87] + at_87 + J[90:109], len(at_87) - 3
    reply = "0 accepted" if consumer else "3 field outside its range"
    expect(
        f"replies to a record of {at_87}", ["replies"],
        "".join(J_REPLIES.splitlines(True)[:5])
        + f"87 declare {consumer} 1000 1100: {reply}\n{98 + width} declare 3 1000 1000: 0 accepted\n{109 + width} end of journal\n",
        "" if consumer else f"yearbook: 1 of 7 records refused, the first at byte 87: {reply}\n", given,
    )
J_MEAN = J[:161] + b"AT" + J[163:]
expect("J with a mean for the last reading", [], J_LISTING, J_SAID, J_MEAN)
expect("replies to J with a mean for the last reading", ["replies"], J_REPLIES.replace("meter 3", "mean 3"), J_SAID, J_MEAN)
STOP = "yearbook: reading stopped at byte 168: 1 record cut short\n"
J_CUT_SAID = J_SAID.replace("16", "15")
expect("a journal cut", [], J_CUT_LISTING, J_CUT_SAID + STOP, J[:-1])
expect(
    "replies to a journal cut", ["replies"], "".join(J_REPLIES.splitlines(True)[:15]) + "168 stop: 1 record cut short\n",
    J_CUT_SAID + STOP, J[:-1],
)
J_FIRST = J_RUN.splitlines()[-1]
expect("the run of a journal cut", ["run"], run_lines(15, 1, "168: 1 record cut short", J_FIRST), J_CUT_SAID + STOP, J[:-1])
expect(
    "the run of J and an unknown mark", ["run"], J_RUN.replace("end of journal", "2 unknown mark"),
    J_SAID + "yearbook: reading stopped at byte 172: 2 unknown mark\n", J + b"ZZ" + J,
)
expect(
    "the run of J behind a refused close", ["run"], run_lines(17, 2, "176: end of journal", "first refused record at byte 0: 4 stage"),
    "yearbook: 2 of 17 records refused, the first at byte 0: 4 not in this stage\n", J[-4:] + J,
)
expect("a text", [file("j.txt")], "R 0 0 0\n", "yearbook: reading stopped at byte 0: 2 unknown mark\n")
expect(
    "replies to a text", ["replies", file("j.txt")], "0 stop: 2 unknown mark\n", "yearbook: reading stopped at byte 0: 2 unknown mark\n"
)

expect(
    "the run of a text", ["run", file("j.txt")], run_lines(0, 0, "0: 2 unknown mark"), "yearbook: reading stopped at byte 0: 2 unknown mark\n"
)

# no page of a year that is not closed, and what else is wrong is said before
NO_PAGE = "yearbook: no page, the year is not closed: 4 not in this stage\n"
expect("the page of J without its close", ["page"], "", J_CUT_SAID + NO_PAGE, J[:-4])
expect("the page of a journal cut", ["page"], "", J_CUT_SAID + STOP + NO_PAGE, J[:-1])
expect("the page of J without the last reading", ["page"], "", J_SILENT_SAID + NO_PAGE, J_SILENT)
expect("the page of J and a part of a record", ["page"], J_PAGE, J_SAID + STOP.replace("168", "172"), J + b"C")
expect("the page of no bytes", ["page"], "", NO_PAGE)
expect("the page of a year without a refusal", ["page", file("silent.journal")], "", NO_PAGE)
expect("the page of a text", ["page", file("j.txt")], "", "yearbook: reading stopped at byte 0: 2 unknown mark\n" + NO_PAGE)

narrow()

# the longest input, and a longer one
FULL_SAID = f"yearbook: {1 + (65536 - len(J)) // 4} of {16 + (65536 - len(J)) // 4} records refused, the first at byte 123: 11 above the producer's efficient offers\n"
expect("65,536 bytes", [], J_LISTING.replace("R 16 15 1", f"R {16 + (65536 - len(J)) // 4} 15 {1 + (65536 - len(J)) // 4}"), FULL_SAID, FULL)
expect("65,537 bytes", [], "X\n", LONG, FULL + b"C")
expect("replies to 65,537 bytes", ["replies"], "X\n", LONG, FULL + b"C")
expect(
    "the run of 65,536 bytes", ["run"],
    run_lines(16 + (65536 - len(J)) // 4, 1 + (65536 - len(J)) // 4, "65536: end of journal", J_FIRST), FULL_SAID, FULL,
)
expect("the run of 65,537 bytes", ["run"], "X\n", LONG, FULL + b"C")
expect("the page of 65,536 bytes", ["page"], J_PAGE, FULL_SAID, FULL)
expect("the page of 65,537 bytes", ["page"], "X\n", LONG, FULL + b"C")

# words
for word in ["help", "--help", "-h"]:
    expect(word, [word], HELP, "")
for word in "replise", "runs", "pages", "narrows":
    expect("an unknown word", [word, file("j.journal")], "", f"yearbook: {word}: unknown word\n" + USAGE)
    expect("a mistyped word alone", [word], "", f"yearbook: {word}: No such file or directory\n" + USAGE)
expect("an unknown option", ["--version"], "", "yearbook: --version: unknown word\n" + USAGE)
for words in (
    ["replies", file("j.journal"), "more"], ["run", file("j.journal"), "more"], ["page", file("j.journal"), "more"],
    ["narrow", file("j.journal"), "more"], ["help", file("j.journal")], ["--help", "replies", "more"],
):
    expect("an argument too many", words, "", "yearbook: too many arguments\n" + USAGE)
expect("three files", [file("j.journal"), "b", "c"], "", f"yearbook: {file('j.journal')}: unknown word\n" + USAGE)
expect("too long a word", ["a" * 5000], "", "yearbook: first argument: File name too long\n")
for word in "replies", "run", "page", "narrow":
    expect("too long a file", [word, "a" * 5000], "", "yearbook: second argument: File name too long\n")

# what cannot be read: nothing is printed, since a failed read is not the end of the input
expect("a missing file", [file("missing")], "", f"yearbook: {file('missing')}: No such file or directory\n" + USAGE)
for word in "replies", "run", "page", "narrow":
    expect("a missing file behind a word", [word, file("missing")], "", f"yearbook: {file('missing')}: No such file or directory\n")
expect("a folder", [str(FOLDER)], "", f"yearbook: {FOLDER}: Is a directory\n")
expect("a folder on standard input", [], "", "yearbook: standard input: Is a directory\n", os.open(FOLDER, os.O_RDONLY))
expect("no standard input", [], "", "yearbook: standard input: Bad file descriptor\n", subprocess.DEVNULL, closed=0)
for words in [], ["replies"], ["run"], ["page"], ["narrow"]:
    expect("a read that fails in the middle", words, "", "yearbook: standard input: Input/output error\n", J, preload=FAILING)

# what cannot be written
with open("/dev/full", "wb") as full:
    for words, said in ([], J_SAID), (["replies"], J_SAID), (["run"], J_SAID), (["page"], J_SAID), (["narrow"], ""), (["help"], ""):
        expect("a full disk", words, "", said + "yearbook: standard output: No space left on device\n", J, to=full)
for words, said in ([], J_SAID), (["run"], J_SAID), (["page"], J_SAID), (["narrow"], ""):
    expect("no standard output", words, "", said + "yearbook: standard output: Bad file descriptor\n", J, closed=1)

# whoever reads leaves: the program ends, as a shell tells of one that the system ended, but what is wrong was said before
for words, said in ([], J_SAID), (["replies"], J_SAID), (["run"], J_SAID), (["page"], J_SAID), (["narrow"], ""):
    piece, end = os.pipe()
    os.close(piece)
    expect("a reader that leaves", words, "", said, J, to=end, status=128 + signal.SIGPIPE)
    os.close(end)

# the manual's table of mistakes: J without its refused line, changed
K = J[:123] + J[131:]
SAID = "yearbook: {} records refused, the first at byte {}\n"
TABLE = [
    ("declare 2 1000 4000000", K[:94] + (4000000).to_bytes(4, "little") + K[98:], SAID.format("3 of 15", "87: 3 field outside its range")),
    ("no declare 3", K[:98] + K[109:], SAID.format("1 of 14", "142: 10 consumer not declared")),
    ("no meter 3", K[:153] + K[160:], SAID.format("1 of 14", "153: 16 consumer without a reading or a mean")),
    ("the fix behind the first commit", K[:109] + K[115:123] + K[109:115] + K[123:], SAID.format("2 of 15", "109: 4 not in this stage")),
    ("the first 100 bytes", K[:100], "yearbook: reading stopped at byte 98: 1 record cut short\n"),
    ("the first 98 bytes, whole records", K[:98], ""),
    ("a page before the close", K[:-4], NO_PAGE, "page"),
    ("65 in the byte at 89", K[:89] + b"\x41" + K[90:], SAID.format("3 of 15", "87: 3 field outside its range")),
    ("declare 65 for 3, and narrow", K[:98] + ABOVE_64 + K[109:], NARROW_SAID.format("98: 18 mark for consumers above 64"), "narrow"),
    (
        "the 21st byte lost", K[:20] + K[21:],
        SAID.format("1 of 2", "7: 3 field outside its range") + "yearbook: reading stopped at byte 33: 2 unknown mark\n",
    ),
]
manual = pathlib.Path("docs/MANUAL.md").read_text()
for name, journal, said, *words in TABLE:
    tried.append(name)
    run = subprocess.run([PROGRAM, *words], input=journal, stdout=subprocess.PIPE, stderr=subprocess.PIPE)
    if run.stderr.decode() != said or not all(line in manual for line in said.splitlines()):
        sys.exit(f"test-desk: FAILED, {name}: {run.stderr.decode()}, in the manual or not")

# the manual's shell: what is said is empty, and the status 0, exactly where all went well
LINE = 'if said=$("$0" "$1" 2>&1 >"$2") && [ -z "$said" ]; then exit 0; else exit 1; fi'
with tempfile.TemporaryDirectory() as folder:
    for journal, status in ("silent.journal", 0), ("j.journal", 1), ("missing", 1):
        for shell in "sh", "bash":
            tried.append(f"{shell} on {journal}")
            run = subprocess.run([shell, "-c", LINE, PROGRAM, file(journal), folder + "/listing"])
            if run.returncode != status:
                sys.exit(f"test-desk: FAILED, {shell} on {journal}: status {run.returncode}")
print(f"test-desk: passed, {len(tried)} cases")
