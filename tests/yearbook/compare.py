#!/usr/bin/env python3
"""compare.py PROGRAM REFERENCE STORED RANDOM DIFFERENT: compares what the program prints of every journal in STORED and RANDOM with what the
second implementation prints, without a word and with the words `replies`, `page`, `run` and `narrow`, on standard output and on standard error.

A journal is given as FILE and on standard input in turn, from word to word; a stored one also the other way round. A journal that differs is
named with the first line that differs and copied to DIFFERENT. Prints how often each number was met in the random journals, how many of them
have how many pages, and have none, refused with 4, how many have their first refusal where, together with how the reading ended, and how many the
converter accepted, and refused with which number. A journal whose first record is refused has its first refusal at place 0, even where it is the
only record read; one that is too long has nothing of this. Tells too how many units of each kind the random journals list, and how many of them have
another offer than in whole kW at each step. Fails if a journal differs, anything that occurrences.py names never occurred, or no unit of a kind has
another offer."""
import collections
import concurrent.futures
import io
import itertools
import os
import pathlib
import shutil
import subprocess
import sys

sys.dont_write_bytecode = True
from occurrences import ENDS, FIRST_REFUSALS, FOREIGN, KINDS, LIMIT, NARROW, NUMBERS, PAGES, TAKEN, occurrences

BATCH = 50
OFFERS = [f"an offer of kind {kind}" for kind in range(1, 9)]
CHANGED = [f"{offer} that A6 changed" for offer in OFFERS]


def expected(reference, journals):
    """listing, replies, findings, page, findings with it, run, journal for 64 consumers and findings with it, of each journal: the parts follow each
    other, each behind a line with its length"""
    run = subprocess.run([reference, "desk", *journals], stdout=subprocess.PIPE, check=True)
    source = io.BytesIO(run.stdout)
    parts = [[source.read(int(source.readline())) for _ in range(8)] for _ in journals]
    if source.read():
        sys.exit("test-yearbook: FAILED, the second implementation printed more parts than journals have")
    return parts


def printed(program, word, journal, as_file):
    """the program's status, standard output and standard error"""
    with open(os.devnull if as_file else journal, "rb") as source:
        words = [program, *word, *([journal] if as_file else [])]
        run = subprocess.run(words, stdin=source, stdout=subprocess.PIPE, stderr=subprocess.PIPE)
    return run.returncode, run.stdout, run.stderr


def first_difference(ours, theirs):
    """the first line that differs, in both"""
    for number, (our, their) in enumerate(itertools.zip_longest(ours.splitlines(True), theirs.splitlines(True)), 1):
        if our != their:
            return f"line {number} is {our!r} instead of {their!r}"
    return None


def differences(program, journal, as_file, listing, replies, findings, page, page_findings, run, narrow, narrow_findings):
    """what differs, in words; `as_file` tells whether listing, page and narrow, and not replies and run, are asked with FILE"""
    for word, file, output, said in (
        ((), as_file, listing, findings),
        (("replies",), not as_file, replies, findings),
        (("page",), as_file, page, page_findings),
        (("run",), not as_file, run, findings),
        (("narrow",), as_file, narrow, narrow_findings),
    ):
        asked = " ".join(["yearbook", *word, "FILE" if file else "<FILE"])
        status, out, err = printed(program, word, journal, file)
        if status != 0:
            yield f"{asked}: status {status}"
        for name, ours, theirs in (("standard output", out, output), ("standard error", err, said)):
            if ours != theirs:
                yield f"{asked}: {name}: {first_difference(ours, theirs)}"


def offers(reference, journals):
    """of each unit that the journals list which of OFFERS it has, and which of CHANGED, if any"""
    run = subprocess.run([reference, "offers", *journals], stdout=subprocess.PIPE, check=True, text=True)
    for kind, offer, without in map(str.split, run.stdout.splitlines()):
        yield OFFERS[int(kind) - 1]
        if offer != without:
            yield CHANGED[int(kind) - 1]


def compare(program, reference, journals, both_ways):
    """what differs, by journal, and how often each of KINDS, OFFERS and CHANGED occurred"""
    different, met = {}, collections.Counter()
    for place, (journal, parts) in enumerate(zip(journals, expected(reference, journals))):
        ways = (True, False) if both_ways else (place % 2 == 0,)
        found = [line for way in ways for line in differences(program, journal, way, *parts)]
        if found:
            different[journal] = found
        listing, replies, _, page, page_findings, _, _, narrow_findings = parts
        met.update(occurrences(pathlib.Path(journal).read_bytes(), listing, replies, page, page_findings, narrow_findings))
    met.update(offers(reference, journals))
    return different, met


def batches(folder):
    """the journals of a folder, some at a time"""
    journals = sorted(str(journal) for journal in folder.iterdir())
    return [journals[start:start + BATCH] for start in range(0, len(journals), BATCH)]


def main():
    program, reference, *folders = sys.argv[1:]
    stored, random, kept = map(pathlib.Path, folders)
    work = [(True, batch) for batch in batches(stored)] + [(False, batch) for batch in batches(random)]
    met, wrong, count = collections.Counter(), 0, collections.Counter()
    with concurrent.futures.ProcessPoolExecutor(os.cpu_count()) as pool:
        tasks = [pool.submit(compare, program, reference, batch, is_stored) for is_stored, batch in work]
        for (is_stored, batch), task in zip(work, tasks):
            different, numbers = task.result()
            count[is_stored] += len(batch)
            if not is_stored:
                met.update(numbers)
            for journal, found in different.items():
                wrong += 1
                shutil.copy(journal, kept)
                print(f"{journal} differs:", *found, sep="\n  ")
    for number in NUMBERS:
        print(f"number {number:2}: {met[number]} times")
    print(", ".join(f"{name}: {met[name]} journals" for name in PAGES))
    print(", ".join(f"{name}: {met[name]} journals" for name in (*NARROW, LIMIT)))
    for name, kinds in ("consumers at the ends of a form's range", TAKEN), ("consumers that a form does not take", FOREIGN):
        print(f"{name}, in each of the five calls: at least {min(met[kind] for kind in kinds)} records each")
    for first in FIRST_REFUSALS:
        print(f"{first}:", ", ".join(f"{met[f'{first}, {end}']} with {end}" for end in ENDS))
    missing = [item for item in (*KINDS, *CHANGED) if not met[item]]
    if missing:
        print("test-yearbook: FAILED, never met:", "; ".join(map(str, missing)))
    if wrong:
        print(f"test-yearbook: FAILED, {wrong} journals differ, kept in {kept}")
    if missing or wrong:
        sys.exit(1)
    kinds = ", ".join(f"{met[changed]} of {met[offer]} of kind {kind}" for kind, (offer, changed) in enumerate(zip(OFFERS, CHANGED), 1))
    compared = f"{count[True]} stored journals and {count[False]} random ones, listing, replies, page, run, narrow and standard error of each"
    print(f"test-yearbook: passed, {compared}; offers of the random ones that A6 changed: {kinds}")


if __name__ == "__main__":
    main()
