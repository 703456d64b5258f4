#!/usr/bin/env python3
"""Brings the definitions and lemmas of crates/ to snake case, once, and every text of the repository that names them.

usage: python3 tools/respell.py [--list]        at the top of the repository, behind port.py; --list prints the table and writes nothing

A name of specs/ or proofs/ that begins with a small letter is respelled if it holds a capital or a dash: sumUp is sum_up, and a dash stays only
between the names of two definitions, as in length-tab. Names that the prover makes, names of a library and functions of src/ stay as they are.
"""
import collections
import os
import re
import sys

WORD = r"[^\s(){}.;,@\"«»\[\]|`]+"
DECLARED = re.compile(rf"^(?:  )*(?:pub )?(?:abbrev |unfoldable )?(?:pub )?({WORD})(?: +{WORD})* : (.*)$")
GOAL = re.compile(r"^(?:tie|goal)\.")
FOREIGN = re.compile(r"^use ((?!Rattle\.)[\w.·-]+|Rattle\.std[\w.]*)\.\{([^}]*)\}", re.M)
STD = set("length take drop append set map replicate get_or sum reverse leb eqb ltb nil cons zero suc joined".split())
# where two names would fall together, or a new name would be that of a library or of a parameter
BY_HAND = {"fieldsIn": "fields_text"}
ALIASES = {"consumerCount": "consumer_count", "unitCount": "unit_count", "producerCount": "producer_count", "greatestUnit": "greatest_unit"}
# what port.py has respelled in crates/ by itself, for the texts that it leaves alone: edits and pages
RESPELLED = """
    add-at add-total add-wide adds-one after-is afterTest all-found all-small answerOf as-before as-long at-least at-most at-most-one at-one
    atPlace both-true by-number by-rows bytes-drop bytes-left bytes-take bytesOf callOf callsOf capOf cast-unsigned cellOf close-spec closedIn
    count-small countTo counted-spec covered-next cut-or cut-short decimal-digit declaredBy digits-3 digits-4 either-way entryOf enum-told
    fieldAt fields-in fields-out fieldsOf fill-more flagsOf formOf found-here fresh-kept front-length getD-map goes-on if-none in-between
    in-order in-row isA isLast joined-same known-at known-in length-fields length-more length-to limit-is lineAt lineFor lineOf lines-more
    linesFrom linesOf listedOf main-spec mul-wide nameOf namedOf no-lines no-number no-part no-place no-stop none-in none-named not-end
    not-named nothing-said nothing-yet number-by number-in number-is numberIn odd-refused of-parts one-at-most one-line one-more orElse
    out-of-range ownedBy owns-none pageOf pair-of part-at partOf partsOf pick-same placeOf power-small puts-none puts-then quotient-fits
    read-length read-more rest-more restOf row-before row-next row-other rowOf run-end run-ends run-spec runFrom runOf same-count same-length
    same-number same-numbers same-place same-power same-units signedOf size-of stage-is step-kept step-spec stepOf stored-at sub-row sum-done
    sum-zeros tableOf test-in testOf text-in textOf the-number too-short total-kept total-right unit-kept unit-lawful unitAt unitOf write-kept
    write-spec written-as written-none writtenBy
""".split()
MODULES = {"decision/specs/Contracts.antt": "decision/specs/ContractCalls.antt"}


def files(top, folders):
    for folder in folders:
        for at, dirs, names in os.walk(os.path.join(top, folder)):
            dirs[:] = sorted(d for d in dirs if d not in ("out", "target", ".git"))
            for n in sorted(names):
                yield os.path.join(at, n)


def read(path):
    with open(path, encoding="utf-8") as f:
        return f.read()


def snake(word):
    word = word.replace("getD", "get_or").replace("′", "'")
    word = re.sub(r"([a-z0-9])([A-Z])", r"\1_\2", word)
    return word.lower() if re.fullmatch(r"[A-Za-z0-9_']+", word) else word


def declared(text):
    """The names that a file of specs/ or proofs/ declares, those of goals left out."""
    for line in text.splitlines():
        if line.lstrip().startswith(("--", "use ", "mod ", "pub mod ", "open ")):
            continue
        m = DECLARED.match(line)
        if m and not GOAL.match(m[2]):
            names = re.match(r"^(?:  )*(?:pub )?(?:abbrev |unfoldable )?(?:pub )?(.*?) : ", line)[1].split()
            yield from names


def turns(word):
    return re.match(r"[a-z]", word) and re.search(r"[A-Z-]", word) and not re.search(r"[◌≡≤<+*/∷]", word)


def table(top):
    names, specs = collections.OrderedDict(), set()
    for path in files(top, ["crates"]):
        if path.endswith(".antt"):
            for n in declared(read(path)):
                names[n] = True
                if f"{os.sep}specs{os.sep}" in path:
                    specs.add(n)
    definitions = STD | {snake(n) for n in specs if "-" not in n}
    rows = {}
    for n in names:
        if not turns(n):
            continue
        parts = [snake(p) for p in n.split("-")]
        new = parts[0]
        for left, right in zip(parts, parts[1:]):
            new += ("-" if left in definitions and right in definitions else "_") + right
        if n.endswith("-spec") or n in specs:
            new = new.replace("-", "_")
        rows[n] = BY_HAND.get(n, new)
    # a lemma that would have its function's name
    for new, olds in fallen(rows, names).items():
        for n in olds:
            if "-" in n:
                rows[n] = new + "_lem"
    return rows, names


def fallen(rows, names):
    by = collections.defaultdict(set)
    for n in names:
        by[rows.get(n, n)].add(n)
    return {k: v for k, v in by.items() if len(v) > 1}


def main():
    top = os.getcwd()
    rows, names = table(top)
    if "--list" in sys.argv:
        for k, v in rows.items():
            print(k, v, sep="\t")
        for k, v in fallen(rows, names).items():
            print("together:", k, sorted(v), file=sys.stderr)
        return
    for old, new in MODULES.items():
        old, new = (os.path.join(top, "crates", it) for it in (old, new))
        if os.path.exists(old):
            os.rename(old, new)
    old_module = re.compile(r"(decision\.specs\.|decision/specs/)Contracts\b")
    token, span = re.compile(WORD), re.compile(r"`[^`\n]+`")
    also = {n: BY_HAND.get(n, re.sub("-", "_", snake(n))) for n in RESPELLED} | {"getD": "get_or"}
    everything = [*files(top, ["crates", "docs"]), os.path.join(top, "README.md")]
    for path in everything:
        if not path.endswith((".rt", ".antt", ".edit", ".md")) or f"docs{os.sep}PORT" in path:
            continue
        text = read(path)
        kept = set()
        if path.endswith(".antt"):
            own = set(declared(text))
            for m in FOREIGN.finditer(text):
                kept |= {w.strip() for w in m[2].split(",")} - own
            ownused = set()
            for m in re.finditer(r"^use Rattle\.(?!std)[\w.+-]+\.\{([^}]*)\}", text, re.M):
                ownused |= {w.strip() for w in m[1].split(",")}
            kept -= ownused
        if path.endswith(".edit"):
            text = re.sub(r"(?m)^((?:old|new): .*)$", lambda m: re.sub(r"(?<=[\w')}]) \.(?=[a-z0-9])", ".", m[1]), text)
        table_here = ALIASES | rows if path.endswith((".rt", ".antt")) else also | rows

        def one(m):
            return table_here.get(m[0], m[0]) if m[0] not in kept else m[0]

        if path.endswith(".md"):
            new = span.sub(lambda m: token.sub(one, m[0]), text)
        else:
            new = token.sub(one, text)
        new = old_module.sub(r"\1ContractCalls", new)
        if path.endswith(os.path.join("decision", "specs", "Lib.antt")):
            new = re.sub(r"\bmod Contracts\b", "mod ContractCalls", new)
        if new != text:
            with open(path, "w", encoding="utf-8") as f:
                f.write(new)


main()
