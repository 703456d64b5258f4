"""What the word `narrow` prints: the journal for 64 consumers, which is the journal's own bytes, or nothing."""
from expect import FOLDER, FULL, J, LONG, expect, file

NARROW_SAID = "yearbook: no journal for 64 consumers, at byte {}\n"
# a declaration of consumer 65, otherwise that of consumer 3 in J
ABOVE_64 = b"dm\x41\0" + J[101:109]


def narrow():
    """its own bytes, and nothing is said of a record that the book refuses; or the record that decided that there is none"""
    expect("narrow of J", ["narrow"], J, "", J)
    expect("narrow of J as a file", ["narrow", file("j.journal")], J, "")
    expect("narrow of no bytes", ["narrow"], b"", "")
    expect("narrow of a year without a refusal", ["narrow", file("silent.journal")], J[:7], "")
    expect("narrow of a wrong field", ["narrow", file("field.journal")], (FOLDER / "field.journal").read_bytes(), "")
    expect("narrow of a byte above 64", ["narrow"], J[:78] + b"\xff" + J[79:], "", J[:78] + b"\xff" + J[79:])
    for name, journal, met in (
        ("a mark above 64", J[:98] + ABOVE_64 + J[109:], "98: 18 mark for consumers above 64"),
        ("a mark above 64 alone", ABOVE_64, "0: 18 mark for consumers above 64"),
        ("a mark above 64 and a cut record", J + ABOVE_64 + b"Y", "172: 18 mark for consumers above 64"),
        ("a mark above 64 of consumer 0", J + b"mt\0\0\1\0\0\0", "172: 18 mark for consumers above 64"),
        ("a mark above 64 in a record cut short", J + ABOVE_64[:-1], "172: 1 record cut short"),
        ("a journal cut", J[:-1], "168: 1 record cut short"),
        ("the first 100 bytes", J[:100], "98: 1 record cut short"),
        ("the first 98 bytes and two of 0", J[:98] + b"\0\0", "98: 2 unknown mark"),
        ("an unknown mark before a mark above 64", J + b"ZZ" + ABOVE_64, "172: 2 unknown mark"),
        ("a text", (FOLDER / "j.txt").read_bytes(), "0: 2 unknown mark"),
    ):
        expect(f"narrow of {name}", ["narrow"], "", NARROW_SAID.format(met), journal)
    expect("narrow of 65,536 bytes", ["narrow"], FULL, "", FULL)
    expect("narrow of 65,537 bytes", ["narrow"], "X\n", LONG, FULL + b"C")
