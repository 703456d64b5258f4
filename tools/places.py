#!/usr/bin/env python3
"""Counts the places of docs/DESIGN-PASS.md: where crates/ is written as an older language needed it.

usage: python3 tools/places.py                 how many places each class and point had at the commit of the page's first line, and has now
       python3 tools/places.py CLASS [COMMIT]  the places of a point (3) or of a class (3a) at the page's commit, or at another one; '.' takes
                                               the files as they stand. Both at the top of the repository

A class is a pattern over src/ and proofs/ of the crates, or, where it takes a judgement to see a place, as of twins, a list of names; a name
counts where its file still declares it.
"""
import collections
import os
import re
import subprocess
import sys

PAGE = "docs/DESIGN-PASS.md"
FUNCTION = re.compile(r'^( *)(?:pub(?:\(crate\))? )?(?:extern "C" )?fn (\w+)', re.M)
TYPE = re.compile(r"^(?:#\[derive\(([^)]*)\)\]\n)?(?:pub(?:\(crate\))? )?(struct|enum) (\w+)([^\n]*)", re.M)
DECLARED = r'^ *(?:pub |pub\(crate\) |extern "C" )*(?:fn|struct|enum|const) {0}\b|^ *(?:abbrev |unfoldable )?(?:pub )?(?:record |data )?{0} '
LITERAL = re.compile(r"""//[^\n]*|b?'(?:\\.|[^'\\\n])'|(?<!extern )b?"(?:\\.|[^"\\\n])*\"""")
PRINTS = r"(?:put|show|write|say|print)(?:_|$)"

Place = collections.namedtuple("Place", "path line name group")
Function = collections.namedtuple("Function", "path line name params result clauses body start")

# The places that take a judgement: a class, of twins with the group behind a colon, then each file and names in it; NAME.FIELD is a field.
NAMED = """
1b record/reading Read
1c power/component Answer; state/kept Reply; listing/lib Listed; page/lib Printed; journal/outcome Run.stop; desk/replies Told;
 yearbook/input Taken; yearbook/main answer_file; yearbook/output print; yearbook_c/figures Named; book_cases/main Run.going;
 record_cases/main fill next_item; plant_cases/main fresh_unit
1d share/lib division_number divide; share/buffers divide_buffer share_divide; share_c/division share_divide; power/power test_number;
 plant/availability availability_number; table/consumers consumer_number; table/contracts contract_number; table/units unit_number;
 page/lib print_number; ranges/lib call_number; record/writing write; record/reading stop_number; fix/fixing fix_number; close/closing close_number;
 book/begun year_number; gathering/units barred; gathering/components test_rest; yearbook_c/figures yearbook_run; yearbook_c/listed yearbook_list;
 yearbook_c/printed yearbook_page
1e journal/outcome refused_at counted ended; words/numbers meaning_of put_said put_at_place; words/conditions put_when put_condition;
 summary/lib put_stop; desk/findings put_stopping; desk/printing put_unclosed; desk/replies put_answered put_end; book_cases/main stopped accepts
1f power/card least_count; plant_c/card plant_least_count; state/places place_of; fix/offers producer_by; letters/units owner_of
1g quantities/flags FIRST_YEAR SECOND_YEAR FORCED_GENERATION INJECTION_GIVEN REPORT_HELD is_flagged;
 state/stages BLANK GATHERING FIRM CLOSED stage_number; plant/efficient Efficient.year counted year_sum chosen_year efficient_offer offers_in;
 plant/offer Plant.kind firm_offer; power/power count_fits test_number measured_of remembered after_test test; ranges/unused uses_of;
 gathering/components WITH_STORAGE has_test has_availability component_of with_component; plant_cases/main component_of with_component step
1h claims/specs/History.antt Last
2a:four_bytes share/buffers read_weights; power/power energy_of; power/ranges readings_in_range; words/calls put_readings
2a:answer gathering/units UnitAnswer; decision/consumers ConsumerAnswer; decision/contracts BalanceAnswer
2a:size listing/lib Listed; page/lib Printed / 2a:settled book/settlement of_unit of_consumer of_contract; journal/running run
2a:ranged table/units unit_number; table/consumers consumer_number; table/contracts contract_number
2a:mark table/units unit_mark_at; table/consumers consumer_mark_at; table/contracts contract_mark_at; table/calls book_mark_at
2a:commit_release table/contracts contract_call contract_fields
2a:form table/calls year_fields fix_fields close_fields; table/units enrol_fields test_fields availability_fields; table/consumers consumer_fields
2a:place state/places unit_place consumer_place / 2a:owner fix/offers producer_by; letters/units owner_of
2a:sum share/parts sum_of; close/money total_of; decision/contracts row_sum / 2a:has_unit letters/producers has_unit; questions/lib has_unit
2a:lines letters/units put_units; letters/producers put_producers; letters/consumers put_demands put_settlements
2a:shown book_cases/main show_units show_producers show_demands show_adjustments / 2a:said words/numbers put_said; words/conditions put_condition
2a:words_by_number words/numbers meaning_of; words/conditions put_when
2a:printed desk/findings put_desk; desk/printing put_printed; desk/summing put_run / 2a:copied text/lib put_text; record/fields put_bytes
2a:unused ranges/unused unset_unless zero_unless
2a:component gathering/components component_of with_component; plant_cases/main Unit component_of with_component; state/kept Unit
2a:signed questions/lib Signed signed_of; text/lib Amount
2a:numbered questions/lib unit_offers producer_totals declaration_of adjustment_of; decision/contracts producer_balance; state/places place_of
2a:too_long listing/output put_output; desk/findings put_desk; desk/printing put_printed; desk/summing put_run; desk/replies all_replies;
 yearbook/output tell
2a:wide record/sizes wide; decision/contracts wide
2a:program book_cases/main put put_digits put_number; record_cases/main put put_number put_field; plant_cases/line write
2a:read_whole yearbook/input read_whole; book_cases/main read_full
2a:barred fix/fixing fix_number; close/closing close_number; book/begun year_number; gathering/units barred
2a:whole_book fix/fixing fix; close/closing close; book/begun year / 2a:run journal/outcome Run Tally; book_cases/main Run
2a:totals state/kept CloseFigures; questions/lib CloseTotals
2b table/units UNITS PRODUCERS; table/consumers CONSUMERS; table/contracts PRODUCERS CONSUMERS; book_cases/main UNITS PRODUCERS CONSUMERS;
 close/adjusted GREATEST_DEMAND; words/calls MOST_SHOWN
2c:answer gathering/specs/Units.antt unit_answered; decision/specs/Consumers.antt consumer_answered;
 decision/specs/ContractCalls.antt balance_answered
2c:book_with state/specs/State.antt with_units with_consumers with_balances / 2c:read_on journal/specs/Calls.antt calls_from places_from
2c:first_refused journal/specs/Run.antt named_places named_numbers / 2c:count journal/specs/Promises.antt accepted_in refused_in
2c:size listing/specs/Listing.antt Lists; page/specs/Page.antt Prints
3b power/quantity least over_hours; power/ranges above; close/money excess; close/adjusted adjusted_by; plant/offer together;
 plant/efficient counted; fix/offers added limit; words/calls shown; state/places place_of; table/single field_at is_between both;
 page/pages count_one; book_cases/main accepts; yearbook/arguments is_option
4b yearbook/arguments is_same; yearbook/output is_replies is_broken_pipe; plant/offer has_result; decision/contracts is_declared;
 questions/lib owned_by
4c text/lib put_text; record/fields put_bytes; fix/demands narrow with_demand; fix/fixing fixed; book/begun begin; close/closing closed;
 gathering/components with_component; plant/availability set_availability; power/power after_test; decision/consumers declare_answer meter_answer;
 journal/outcome counted ended; desk/replies put_reply; questions/lib close_totals; plant_cases/main with_component; book_cases/main taken
4d basis/lib number_at put_number; record/sizes wide; decision/contracts wide; state/stages stage_number; record/reading stop_number;
 words/numbers meaning_of; text/lib unsigned numbers; gathering/enrolment cap_by entry_of; questions/lib signed_of;
 yearbook_c/figures named_of figures_of; yearbook/arguments word_of; plant_cases/line with_byte pushed line_of
6a text/lib Line; words/phrases Phrase; plant_cases/line Line
6b desk/findings Sizes; desk/replies Told; listing/lib Listed; page/lib Printed; yearbook/input Taken
6c power/power energy_of; power/ranges readings_in_range; text/lib put_amounts numbers; plant_cases/main write_offers efficient
6d share/lib divide; share/buffers share_divide; listing/lib put_listing; text/columns put_column; yearbook/output print_next tell fail;
 yearbook/main answer answer_second answer_arguments; record_cases/main put_written next_item; book_cases/main main; plant_cases/main test
6e table/forms Form.widths Fields.values; plant/efficient Efficient.offers; journal/running run; share/parts whole_parts give_left;
 state/kept Book.offers Book.efficient CloseFigures.adjusted CloseFigures.charges CloseFigures.credits
6f letters/producers has_unit; questions/lib has_unit; share/parts largest_of; table/calls mark_at; plant_cases/line line_end;
 yearbook/output words_of
6g state/kept CELLS; decision/contracts row_sum producer_balance contract_answer
6h words/numbers meaning_of; words/calls name_of; text/lib put_text; yearbook/arguments is_same is_option word_of unknown;
 yearbook/output say fail print; yearbook/main answer open answer_file fail_too_long answer_first; record_cases/main put; book_cases/main put;
 plant_cases/line write
7a book/calls step; journal/running run; desk/findings put_desk; desk/printing put_printed; desk/summing put_run; yearbook/output put_asked tell;
 yearbook/main answer_first; plant/offer firm_offer; power/power measured_of; listing/lines put_stage; table/calls mark_at;
 book_cases/main show_book; plant_cases/main step
8b basis/specs/Choice.antt pick; basis/specs/Sums.antt sum all_at_most; basis/specs/Tables.antt tab; text/specs/Text.antt bytes decimal;
 share/specs/Division.antt first_place_of
8c basis/proofs/Sums.antt sum_zeros sum-append at_most_sum sum-set sum_at_most sum-parts all_at_most_lem at_most_all;
 basis/proofs/Tables.antt length-tab_from length-tab get_or-tab_from get_or-tab; share/proofs/Lists.antt get_d_map
9d plant/offer has_result; plant/availability is_held times_c; power/power maximum_power capped after_test; fix/demands declared with_demand;
 fix/offers offer flags_by producer_by; close/adjusted real_of real_demand; close/money surplus charge; decision/contracts is_declared;
 decision/consumers meter_answer; gathering/enrolment enrolment_answer; gathering/components cap_of test_rest availability_answer;
 questions/lib offers_by owned_by adjustment_by; page/pages count_one put_consumer; journal/outcome refused_at; letters/units owner_of put_unit;
 letters/consumers put_demand put_settlement; summary/lib put_first; desk/findings put_refusals; yearbook_c/figures named_of;
 plant_cases/main write_component; book_cases/main show_unit show_producer show_demand show_adjustment
"""
# Parameters that travel together: the group, and the names; a bar stands between several sets of names for the same.
TOGETHER = """
text out at; minutes hd hmp hif hed; enrolment pic ppr e1 e2 cap; test tc count; hours nhrm nhmd ndhmd; components set generator storage;
year flags offers; settlement charge credit | charges credits; demand dmp total; event call readings | act readings; refusal place number | stop place;
form form values | widths values | size width; parts amounts rest; desk input output findings; pair producer consumer; act unit act | consumer act
"""
FACTS = {
    "text": r"\bPuts |≤ length out\.old", "full_time": r"least_time ≤ tc", "price": r"p ≤ greatest_price", "field_width": r"width ≤ widest",
    "demands_within": r"all_at_most greatest_power [^{}]*≡ true", "same_lengths": r"length (?:rest|parts|amounts)\.old ≡ length",
    "weights_within": r"all_at_most greatest_weight weights\.now ≡ true|division_number total weights\.now \(",
    "printed_lines": r"requires[^\n]*(?:bytes_for|≤ consumer_count)",
}


def git(*arguments):
    return subprocess.run(["git", *arguments], check=True, capture_output=True, text=True).stdout


def files(commit):
    """The texts of crates/ by their paths, with blanks for the comments and literals of .rt files."""
    if commit == ".":
        paths = [os.path.join(top, n) for top, _, names in os.walk("crates") if "out" not in top.split(os.sep) for n in names]
    else:
        paths = git("ls-tree", "-r", "--name-only", commit, "crates").split("\n")
    texts = {}
    for path in sorted(p for p in paths if p.endswith((".rt", ".antt"))):
        text = open(path, encoding="utf-8").read() if commit == "." else git("show", f"{commit}:{path}")
        texts[path] = LITERAL.sub(lambda m: " " * len(m[0]), text) if path.endswith(".rt") else text
    return texts


def closing(text, at):  # the place behind the bracket that closes the one at this place
    depth = 0
    for i in range(at, len(text)):
        depth += (text[i] in "([{") - (text[i] in ")]}")
        if depth == 0:
            return i + 1
    return len(text)


def functions(texts):
    for path in (p for p in texts if p.endswith(".rt")):
        text = texts[path]
        for m in FUNCTION.finditer(text):
            opened = text.index("(", m.end())
            end = closing(text, opened)
            braced = re.compile(rf"[^\n]* (?=\{{\n)|^{m[1]}(?=\{{)", re.M)
            start = (braced.match(text, end) or braced.search(text, text.find("\n", end)) or m).end()
            if start < end or " fn " in text[end:start]:
                continue  # a trait's method without a body
            result = re.match(r" -> ([^\n{]*[^\n{ ])", text[end:start])
            params = dict(re.findall(r"(\w+): ([^,\n]+)", text[opened + 1 : end - 1]))
            yield Function(path, text.count("\n", 0, m.start()) + 1, m[2], params, result and result[1], text[end:start], text[start : closing(text, start)], start)


def types(texts):
    for path in (p for p in texts if p.endswith(".rt")):
        text = texts[path]
        for m in TYPE.finditer(text):
            body = text[m.end() - 1 : closing(text, m.end() - 1)] if m[4].endswith("{") else m[4]
            yield path, text.count("\n", 0, m.start(2)) + 1, m[2], m[3], m[1] or "", body


def enums(wanted):
    def finder(texts):
        for path, line, kind, name, _, body in types(texts):
            if kind == "enum" and wanted(re.findall(r"^    (\w+)( \{|\(|,)", body, re.M)):
                yield Place(path, line, name, "")

    return finder


def where(test):
    return lambda texts: (Place(f.path, f.line, f.name, "") for f in functions(texts) if test(f))


def lines(pattern):
    def finder(texts):
        for f in functions(texts):
            for m in re.finditer(pattern, f.body, re.M):
                yield Place(f.path, texts[f.path].count("\n", 0, f.start + m.start()) + 1, f.name, "")

    return finder


def together(texts):
    for f in functions(texts):
        for row in re.split(r";\s+", TOGETHER.strip()):
            group, sets = row.split(None, 1)
            if any(set(names.split()) <= set(f.params) for names in sets.split("|")):
                yield Place(f.path, f.line, f.name, group)


def facts(texts):
    for f in functions(texts):
        for group in (g for g in FACTS if re.search(FACTS[g], f.clauses)):
            yield Place(f.path, f.line, f.name, group)


def proofs(files_of, pattern):
    def finder(texts):
        for path in (p for p in texts if re.match(rf"crates/\w+/proofs/{files_of}\.antt$", p)):
            for m in re.finditer(pattern, texts[path], re.M):
                yield Place(path, texts[path].count("\n", 0, m.start()) + 1, m[1], path.split("/")[1])

    return finder


def named(key):
    def finder(texts):
        for row in re.split(r"\n(?=\d)| / ", NAMED.strip()):
            kind, rest = row.split(None, 1)
            for path, *names in (part.split() for part in rest.split(";")) if kind.split(":")[0] == key else []:
                path = f"crates/{path}" if path.endswith(".antt") else "crates/{}/src/{}.rt".format(*path.split("/"))
                for name in names:
                    owner, _, field = name.partition(".")
                    text = texts.get(path, "")
                    at = re.search(DECLARED.format(re.escape(owner)), text, re.M)
                    if at and (not field or re.search(rf"^ *(?:pub )?{field}:", text[at.start() : closing(text, text.index("{", at.start()))], re.M)):
                        yield Place(path, text.count("\n", 0, at.start()) + 1, name, kind.partition(":")[2])

    return finder


CLASSES = {
    "1a": ("enums of the shape of Option", enums(lambda v: sorted(held != "," for _, held in v) == [False, True])),
    "1b": ("enums of the shape of Result", lambda t: [*enums(lambda v: "Refused" in dict(v))(t), *named("1b")(t)]),
    "1c": ("a flag or a number with a value beside it", named("1c")),
    "1d": ("functions that answer a refusal's number, 0 for none", named("1d")),
    "1e": ("functions that are told such a number", named("1e")),
    "1f": ("a 0 that stands for nothing", named("1f")),
    "1g": ("numbers for kinds, endings, components, stages, years, flags", named("1g")),
    "1h": ("definitions of the shape of Option", named("1h")),
    "2a": ("functions and types that are twins", named("2a")),
    "2b": ("constants again in another width", named("2b")),
    "2c": ("definitions that are twins", named("2c")),
    "3a": ("loops that count an index by hand", lines(r"^ *(?:while \b|for [a-z]\w* in 0\.\.)")),
    "3b": ("methods of the library written out", named("3b")),
    "4a": ("types without derived equality", lambda t: (Place(p, n, name, "") for p, n, _, name, d, _ in types(t) if "PartialEq" not in d)),
    "4b": ("equality by hand", lambda t: [*lines(r"stage_number\(\w+\) [!=]=")(t), *named("4b")(t)]),
    "4c": ("copying by hand", named("4c")),
    "4d": ("conversion by hand", named("4d")),
    "4e": ("printing by hand", where(lambda f: re.match(PRINTS, f.name) and f.result != "u32" and not re.search("/(basis|record)/", f.path))),
    "5a": ("parameters that travel together", together),
    "5b": ("facts in three or more contracts", facts),
    "6a": ("a buffer with a length beside it", named("6a")),
    "6b": ("a length that is returned beside a lent buffer", named("6b")),
    "6c": ("a count beside a slice", named("6c")),
    "6d": ("a part cut from a buffer by hand", named("6d")),
    "6e": ("parallel arrays", named("6e")),
    "6f": ("lists searched by hand", named("6f")),
    "6g": ("a table kept flat", named("6g")),
    "6h": ("bytes in the place of text", named("6h")),
    "7a": ("switches on which step to run", named("7a")),
    "8a": ("answers", proofs(".+/Answers", r"^pub (\S+) : goal\.")),
    "8b": ("definitions that the library has", named("8b")),
    "8c": ("lemmas that the library has", named("8c")),
    "lemmas": ("public statements in the files of lemmas", proofs(r"\w+", r"^(?:  )?pub ([^\s(){}=:]+) : ")),
    "9a": ("fields copied into a name", lines(r"^ *let \w+ = \w+(?:\.\w+)+;$")),
    "9b": ("tests by early returns", where(lambda f: f.result == "bool" and re.search(r"^        return ", f.body, re.M) and not re.search(r"while |say|fail", f.body))),
    "9c": ("numbers widened by `as`", lines(r" as (?:u64|usize)\b")),
    "9d": ("matches where a method of Option is enough", named("9d")),
}


def main(arguments):
    first = arguments[1] if len(arguments) > 1 else open(PAGE, encoding="utf-8").readline().strip()
    if arguments:
        texts = files(first)
        for key in (k for k in CLASSES if k.startswith(arguments[0])):
            found = list(CLASSES[key][1](texts))
            print(*(f"{key} {p.path}:{p.line} {p.name}" + (f" ({p.group})" if p.group else "") for p in found), sep="\n")
            print(f"{key} {CLASSES[key][0]}: {len(found)}")
        return
    points = {}
    for at, texts in (("found", files(first)), ("now", files("."))):
        points.update({(key, at): len(list(finder(texts))) for key, (_, finder) in CLASSES.items()})
    for key in CLASSES:
        print(f"{key} {CLASSES[key][0]}: {points[key, 'found']}, now {points[key, 'now']}")
    for point in "123456789":
        print(f"point {point}: " + ", ".join(f"{at} {sum(n for (k, a), n in points.items() if k[0] == point and a == at)}" for at in ("found", "now")))


main(sys.argv[1:])
