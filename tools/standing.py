#!/usr/bin/env python3
"""standing.py: counts the column State of docs/DESIGN-PASS.md, and writes the numbers into the tables of its points and into its last table.

A row of places counts as changed, kept or to do by the first word of its State, as many times as its column Count says; in the table of
answers the column Answers counts, and those that are left count as kept. It fails where a table's rows do not add up to what was found."""
import pathlib
import re
import sys

PAGE = pathlib.Path(__file__).resolve().parent.parent / "docs" / "DESIGN-PASS.md"
STATES = ("changed", "kept", "to do")


def cells(line):
    return [cell.strip() for cell in line.strip().strip("|").split(" | ")]


def places(lines):
    """For each class, as 3a, how many places have each state."""
    counts, current, column = {}, None, None
    for line in lines:
        heading = re.match(r"### (\d\w)\. ", line)
        if heading or line.startswith("## "):
            current, column = heading and heading[1], None
        if not current or not line.startswith("|") or set(line) <= set("|- "):
            continue
        row = cells(line)
        if column is None:
            column = row.index("Answers") if "Answers" in row else row.index("Count")
            continue
        if row[0] == "all" or not row[column].isdigit() or row[column] == "0":
            continue
        state = next((s for s in STATES if row[-1].startswith(s)), None)
        if state is None:
            sys.exit(f"no state: {line}")
        left = re.match(r"changed: (\d+) (?:are|is) left", row[-1])
        kept = int(left[1]) if left else 0
        states = counts.setdefault(current, dict.fromkeys(STATES, 0))
        states[state] += int(row[column]) - kept
        states["kept"] += kept
    return counts


def main():
    lines = PAGE.read_text().splitlines()
    counts = places(lines)
    points = {}
    for name, states in counts.items():
        point = points.setdefault(name[0], dict.fromkeys(STATES, 0))
        for state, number in states.items():
            point[state] += number
    for i, line in enumerate(lines):
        row = re.match(r"\| (\d\w), ([^|]*) \| (\d+) \|", line)
        if row:
            states = counts[row[1]]
        else:
            row = re.match(r"\| (\d)\. ([^|]*) \| (\d+) \|", line) or re.match(r"\| (Plain style)() \| (\d+) \|", line)
            if not row:
                continue
            states = points["9" if row[1] == "Plain style" else row[1]]
        if sum(states.values()) != int(row[3]):
            sys.exit(f"{sum(states.values())} places, and not {row[3]}: {line}")
        lines[i] = row[0] + "".join(f" {states[s]} |" for s in STATES)
    PAGE.write_text("\n".join(lines) + "\n")


main()
