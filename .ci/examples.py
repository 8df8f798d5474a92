#!/usr/bin/env python3
"""The examples of docs/language/TYPES.md are sources that porch_check works out, each with the same answer.

A worked source stands in crates/porch_check/specs/worked/ as a comment over its tree; IsRefused gives its rule and place.
"""
import re
import sys
from pathlib import Path

PAGE = Path("docs/language/TYPES.md")
WORKED = Path("crates/porch_check/specs/worked")
LEAST = 100  # so many examples at least: a page that lost its tables fails


def worked_answers():
    """Each worked source with its answer: a rule and a column, or accepted."""
    answers = {}
    for path in sorted(WORKED.glob("*.antt")):
        for block in path.read_text().split("\n\n"):
            source = " ".join(l[3:] for l in block.split("\n") if l.startswith("-- "))
            body = " ".join(l for l in block.split("\n") if not l.startswith("--"))
            refused = re.search(r"IsRefused .*rule\.(\w+)\s+(\d+)$", body.strip())
            if refused:
                answers[source] = f"{refused.group(1)} {int(refused.group(2)) + 1}"
            elif "IsAccepted" in body:
                answers[source] = "accepted"
    return answers


def page_examples():
    """Each row of the page's tables of examples: line, source, answer."""
    for number, line in enumerate(PAGE.read_text().split("\n"), 1):
        cells = [c.strip() for c in re.split(r"(?<!\\)\|", line)[1:-1]]
        if len(cells) != 3 or not re.fullmatch(r"\w+ \d+", cells[1]):
            continue
        yield number, cells[0], cells[1]
        if cells[2]:
            yield number, cells[2], "accepted"


def main():
    answers = worked_answers()
    wrong, count = 0, 0
    for number, cell, want in page_examples():
        source = cell.strip("`").replace("\\|", "|")
        count += 1
        have = answers.get(source, "no worked source")
        if have != want:
            wrong += 1
            print(f"{PAGE}:{number}: {source}: {want} on the page, {have} in {WORKED}", file=sys.stderr)
    if count < LEAST:
        wrong += 1
        print(f"{PAGE}: {count} examples, and there were {LEAST}", file=sys.stderr)
    return 1 if wrong else 0


if __name__ == "__main__":
    sys.exit(main())
