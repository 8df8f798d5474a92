#!/usr/bin/env python3
"""Says where a file breaks a rule on heads and citations, and fails where there is one:

  - no public contract leads to a definition in specs/inside/, and no clause of a public function cites one;
  - no crate cites another crate's lemmas;
  - each source file begins with a line `//!` that says what it holds.

  heads.py --columns  lists the clauses that are longer than 100 columns, and fails where there is one
"""
import re
import sys

from sources import CRATES, TOP, Definition, Unresolved, crate_names, source_files
from trust import cited_by_clause, closure, public_calls, starts_of

COLUMNS = 100


def inside_faults():
    for crate in crate_names():
        functions, _ = public_calls(crate)
        for function in functions:
            for clause in function.clauses:
                for node in cited_by_clause(function, clause).values():
                    if is_inside(node):
                        yield f"{function.file.path.relative_to(TOP)}: {function.title}: the clause {clause.name or clause.kind} cites {node.name} of specs/inside"
        reached, came = closure(starts_of(crate), False)
        for key, node in reached.items():
            if is_inside(node) and isinstance(came[key], Definition) and not is_inside(came[key]):
                yield f"{came[key]}: public contracts lead to it, and it cites {node.name} of specs/inside"


def is_inside(node):
    return isinstance(node, Definition) and node.file.module.startswith("inside.")


def proof_faults():
    for crate in crate_names():
        for path in sorted((CRATES / crate).rglob("*")):
            if path.suffix not in (".rt", ".antt") or "out" in path.relative_to(CRATES / crate).parts:
                continue
            for number, line in enumerate(path.read_text().splitlines(), 1):
                for other in re.findall(r"\bRattle\.(\w+)\.proofs\b", line):
                    if other != crate and other in crate_names():
                        yield f"{path.relative_to(TOP)}:{number}: it cites a lemma of {other}"


def head_faults():
    for crate in crate_names():
        for path in sorted((CRATES / crate / "src").rglob("*.rt")):
            first = path.read_text().split("\n", 1)[0]
            if not re.match(r"//! \S", first):
                yield f"{path.relative_to(TOP)}: its first line isn't one of `//!`"


def column_faults():
    for crate in crate_names():
        for file in source_files(crate).values():
            for function in file.functions:
                if not function.clauses:
                    continue
                first = file.text.rfind("\n", 0, function.clauses[0].at) + 1
                number = file.text.count("\n", 0, first) + 1
                for line in file.text[first : function.contract_end].split("\n"):
                    if len(line) > COLUMNS and not line.lstrip().startswith("//"):
                        yield f"{file.path.relative_to(TOP)}:{number}: {function.title}: {len(line)} columns"
                    number += 1


def main(arguments):
    if arguments == ["--columns"]:
        faults = list(column_faults())
    elif arguments:
        print(__doc__.strip())
        return 2
    else:
        faults = [*inside_faults(), *proof_faults(), *head_faults()]
    for fault in faults:
        print(fault)
    return 1 if faults else 0


if __name__ == "__main__":
    try:
        sys.exit(main(sys.argv[1:]))
    except Unresolved as fault:
        print(f"heads.py: {fault}")
        sys.exit(1)
