#!/usr/bin/env python3
"""Compares the documents with the sources, and fails where they differ:

  - docs/PROMISES.md: each clause that it names stands in the contract of that function;
  - docs/PORCH.md: the contract of the top call stands there word for word;
  - docs/WHERE.md, docs/LIMITS.md: each definition, function and constant stands in the file that is named.

  promises.py --copy     writes the clauses of the top call into docs/PORCH.md, whose sentences stay
  promises.py --unnamed  lists the public calls, with their clauses, that no row of docs/PROMISES.md names
"""
import re
import sys

from sources import TOP, SourceFile, SpecFile, Unresolved, bare, crate_names
from trust import public_calls, top_call

DOCS = TOP / "docs"
FILES = {}


def source(path):
    """A source by its path from the top, or None."""
    place = TOP / path
    if path not in FILES:
        FILES[path] = SourceFile(place, place.parts[-3], place.stem) if place.is_file() else None
    return FILES[path]


def functions(file, title):
    return [function for function in file.functions if function.title == title]


def one_function(path, title):
    """The function of this title, or what is wrong with it."""
    file = source(path)
    if file is None:
        return None, f"{path}: there is no such file"
    found = functions(file, title)
    if len(found) == 1:
        return found[0], None
    if found:
        return None, f"{path}: {title} stands there {len(found)} times"
    methods = sorted({function.title for function in file.functions if function.name == title and function.owner})
    if methods:
        return None, f"{path}: {title} is a method: say {' or '.join(methods)}"
    return None, f"{path}: there is no function {title}"


# ---------------------------------------------------------------------------------------------------------------------
# docs/PROMISES.md

# | promise | `file` | `Type::method` or `function` | `clause`, `clause` |
PROMISE = re.compile(r"^\|[^|]*\| `(crates/[^`]+)` \| `([\w:]+)` \| ((?:`[\w ]+`(?:, )?)+) \|$")
UNNAMED = "the one clause"


def rows_of(name):
    """The rows of the tables of a document, without their heads."""
    lines = (DOCS / name).read_text().splitlines()
    for line, below in zip(lines, lines[1:] + [""]):
        if line.startswith("|") and not line.startswith("|---") and not below.startswith("|---"):
            yield line


def promise_faults():
    count = 0
    for line in rows_of("PROMISES.md"):
        row = PROMISE.match(line)
        if not row:
            yield f"no row of promise, file, function and clauses: {line}"
            continue
        count += 1
        path, title, cell = row.groups()
        function, fault = one_function(path, title)
        if fault:
            yield fault
            continue
        stand = [clause.name for clause in function.clauses if clause.kind == "ensures"]
        for name in re.findall(r"`([\w ]+)`", cell):
            if name == UNNAMED and stand != [None]:
                yield f"{path}: {title} has {'no clause' if not stand else 'more than one clause'}"
            elif name != UNNAMED and name not in stand:
                yield f"{path}: {title} has no clause {name}"
    if not count:
        yield "it has no row"


def print_unnamed():
    named = {row.group(1, 2) for row in map(PROMISE.match, rows_of("PROMISES.md")) if row}
    for crate in crate_names():
        for function in public_calls(crate)[0]:
            path = str(function.file.path.relative_to(TOP))
            clauses = [f"`{clause.name or UNNAMED}`" for clause in function.clauses if clause.kind == "ensures"]
            # What an impl of a trait says stands in the row of the trait.
            if clauses and function.trait in (None, function.owner) and (path, function.title) not in named:
                print(f"| | `{path}` | `{function.title}` | {', '.join(clauses)} |")


# ---------------------------------------------------------------------------------------------------------------------
# docs/PORCH.md

BLOCK = re.compile(r"^```rattle\n(.*?)^```$", re.M | re.S)


def dedented(text):
    """Without the indentation that clauses have in a source."""
    return "\n".join(line.removeprefix("    ").rstrip() for line in text.split("\n"))


def contract_pieces():
    """The signature of the top call, and each clause, as they stand."""
    function = top_call()
    text = function.file.text
    signature = text[function.at : function.clauses[0].at]
    # Comments before the clauses belong to none.
    pieces = [re.sub(r"\s*//[^\n]*", "", signature).rstrip()]
    for clause in function.clauses:
        start = bare(text).index("{", clause.at)
        pieces.append(dedented(text[clause.at : start + 1 + len(clause.text) + 1]))
    return pieces


def name_of(piece):
    found = re.match(r"(?:requires|ensures)\s*(\w*)", piece)
    return found.group(1) if found else "the signature"


def porch_faults():
    wanted = contract_pieces()
    stands = [block.rstrip("\n") for block in BLOCK.findall((DOCS / "PORCH.md").read_text())]
    for want, stand in zip(wanted, stands):
        if want != stand:
            yield f"{name_of(want)} isn't what the source says; python3 .ci/promises.py --copy writes it, and its sentence is to be read again"
    if len(wanted) != len(stands):
        yield f"it has {len(stands)} pieces of the contract, and the source {len(wanted)}: {', '.join(map(name_of, wanted))}"


def copy_contract():
    path = DOCS / "PORCH.md"
    text = path.read_text()
    wanted = contract_pieces()
    stands = BLOCK.findall(text)
    if [name_of(one) for one in stands] != [name_of(one) for one in wanted]:
        print("docs/PORCH.md: its clauses have other names than the source's: " + ", ".join(map(name_of, wanted)))
        return 1
    pieces = iter(wanted)
    path.write_text(BLOCK.sub(lambda _: f"```rattle\n{next(pieces)}\n```", text))
    return 0


# ---------------------------------------------------------------------------------------------------------------------
# docs/WHERE.md and docs/LIMITS.md

# `porch_heap/src/heap.rt`: `Heap::take`, `MOST_BLOCKS`; and so on
PLACE = re.compile(r"`(\w+/(?:src|specs)/[\w/]+\.(?:rt|antt))`: ((?:`[^`]+`(?:, )?)+)")
EMPTY = {"-", ""}


def stands_in(path, name):
    """Whether a file declares a name."""
    place = TOP / path
    if path.endswith(".antt"):
        if path not in FILES:
            FILES[path] = SpecFile(place, place.parts[-3], place.stem)
        return name in FILES[path].definitions or name in FILES[path].owners
    file = source(path)
    if functions(file, name) or name in file.types:
        return len(functions(file, name)) <= 1
    owner, _, variant = name.partition("::")
    if variant and owner in file.types:
        return bool(re.search(r"\b" + re.escape(variant) + r"\b", file.types[owner].body))
    return bool(re.search(r"\bconst\s+" + re.escape(name) + r"\b", file.bare))


def place_faults(document, places):
    """Each row's cells from the second on, of which so many say where something stands."""
    count = 0
    for line in rows_of(document):
        count += 1
        cells = [cell.strip() for cell in line.strip("|").split("|")]
        for cell in cells[1 : 1 + places]:
            rest = PLACE.sub("", cell).replace(";", "").strip()
            if rest not in EMPTY:
                yield f"{cells[0]}: this names no file and names: {rest}"
            for path, names in PLACE.findall(cell):
                if not (TOP / "crates" / path).is_file():
                    yield f"{cells[0]}: there is no crates/{path}"
                    continue
                for name in re.findall(r"`([^`]+)`", names):
                    if not stands_in("crates/" + path, name):
                        yield f"{cells[0]}: crates/{path} has no {name}, or more than one"
    if not count:
        yield "it has no row"


CHECKS = {
    "PROMISES.md": promise_faults,
    "PORCH.md": porch_faults,
    "WHERE.md": lambda: place_faults("WHERE.md", 2),
    "LIMITS.md": lambda: place_faults("LIMITS.md", 1),
}


def main(arguments):
    if arguments == ["--copy"]:
        return copy_contract()
    if arguments == ["--unnamed"]:
        print_unnamed()
        return 0
    if arguments:
        print(__doc__.strip())
        return 2
    found = False
    for document, check in CHECKS.items():
        for fault in check() if (DOCS / document).is_file() else ["there is no such document"]:
            print(f"docs/{document}: {fault}")
            found = True
    return 1 if found else 0


if __name__ == "__main__":
    try:
        sys.exit(main(sys.argv[1:]))
    except Unresolved as fault:
        print(f"promises.py: {fault}")
        sys.exit(1)
