#!/usr/bin/env python3
"""Makes docs/TRUST.md: the definitions that a reader believes, which are those that the public contracts lead to.

  trust.py             writes docs/TRUST.md
  trust.py --check     fails where docs/TRUST.md isn't what would be written
  trust.py --inside    lists the files and names in specs/ that no public contract leads to
  trust.py --why NAME  shows by which names a definition is reached; with --kept, also by how values are kept
"""
import re
import sys
from collections import deque
from functools import lru_cache

from sources import (
    TOP,
    Definition,
    Impl,
    Outside,
    Type,
    Unresolved,
    bound_names,
    cited,
    cited_by_definition,
    crate_names,
    root_of,
    rust_item,
    rust_name,
    source_files,
    spec_files,
)

DOCUMENT = TOP / "docs" / "TRUST.md"
WORD = re.compile(r"\w+")

# ---------------------------------------------------------------------------------------------------------------------
# What a contract, a type and a trait cite


def locals_of(function):
    """The parameters of a function, its generics and what its trait names."""
    names = set(re.findall(r"(\w+)\s*:", function.signature)) | {"self", "result"}
    generics = re.match(r"\s*<([^(]*)>", function.signature)
    names |= set(WORD.findall(generics.group(1))) if generics else set()
    owner = function.type
    if isinstance(owner, Impl):
        names |= set(WORD.findall(owner.generics))
    if isinstance(owner, Type) and owner.kind == "trait":
        names |= {name for name, *_ in owner.ghosts}
    return names


def types_in(file, text):
    """The types and traits of this repository that a piece of a source names."""
    found = {}
    for word in set(WORD.findall(text)):
        one = rust_name(file, word)
        if one:
            found[one.key] = one
    return found


@lru_cache(maxsize=None)
def cited_by_function(function):
    """What the contract and the signature of a function cite."""
    file = function.file
    found = types_in(file, function.signature)
    owner = function.type
    if isinstance(owner, Impl):
        found.update(types_in(file, owner.generics + " " + owner.name))
    for clause in function.clauses:
        found.update(cited_by_clause(function, clause))
    return found


def cited_by_clause(function, clause):
    file = function.file
    local = locals_of(function) | bound_names(clause.text)
    where = f"{file.path.relative_to(TOP)}: {function.title}"
    return cited(clause.text, function.scope, None, local, where, lambda name: rust_name(file, name))


def cited_by_ghosts(file, holder, names, extra):
    """What the ghost members of these names cite; of all, where no names are given."""
    found = {}
    for name, text, scope, _, _ in holder.ghosts:
        if names is not None and name not in names:
            continue
        local = extra | bound_names(text) | {ghost for ghost, *_ in holder.ghosts} | {"Self"}
        where = f"{file.path.relative_to(TOP)}: {holder.name}: {name}"
        found.update(cited(text, scope, None, local, where, lambda word: rust_name(file, word)))
    return found


def impls_of(one):
    """The impl blocks of a type."""
    for file in source_files(one.file.crate).values():
        for impl in file.impls:
            if impl.name == one.name:
                yield file, impl


def cited_by_type(one, kept):
    """What a type or a trait cites. With `kept`, also by its view, its invariant and its private ghost fields, and by the
    fields behind a view: they say how a value is kept, and not which value a contract sees."""
    file = one.file
    if one.kind == "trait":
        found = types_in(file, one.bounds)
        found.update(cited_by_ghosts(file, one, None, set()))
        for function in file.functions:
            if function.type is one:
                found.update(cited_by_function(function))
        return found
    found = types_in(file, one.bounds)
    models = [(place, impl) for place, impl in impls_of(one) if impl.trait == "Model"]
    for place, impl in models:
        names = {"Value", "view", "invariant"} if kept else {"Value"}
        found.update(cited_by_ghosts(place, impl, names, set(WORD.findall(impl.generics))))
    if one.kind in ("const", "static", "type"):
        return types_in(file, one.body)
    if one.kind == "enum":
        found.update(types_in(file, re.sub(r"#\[[^\]]*\]", "", one.body)))
    elif kept or not models:
        fields = set(re.findall(r"(\w+)\s*:", one.body)) | {name for name, *_ in one.ghosts}
        found.update(types_in(file, one.body))
        names = None if kept else {name for name, _, _, shown, _ in one.ghosts if shown}
        found.update(cited_by_ghosts(file, one, names, fields | set(WORD.findall(one.bounds))))
    return found


@lru_cache(maxsize=None)
def cites(node, kept):
    if isinstance(node, Definition):
        return cited_by_definition(node)
    if isinstance(node, Type):
        return cited_by_type(node, kept)
    return {}


def closure(starts, kept):
    """Everything that these lead to, and by what each was reached first."""
    reached, came = dict(starts), {key: None for key in starts}
    queue = deque(starts.values())
    while queue:
        node = queue.popleft()
        for key, target in cites(node, kept).items():
            if key not in reached:
                reached[key], came[key] = target, node
                queue.append(target)
    return reached, came


# ---------------------------------------------------------------------------------------------------------------------
# The public calls


def public_files(crate, module):
    """The root of a crate, and the files of its public modules."""
    file = source_files(crate).get(module) if module else root_of(crate)
    if file:
        yield file
        for name in sorted(file.public_modules):
            yield from public_files(crate, f"{module}.{name}" if module else name)


def exported_item(file, path):
    """What a `pub use` of a file names."""
    first = path.split("::")[0]
    if first == "crate" or first in crate_names():
        return rust_item(file.crate, path)
    if first in ("self", "super"):
        raise Unresolved(f"{file.path.relative_to(TOP)}: say `crate::` in: pub use {path}")
    around = "" if file is root_of(file.crate) else file.module.replace(".", "::") + "::"
    return rust_item(file.crate, f"crate::{around}{path}")


def all_of(crate, path):
    file = source_files(crate).get(path.removeprefix("crate::").removesuffix("::*").replace("::", "."))
    if file is None:
        raise Unresolved(f"{crate}: no module stands at: pub use {path}")
    public = [one for one in file.types.values() if one.public]
    return public + [one for one in file.functions if one.public and not one.owner]


def exported(crate):
    """The public types, traits and functions of a crate. Of a program they are those of its own that `main` uses."""
    root = root_of(crate)
    if root.module == "main":
        items = [rust_item(crate, path) for path in root.uses.values() if path.startswith("crate::")]
    else:
        items = []
        for file in public_files(crate, ""):
            for name, path in file.exports.items():
                items += all_of(crate, path) if name == "*" else [exported_item(file, path)]
            items += [one for one in file.types.values() if one.public]
            items += [one for one in file.functions if one.public and not one.owner]
    return list({id(item): item for item in items if item and item.file.crate == crate}.values())


@lru_cache(maxsize=None)
def public_calls(crate):
    """The public functions of a crate, those of its public types and traits among them, and these types themselves."""
    functions = [item for item in exported(crate) if not isinstance(item, Type)]
    types = [item for item in exported(crate) if isinstance(item, Type)]
    for file in source_files(crate).values():
        for function in file.functions:
            owner = function.type
            if isinstance(owner, Impl):
                if function.public and any(one.name == owner.name for one in types):
                    functions.append(function)
            elif owner in types:
                functions.append(function)
    return functions, types


@lru_cache(maxsize=None)
def starts_of(crate):
    """What the public calls of a crate cite, and what its types answer to the ghost members of a trait."""
    functions, types = public_calls(crate)
    found = {one.key: one for one in types}
    for function in functions:
        found.update(cited_by_function(function))
    for one in types:
        for file, impl in impls_of(one):
            if impl.trait and impl.trait != "Model":
                trait = rust_name(file, impl.trait)
                # A law of the trait is only proved there.
                laws = {name for name, text, *_ in trait.ghosts if re.match(r"\s*\(", text)} if trait else set()
                names = {name for name, *_ in impl.ghosts if name not in laws}
                found.update(cited_by_ghosts(file, impl, names, set(WORD.findall(impl.generics))))
    return found


def top_call():
    """The function `porch`, which stands in one crate alone."""
    found = [
        function
        for crate in crate_names()
        for file in source_files(crate).values()
        for function in file.functions
        if function.name == "porch" and not function.owner
    ]
    if len(found) != 1:
        raise Unresolved(f"{len(found)} functions are named porch")
    return found[0]


# ---------------------------------------------------------------------------------------------------------------------
# The document


def by_file(keys, crate=None):
    """The names of each file: crates lowest first, the types of a source before the definitions, files in the order of
    specs/Lib.antt, names in the order of the file."""
    for name in [crate] if crate else crate_names():
        for file in source_files(name).values():
            names = [one.name for one in file.types.values() if one.key in keys]
            if names:
                yield file.path.relative_to(TOP), names
        for file in spec_files(name).values():
            names = [one.name for one in file.definitions.values() if one.key in keys]
            if names:
                yield file.path.relative_to(TOP), names


def table(rows):
    rows = list(rows)
    lines = ["| File | Names |", "|---|---|"]
    return lines + [f"| `{path}` | {', '.join(f'`{name}`' for name in names)} |" for path, names in rows]


def size(rows):
    rows = list(rows)
    count, files = sum(len(names) for _, names in rows), len(rows)
    return f"{count} {'name' if count == 1 else 'names'} in {files} {'file' if files == 1 else 'files'}"


def own(reached):
    """What stands in this repository, of what was reached."""
    faults = [node for node in reached.values() if isinstance(node, Outside) and ".proofs." in node.module and "Rattle.porch" in node.module]
    for node in faults:
        raise Unresolved(f"a public contract leads to {node.module}.{node.name}, which stands among the lemmas")
    return {key for key, node in reached.items() if not isinstance(node, Outside)}


def outside(reached):
    """The names of the kit, by module."""
    modules = {}
    for node in reached.values():
        if isinstance(node, Outside):
            modules.setdefault(node.module, set()).add(node.name)
    return sorted(modules.items())


HEAD = """\
# What a reader believes

`python3 .ci/trust.py` makes this list from the sources, and the gate fails where it differs. It is closed: it begins with
the names in the clauses of a call and in its signature, and goes on with the names in the definitions of those, until
there are no new ones. So whoever has read the definitions of a list knows everything that the clauses say. A proof can't
be wrong without the prover being wrong; a definition can, if it says something else than its reader thinks.

A name in `src/` is a type, a trait or a constant of the code: its variants or fields, or what a contract sees in their
place (the `Value` of its `impl Model`), and of a trait its ghost members and the contracts of its methods. A name in `specs/` is a definition. Crates come lowest
first, and the files of a crate in the order to read them in.
"""


def document():
    lines = HEAD.splitlines()
    top, _ = closure(cited_by_function(top_call()), False)
    top_kept, _ = closure(cited_by_function(top_call()), True)
    listed, everything = own(top), dict(top)
    lines += ["", "## Below `porch`, the top call", ""]
    lines += [f"{size(by_file(listed))}. `docs/PORCH.md` has the clauses themselves.", ""]
    lines += table(by_file(listed))
    kept = own(top_kept) - listed
    everything.update(top_kept)
    kept_by = {}
    for key in kept:
        kept_by[key] = "porch"
    lines += ["", "## Below the other public calls", ""]
    lines += [
        "Each crate's list is what its public calls lead to, without the names above. A name stands in the list of the lowest",
        "crate whose calls lead to it; the last line of a list says in which other files there are more.",
    ]
    for crate in crate_names():
        reached, _ = closure(starts_of(crate), False)
        reached_kept, _ = closure(starts_of(crate), True)
        everything.update(reached_kept)
        mine = own(reached) - own(top)
        new = mine - listed
        earlier = mine - new
        kept |= own(reached_kept) - own(reached)
        listed |= new
        functions, _ = public_calls(crate)
        titles = list(dict.fromkeys(function.title for function in functions))
        lines += ["", f"### {crate}", "", f"Public calls: {', '.join(f'`{title}`' for title in titles) or 'none'}.", ""]
        rows = list(by_file(new))
        if rows:
            lines += [f"{size(rows)}:", ""] + table(rows)
        else:
            lines += ["They lead to no further name."]
        if earlier:
            lines += ["", "And in lists above: " + ", ".join(f"`{path}`" for path, _ in by_file(earlier)) + "."]
    kept -= listed
    lines += ["", "## How values are kept", ""]
    lines += [
        "Views, invariants and the private fields behind a view lead to these. A contract speaks of a value, and these say how",
        "the code keeps it; a reader of the contracts may pass them by.",
        "",
    ]
    lines += table(by_file(kept))
    lines += ["", "## Of the toolchain's libraries", ""]
    lines += ["What the definitions above take from there. `Rattle.std.specs` is the standard library's.", ""]
    lines += ["| Module | Names |", "|---|---|"]
    lines += [f"| `{module}` | {', '.join(f'`{name}`' for name in sorted(names))} |" for module, names in outside(everything)]
    return "\n".join(lines) + "\n"


# ---------------------------------------------------------------------------------------------------------------------
# Commands


def unreached(kept):
    """Of each file of definitions the names that no public contract leads to."""
    reached = set()
    for crate in crate_names():
        reached |= set(closure(starts_of(crate), kept)[0])
    for crate in crate_names():
        for file in spec_files(crate).values():
            yield file, [name for name, one in file.definitions.items() if one.key not in reached]


def print_inside():
    unkept = {file.path: names for file, names in unreached(True)}
    for file, names in unreached(False):
        if not names or file.module.startswith("inside."):
            continue
        whole = len(names) == len(file.definitions)
        print(f"{file.path.relative_to(TOP)}: " + ("the whole file" if whole else f"{len(names)} of {len(file.definitions)}: {', '.join(names)}"))
        only = [name for name in names if name not in unkept[file.path]]
        if only:
            print(f"    only a private field, view or invariant cites: {', '.join(only)}")


def print_why(name, kept):
    for crate in crate_names():
        reached, came = closure(starts_of(crate), kept)
        for node in reached.values():
            if node.name == name:
                chain = [repr(node)]
                while came[node.key]:
                    node = came[node.key]
                    chain.append(repr(node))
                calls = [function.title for function in public_calls(crate)[0] if node.key in cited_by_function(function)]
                print(f"{crate}: " + " <- ".join(chain) + (f" <- {', '.join(calls)}" if calls else ""))


def main(arguments):
    if arguments[:1] == ["--inside"]:
        print_inside()
        return 0
    if arguments[:1] == ["--why"] and len(arguments) > 1:
        print_why(arguments[1], "--kept" in arguments)
        return 0
    made = document()
    if arguments == ["--check"]:
        stands = DOCUMENT.read_text() if DOCUMENT.is_file() else ""
        if stands == made:
            return 0
        print("docs/TRUST.md: it isn't what the sources lead to; python3 .ci/trust.py writes it anew")
        old, new = set(stands.splitlines()), set(made.splitlines())
        for line in [line for line in made.splitlines() if line not in old][:5]:
            print(f"  wanted: {line[:160]}")
        for line in [line for line in stands.splitlines() if line not in new][:5]:
            print(f"  stands: {line[:160]}")
        return 1
    if arguments:
        print(__doc__.strip())
        return 2
    DOCUMENT.write_text(made)
    return 0


if __name__ == "__main__":
    try:
        sys.exit(main(sys.argv[1:]))
    except Unresolved as fault:
        print(f"trust.py: {fault}")
        sys.exit(1)
