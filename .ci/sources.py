"""Reads the sources and the definitions: what each file declares, and which names each declaration cites."""
import re
from functools import lru_cache
from pathlib import Path

TOP = Path(__file__).resolve().parent.parent
CRATES = TOP / "crates"


class Unresolved(Exception):
    """A name that leads to no declaration."""


@lru_cache(maxsize=None)
def crate_names():
    """The crates in the order of crates.txt, lowest first."""
    lines = (TOP / "crates.txt").read_text().splitlines()
    return [line.split(":")[0].strip() for line in lines if line.strip() and not line.startswith("#")]


def blank(text):
    """The same length and lines, with nothing but spaces."""
    return re.sub(r"[^\n]", " ", text)


# ---------------------------------------------------------------------------------------------------------------------
# Definitions: specs/*.antt

NAME = r"[^\s(){};,:.=]+"
USE = re.compile(r"^(?:ghost )?use\s+([\w.«»-]+?)(?:\.\{([^}]*)\}|(?:\s+as\s+([\w]+)))?\s*;?\s*$")
BUILT_IN = set(
    "Type tt Unit absurd × → λ record data where let in if then else elim as ⊥ abbrev pub use open mutual module _ unfolding "
    "unfoldable ↦ | = : ¬ refl IsProp IsSet Prim hlevel search grind omega simp rw cc self Self result now old new panics "
    "by ghost tt. ? ∀ ∧ ∨ [ ]".split()
)


# What Rust itself brings into the scope of a clause.
RUST_PRELUDE = {"Some", "None", "Ok", "Err", "Option", "Result", "Vec", "String", "Box"}


class Definition:
    """A definition of a file in specs/: its text, and what it declares beside its own name."""

    def __init__(self, file, name, kind, line, indent, around):
        self.file, self.name, self.kind, self.line, self.indent, self.around = file, name, kind, line, indent, around
        self.lines = []
        self.members = []

    def __repr__(self):
        return f"{self.file.path.relative_to(TOP)}: {self.name}"

    @property
    def key(self):
        return (self.file.path, self.name)


def uncommented(line):
    """A line of a definition without its comment."""
    if line.lstrip().startswith("--"):
        return ""
    return re.sub(r"\s--\s.*$", "", re.sub(r'"[^"]*"', "", line))


class SpecFile:
    """A file of definitions."""

    def __init__(self, path, crate, module):
        self.path, self.crate, self.module = path, crate, module
        self.text = path.read_text()
        self.definitions = {}
        self.owners = {}
        self.scope = Scope()
        # What a `pub use` gives on to those that import this file.
        self.given_on = Scope()
        self.read()

    def read(self):
        blocks, current = [], None
        lines = self.text.splitlines()
        number = 0
        while number < len(lines):
            line = uncommented(lines[number])
            number += 1
            if not line.strip():
                continue
            indent = len(line) - len(line.lstrip())
            while blocks and indent <= blocks[-1][0]:
                blocks.pop()
            body = line.strip()
            if re.match(r"(?:pub\s+)?use\s", body):
                while "{" in body and "}" not in body:
                    body += " " + uncommented(lines[number]).strip()
                    number += 1
                line = body.removeprefix("pub ")
                self.scope.use(line, self)
                if line != body:
                    self.given_on.use(line, self)
                continue
            if re.match(r"pub mod\s", body) or re.match(r"mod\s", body):
                continue
            expected = blocks[-1][0] + 2 if blocks else 0
            if indent == expected:
                if body in ("mutual", "abbrev mutual"):
                    blocks.append((indent, ""))
                    current = None
                    continue
                if re.match(r"module\s", body):
                    while not body.endswith("where"):
                        body += " " + uncommented(lines[number]).strip()
                        number += 1
                    blocks.append((indent, body))
                    current = None
                    continue
                head = self.head(body)
                if head:
                    name, kind = head
                    around = " ".join(block for _, block in blocks)
                    current = Definition(self, name, kind, number, indent, around)
                    if name in self.definitions:
                        raise Unresolved(f"{self.path}: {name} is defined twice")
                    self.definitions[name] = current
                    self.owners[name] = current
            if current is None:
                raise Unresolved(f"{self.path}:{number}: this line belongs to no definition: {body}")
            if indent > current.indent:
                self.member(current, body)
            current.lines.append(line)

    @staticmethod
    def head(body):
        """The name and the kind of the definition that begins with this line."""
        found = re.match(rf"(?:pub\s+)?(data|record)\s+({NAME})(?:\s|$)", body)
        if found:
            return found.group(2), found.group(1)
        found = re.match(rf"(?:abbrev\s+|unfoldable\s+)?(?:pub\s+)?(?:abbrev\s+)?({NAME})\s+:(?:\s|$)", body)
        if found:
            return found.group(1), "function"
        return None

    def member(self, definition, body):
        """Constructors and fields lead to their type."""
        if definition.kind == "record":
            found = re.match(rf"(?:pub\s+)?({NAME}(?:\s+{NAME})*)\s+:(?:\s|$)", body)
        elif definition.kind == "data":
            found = re.match(rf"({NAME}(?:\s+{NAME})*)\s+:(?:\s|$)", body)
        else:
            return
        if found:
            for name in found.group(1).split():
                definition.members.append(name)
                if definition.kind == "data":
                    self.owners.setdefault(name, definition)


@lru_cache(maxsize=None)
def spec_files(crate):
    """The files of definitions of a crate by their module, as `Tree` and `inside.Reading`, in the order of Lib.antt."""
    folder = CRATES / crate / "specs"
    found = {}

    def read(directory, lib, prefix):
        for line in lib.read_text().splitlines() if lib.is_file() else []:
            mod = re.match(r"\s*(?:pub\s+)?mod\s+(\w+)", line)
            if not mod:
                continue
            name = mod.group(1)
            path = directory / f"{name}.antt"
            nested = directory / name
            if path.is_file() and not nested.is_dir():
                found[prefix + name] = path
            elif nested.is_dir():
                read(nested, path if path.is_file() else nested / "Lib.antt", prefix + name + ".")

    read(folder, folder / "Lib.antt", "")
    for path in sorted(folder.rglob("*.antt")):
        module = ".".join(path.relative_to(folder).with_suffix("").parts)
        if path.name != "Lib.antt" and module not in found and not path.with_suffix("").is_dir():
            raise Unresolved(f"{path.relative_to(TOP)}: no Lib.antt names it")
    return {module: SpecFile(path, crate, module) for module, path in found.items()}


class Outside:
    """A name of the kit, which stands outside this repository."""

    def __init__(self, module, name):
        self.module, self.name = module, name

    @property
    def key(self):
        return (self.module, self.name)


class Scope:
    """The names that `use` lines bring, and the modules that they name."""

    def __init__(self, outer=None):
        self.names, self.modules, self.outer = {}, {}, outer

    def use(self, line, where):
        found = USE.match(" ".join(line.split()))
        if not found:
            raise Unresolved(f"{where.path}: this line isn't understood: {line}")
        path, names, alias = found.groups()
        if names is None:
            self.modules[alias or path.split(".")[-1]] = path
            return
        for entry in names.split(","):
            entry = entry.strip()
            if entry:
                name, _, other = entry.partition(" as ")
                self.names[(other or name).strip()] = (path, name.strip())

    def name(self, name):
        found = self.names.get(name)
        return found if found or not self.outer else self.outer.name(name)

    def module_of(self, name):
        found = self.modules.get(name)
        return found if found or not self.outer else self.outer.module_of(name)

    def operator(self, token):
        """An operator is imported with holes: `◌≤◌`, and `if◌then◌else◌`."""
        for name in (f"◌{token}◌", f"◌{token}", f"{token}◌", f"{token}◌then◌else◌"):
            if self.name(name):
                return self.name(name)
        return None


def lookup(path, name):
    """What the name of an imported module is: a definition, a type or trait of a source, or a name of the kit."""
    parts = path.split(".")
    if parts[0] != "Rattle":
        raise Unresolved(f"{path}.{name}: it doesn't begin with Rattle")
    crate = parts[1]
    if crate not in crate_names():
        return Outside(path, name)
    if parts[2] == "specs" and parts[3] == "declared":
        return declared(crate, parts[4:], name)
    if parts[2] == "specs":
        module = ".".join(parts[3:])
        files = spec_files(crate)
        if module in files:
            found = files[module].owners.get(name)
            if found:
                return found
            if files[module].given_on.name(name):
                return lookup(*files[module].given_on.name(name))
        raise Unresolved(f"{path} has no {name}")
    if parts[2] == "proofs":
        return Outside(path, name)
    raise Unresolved(f"{path}.{name}: it is neither in specs nor in proofs")


def declared(crate, parts, name):
    """A type or a constant of a source, by a path as declared.module.Type.TheVariants or declared.module.TheConstants."""
    files = source_files(crate)
    for size in range(len(parts), 0, -1):
        module = ".".join(parts[:size])
        if module in files:
            kind = parts[size] if size < len(parts) and parts[size] != "TheConstants" else name
            found = files[module].types.get(kind)
            if found:
                return found
    raise Unresolved(f"{crate}: no source declares {'.'.join(parts)}.{name}")


QUOTE = re.compile(r"⟦([^⟧]*)⟧(?:\.\w+)?")
TOKEN = re.compile(r"\[\]|[^\s(){};,\[\]]+")
# A word between an opening bracket and ` : ` is bound there, and one between λ and its dot.
BINDERS = [re.compile(r"[({]\s*([^(){}:]+?)\s+:\s"), re.compile(r"λ\s*([^.(){}]*)\."), re.compile(r"\blet\s+(\S+)\s")]


def bound_names(text):
    names = set()
    for binder in BINDERS:
        for found in binder.finditer(text):
            names.update(found.group(1).split())
    # The patterns of an `elim`.
    for found in re.finditer(r"[\[|]([^\[\]|↦]*)↦", text):
        names.update(TOKEN.findall(found.group(1)))
    for found in re.finditer(r"\bopen\b[^{]*\{([^}]*)\}", text):
        names.update(TOKEN.findall(found.group(1)))
    return names


def labels(text):
    """The field names of a record term, and the names of implicit arguments."""
    return {found.group(1) for found in re.finditer(r"[{;]\s*([^\s(){};,=]+)\s=\s", text)}


def cited(text, scope, own, local, where, rust=None, hidden=frozenset()):
    """The declarations that a term cites. `own` finds a name of the same file, `rust` one that a source brings; a hidden
    name is a variable, whatever else has the name."""
    found = {}
    # `⟦<Type as Trait>⟧.member` names what an impl answers.
    for quote in QUOTE.findall(text):
        for word in re.findall(r"\w+", quote):
            target = rust(word) if rust else None
            if target:
                found[target.key] = target
    text = QUOTE.sub(" ", text)
    label_names = labels(text)
    for token in TOKEN.findall(text):
        if re.fullmatch(r"[\d_]+(\.\d+)*|0x[0-9a-f]+|\"[^\"]*\"?|.*\"", token):
            continue
        token = token.rstrip(".") if token != "." else token
        head, _, rest = token.partition(".")
        if not head or head in hidden:
            continue
        target = None
        if head == "Rattle":
            parts = token.split(".")
            target = lookup(".".join(parts[:-1]), parts[-1])
        elif scope.name(head):
            target = lookup(*scope.name(head))
        elif rest and scope.module_of(head):
            target = lookup(scope.module_of(head), rest.split(".")[0])
        elif own and own(head):
            target = own(head)
        elif rust and rust(head):
            target = rust(head)
        elif rust and head in RUST_PRELUDE:
            continue
        elif scope.operator(head):
            target = lookup(*scope.operator(head))
        elif head in local or head in label_names or head in BUILT_IN or re.fullmatch(r"[\d_]+", head):
            continue
        else:
            raise Unresolved(f"{where}: the name {token} isn't known")
        found[target.key] = target
    return found


WHERE = re.compile(r"\n[ ]*where[ ]*(?=\n)")


def pieces_of(text, indent):
    """The signatures and clauses of a text, each from a line of this indentation on."""
    return [piece for piece in re.split(rf"\n(?=[ ]{{{indent}}}\S)", "\n" + text.strip("\n")) if piece.strip()]


def cited_by_definition(definition):
    """What a definition cites, by its signature, its patterns and its right sides."""
    file = definition.file
    text = "\n".join(definition.lines)
    where = f"{file.path.relative_to(TOP)}: {definition.name}"
    outer = bound_names(definition.around) | {definition.name} | set(definition.members)
    found = cited(definition.around, file.scope, file.owners.get, outer | {"module"}, where)
    if definition.kind == "function":
        found.update(cited_by_function_text(file, text, definition.indent, outer, {definition.name}, where))
    else:
        # A field or a constructor may have the name of another definition of the file.
        own_members = set(definition.members) | {definition.name}
        own = lambda name: None if name in own_members else file.owners.get(name)
        found.update(cited(text, file.scope, own, outer | bound_names(text), where))
    found.pop(definition.key, None)
    return found


def cited_by_function_text(file, text, indent, outer, names, where):
    """What the signatures and clauses of functions cite, with those that stand in their `where`. `names` are these functions."""
    found = {}
    own = file.owners.get
    for piece in pieces_of(text, indent):
        piece, *local = WHERE.split(piece)
        below = "\n".join(local)
        first = next((line for line in below.split("\n") if line.strip()), "")
        inner = len(first) - len(first.lstrip())
        local_names = {line.split()[0] for line in below.split("\n") if re.match(rf"[ ]{{{inner}}}{NAME}\s+:\s", line)}
        left, equals, right = re.sub(r"\s+", " ", piece).strip().partition(" = ")
        if not equals or re.match(rf"(?:abbrev\s|unfoldable\s|pub\s)*{NAME}\s+:\s", left):
            signature = re.sub(r"\s+", " ", piece)
            found.update(cited(signature, file.scope, own, outer | names | bound_names(signature), where))
            continue
        patterns = set(TOKEN.findall(left))
        # A pattern's names are bound, but for constructors and the function itself.
        constructors = {name for name in patterns if is_constructor(name, file)}
        found.update(cited(" ".join(constructors), file.scope, own, outer, where))
        variables = patterns - constructors - names
        bound = outer | names | local_names | bound_names(right)
        found.update(cited(right, file.scope, own, bound, where, hidden=variables | local_names))
        if below:
            found.update(cited_by_function_text(file, below, inner, outer | variables | local_names, local_names, where))
    return found


def is_constructor(token, file):
    head, _, rest = token.partition(".")
    if head in file.owners:
        return file.owners[head].kind == "data" and file.owners[head].name != head
    if file.scope.name(head):
        path, name = file.scope.name(head)
        target = lookup(path, name)
        if isinstance(target, Outside):
            return name[:1].isupper() or not name[:1].isalpha() or name in ("suc", "zero", "true", "false", "pos")
        if isinstance(target, Definition):
            return target.kind == "data" and target.name != name
        return True
    return bool(rest and file.scope.module_of(head))


# ---------------------------------------------------------------------------------------------------------------------
# Sources: src/*.rt


def bare(text):
    """A source with comments, strings and characters blanked."""
    pattern = re.compile(r"//[^\n]*|/\*.*?\*/|b?\"(?:\\.|[^\"\\])*\"|b?'(?:\\[^']+|[^'\\\n])'", re.S)
    return pattern.sub(lambda found: blank(found.group(0)), text)


PAIRS = {"{": "}", "(": ")", "[": "]"}


def closing(text, at):
    """The place of the bracket that closes the one at a place."""
    opener = text[at]
    closer, depth = PAIRS[opener], 0
    for place in range(at, len(text)):
        if text[place] == opener:
            depth += 1
        elif text[place] == closer:
            depth -= 1
            if depth == 0:
                return place
    raise Unresolved(f"no {closer} closes the {opener} in: {text[at:at + 60]}")


class Clause:
    def __init__(self, kind, name, text, at):
        self.kind, self.name, self.text, self.at = kind, name, text, at


class Function:
    """A function of a source, with its contract."""

    def __init__(self, file, name, owner, trait, public, at):
        self.file, self.name, self.owner, self.trait, self.public, self.at = file, name, owner, trait, public, at
        self.signature, self.clauses, self.scope, self.has_body = "", [], None, False

    @property
    def title(self):
        return f"{self.owner}::{self.name}" if self.owner else self.name

    @property
    def line(self):
        return self.file.text.count("\n", 0, self.at) + 1

    def __repr__(self):
        return f"{self.file.path.relative_to(TOP)}: {self.title}"

    def contract(self):
        """The text of its clauses as it stands, from the first to the last."""
        if not self.clauses:
            return ""
        return self.file.text[self.clauses[0].at : self.contract_end]


class Type:
    """A struct, an enum, a trait, a constant or an alias of a source."""

    def __init__(self, file, name, kind, public, at):
        self.file, self.name, self.kind, self.public, self.at = file, name, kind, public, at
        self.body = ""
        # Ghost fields, and the members of a trait: name, text, scope, whether it is public, and its type in between
        self.ghosts = []
        self.bounds = ""

    @property
    def key(self):
        return (self.file.path, self.name)

    def __repr__(self):
        return f"{self.file.path.relative_to(TOP)}: {self.name}"


ITEM = re.compile(
    r"\s*(?P<public>pub(?:\s*\([^)]*\))?\s+)?(?:(?P<ghostuse>ghost\s+use)\b|(?P<use>use)\b|(?P<ghost>ghost)\s+(?P<ghostname>\w+)|(?:const\s+(?=fn|unsafe)|unsafe\s+)*"
    r"(?:(?P<fn>fn)\s+(?P<fnname>\w+)|(?P<impl>impl)\b|(?P<type>struct|enum|trait|union)\s+(?P<typename>\w+)|(?P<mod>mod)\s+(?P<modname>\w+)"
    r"|(?P<named>const|static|type)\s+(?:mut\s+)?(?P<name>\w+)|(?P<other>extern)\b|(?P<macro>[\w:]+!)))"
)


class SourceFile:
    """A file of a source."""

    def __init__(self, path, crate, module):
        self.path, self.crate, self.module = path, crate, module
        self.text = path.read_text()
        self.bare = bare(self.text)
        self.scope = Scope()
        self.functions, self.types, self.exports, self.uses, self.public_modules = [], {}, {}, {}, set()
        # (trait, type, body scope, ghosts)
        self.impls = []
        self.items(0, len(self.bare), None, None, self.scope)

    def items(self, at, end, owner, trait, scope):
        text = self.bare
        while True:
            while at < end and text[at].isspace():
                at += 1
            if at >= end:
                return
            if text[at] == "#":
                opening = text.index("[", at)
                attribute = text[at : closing(text, opening) + 1]
                at = closing(text, opening) + 1
                # What only tests have is no part of the program.
                if re.fullmatch(r"#\[cfg\(test\)\]", attribute):
                    at = self.skip(at, end)
                continue
            if text[at] in "},;":
                at += 1
                continue
            found = ITEM.match(text, at)
            if not found:
                raise Unresolved(f"{self.path}: no item is known that begins with: {text[at:at + 60]!r}")
            at = self.item(found, end, owner, trait, scope)

    def skip(self, at, end):
        """Passes by one item."""
        text = self.bare
        while at < end:
            if text[at] == ";":
                return at + 1
            if text[at] == "{":
                stop = closing(text, at) + 1
                return stop
            if text[at] in "([":
                at = closing(text, at)
            at += 1
        return end

    def item(self, found, end, owner, trait, scope):
        text, start = self.bare, found.start() + len(found.group(0)) - len(found.group(0).lstrip())
        public = bool(found.group("public")) and "(" not in found.group("public")
        after = found.end()
        if found.group("ghostuse") or found.group("use"):
            stop = text.index(";", after)
            line = " ".join(text[after:stop].split())
            if found.group("ghostuse"):
                scope.use("use " + line, self)
            else:
                self.rust_use(line, public)
            return stop + 1
        if found.group("ghost"):
            opening = text.index("{", after)
            stop = closing(text, opening)
            if owner:
                owner.ghosts.append((found.group("ghostname"), text[opening + 1 : stop], scope, True, text[after:opening]))
            return stop + 1
        if found.group("fn"):
            return self.function(found, start, after, owner, trait, scope, public)
        if found.group("impl"):
            return self.impl(after, scope)
        if found.group("type"):
            return self.type(found, start, after, scope, public)
        if found.group("named"):
            made = Type(self, found.group("name"), found.group("named"), public, start)
            stop = self.skip(after, end)
            made.body = text[after:stop].partition("=")[0 if found.group("named") != "type" else 2]
            # An associated item is none of the file's own.
            if owner is None:
                self.types[made.name] = made
            return stop
        if found.group("mod"):
            if public:
                self.public_modules.add(found.group("modname"))
            return self.skip(after, end)
        return self.skip(after, end)

    def rust_use(self, line, public):
        def add(prefix, tree):
            tree = tree.strip()
            if tree.endswith("}"):
                opening = tree.index("{")
                base = prefix + tree[:opening].replace(" ", "")
                depth, piece = 0, ""
                for char in tree[opening + 1 : -1] + ",":
                    if char == "," and depth == 0:
                        if piece.strip():
                            add(base, piece)
                        piece = ""
                        continue
                    depth += (char == "{") - (char == "}")
                    piece += char
                return
            path, _, alias = tree.partition(" as ")
            path = prefix + path.strip()
            name = alias.strip() or path.split("::")[-1]
            if name == "self":
                path = path.rsplit("::", 1)[0]
                name = path.split("::")[-1]
            self.uses[name] = path
            if public:
                self.exports[name] = path

        add("", line)

    def function(self, found, start, after, owner, trait, scope, public):
        text = self.bare
        title = owner.name if owner else None
        function = Function(self, found.group("fnname"), title, trait, public or trait is not None, start)
        function.scope = scope
        function.type = owner
        at = after
        word = re.compile(r"\b(requires|ensures)\b")
        while at < len(text):
            if text[at] in "([":
                at = closing(text, at)
            elif text[at] in "{;" or word.match(text, at):
                break
            at += 1
        function.signature = text[after:at]
        clause = re.compile(r"\s*(requires|ensures)\b\s*(\w+)?\s*\{")
        function.contract_end = at
        while True:
            one = clause.match(text, at)
            if not one:
                break
            stop = closing(text, one.end() - 1)
            begin = one.start(1)
            function.clauses.append(Clause(one.group(1), one.group(2), text[one.end() : stop], begin))
            at = function.contract_end = stop + 1
        rest = re.compile(r"\s*([{;])").match(text, at)
        if not rest:
            raise Unresolved(f"{self.path}: {function.name}: no body follows: {text[at:at + 60]!r}")
        self.functions.append(function)
        if rest.group(1) == ";":
            return rest.end()
        function.has_body = True
        return closing(text, rest.end() - 1) + 1

    def impl(self, after, scope):
        text = self.bare
        opening = after
        while text[opening] != "{":
            opening += 1
        stop = closing(text, opening)
        head, _, where = " ".join(text[after:opening].split()).partition(" where ")
        generics = ""
        if head.startswith("<"):
            depth = 0
            for place, char in enumerate(head):
                depth += (char == "<") - (char == ">")
                if depth == 0:
                    generics, head = head[: place + 1], head[place + 1 :].strip()
                    break
        trait, found, of = head.partition(" for ")
        if not found:
            trait, of = None, head
        name = re.match(r"&?\s*(?:'\w+\s+)?(?:mut\s+)?(?:\w+::)*(\w+)", of).group(1)
        inner = Scope(scope)
        holder = Impl(name, re.match(r"(?:\w+::)*(\w+)", trait).group(1) if trait else None, f"{generics} {where}")
        self.impls.append(holder)
        self.items(opening + 1, stop, holder, holder.trait, inner)
        return stop + 1

    def type(self, found, start, after, scope, public):
        text = self.bare
        kind, name = found.group("type"), found.group("typename")
        made = Type(self, name, kind, public, start)
        at = after
        while text[at] not in "{;(":
            at += 1
        made.bounds = text[after:at]
        self.types[name] = made
        if text[at] == ";":
            return at + 1
        stop = closing(text, at)
        if kind == "trait":
            inner = Scope(scope)
            self.items(at + 1, stop, made, name, inner)
        else:
            made.body = text[at + 1 : stop]
            self.fields(made, at + 1, stop, scope)
        if text[at] == "(":
            return text.index(";", stop) + 1
        return stop + 1

    def fields(self, made, at, stop, scope):
        """The ghost fields of a struct, without their proofs."""
        text = self.bare
        inner = Scope(scope)
        for use in re.finditer(r"\bghost\s+use\b([^;]*);", text[at:stop]):
            inner.use("use " + " ".join(use.group(1).split()), self)
        body = text[at:stop]
        for field in re.finditer(r"\b(pub\s+)?ghost\s+(?!use\b)(\w+)\s*:\s*\{", body):
            opening = at + field.end() - 1
            end = closing(text, opening)
            made.ghosts.append((field.group(2), text[opening + 1 : end], inner, bool(field.group(1)), ""))
            proof = re.compile(r"\s*by\s*\{").match(text, end + 1)
            last = closing(text, proof.end() - 1) if proof else end
            body = body[: field.start()] + blank(body[field.start() : last + 1 - at]) + body[last + 1 - at :]
        body = re.sub(r"\bghost\s+use\b[^;]*;", lambda use: blank(use.group(0)), body)
        body = re.sub(r"\bghost\s+(\w+)\s*:", lambda use: blank(use.group(0)), body)
        made.body = body


class Impl:
    """A block of functions of a type."""

    def __init__(self, name, trait, generics):
        self.name, self.trait, self.generics = name, trait, generics
        self.ghosts = []


@lru_cache(maxsize=None)
def source_files(crate):
    """The files of a crate's source by their module, as `tree`; tests aren't among them."""
    folder = CRATES / crate / "src"
    found = {}
    for path in sorted(folder.rglob("*.rt")):
        parts = list(path.relative_to(folder).with_suffix("").parts)
        if parts[-1] == "mod":
            parts.pop()
        if "tests" in parts:
            continue
        module = ".".join(parts)
        found[module] = SourceFile(path, crate, module)
    for name in test_modules(found):
        for module in [key for key in found if key == name or key.startswith(name + ".")]:
            del found[module]
    return found


def test_modules(files):
    root = files.get("lib") or files.get("main")
    return re.findall(r"#\[cfg\(test\)\]\s*(?:pub\s+)?mod\s+(\w+)\s*;", root.bare) if root else []


def root_of(crate):
    files = source_files(crate)
    return files.get("lib") or files["main"]


def rust_item(crate, path, seen=()):
    """The type, trait or function that a Rust path leads to, and None for one of the kit."""
    if (crate, path) in seen:
        return None
    seen = seen + ((crate, path),)
    parts = path.split("::")
    if parts[0] == "crate":
        parts = parts[1:]
    elif parts[0] in crate_names():
        crate, parts = parts[0], parts[1:]
    elif parts[0] in ("std", "core", "alloc"):
        return None
    files = source_files(crate)
    module = ".".join(parts[:-1])
    file = files.get(module) if module else root_of(crate)
    if file is None:
        return None
    name = parts[-1]
    if name in file.types:
        return file.types[name]
    for function in file.functions:
        if function.name == name and not function.owner:
            return function
    if name in file.uses:
        used = file.uses[name]
        if used.split("::")[0] not in ("crate", "std", "core", "alloc") and used.split("::")[0] not in crate_names():
            used = "crate::" + used
        return rust_item(file.crate, used, seen)
    return None


def rust_name(file, name):
    """What a name of a source's scope is, if it is a type or a trait of this repository."""
    if name in file.types:
        return file.types[name]
    if name in file.uses:
        used = file.uses[name]
        first = used.split("::")[0]
        if first == "self":
            used = used.replace("self::", f"crate::{'::'.join(file.module.split('.'))}::", 1)
        elif first not in ("crate", "super") and first not in crate_names() and first not in ("std", "core", "alloc"):
            if file is not root_of(file.crate):
                return None
            used = "crate::" + used
        found = rust_item(file.crate, used)
        return found if isinstance(found, Type) else None
    return None
