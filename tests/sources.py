"""Reads the definitions in `crates/*/specs`, the contracts in `crates/*/src`, and the constants that both cite.

A definition is an `abbrev`, an `unfoldable`, a `record` or a `data` in a file that `specs/Lib.antt` lists. The
comment above it is its meaning in words; its lines are counted without that comment. It needs the definitions
that its text names, and those that they need in turn.

A constant is a `const` of the code that a definition or a clause cites by its name. A type of the code is a `struct`
or an `enum` that one of them cites, by its own name or by that of a variant. Definitions of the toolchain are not
looked at. A line of `specs/` that is none of what is told here ends the program, so that nothing is left out unseen.
"""
import re
import sys
from pathlib import Path
from typing import Dict, FrozenSet, Iterable, Iterator, List, NamedTuple, Optional, Set, Tuple, Union

TOP = Path(__file__).resolve().parent.parent

USE = re.compile(r"^\s*(?:ghost )?use Rattle\.(\w+)\.specs\.([\w.]+?)(?:\.\{([^}]*)\}| as (\w+))?;?$", re.M | re.S)
RUST_USE = re.compile(r"^use (\w+)(?:::\w+)*::(?:\{([^}]*)\}|(\w+));", re.M)
DEFINITION = re.compile(r"^(?:(?:unfoldable )?abbrev (?:pub )?|unfoldable (?:pub )?|(?:pub )?(?:record|data) )(\S+)")
LAW = re.compile(r"^(?:pub )?(\S+) :")
BESIDE = re.compile(r"^(?:use |infix|unfolding )")
CONSTANT = re.compile(r"^pub const (\w+): \w+ = ([^;]*);", re.M)
TYPE = re.compile(r"^(?:pub(?:\(crate\))? )?(struct|enum) (\w+)([^;{]*\{.*?^\}|[^\n]*)", re.M | re.S)
VARIANT = re.compile(r"^    (\w+)\s*(?:[,({]|$)", re.M)
FUNCTION = re.compile(r"^(\s*)(pub )?fn (\w+)")
OWNER = re.compile(r"(?:impl(?:<[^>]*>)?|pub trait) (?:.* for )?(\w+)")
CLAUSE = re.compile(r"^\s*(?:requires|ensures)\b\s*(\w*)", re.M)
WORD = re.compile(r"[^\s()\[\]{},;]+")
# What parts the left of an equation from its right, which may begin on the next line.
EQUALS = re.compile(r" =(?=\s)")
# Names that a text binds: `(x y : T)`, `λ x y.`, `let x =`, and `x ←`.
BINDERS = re.compile(r"\(([^():]+) :|λ ([^.(]+)\.|let (\w+) =|^\s*(\w+) ←", re.M)
FIELD = re.compile(r"^\s+pub ([^:]+) :", re.M)


class Definition(NamedTuple):
    crate: str
    file: str
    name: str
    words: str
    lines: Tuple[str, ...]

    def path(self) -> str:
        return f"{self.crate}/{self.file}.{self.name}"


class Constant(NamedTuple):
    crate: str
    module: str
    name: str
    value: str


class Contract(NamedTuple):
    """An exported function or method, by its name in the crate: its text from its head to its clauses, and the comment above it."""

    call: str
    text: str
    words: str = ""
    is_function: bool = True


class CodeType(NamedTuple):
    crate: str
    module: str
    name: str


Named = Union[Definition, Constant, CodeType]
Scope = Dict[str, Named]
# What each file makes known to others: its crate and its path there, and what it declares.
Exports = Dict[Tuple[str, str], Scope]


class Repository:
    """All definitions, in reading order, and the clauses of all exported functions."""

    def __init__(self, top: Path = TOP) -> None:
        self.top = top
        self.definitions: List[Definition] = []
        self.clauses: Dict[str, List[Named]] = {}
        self.functions: Dict[str, Contract] = {}
        self.scopes: Dict[Tuple[str, str], Scope] = {}
        lines = (top / "crates.txt").read_text().splitlines()
        self.crates = [line.split(":")[0].split()[0] for line in lines if line]
        self.exports: Exports = {}
        exports = self.exports
        texts = {}
        for crate in self.crates:
            exports.update(constants_of(top / "crates" / crate))
            exports.update(types_of(top / "crates" / crate))
            for name in spec_files(top / "crates" / crate):
                found, texts[crate, name] = read_specs(top / "crates" / crate, name)
                self.definitions += found
                exports[crate, name] = {word: it for it in found for word in [it.name, *constructors(it)]}
        for place, text in texts.items():
            self.scopes[place] = {**scope_of(text, exports), **exports[place]}
        for crate in self.crates:
            self.clauses.update(exported_clauses(top / "crates" / crate, exports))
            self.functions.update(exported_functions(top / "crates" / crate))

    def find(self, root: str) -> List[Named]:
        """What a root names: a definition, or what the clauses of a function name."""
        if root == "all":
            return [it for named in self.clauses.values() for it in named]
        if "::" in root:
            found = [named for name, named in self.clauses.items() if name == root or name.startswith(root + ".")]
            if not found:
                sys.exit(f"there is no exported function or clause {root}")
            return [it for named in found for it in named]
        defined = [it for it in self.definitions if root in (it.name, it.path())]
        if len(defined) != 1:
            sys.exit(f"{root} is not one definition: " + (", ".join(it.path() for it in defined) or "there is none"))
        return list(defined)

    def needed(self, roots: Iterable[str]) -> List[Definition]:
        """The definitions that the roots need, in reading order."""
        found = self._closure(roots)
        return [it for it in self.definitions if it in found]

    def constants(self, roots: Iterable[str]) -> List[Constant]:
        """The constants of the code that the roots, and the definitions that they need, cite."""
        found = {it for it in self._closure(roots) if isinstance(it, Constant)}
        return sorted(found, key=lambda it: (self.crates.index(it.crate), it.module, it.name))

    def types(self, roots: Iterable[str]) -> List[CodeType]:
        """The types of the code that the roots, and the definitions that they need, cite."""
        found = {it for it in self._closure(roots) if isinstance(it, CodeType)}
        return sorted(found, key=lambda it: (self.crates.index(it.crate), it.module, it.name))

    def _closure(self, roots: Iterable[str]) -> Set[Named]:
        waiting = [it for root in roots for it in self.find(root)]
        found: Set[Named] = set()
        while waiting:
            it = waiting.pop()
            if it not in found:
                found.add(it)
                if isinstance(it, Definition):
                    waiting += names_in(it, self.scopes[it.crate, it.file])
        return found


# Reading specs.


def spec_files(crate: Path) -> List[str]:
    """The names of a crate's files of definitions, in the order in which it lists them."""
    root = crate / "specs/Lib.antt"
    return re.findall(r"^pub mod (\w+)", root.read_text(), re.M) if root.exists() else []


def read_specs(crate: Path, name: str) -> Tuple[List[Definition], str]:
    """Gives the definitions of a file, and its text."""
    text = (crate / "specs" / f"{name}.antt").read_text()
    found: List[Tuple[str, str, List[str]]] = []
    words: List[str] = []
    # The definition or law under way, and the lines of it that count: a law has none.
    name_now = ""
    lines: List[str] = []
    for line in apart(text.splitlines()):
        head, law = DEFINITION.match(line), LAW.match(line)
        if line.startswith("--"):
            words.append(line[2:].strip())
        elif head:
            name_now, lines = head[1], [line]
            found.append((head[1], " ".join(words), lines))
        elif law or BESIDE.match(line):
            name_now, lines = law[1] if law else "", []
        elif name_now and (line[:1] in tuple(" })]") or is_equation(name_now, line)):
            lines.append(line)
        elif line.strip():
            sys.exit(f"{crate.name}/specs/{name}.antt: no definition, law or import has this line: {line}")
        if not line.startswith(("--", "infix")):
            words = []
    return [Definition(crate.name, name, title, said, tuple(lines)) for title, said, lines in found], text


def is_equation(name: str, line: str) -> bool:
    """Whether a line is an equation of this name, which may be an operator."""
    words = set(WORD.findall(line))
    return line.split()[:1] == [name] or ("◌" in name and all(part in words for part in name.split("◌") if part))


def apart(lines: Iterable[str]) -> Iterator[str]:
    """The lines of a text, with the definitions of an `abbrev mutual` as if each stood by itself."""
    mutual = False
    for line in lines:
        if line == "abbrev mutual":
            mutual = True
            continue
        mutual = mutual and (not line or line[0].isspace())
        line = line[2:] if mutual else line
        yield f"abbrev {line}" if mutual and line.startswith("pub ") else line


def constructors(definition: Definition) -> List[str]:
    """The names of a `data`'s cases."""
    if " data " not in f" {definition.lines[0]}":
        return []
    return [line.split(" : ")[0].strip() for line in definition.lines[1:] if " : " in line]


def scope_of(text: str, exports: Exports) -> Scope:
    """What the imports of a text make known: the name that it uses, and what that stands for."""
    scope: Scope = {}
    for crate, path, names, alias in USE.findall(text):
        known = exports.get((crate, path), {})
        if alias:
            scope.update({f"{alias}.{name}": it for name, it in known.items()})
        for entry in [entry.strip() for entry in names.split(",") if entry.strip()]:
            name, _, other = entry.partition(" as ")
            if name in known:
                scope[other or name] = known[name]
    return scope


def names_in(definition: Definition, scope: Scope) -> List[Named]:
    """What the text of a definition names."""
    if " record " in f" {definition.lines[0]}":
        return [it for it in names_in_record(definition.lines, scope) if it != definition]
    groups: List[str] = []
    for line in definition.lines:
        if line[0].isspace() and groups:
            groups[-1] += "\n" + line
        else:
            groups.append(line)
    return [it for group in groups for it in names_in_group(group, scope) if it != definition]


def names_in_record(lines: Iterable[str], scope: Scope) -> List[Named]:
    """The same for a record: a field is known to the fields after it, and not in its own type."""
    head, *fields = FIELD.split("\n".join(lines))
    known = bound_in(head)
    found = [*names_in_text(head, scope, known)]
    for names, text in zip(fields[::2], fields[1::2]):
        found += names_in_text(text, scope, known | bound_in(text))
        known |= set(names.split())
    return found


def names_in_group(group: str, scope: Scope) -> List[Named]:
    """The same for a signature or one equation; names on an equation's left are variables or cases."""
    left, right = "", group
    equals = EQUALS.search(group)
    if equals and not DEFINITION.match(group):
        left, right = group[: equals.start()], group[equals.end() :]
    variables = {word for word in WORD.findall(left) if word in scope and word == scope[word].name}
    variables |= bound_in(group)
    return [*names_in_text(left, scope, variables), *names_in_text(right, scope, variables)]


def bound_in(text: str) -> Set[str]:
    return {word for names in BINDERS.findall(text) for name in names for word in name.split()}


def names_in_text(text: str, scope: Scope, variables: Iterable[str] = frozenset()) -> Iterator[Named]:
    """What a text names by words that are no variables; `do` stands for `>>=`."""
    words = set(WORD.findall(re.sub(r'"[^"]*"|--.*', "", text)))
    words |= {".".join(word.split(".")[:n]) for word in words for n in (1, 2)}
    if "do" in words:
        words.add(">>=")
    for name, it in scope.items():
        if name not in variables and all(part in words for part in name.split("◌") if part):
            yield it


# Reading contracts.


def constants_of(crate: Path) -> Exports:
    """The constants of each source file, under the name by which definitions import them."""
    found: Exports = {}
    for file in sorted((crate / "src").rglob("*.rt")):
        module = ".".join(file.relative_to(crate / "src").with_suffix("").parts)
        declared = CONSTANT.findall(file.read_text())
        found[crate.name, f"declared.{module}.TheConstants"] = {
            name: Constant(crate.name, module, name, value) for name, value in declared
        }
    return found


def types_of(crate: Path) -> Exports:
    """The types of each source file, under the names by which definitions import them and their variants."""
    found: Exports = {}
    for file in sorted((crate / "src").rglob("*.rt")):
        module = ".".join(file.relative_to(crate / "src").with_suffix("").parts)
        for kind, name, body in TYPE.findall(file.read_text()):
            it = CodeType(crate.name, module, name)
            found[crate.name, f"declared.{module}.{name}"] = {name: it}
            variants = VARIANT.findall(body) if kind == "enum" else []
            found[crate.name, f"declared.{module}.{name}.TheVariants"] = {variant: it for variant in variants}
    return found


def exported_names(crate: Path) -> FrozenSet[str]:
    """The functions and types that a crate exports."""
    root = (crate / "src/lib.rt").read_text() if (crate / "src/lib.rt").exists() else ""
    exported = set(re.findall(r"\w+", " ".join(re.findall(r"^pub use \w+::([^;]*);", root, re.M))))
    return frozenset(exported | set(re.findall(r"^pub (?:struct|enum|fn) (\w+)", root, re.M)))


def exported_clauses(crate: Path, exports: Exports) -> Dict[str, List[Named]]:
    """For each clause of an exported function or method, what it names."""
    exported = exported_names(crate)
    clauses: Dict[str, List[Named]] = {}
    for file in sorted((crate / "src").rglob("*.rt")):
        text = file.read_text()
        scope = {**rust_constants(crate.name, text, exports), **scope_of(text, exports)}
        for contract in contracts(text, exported):
            for name, clause in clauses_of(contract.text):
                clauses.setdefault(f"{crate.name}::{contract.call}.{name}", []).extend(names_in_text(clause, scope))
    return clauses


def exported_functions(crate: Path) -> Dict[str, Contract]:
    """The exported functions and methods of a crate, by their whole names."""
    files = sorted((crate / "src").rglob("*.rt"))
    found = [it for file in files for it in contracts(file.read_text(), exported_names(crate)) if it.is_function]
    return {f"{crate.name}::{it.call}": it for it in found}


def rust_constants(crate: str, text: str, exports: Exports) -> Scope:
    """The constants that a source file declares, or names in its `use` lines."""
    named = {(crate, name) for name, _ in CONSTANT.findall(text)}
    for owner, names, name in RUST_USE.findall(text):
        named |= {(crate if owner == "crate" else owner, word.strip()) for word in (names or name).split(",")}
    there = [it for known in exports.values() for it in known.values() if isinstance(it, Constant)]
    return {it.name: it for it in there if (it.crate, it.name) in named}


def contracts(text: str, exported: FrozenSet[str]) -> Iterator[Contract]:
    """Gives each exported function of a file, and each model's value."""
    owner: Optional[str] = None
    words: List[str] = []
    all_public, lines = False, iter(text.splitlines())
    for line in lines:
        if line and not line[0].isspace():
            found = OWNER.match(line)
            # The functions of a trait, and of a type's form of a trait, are as public as the type.
            owner, all_public = found[1] if found else None, line.startswith("pub trait") or " for " in line
        head = FUNCTION.match(line)
        if owner in exported and line.strip().startswith("ghost Value"):
            yield Contract(str(owner), "ensures value " + line, is_function=False)
        elif head and (owner in exported if owner else head[3] in exported) and (head[2] or all_public):
            body = [line]
            while not is_whole(body):
                body.append(next(lines))
            yield Contract(f"{owner}::{head[3]}" if owner else head[3], "\n".join(body), " ".join(words))
        said = line.strip()
        if said.startswith("///"):
            words.append(said[3:].strip())
        elif not said.startswith("#["):
            words = []


def is_whole(body: List[str]) -> bool:
    """Whether these lines, from a function's name on, have all of its clauses."""
    last = body[-1].strip()
    if not any(CLAUSE.match(line) for line in body):
        return "{" in last or last.endswith(";")
    # A clause may have lines that look like these ends, but not outside of its braces.
    starts_body = last.startswith("{") and is_closed(body[:-1])
    return starts_body or (last.endswith(";") and is_closed(body))


def is_closed(lines: List[str]) -> bool:
    text = "".join(lines)
    return text.count("{") == text.count("}")


def clauses_of(body: str) -> Iterator[Tuple[str, str]]:
    """Gives each clause with its name."""
    ends = [*(found.start() for found in CLAUSE.finditer(body)), len(body)]
    for start, end in zip(ends, ends[1:]):
        clause = body[start:end]
        found = CLAUSE.match(clause)
        yield (found[1] if found else "") or "the clause", clause
