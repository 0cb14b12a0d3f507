"""Finds the words that name a definition and are not followed to it, so that the count leaves nothing out unseen.

A word is followed where an import of its file makes the definition known. Else it has to mean something else: a name
that the text binds, a field, a name that the code declares, or one that is imported from the toolchain.
"""
import re
from typing import Iterator, List, Set

from sources import EQUALS, FIELD, WORD, Definition, Repository, bound_in, clauses_of, contracts, exported_names, rust_constants, scope_of

DECLARED = re.compile(r"\b(?:struct|enum|trait|type|fn|const) (\w+)|^    (?:pub(?:\(crate\))? )?(?:ghost )?(\w+):", re.M)
IMPORTED = re.compile(r"\buse (?:Rattle\.)?(\w+)[\w.:]*(?:\.|::)\{([^}]*)\}")
# What a text binds beside the names of `bound_in`: type arguments, fields that it sets, arguments and the name of a clause.
BOUND = re.compile(r"\{([^{}:]+) :|(\w+) =(?=\s)|(\w+): |^\s*(?:requires|ensures) (\w+)", re.M)


def unfollowed(repository: Repository) -> List[str]:
    """Each such word, with the definition or the clause that has it."""
    return [f"{place}: {word}" for place, words in strange_words(repository) for word in sorted(words)]


def strange_words(repository: Repository) -> Iterator[tuple[str, Set[str]]]:
    crates = {crate: repository.top / "crates" / crate for crate in repository.crates}
    texts = {crate: [file.read_text() for file in sorted((folder / "src").rglob("*.rt"))] for crate, folder in crates.items()}
    names = {it.name for it in repository.definitions} - fields_of(repository.definitions)
    names -= {name for found in texts.values() for text in found for name in flat(DECLARED.findall(text))}
    for it in repository.definitions:
        file = (crates[it.crate] / "specs" / f"{it.file}.antt").read_text()
        known = {it.name, *repository.scopes[it.crate, it.file], *from_toolchain(file, repository)}
        lefts = [line[: equals.start()] for line in it.lines for equals in [EQUALS.search(f"{line}\n")] if equals]
        yield it.path(), (words_of("\n".join(it.lines)) & names) - known - words_of("\n".join(lefts)) - bound("\n".join(it.lines))
    for crate, found in texts.items():
        for text in found:
            known = {*rust_constants(crate, text, repository.exports), *scope_of(text, repository.exports), *from_toolchain(text, repository)}
            for contract in contracts(text, exported_names(crates[crate])):
                for name, clause in clauses_of(contract.text):
                    yield f"{crate}::{contract.call}.{name}", (words_of(clause) & names) - known - bound(contract.text)


def words_of(text: str) -> Set[str]:
    """The words of a text, and of `value.field` the value too."""
    words = set(WORD.findall(re.sub(r'"[^"]*"|--.*|//.*', "", text)))
    return words | {word.partition(".")[0] for word in words}


def bound(text: str) -> Set[str]:
    return bound_in(text) | {word for names in flat(BOUND.findall(text)) for word in names.split()}


def fields_of(definitions: List[Definition]) -> Set[str]:
    return {name for it in definitions for names in FIELD.findall("\n".join(it.lines)) for name in names.split()}


def from_toolchain(text: str, repository: Repository) -> Set[str]:
    """The names that a file imports from crates that are not this project's."""
    entries = [entry for crate, names in IMPORTED.findall(text) if crate not in repository.crates for entry in names.split(",")]
    return {entry.split(" as ")[-1].strip() for entry in entries}


def flat(found: List[tuple[str, ...]]) -> List[str]:
    return [name for names in found for name in names if name]
