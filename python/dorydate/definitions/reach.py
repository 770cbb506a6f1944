"""Which definitions others lead to, by the names in them."""

from __future__ import annotations

from collections.abc import Iterator

from dorydate.definitions.files import Definition, Structure
from dorydate.definitions.library import WORDS, Defined, Form, Library, Meaning, NoMeaning, Typed
from dorydate.definitions.terms import Name, inside


class Reach:
    """What has been reached: definitions, each after those that it uses."""

    def __init__(self, library: Library) -> None:
        self.library = library
        self.definitions: dict[tuple[str, str], Defined | Typed] = {}
        self.seen: set[tuple[str, str]] = set()

    @property
    def modules(self) -> list[str]:
        """The modules of what was reached, without that of the library's words."""
        return [it for it in dict.fromkeys(module for module, _ in self.definitions) if it != WORDS]

    def follow_term(self, term: object, module: str) -> None:
        """Takes in all that a term names, and all to which that leads."""
        for it in meanings_in(self.library, term, module):
            if isinstance(it, (Defined, Typed)) and (key := (it.module, it.item.name)) not in self.seen:
                self.seen.add(key)
                self.follow_term(terms_of(it.item), it.module)
                self.definitions[key] = it


def terms_of(item: Definition | Structure) -> tuple[object, ...]:
    """The terms of which an item is made."""
    if isinstance(item, Structure):
        return (item.type, item.binders, item.members)
    return (item.type, *((it.patterns, it.value, it.where) for it in item.clauses))


def meanings_in(library: Library, term: object, module: str) -> Iterator[Meaning]:
    """What the names in a term mean; of a constructor, the type that it is of. A local name may be that of a
    definition, too: one too many."""
    words = library.module(WORDS)
    for it in inside(term):
        try:
            meaning = library.named(it, module)
        except NoMeaning:
            continue
        if meaning is None and isinstance(it, Name) and it.text in words.own:
            meaning = library.found(WORDS, it.text)
        if isinstance(meaning, Form) and meaning.module:
            meaning = Typed(meaning.module, library.module(meaning.module).forms[meaning.name])
        if meaning is not None:
            yield meaning
