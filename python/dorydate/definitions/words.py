"""Words of the library that are computed at once: those that no definition says, and some of `words.txt` that are asked
for often, which a test compares with it. A map is a list of pairs in the order of their keys."""

from __future__ import annotations

from collections.abc import Sequence

from dorydate.definitions.values import (  # fmt: skip
    NONE, TRUE, Data, Lambda, Struct, Value, applied, data, items_of, list_of, listed, number,
    reversed_list, some, truth, tupled,
)

FIRST = ("imp", "host", "source", "destination", "link")  # fields in the order by which keys are compared
Pairs = Sequence[tuple[Value, Value]]


def holds(test: Value, value: Value) -> bool:
    return applied(test, (value,)) is TRUE


def drop(many: Value, values: Value) -> Data:
    left, rest = number(many), list_of(values)
    while left and rest.form == "∷":
        left, rest = left - 1, list_of(rest.parts[1])
    return rest


def slice_get(values: Value, place: Value) -> Value:
    rest = drop(place, values)
    return some(rest.parts[0]) if rest.form == "∷" else NONE


def slice_index_or(values: Value, place: Value, otherwise: Value) -> Value:
    rest = drop(place, values)
    return rest.parts[0] if rest.form == "∷" else otherwise


# ---- maps


def rank(value: Value) -> tuple[object, ...]:
    """By what keys are put in order."""
    if isinstance(value, int):
        return (value,)
    if isinstance(value, Struct):
        names = sorted(value.fields, key=lambda it: (FIRST.index(it) if it in FIRST else len(FIRST), it))
        return tuple(rank(value.fields[it]) for it in names)
    return (value.form, *map(rank, items_of(value))) if isinstance(value, Data) else ()


def pairs_in(values: Value) -> Pairs:
    return [(it.fields["0"], it.fields["1"]) for it in items_of(values) if isinstance(it, Struct)]


def pairs_of(value: Value) -> Pairs:
    return pairs_in(list_of(value).parts[0])


def made(pairs: Pairs) -> Value:
    """The map of these pairs, of which a later one of the same key counts."""
    return data("map", listed(tupled(it) for it in sorted(dict(pairs).items(), key=lambda it: rank(it[0]))))


def split(test: Value, values: Value) -> Value:
    """The parts of a list between the elements for which a test holds: one more than there are such elements."""
    parts: list[list[Value]] = [[]]
    for it in items_of(values):
        if holds(test, it):
            parts.append([])
        else:
            parts[-1].append(it)
    return listed([listed(part) for part in parts])


NATIVE: dict[str, Value] = {
    "nat_lt": Lambda(2, lambda a, b: truth(number(a) < number(b))),
    "nat_le": Lambda(2, lambda a, b: truth(number(a) <= number(b))),
    "codes": Lambda(1, list_of),
    "byte_len": Lambda(1, number),
    "decimal": Lambda(1, lambda value: listed(str(number(value))[-64:].encode())),
    **{"w8": 1, "w16": 2, "w32": 4, "w64": 8, "w128": 16},
    "length": Lambda(1, lambda values: list_of(values).length),
    "take": Lambda(2, lambda many, values: listed([*items_of(values)][: number(many)])),
    "drop": Lambda(2, drop),
    "slice_get": Lambda(2, slice_get),
    "slice_index_or": Lambda(3, slice_index_or),
    "slice_split": Lambda(2, split),
    "bytes_eq": Lambda(2, lambda a, b: truth([*items_of(a)] == [*items_of(b)])),
    "list_any": Lambda(2, lambda test, values: truth(any(holds(test, it) for it in items_of(values)))),
    "list_all": Lambda(2, lambda test, values: truth(all(holds(test, it) for it in items_of(values)))),
    "map": Lambda(2, lambda function, values: listed([applied(function, (it,)) for it in items_of(values)])),
    "filter": Lambda(2, lambda test, values: listed([it for it in items_of(values) if holds(test, it)])),
    "count_by": Lambda(2, lambda test, values: sum(holds(test, it) for it in items_of(values))),
    "find": Lambda(2, lambda test, values: next((some(it) for it in items_of(values) if holds(test, it)), NONE)),
    "reverse": Lambda(1, reversed_list),
    "FinMap.get": Lambda(2, lambda values, key: next((some(it) for name, it in pairs_of(values) if name == key), NONE)),
    "FinMap.insert": Lambda(3, lambda values, key, value: made([*pairs_of(values), (key, value)])),
    "FinMap.remove": Lambda(2, lambda values, key: made([it for it in pairs_of(values) if it[0] != key])),
    "FinMap.retain_keys": Lambda(2, lambda values, test: made([it for it in pairs_of(values) if holds(test, it[0])])),
    "FinMap.keys": Lambda(1, lambda values: listed(it for it, _ in pairs_of(values))),
    "FinMap.entries": Lambda(1, lambda values: listed(map(tupled, pairs_of(values)))),
    "FinMap.from_entries": Lambda(1, lambda entries: made(pairs_in(entries)[::-1])),
}
