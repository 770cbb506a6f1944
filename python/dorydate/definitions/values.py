"""Values, each kept once: equal ones are one object, so that comparing them takes no time. Numbers are Python's."""

from __future__ import annotations

import gc
from collections.abc import Callable, Iterable, Iterator
from dataclasses import dataclass
from typing import Any, Union


class NotComputed(Exception):
    """A term of a kind that isn't computed here."""


@dataclass(eq=False, slots=True)
class Data:
    """A constructor with its arguments. A list knows its length."""

    form: str
    parts: tuple[Value, ...]
    length: int = 0


@dataclass(eq=False, slots=True)
class Struct:
    """A record, or a tuple, whose fields are numbered from 0."""

    fields: dict[str, Value]


@dataclass(eq=False, slots=True)
class Lambda:
    """A function, with the arguments that it has, and the term that it is, with the names in that."""

    arity: int
    run: Callable[..., Value]
    before: tuple[Value, ...] = ()
    term: Any = None
    env: Any = None


Value = Union[int, Data, Struct, Lambda]

TRUE, FALSE, NIL, NONE = (Data(it, ()) for it in ("true", "false", "[]", "None"))
TYPE = Data("a type", ())  # nothing is computed of a type
Key = tuple[Union[Value, str], ...]
LASTING: dict[Key, Data] = {(it.form,): it for it in (TRUE, FALSE, NIL, NONE)}
_data: dict[Key, Data] = {**LASTING}
_structs: dict[tuple[tuple[str, Value], ...], Struct] = {}


def forget() -> None:
    """Forgets all values. Those that were made before are no longer equal to new ones."""
    _data.clear()
    _data.update(LASTING)
    _structs.clear()
    gc.collect(1)


def data(form: str, *parts: Value) -> Data:
    key = (form, *parts)
    found = _data.get(key)
    if found is None:
        tail = parts[1] if form == "∷" and len(parts) == 2 else None
        found = _data[key] = Data(form, parts, tail.length + 1 if isinstance(tail, Data) else 0)
    return found


def struct(fields: dict[str, Value]) -> Struct:
    key = tuple(sorted(fields.items()))
    found = _structs.get(key)
    if found is None:
        found = _structs[key] = Struct(fields)
    return found


def records_with(names: Iterable[str]) -> list[Value]:
    """The records of these fields that were made since values were forgotten."""
    wanted = {*names}
    return [it for it in _structs.values() if it.fields.keys() == wanted]


def tupled(items: Iterable[Value]) -> Struct:
    return struct({str(at): it for at, it in enumerate(items)})


def truth(is_so: bool) -> Data:
    return TRUE if is_so else FALSE


def some(value: Value) -> Data:
    return data("Some", value)


def number(value: Value) -> int:
    if isinstance(value, int):
        return value
    raise NotComputed("a number is wanted")


def list_of(value: Value) -> Data:
    if isinstance(value, Data):
        return value
    raise NotComputed("a list is wanted")


def listed(items: Iterable[Value], tail: Data = NIL) -> Data:
    """A list of these, and then those of another."""
    for it in reversed([*items]):
        tail = data("∷", it, tail)
    return tail


def items_of(values: Value) -> Iterator[Value]:
    """The members of a list."""
    values = list_of(values)
    while values.form == "∷":
        yield values.parts[0]
        values = list_of(values.parts[1])


def reversed_list(values: Value) -> Value:
    return listed([*items_of(values)][::-1])


def applied(function: Value, arguments: tuple[Value, ...]) -> Value:
    """What a function gives of some arguments, or one that takes the rest; or a constructor with more arguments."""
    while arguments:
        if type(function) is Data:
            return data(function.form, *function.parts, *arguments)
        if type(function) is not Lambda:
            raise NotComputed("what is applied is no function")
        missing = function.arity - len(function.before)
        if len(arguments) < missing:
            return Lambda(function.arity, function.run, (*function.before, *arguments), function.term, function.env)
        function, arguments = function.run(*function.before, *arguments[:missing]), arguments[missing:]
    return function


def shown(value: Value, most: int = 400) -> str:
    """A value as it may be printed: bits as hexadecimal octets, and the middle of what is long left out."""
    text = spelled(value)
    return text if len(text) <= most else f"{text[: most - 12]} .. {text[-8:]}"


def spelled(value: Value) -> str:
    if isinstance(value, int):
        return str(value)
    if isinstance(value, Lambda):
        return "a function"
    if isinstance(value, Struct):
        return spelled_struct(value.fields)
    if value.form in ("∷", "[]"):
        members = [*items_of(value)]
        if members and all(it is TRUE or it is FALSE for it in members):
            return spelled_bits("".join("1" if it is TRUE else "0" for it in members))
        return f"[{', '.join(map(spelled, members))}]"
    return f"{value.form}({', '.join(map(spelled, value.parts))})" if value.parts else value.form


def spelled_struct(fields: dict[str, Value]) -> str:
    """A record; a host and a flow by their names, as logs have them."""
    if fields.keys() == {"imp", "host"}:
        return f"{spelled(fields['host'])}/{spelled(fields['imp'])}"
    if fields.keys() == {"0"}:
        return spelled(fields["0"])
    if fields.keys() == {"source", "destination", "link"}:
        return " ".join(spelled(fields[it]) for it in ("source", "destination", "link"))
    if all(it.isdigit() for it in fields):
        return f"({', '.join(map(spelled, fields.values()))})"
    return "{ " + "; ".join(f"{name} = {spelled(it)}" for name, it in fields.items()) + " }"


def spelled_bits(bits: str) -> str:
    """How many bits there are, and their octets, the last one filled up with zeros."""
    filled = bits + "0" * (-len(bits) % 8)
    return f"{len(bits)} bits {int(filled, 2):0{len(filled) // 4}X}"
