"""Makes of the terms of a library what can be computed and decided, and so of its definitions."""

from __future__ import annotations

import re
from collections.abc import Callable, Iterator, Mapping, Sequence
from functools import cached_property

from dorydate.definitions.computing import (  # fmt: skip
    Abstraction, Arithmetic, Build, Call, Construct, Defining, Env, Evidence, Expression,
    Get, Goals, Join, Literal, Local, OfFields, OfForm, Pattern, Selection, Slot, Slots, Unbound, Unread,
    braced, forced, goals_of, known_value,
)
from dorydate.definitions.deciding import (  # fmt: skip
    DONE, AllOf, Conjunct, Either, Equal, Every, Fixed, Implied, Less, Member, Search,
)
from dorydate.definitions.files import Definition, Structure
from dorydate.definitions.library import (  # fmt: skip
    WORDS, Constant, Declared, Defined, Form, Library, Meaning, NoMeaning, Typed, Word,
)
from dorydate.definitions.terms import (  # fmt: skip
    Apply, Both, Changed, Field, ForAll, Function, If, Implicit, Let, Match, Name, Number, Operation, Record,
    Section, Term, Text, Tuple, Universe, Unknown, arity, binders_of, head_of, inside, result_of, taken_types,
)
from dorydate.definitions.values import (  # fmt: skip
    FALSE, NIL, NONE, TRUE, TYPE, Data, Lambda, NotComputed, Struct, Value, applied, forget, truth,
)
from dorydate.definitions.words import NATIVE

Scope = frozenset[str]
NO_NAMES: Scope = frozenset()
PLAIN: dict[str, Value] = {"true": TRUE, "false": FALSE, "[]": NIL, "None": NONE, "zero": 0, "tt": NIL}
FORMS = {"Some", "Ok", "Err", "∷", "inl", "inr", "pos", "negsuc"}
FIXED = {"Unit": True, "⊥": False}
INFIX_NAME = re.compile("◌(.*)◌")
VALUE_TYPES = {"ℕ", "ℤ", "Bool", "List", "Option", "Result", "String", "Ordering", "Vec", "Width", "FinMap.FinMap"}
SUCCESSOR = Abstraction([Pattern("n")], Arithmetic("+", Local("n"), Literal(1)))


class Decider(Search):
    """Decides statements over a library. Each expression and each definition is made once."""

    def __init__(self, library: Library, domains: Mapping[str, Sequence[Value]] | None = None) -> None:
        super().__init__(domains)
        self.library = library
        self.made: dict[tuple[str, str], Clauses | Fields] = {}
        self.kinds: dict[tuple[str, str], bool] = {}
        self.memory: dict[tuple[object, ...], Value] = {}
        self.decided: dict[tuple[object, ...], bool] = {}
        # how many definitions were computed since, and how many may be; 0 is any number
        self.calls, self.most_calls = 0, 0

    def forget(self) -> None:
        """Forgets all that was computed and decided."""
        self.calls = 0
        self.memory.clear()
        self.decided.clear()
        forget()

    # ---- names

    def meaning(self, term: Term, module: str, scope: Scope) -> Meaning | None:
        """What a name means, or a name of another module; None of a local name, and of all other terms."""
        found = self.library.named(term, module, scope)
        if found is None and isinstance(term, Name) and term.text not in scope:
            return self.library.meaning(module, term.text)
        if found is None and isinstance(term, Field) and isinstance(term.of, Name) and term.of.text not in scope:
            return Form(term.of.text, term.name) if term.of.text[0].isupper() else None  # a constructor, by its type
        return found

    def defined(self, meaning: Defined | Typed) -> Clauses | Fields:
        """A definition, or a record of statements."""
        key = meaning.module, meaning.item.name
        if key not in self.made:
            self.made[key] = Clauses(self, meaning) if isinstance(meaning, Defined) else Fields(self, meaning)
        return self.made[key]

    # ---- kinds of types

    def is_statement(self, type_: Term, module: str, scope: Scope = NO_NAMES) -> bool:
        """Whether a type is a statement, so that what has it is evidence, and not a type of values."""
        match type_:
            case Operation():
                return True
            case ForAll(binder, body):
                return self.is_statement(body, module, scope | {*binder.names})
            case Both(parts):
                return any(self.is_statement(it.type, module, scope) for it in parts)
        head = head_of(type_)
        if isinstance(head, Name) and head.text in scope:
            return isinstance(type_, Apply)  # a name by itself is a type, unless nothing has it: see `conjuncts`
        if isinstance(head, (Universe, Unknown)):
            return False
        meaning = self.meaning(head, module, scope)
        if meaning is None and isinstance(head, Field):
            return not head.name[0].isupper()  # what a field of a value says, unless it is a type
        return self.is_statement_of(meaning)

    def is_statement_of(self, meaning: Meaning | None) -> bool:
        if isinstance(meaning, Word):
            return meaning.name not in VALUE_TYPES
        if isinstance(meaning, Declared):
            return False
        if isinstance(meaning, Typed):
            key = meaning.module, meaning.item.name
            if key not in self.kinds:
                self.kinds[key] = False  # of a type that speaks of itself
                self.kinds[key] = self.is_law(meaning.item, meaning.module)
            return self.kinds[key]
        if not isinstance(meaning, Defined):
            raise NotComputed("a type of another kind")
        first, takes = meaning.item.clauses[0], arity(meaning.item.type) > 0
        names = frozenset(it.text for it in first.patterns if isinstance(it, Name))
        if takes and isinstance(head_of(first.value), Field):
            inner = self.meaning(head_of(first.value), meaning.module, names)
            return not isinstance(inner, Word) or inner.name not in VALUE_TYPES
        return takes or self.is_statement(first.value, meaning.module, names)

    def is_law(self, structure: Structure, module: str) -> bool:
        """Whether a record is a statement: it is about values, or a field of it is."""
        types = [it for it in structure.binders if isinstance(it.type, Universe)]
        names = frozenset(name for it in types for name in it.names) | {it.name for it in structure.members}
        return structure.is_record and (
            len(types) < len(structure.binders) or any(
                self.is_statement(it.type, module, names) for it in structure.members
            )
        )

    def takes(self, type_: Term, module: str) -> int | None:
        """Of how many arguments something of this type says something; None where it says nothing."""
        result, own = result_of(type_), arity(type_)
        if isinstance(result, Universe):
            return own
        meaning = self.meaning(head_of(result), module, NO_NAMES)
        more = self.takes(meaning.item.clauses[0].value, meaning.module) if isinstance(meaning, Defined) else None
        return None if more is None else own + more

    # ---- expressions

    def expression(self, term: Term, module: str, scope: Scope = NO_NAMES) -> Expression:
        """What a term computes to or says, by what the local names mean."""
        try:
            return self.expressed(term, module, scope)
        except (NotComputed, NoMeaning) as why:
            return Unread(why)

    def expressed(self, term: Term, module: str, scope: Scope) -> Expression:
        def of(it: Term) -> Expression:
            return self.expression(it, module, scope)

        match term:
            case Name(text) if text in scope:
                return Local(text)
            case Name(text) if text in PLAIN:
                return Literal(PLAIN[text])
            case Name(text) if text in FIXED:
                return Fixed(FIXED[text])
            case Name() | Field():
                meaning = self.meaning(term, module, scope)
                return self.constant(meaning) if meaning else Get(of(term.of), term.name)  # type: ignore[union-attr]
            case Number(value):
                return Literal(value)
            case Text(text):
                codes: Expression = Literal(NIL)
                for code in reversed(text.encode()):
                    codes = Construct("∷", [Literal(code), codes])
                return codes
            case Apply():
                return self.application(term, [of(it) for it in term.given], module, scope)
            case Operation(word, left, right):
                return self.operation(word, of(left), of(right))
            case If(condition, then, otherwise):
                return choice(of(condition), of(then), of(otherwise))
            case Tuple(items):
                return Build([(str(at), of(it)) for at, it in enumerate(items)])
            case Record(fields):
                return Build([(name, of(it)) for name, it in fields])
            case Changed(other, fields):
                return Build([(name, of(it)) for name, it in fields], of(other))
            case Match(other, cases) if other is not None:
                return Selection(of(other), [self.case(it.pattern, it.body, module, scope) for it in cases])
        return self.binding(term, module, scope)

    def binding(self, term: Term, module: str, scope: Scope) -> Expression:
        """A term that gives names to values."""
        match term:
            case Function(parameters, body):
                return Abstraction(*self.clause([it.pattern for it in parameters], body, module, scope))
            case Let(pattern, _, value, body):
                return Selection(self.expression(value, module, scope), [self.case(pattern, body, module, scope)])
            case Section(word, other, is_right):
                sides = [Local("◌"), self.expression(other, module, scope)]
                return Abstraction([Pattern("◌")], self.operation(word, *(sides if is_right else sides[::-1])))
            case Both(parts):
                return AllOf(self.conjuncts([(it.name or "", it.type) for it in parts], module, scope))
            case ForAll():
                return self.every(term, module, scope)
        raise NotComputed(f"a {type(term).__name__} is no value")

    def clause(
        self, patterns: Sequence[Term], body: Term, module: str, scope: Scope
    ) -> tuple[list[Pattern], Expression]:
        """What some arguments have to be, and the value that has their names."""
        names: set[str] = set()
        found = [self.pattern(it, module, names) for it in patterns]
        return found, self.expression(body, module, scope | names)

    def case(self, pattern: Term, body: Term, module: str, scope: Scope) -> tuple[Pattern, Expression]:
        (found,), value = self.clause([pattern], body, module, scope)
        return found, value

    def constant(self, meaning: Meaning) -> Expression:
        """What a name means that isn't local."""
        if isinstance(meaning, Form):
            return Construct(meaning.name)
        if isinstance(meaning, Word):
            return self.word(meaning.name)
        if isinstance(meaning, Constant):
            return Literal(self.declared_number(meaning))
        if isinstance(meaning, Defined) or isinstance(meaning, Typed) and self.is_statement_of(meaning):
            return self.defined(meaning)
        return Literal(TYPE)

    def word(self, name: str) -> Expression:
        if name in VALUE_TYPES:
            return Literal(TYPE)
        if name in FORMS:
            return Construct(name)
        if name == "suc":
            return SUCCESSOR
        if name == "FinMap.empty":
            return Construct("map", [Literal(NIL)])
        if name in NATIVE:
            return Literal(NATIVE[name])
        if infix := INFIX_NAME.fullmatch(name):
            return Abstraction([Pattern("a"), Pattern("b")], self.operation(infix[1], Local("a"), Local("b")))
        raise NotComputed(f"the library's word {name}")

    def declared_number(self, meaning: Constant) -> int:
        """A number that is declared in Rust."""
        text = self.library.sources(f"{meaning.crate}/src/{meaning.path}.rt") or ""
        found = re.search(rf"\bconst {meaning.name}: \w+ = (\d[\d_]*);", text)
        if not found:
            raise NotComputed(f"the constant {meaning.name}")
        return int(found[1].replace("_", ""))

    def application(self, term: Apply, arguments: Sequence[Expression], module: str, scope: Scope) -> Expression:
        if term.function == Name("if◌then◌else◌"):
            return choice(*arguments)
        if term.function == Name("¬"):
            return Implied(self, arguments, Fixed(False))
        function = self.expression(term.function, module, scope)
        if function is SUCCESSOR and arguments:
            return Arithmetic("+", arguments[0], Literal(1))
        if isinstance(function, Construct):
            return Construct(function.form, [*function.arguments, *arguments])
        key = (function.module, function.item.name) if isinstance(function, Clauses) else ("", "")
        if key == (WORDS, "Contains") and len(arguments) == 2:
            return Member(*arguments)
        return Call(function, arguments) if arguments else function

    def operation(self, word: str, left: Expression, right: Expression) -> Expression:
        if word in OPERATIONS:
            return OPERATIONS[word](left, right)
        if word == "≢":
            return Implied(self, [Equal(left, right)], Fixed(False))
        if word == "↔":
            both = (Implied(self, [one], other) for one, other in ((left, right), (right, left)))
            return AllOf([Conjunct("", it, "", False) for it in both])
        return Arithmetic(word, left, right)

    # ---- statements

    def conjuncts(
        self, parts: Sequence[tuple[str, Term]], module: str, scope: Scope, after: Sequence[Term] = ()
    ) -> list[Conjunct]:
        """The parts of a product, or the premises of something that comes after them."""
        found = []
        for at, (name, type_) in enumerate(parts):
            later = [*(it for _, it in parts[at + 1 :]), *after]
            is_local = not name and isinstance(type_, Name) and type_.text in scope
            is_statement = is_local or self.is_statement(type_, module, scope)
            statement = self.expression(type_, module, scope) if is_statement else None
            found.append(
                Conjunct(name, statement, type_name(type_), bool(name) and any(mentions(it, name) for it in later))
            )
            scope = scope | {name} if name else scope
        return found

    def every(self, term: Term, module: str, scope: Scope) -> Expression:
        parts: list[tuple[str, Term]] = []
        while isinstance(term, ForAll):
            parts += [(it, term.binder.type) for it in term.binder.names or ("",)]
            term = term.body
        premises = self.conjuncts(parts, module, scope, [term])
        conclusion = self.expression(term, module, scope | {name for name, _ in parts if name})
        plain = [it.statement for it in premises if it.statement is not None and not it.is_named]
        if len(plain) == len(premises):
            return Implied(self, plain, conclusion)
        return Every(self, AllOf(premises), conclusion)

    # ---- patterns

    def pattern(self, term: Term, module: str, names: set[str]) -> Pattern:
        """What a pattern takes; the names that it gives are added."""

        def of(it: Term) -> Pattern:
            return self.pattern(it, module, names)

        match term:
            case Unknown() | Implicit():
                return Pattern()
            case Name() | Field() if form := self.form_of(term, module):
                return OfForm(form)
            case Name(text):
                names.add(text)
                return Pattern(text)
            case Apply(function, _) if form := self.form_of(function, module):
                return OfForm(form, [*map(of, term.given)])
            case Operation("∷", left, right):
                return OfForm("∷", [of(left), of(right)])
            case Tuple(items):
                return OfFields("", [(str(at), of(it)) for at, it in enumerate(items)])
            case Record(fields):
                return OfFields("", [(name, of(it)) for name, it in fields])
        raise NotComputed("a pattern of another kind")

    def form_of(self, term: Term, module: str) -> str:
        """The constructor that a pattern's head is; nothing where it is a name."""
        if isinstance(term, Name):
            if term.text in PLAIN or term.text in FORMS or term.text == "suc":
                return term.text
            here = self.library.module(module)
            if term.text not in here.names and term.text not in here.forms:
                return ""
        meaning = self.meaning(term, module, NO_NAMES)
        return meaning.name if isinstance(meaning, Form) else ""


def choice(condition: Expression, then: Expression, otherwise: Expression) -> Expression:
    return Selection(condition, [(OfForm("true"), then), (Pattern(), otherwise)])


SAME = Lambda(2, lambda one, other: truth(one == other))
OPERATIONS: dict[str, Callable[[Expression, Expression], Expression]] = {
    "∷": lambda left, right: Construct("∷", [left, right]),
    "++": Join,
    "==": lambda left, right: Call(Literal(SAME), [left, right]),
    "&&": lambda left, right: choice(left, right, Literal(FALSE)),
    "||": lambda left, right: choice(left, Literal(TRUE), right),
    "≡": Equal,
    "<": lambda left, right: Less(left, right, 0),
    "≤": lambda left, right: Less(left, right, 1),
    "⊎": lambda left, right: Either([left, right]),
}


# ---- definitions


class Saying(Defining):
    """What says something of arguments: a definition, or a record. What was decided of given values is kept."""

    def __init__(self, decider: Decider, module: str, item: Definition | Structure, takes: int | None) -> None:
        self.decider, self.module, self.item, self.takes = decider, module, item, takes

    def says(self, env: Env, given: Slots, evidence: Evidence | None) -> Iterator[Goals]:
        values = [known_value(it) for it in given]
        if evidence is not None or None in values:
            yield from self.opens(given, evidence)
            return
        decided, key = self.decider.decided, (self, *values)
        if key not in decided:
            decided[key] = any(self.decider.holds(it) for it in self.opens(given, None))
        if decided[key]:
            yield DONE

    def opens(self, given: Slots, evidence: Evidence | None) -> Iterator[Goals]:
        """What it comes to, of these arguments."""
        raise NotImplementedError


Clause = tuple[list[Pattern], Expression, dict[str, tuple[int, int] | None]]


class Clauses(Saying):
    """A definition by clauses. What it gave is kept."""

    def __init__(self, decider: Decider, meaning: Defined) -> None:
        self.definition = meaning.item
        super().__init__(decider, meaning.module, self.definition, decider.takes(self.definition.type, meaning.module))
        native = NATIVE.get(self.definition.name) if self.module == WORDS else None
        taken = max((len(it.given) for it in self.definition.clauses), default=0)
        self.function = Lambda(taken, self.run, (), self, {}) if native is None else native
        self.by_form: dict[str, list[Clause]] = {}

    @cached_property
    def clauses(self) -> list[Clause]:
        """Its clauses: patterns and values, and the names in braces."""
        found = []
        for it in self.definition.clauses:
            if it.where:
                raise NotComputed("a definition within another")
            in_braces = self.in_braces([part for part in it.patterns if isinstance(part, Implicit)])
            found.append((*self.decider.clause(it.given, it.value, self.module, frozenset(in_braces)), in_braces))
        return found

    def fitting(self, given: Slots) -> list[Clause]:
        """The clauses that may fit: by the form of the first argument that the first of them takes apart."""
        place = next((at for at, it in enumerate(self.clauses[0][0]) if isinstance(it, OfForm)), None)
        if place is None or len(self.clauses) == 1:
            return self.clauses
        value = forced(given[place])
        form = value.form if isinstance(value, Data) else "suc" if value else "zero"
        if form not in self.by_form:
            self.by_form[form] = [
                it for it in self.clauses if not isinstance(it[0][place], OfForm) or it[0][place].name == form
            ]
        return self.by_form[form]

    def in_braces(self, patterns: Sequence[Implicit]) -> dict[str, tuple[int, int] | None]:
        """The names that patterns in braces give: where an argument says of what it is evidence; None of types."""
        binders = [(name, it.type) for it in binders_of(self.definition.type) if it.implicit for name in it.names]
        types = [*enumerate(taken_types(self.definition.type))]
        found: dict[str, tuple[int, int] | None] = {}
        for it, (name, type_) in zip(patterns, binders):
            parts = [(at, place, it) for at, one in types if isinstance(one, Apply) for place, it in enumerate(one.given)]
            places = ((at, place) for at, place, part in parts if part == Name(name))
            if isinstance(it.term, Name):
                found[it.term.text] = None if isinstance(type_, Universe) else next(places, None)
        return found

    def value(self, env: Env) -> Value:
        return self.run() if isinstance(self.function, Lambda) and not self.function.arity else self.function

    def run(self, *arguments: Value) -> Value:
        decider, key = self.decider, (self, *arguments)
        found = decider.memory.get(key)
        if found is None:
            decider.calls += 1
            if 0 < decider.most_calls < decider.calls:
                raise NotComputed("too many calls")
            body, env, rest = self.opened(arguments)
            found = decider.memory[key] = applied(body.value(env), tuple(map(forced, rest)))
        return found

    def opened(self, given: Slots) -> tuple[Expression, Env, Slots]:
        for patterns, body, in_braces in self.fitting(given):
            env: Env = {
                name: TRUE if place is None else said_of(given[place[0]], place[1]) for name, place in in_braces.items()
            }
            if all([pattern.fits(it, env) for pattern, it in zip(patterns, given)]):
                return body, env, given[len(patterns) :]
        raise NotComputed(f"no clause of {self.definition.name} fits")

    def opens(self, given: Slots, evidence: Evidence | None) -> Iterator[Goals]:
        return goals_of(*self.opened(given), evidence)


def said_of(slot: Slot, place: int) -> Slot:
    """Of what evidence is said, at a place."""
    if isinstance(slot, Evidence):
        return slot.given[place]
    record = forced(slot)
    if not isinstance(record, Struct) or braced(place) not in record.fields:
        raise Unbound
    return record.fields[braced(place)]


class Fields(Saying):
    """A record of statements."""

    def __init__(self, decider: Decider, meaning: Typed) -> None:
        self.structure = meaning.item
        self.names = [name for it in self.structure.binders if not it.implicit for name in it.names]
        super().__init__(decider, meaning.module, self.structure, len(self.names))

    @cached_property
    def parts(self) -> AllOf:
        names = frozenset(name for it in self.structure.binders for name in it.names)
        members = [(it.name, it.type) for it in self.structure.members]
        return AllOf(self.decider.conjuncts(members, self.module, names))

    def value(self, env: Env) -> Value:
        return Lambda(len(self.names), self.run, (), self, {})

    def run(self, *given: Value) -> Value:
        raise NotComputed("a statement is no value")

    def opens(self, given: Slots, evidence: Evidence | None) -> Iterator[Goals]:
        if evidence is not None:
            evidence.given = given
        yield self.parts.goals(dict(zip(self.names, given)), evidence)


def called(statement: Expression) -> tuple[Clauses | Fields | None, Sequence[Expression]]:
    """The definition or record that a statement is, and of what it is said."""
    function, arguments = (statement.function, statement.arguments) if isinstance(statement, Call) else (statement, ())
    return (function if isinstance(function, (Clauses, Fields)) else None), arguments


def type_name(type_: Term) -> str:
    """The name of a type's head; nothing where it has none."""
    head = head_of(type_)
    return head.text if isinstance(head, Name) else head.name if isinstance(head, Field) else ""


def mentions(term: object, name: str) -> bool:
    """Whether a term speaks of a name."""
    return any(isinstance(it, Name) and it.text == name for it in inside(term))
