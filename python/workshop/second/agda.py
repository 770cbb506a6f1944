"""Writes definitions and lemmas as Agda, which then finds each well typed and each recursion ending.

The translation is mechanical, one after another. A product of many parts is nested from its fourth part on. What
differs in proofs: a clause of several forms is written once for each; a statement by the form of one value is written
by what selects a form, since Agda takes two matches for two statements; a fact that `let` names is given to a function,
so that the macros see it; and the tactics are macros (`laws/Tactics.agda`).
"""

from __future__ import annotations

import re
from collections.abc import Iterator, Sequence

from dorydate.definitions.clauses import clauses_of, uses_of
from dorydate.definitions.files import Clause, Definition, Structure
from dorydate.definitions.library import WORDS, Declared, Defined, Form, Library, Meaning, Module, Typed, Word
from dorydate.definitions.reading import term_of
from dorydate.definitions.terms import (  # fmt: skip
    Apply, Binder, Both, Changed, Field, ForAll, Function, If, Implicit, Let, Match, Name, Number, Operation, Record,
    Section, Term, Tuple, Universe, Unknown, arity, head_of, result_of, taken_types,
)
from workshop.parts import ROOT, text_of
from workshop.second.rust import Rust, mangled
from workshop.second.splitting import Forms, Splitter, Written, parts_of

BUILT_IN = {*"zero suc true false [] Some None Ok Err nat_lt Option Result List Bool ℕ ⊥".split()}
# what `laws/Lemmas.agda` and the language of proofs have beside definitions
PROVED = {
    *"refl sym ap subst absurd inl inr tt eq-eqb eqb-true ne_eqb leb-true le-leb ltb-true lt-ltb".split(),
    *"and_parts and_from and_right and_cases or_left or_parts not-true false_from_ne_true same_Some append-nil append_assoc".split(),
    *"length-append min-le_left min-eq_left eq-or-lt_of_le".split(),
}
FORM_NAMES = {*"zero suc true false None Some Ok Err inl inr refl tt".split()}
WIDTHS = {"w8": "1", "w16": "2", "w32": "4", "w64": "8", "w128": "16", "Width": "ℕ"}
TACTICS = ("omega", "cc", "rw", "eq-or-lt_of_le", "search", "grind", "simp")
# lemmas below whose proofs leave to the prover what Agda doesn't find: `laws/Lemmas.agda` has them
BY_HAND = {("Rattle.ncp_control.proofs.Counters", "share-le")}
STATEMENTS = {"≡", "≢", "<", "≤", "⊎"}
BUILT_IN_FORMS = {
    "Bool": (("true", 0), ("false", 0)),
    "Option": (("None", 0), ("Some", 1)),
    "List": (("[]", 0), ("∷", 2)),
    "ℕ": (("zero", 0), ("suc", 1)),
    "⊎": (("inl", 1), ("inr", 1)),
}
TYPE_OF = {form: name for name, forms in BUILT_IN_FORMS.items() for form, _ in forms}
Local = frozenset[str]
NO_NAMES: Local = frozenset()


class NotWritten(Exception):
    """What isn't translated."""


def variable(name: str) -> str:
    """A name that a clause gives, which a form may have in Agda."""
    return f"{name}′" if name in FORM_NAMES else mangled(name)


class Writer:
    """Writes definitions and lemmas of a library."""

    def __init__(self, library: Library) -> None:
        self.library = library
        self.rust = Rust()
        self.parameters: Local = NO_NAMES  # of the group of definitions
        self.fresh = 0

    # ---- names

    def name_of(self, module: str, name: str) -> str:
        """What a definition is called: with its file's name, so that no local name is the same."""
        if module == WORDS:
            return mangled(name) if name[0].islower() else f"{name}-of-words"
        _, crate, _, *file = module.split(".")
        return f"{name}-of-{'-'.join([crate, *file])}".replace("_", "-")

    def meant(self, term: Term, module: str, local: Local) -> str | None:
        """What a name is in Agda; None of a term that is none."""
        if isinstance(term, Written):
            return term.text
        if isinstance(term, Name) and term.text in local:
            return variable(term.text)
        if isinstance(term, Field) and isinstance(term.of, Name) and term.of.text not in local:
            of = self.library.module(module).aliases.get(term.of.text, "")
            if of.endswith(".Goals"):  # the clause of a function: `goal.returns-clause-NAME`
                said, rows = goal_of(self.library, of, term.name)
                return f"(⊤ → {self.term(said, rows, NO_NAMES)})"
        if meaning := self.library.named(term, module, local):
            assert isinstance(term, (Name, Field))
            return self.of_meaning(meaning, module, term.text if isinstance(term, Name) else term.name)
        return self.built_in(term.text) if isinstance(term, Name) else None

    def built_in(self, name: str) -> str:
        if name in PROVED:
            return name.replace("_", "-")
        if name in self.library.module(WORDS).own:
            return self.name_of(WORDS, name)
        if name in WIDTHS:
            return WIDTHS[name]
        if name in ("byte_len", "cc"):
            return "(λ n → n)" if name == "byte_len" else "(cc- no-facts)"
        if name in BUILT_IN:
            return mangled(name)
        if found := re.fullmatch("◌(.*)◌", name):
            return f"_{found[1]}_"
        raise NotWritten(f"the word {name}")

    def of_meaning(self, meaning: Meaning, module: str, name: str) -> str:
        match meaning:
            case Form(type_, _):
                here = self.library.module(module)
                is_own = name in here.forms and here.forms[name].name == type_
                return f"{self.name_of(module, type_)}.{mangled(name)}" if is_own else self.form(meaning)
            case Defined(home, definition) if (home, definition.name) in BY_HAND:
                return mangled(definition.name)
            case Defined() | Typed():
                return self.name_of(meaning.module, meaning.item.name)
            case Declared(crate, _, own):
                return self.rust.type(own, crate)
            case Word(own):
                return self.built_in(own)
        raise NotWritten(f"the name {name}")

    def form(self, meaning: Form) -> str:
        """A constructor, with its type before it."""
        if meaning.module:
            return f"{self.name_of(meaning.module, meaning.type)}.{mangled(meaning.name)}"
        self.rust.write(meaning.type, meaning.crate)
        return f"{meaning.type}°.{mangled(meaning.name)}"

    # ---- terms

    def term(self, term: Term, module: str, local: Local) -> str:
        found = self.meant(term, module, local)
        if found is not None:
            return found

        def of(it: Term) -> str:
            return self.term(it, module, local)

        def with_fields(fields: Sequence[tuple[str, Term]]) -> str:
            return " ; ".join(f"#{mangled(name)} = {of(it)}" for name, it in fields)

        match term:
            case Field(other, name):
                return f"({of(other)} .#{mangled(name)})"
            case Number(value):
                return str(value)
            case Unknown():
                return "_"
            case Universe(level):
                return "Set" if level == "0" else f"Set{level}"
            case Operation(word, left, right):
                return f"({of(left)} {word} {of(right)})"
            case If(condition, then, otherwise):
                return f"(if {of(condition)} then {of(then)} else {of(otherwise)})"
            case Tuple(items):
                return f"(t{len(items)} {' '.join(map(of, items))})" if items else "tt"
            case Record(fields):
                return f"(record {{ {with_fields(fields)} }})"
            case Changed(other, fields):
                return f"(record {of(other)} {{ {with_fields(fields)} }})"
            case Section(word, other, is_right):
                return f"(λ z → (z {word} {of(other)}))" if is_right else f"(λ z → ({of(other)} {word} z))"
            case Apply():
                return self.application(term, module, local)
        return self.binding(term, module, local)

    def application(self, term: Apply, module: str, local: Local) -> str:
        name = term.function.text if isinstance(term.function, Name) and term.function.text not in local else ""
        if name == "Unit":
            return "⊤"
        if name in TACTICS:
            return self.tactic(name, term.given, module, local)
        words = [self.term(term.function, module, local)]
        for it in term.arguments:
            if not isinstance(it, Implicit):
                words.append(self.term(it, module, local))
            elif it.name:
                words.append(f"{{{mangled(it.name)} = {self.term(it.term, module, local)}}}")
        return f"({' '.join(words)})"

    def tactic(self, name: str, given: Sequence[Term], module: str, local: Local) -> str:
        """A tactic as a macro, with the facts that it is given."""
        if name in ("grind", "simp"):
            raise NotWritten(f"the tactic {name}")
        if name == "search":
            return "search-"
        if name == "eq-or-lt_of_le":
            return f"(eq-or-lt- {self.term(given[0], module, local)})"
        facts = [
            it for one in given[:1] for it in (one.items if isinstance(one, Tuple) else (one,)) if it != Name("arith")
        ]
        texts = [self.term(it, module, local) for it in facts]
        if name != "rw":
            return f"({name}- ({' & '.join([*texts, 'no-facts'])}))"
        rest = self.term(given[1], module, local)
        for text in reversed(texts):
            rest = f"(by- (rw- {text}) {rest})"
        return rest

    def binding(self, term: Term, module: str, local: Local) -> str:
        """A term that gives names."""
        match term:
            case ForAll(binder, body):
                inner = self.term(body, module, local | {*binder.names})
                return f"({self.binder(binder, module, local)} → {inner})"
            case Both(parts):
                return self.product([(it.name, it.type) for it in parts], module, local)
            case Function():
                return self.function(term, module, local)
            case Let(Name(text), type_, value, body):
                name, known = variable(text), self.term(value, module, local)
                inner = self.term(body, module, local | {text})
                if type_ is None:
                    return f"(let {name} = {known} in {inner})"
                said = self.term(type_, module, local)
                if self.is_statement(type_, module):
                    return f"(of- {{A = {said}}} {known} (λ {name} → {inner}))"
                return f"(let {name} : {said} ; {name} = {known} in {inner})"
            case Match(other, cases):
                pairs = [self.case([it.pattern], it.body, module, local) for it in cases]
                by = f"(λ {{ {' ; '.join(pairs)} }})" if cases else "(λ ())"
                return by if other is None else f"(of- {self.term(other, module, local)} {by})"
        raise NotWritten(f"a {type(term).__name__}")

    def case(self, patterns: Sequence[Term], body: Term, module: str, local: Local) -> str:
        own: set[str] = set()
        found = [self.pattern(it, module, own) for it in patterns]
        return f"{' '.join(found)} → {self.term(body, module, local | own)}"

    def binder(self, binder: Binder, module: str, local: Local) -> str:
        type_ = self.term(binder.type, module, local)
        said = f"{' '.join(map(variable, binder.names))} : {type_}"
        return type_ if not binder.names else f"{{{said}}}" if binder.implicit else f"({said})"

    def product(self, parts: Sequence[tuple[str | None, Term]], module: str, local: Local) -> str:
        """A product of two to four parts; of more, the last are nested."""
        found, names = [], list[str]()
        for at, (name, type_) in enumerate(parts[:4]):
            is_last = at == 3 and len(parts) > 4
            text = self.product(parts[3:], module, local) if is_last else self.term(type_, module, local)
            found.append(f"(λ {' '.join(names)} → {text})" if names else text)
            names.append(variable(name) if name else "_")
            local = local | {name} if name else local
        return f"(Sig{len(found)} {' '.join(found)})"

    def function(self, term: Function, module: str, local: Local) -> str:
        if not all(isinstance(it.pattern, (Name, Unknown)) for it in term.parameters):
            return f"(λ {{ {self.case([it.pattern for it in term.parameters], term.body, module, local)} }})"
        words, inner = list[str](), local
        for it in term.parameters:
            name = it.pattern.text if isinstance(it.pattern, Name) else "_"
            type_ = None if it.type is None else self.term(it.type, module, inner)
            words.append(variable(name) if type_ is None else f"({variable(name)} : {type_})")
            inner = inner | {name}
        return f"(λ {' '.join(words)} → {self.term(term.body, module, inner)})"

    def is_statement(self, type_: Term, module: str) -> bool:
        """Whether a type is a statement, so that what is of it is a fact."""
        match type_:
            case Operation(word, _, _):
                return word in STATEMENTS
            case ForAll(_, body):
                return self.is_statement(body, module)
            case Both(parts):
                return all(self.is_statement(it.type, module) for it in parts)
        meaning = self.library.named(head_of(type_), module)
        if isinstance(meaning, Typed):
            return meaning.item.is_record and bool(meaning.item.binders)
        return isinstance(meaning, Defined) and isinstance(result_of(meaning.item.type), Universe)

    # ---- patterns

    def pattern(self, term: Term, module: str, local: set[str]) -> str:
        def of(it: Term) -> str:
            return self.pattern(it, module, local)

        match term:
            case Written() | Field():
                return self.term(term, module, NO_NAMES)
            case Name(text) if not self.is_form(text, module):
                local.add(text)
                return variable(text)
            case Name() | Number() | Unknown():
                return self.term(term, module, NO_NAMES)
            case Implicit(name, inner):
                return f"{{{mangled(name or '')} = {of(inner)}}}"
            case Apply(function, _):
                return f"({' '.join([self.term(function, module, NO_NAMES), *map(of, term.given)])})"
            case Operation(word, left, right):
                return f"({of(left)} {word} {of(right)})"
            case Tuple(items):
                return f"(t{len(items)} {' '.join(map(of, items))})"
        raise NotWritten("a pattern of another kind")

    def is_form(self, name: str, module: str) -> bool:
        here = self.library.module(module)
        if name == "tt" or name in here.forms or name in here.names and here.names[name][1] in TYPE_OF:
            return True
        if name in TYPE_OF:
            return module == WORDS
        return name in here.names and isinstance(self.library.meaning(module, name), Form)

    def forms_of(self, term: Term, module: str) -> Forms | None:
        """The forms of the type of which a term in a pattern has one."""
        if isinstance(term, Written):
            return term.forms
        if isinstance(term, Name) and term.text in TYPE_OF and (term.text == "∷" or self.is_form(term.text, module)):
            return Forms(TYPE_OF[term.text], BUILT_IN_FORMS[TYPE_OF[term.text]], term.text)
        meaning = self.library.named(term, module)
        if not isinstance(meaning, Form):
            return None
        own = self.form(meaning)
        if meaning.module:
            structure = self.library.module(meaning.module).forms[meaning.name]
            owner = self.name_of(meaning.module, meaning.type)
            all_ = [(f"{owner}.{mangled(it.name)}", arity(it.type)) for it in structure.members]
        else:
            lines = [line.strip().partition(" : ") for line in self.rust.written[meaning.type][1:]]
            all_ = [(f"{meaning.type}°.{form}", type_.count("→")) for form, _, type_ in lines]
        return Forms(own.rsplit(".", 1)[0], tuple(all_), own)

    # ---- definitions

    def written(self, meaning: Defined | Typed) -> list[str]:
        """The lines of a definition, after those of the types of Rust that it is the first to name."""
        before = {*self.rust.written}
        if isinstance(meaning, Defined):
            lines = [*self.definition(meaning.item, meaning.module, self.parameters)]
        else:
            lines = [*self.structure(meaning)]
        return [line for it, own in self.rust.written.items() if it not in before for line in (*own, "")] + [*lines, ""]

    def structure(self, meaning: Typed) -> Iterator[str]:
        it, module = meaning.item, meaning.module
        name = self.name_of(module, it.name)
        local = frozenset(name for binder in it.binders for name in binder.names)
        binders = " ".join(self.binder(binder, module, local) for binder in it.binders)
        if it.is_record:
            yield from self.record(it, name, binders, module, local)
            return
        yield f"data {name} {binders} : {self.term(it.type, module, local)} where"
        yield from (f"  {mangled(member.name)} : {self.term(member.type, module, local)}" for member in it.members)
        if not binders:
            yield from self.selection(it, name, module)

    def record(self, it: Structure, name: str, binders: str, module: str, local: Local) -> Iterator[str]:
        """A record. A field whose type takes the same field of another record is said in a definition before it."""
        before, lines = list[str](), [f"record {name} {binders} : Set where", "  field"]
        given = [(mangled(own), binder.implicit) for binder in it.binders for own in binder.names]
        types: dict[str, str] = {}
        for at, member in enumerate(it.members):
            own = mangled(member.name)
            text = self.term(member.type, module, local | {other.name for other in it.members[:at]})
            for other in types:
                text = re.sub(rf"(?<![\w#.-]){re.escape(other)}(?![\w-])(?!\s*[:=])", f"#{other}", text)
            if any(f".#{other})" in text for other in types):
                used = [other for other in types if re.search(rf"(?<![.\w-])#{re.escape(other)}(?![\w-])", text)]
                takes = " ".join([binders, *(f"(v-{other} : {types[other]})" for other in used)])
                shown = [f"{{{one} = {one}}}" if is_implicit else one for one, is_implicit in given]
                said = re.sub(r"(?<![.\w-])#([\w-]+)", r"v-\1", text)
                before += [f"{name}-{own}-type : {takes} → Set" if takes.strip() else f"{name}-{own}-type : Set"]
                before += [f"{' '.join([f'{name}-{own}-type', *shown, *(f'v-{other}' for other in used)])} = {said}"]
                explicit = [one for one, is_implicit in given if not is_implicit]
                text = " ".join([f"{name}-{own}-type", *explicit, *(f"#{other}" for other in used)])
            types[own] = text
            lines.append(f"    #{own} : {text}")
        yield from [*before, *lines, f"open {name} public"]

    def selection(self, it: Structure, name: str, module: str) -> Iterator[str]:
        """What selects by the form of a value: where it waits for that, two of them are one if what they give is."""
        parts = [[self.term(part, module, NO_NAMES) for part in taken_types(member.type)] for member in it.members]
        types = [f"({' → '.join([*one, 'X'])})" for one in parts]
        yield f"case-{name} : {{X : Set₁}} → {' → '.join([*types, name, 'X'])}"
        cases = [f"b{at}" for at in range(len(parts))]
        for own, member, one in zip(cases, it.members, parts):
            taken = [f"x{at}" for at in range(len(one))]
            pattern = f"({' '.join([f'{name}.{mangled(member.name)}', *taken])})"
            yield f"case-{name} {' '.join([*cases, pattern])} = {' '.join([own, *taken])}"

    def definition(self, item: Definition, module: str, local: Local) -> Iterator[str]:
        name = variable(item.name) if item.name in local else self.name_of(module, item.name)
        levels = f"{{{' '.join(item.levels)} : Level}} → " if item.levels else ""
        yield f"{name} : {levels}{self.term(item.type, module, local)}"
        is_split = ".proofs." in module and len(item.clauses) > 1
        at = self.selected(item, module) if is_split else None
        if at is not None:
            yield f"{name} {self.by_form(item, at, module, local)}"
            return
        splitter = Splitter(lambda term: self.forms_of(term, module), self.new_name)
        for clause in item.clauses:
            for it in splitter.ways(clause) if is_split else [clause]:
                yield from self.clause(name, it, module, local)

    def new_name(self) -> str:
        self.fresh += 1
        return f"v{self.fresh}"

    def clause(self, name: str, clause: Clause, module: str, local: Local) -> Iterator[str]:
        own: set[str] = set()
        head = " ".join([name, *(self.pattern(it, module, own) for it in clause.patterns)])
        inner = local | own | {it.name for it in clause.where}
        value = self.term(clause.value, module, inner)
        if isinstance(clause.value, (Record, Changed)):
            value = f"(itself {value})"  # else Agda would take the record apart, and compute only its fields
        yield f"{head} = {value}{' where' if clause.where else ''}"
        for it in clause.where:
            yield from (f"  {line}" for line in self.definition(it, module, inner))

    def selected(self, item: Definition, module: str) -> int | None:
        """The place of the one argument by whose form a statement's clauses differ, if what selects a form writes it."""
        given = [it.given for it in item.clauses]
        is_plain = item.is_abbreviation and not any(it.where or len(it.given) < len(it.patterns) for it in item.clauses)
        if not is_plain or f"'{item.name}'" in repr([it.value for it in item.clauses]):
            return None
        places = {at for one in given for at, it in enumerate(one) if self.is_of_form(it, module)}
        if not isinstance(result_of(item.type), Universe) or len(places) != 1:
            return None
        (at,) = places
        first = self.forms_of(head_of(given[0][at]), module)
        if first is None or first.type in BUILT_IN_FORMS or first.type.endswith("°"):
            return None
        is_flat = not any(self.is_of_form(part, module) for one in given for part in parts_of(one[at]))
        own = {self.own_form(one[at], module) for one in given}
        return at if is_flat and own == {it for it, _ in first.all} else None

    def is_of_form(self, pattern: Term, module: str) -> bool:
        return not isinstance(pattern, (Name, Unknown)) or self.forms_of(pattern, module) is not None

    def own_form(self, pattern: Term, module: str) -> str:
        found = self.forms_of(head_of(pattern), module)
        return found.own if found else ""

    def by_form(self, item: Definition, at: int, module: str, local: Local) -> str:
        """A statement by the form of the argument at a place: a function of its parts for each."""
        clauses = {self.own_form(it.given[at], module): it for it in item.clauses}
        forms = self.forms_of(head_of(item.clauses[0].given[at]), module)
        assert forms
        names = [f"a{it}" for it in range(len(item.clauses[0].given))]
        branches = []
        for it in (clauses[form] for form, _ in forms.all):
            parts = [part.text if isinstance(part, Name) else "_" for part in parts_of(it.given[at])]
            others = [
                (one.text, new) for one, new in zip(it.given, names) if isinstance(one, Name) and new != names[at]
            ]
            shown = "".join(f"let {variable(name)} = {new} in " for name, new in others)
            taken = f"λ {' '.join(map(variable, parts))} → " if parts else ""
            branches.append(
                f"({taken}{shown}{self.term(it.value, module, local | {*parts} | {name for name, _ in others})})"
            )
        return f"{' '.join(names)} = case-{forms.type} {' '.join(branches)} {names[at]}"


def goal_of(library: Library, module: str, name: str) -> tuple[Term, str]:
    """What a clause says of which a goal has the name, and the module in which its names are."""
    _, crate, _, *path, function, _ = module.split(".")
    file = f"{crate}/src/{'/'.join(path)}.rt"
    text, rows = text_of(f"{ROOT}/crates/{file}"), f"rows of {file}"
    if rows not in library.modules:
        library.modules[rows] = Module(rows, uses_of(text))
    wanted = name.removeprefix("returns-clause-") if "-clause-" in name else ""
    for it in clauses_of(text):
        if (it.function, it.name) == (function, wanted):
            return term_of(it.text, it.line), rows
    raise NotWritten(f"the goal {name} of {module}")
