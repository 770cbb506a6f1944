"""Reads terms: tokens, and a parser by recursive descent."""

from __future__ import annotations

import re
from collections.abc import Sequence
from dataclasses import dataclass

from dorydate.definitions.terms import (  # fmt: skip
    Apply, Binder, Both, Case, Changed, Field, ForAll, Function, If, Implicit, Let, Match, Name, Number, Operation,
    Parameter, Part, Record, Section, Term, Text, Tuple, Universe, Unknown, for_all,
)

# infix words: how strongly they bind, and on which side a chain of them is nested
INFIX = {
    word: (strength, nested)
    for strength, nested, words in (
        *((0, "none", "↔"), (1, "right", "⊎"), (2, "flat", "×"), (4, "none", "≡ ≢"), (30, "right", "∙")),
        *((30, "left", "||"), (35, "left", "&&"), (40, "none", "=="), (50, "none", "< ≤"), (65, "left", "+ -"), (65, "right", "++")),
        *((67, "right", "∷"), (70, "left", "* / %"), (75, "right", "^")),
    )
    for word in words.split()
}
PRODUCT = INFIX["×"][0]
OPENS_STATEMENT = 6  # how strongly the last branch of an `if` binds
STOPS = {")", "]", "}", ",", ";", "|", "↦", "in", "then", "else", "=", ":", "→", "as", "where", "."}
TOKEN = re.compile(
    r"""--[^\n]*|\{-.*?-\}|«(?P<escaped>[^»]*)»|"(?:\\.|[^"\\])*"|[(){}.;,@]|[^\s(){}.;,@"«»]+""", re.DOTALL
)
NUMBER = re.compile(r"0x[0-9a-fA-F_]+|\d[\d_]*")
WORD = re.compile(r"""[^\s(){}.;,@"«»]+""")


class NotRead(Exception):
    """Where a text isn't of the language, or of the part of it that is read here."""


@dataclass(frozen=True)
class Token:
    text: str
    line: int
    follows: bool  # nothing is between it and the token before
    precedes: bool  # nothing is between it and the token after
    escaped: bool = False


def tokens_of(text: str, line: int = 1) -> list[Token]:
    """The tokens of a text that begins in this line."""
    found: list[Token] = []
    ended, at = -1, 0
    for it in TOKEN.finditer(text):
        line += text.count("\n", at, it.start())
        at = it.start()
        if it[0].startswith(("--", "{-")):
            continue
        escaped = it["escaped"] is not None
        glued = it.end() < len(text) and not text[it.end()].isspace()
        found.append(Token(it["escaped"] if escaped else it[0], line, it.start() == ended, glued, escaped))
        ended = it.end()
    return found


def unescaped(text: str) -> str:
    """What a string literal says."""
    return re.sub(r"\\(.)", lambda it: {"n": "\n", "t": "\t", "r": "\r", "0": "\0"}.get(it[1], it[1]), text[1:-1])


class Parser:
    """Reads terms from tokens."""

    def __init__(self, tokens: Sequence[Token]) -> None:
        self.tokens = tokens
        self.at = 0

    def peek(self, ahead: int = 0) -> str:
        """The token there; nothing past the end."""
        at = self.at + ahead
        return self.tokens[at].text if at < len(self.tokens) and not self.tokens[at].escaped else ""

    @property
    def is_done(self) -> bool:
        return self.at >= len(self.tokens)

    def next(self) -> Token:
        if self.is_done:
            raise NotRead("a text ends too early")
        self.at += 1
        return self.tokens[self.at - 1]

    def takes(self, text: str) -> bool:
        """Whether the next token is this; then it is read."""
        found = self.peek() == text and not self.is_done
        self.at += found
        return found

    def want(self, text: str) -> None:
        if not self.takes(text):
            raise NotRead(f"line {self.line()}: `{text}` is wanted, and not `{self.peek()}`")

    def line(self) -> int:
        return self.tokens[min(self.at, len(self.tokens) - 1)].line if self.tokens else 0

    def whole(self) -> Term:
        """The term that all that is left is."""
        found = self.term()
        if not self.is_done:
            raise NotRead(f"line {self.line()}: `{self.peek()}` is left over")
        return found

    # ---- terms

    def term(self) -> Term:
        left = self.operators(0)
        return ForAll(Binder((), left), self.term()) if self.takes("→") else left

    def operators(self, least: int) -> Term:
        """A term whose infix words all bind at least so strongly."""
        left = self.operand(least)
        while (found := INFIX.get(self.peek())) and found[0] >= least:
            word, (strength, nested) = self.next().text, found
            if nested == "flat":
                left = self.product([Part(None, left)])
            else:
                left = Operation(word, left, self.operators(strength if nested == "right" else strength + 1))
        return left

    def operand(self, least: int) -> Term:
        word = self.peek()
        if word == "λ":
            return self.function()
        if word == "let":
            return self.let()
        if self.takes("if"):
            condition = self.term()
            self.want("then")
            then = self.term()
            self.want("else")
            return If(condition, then, self.operators(OPENS_STATEMENT))
        if word in ("(", "{") and least <= PRODUCT and (binders := self.binders()):
            return self.bound(binders)
        return self.application()

    def bound(self, binders: tuple[Binder, ...]) -> Term:
        """What follows binders: a statement about all of these, or about some."""
        if self.takes("→"):
            return for_all(binders, self.term())
        self.want("×")
        return self.product([Part(name, it.type) for it in binders for name in it.names])

    def product(self, parts: list[Part]) -> Term:
        """The parts of a product, of which these have been read, with the infix word."""
        while True:
            if self.peek() in ("(", "{") and (binders := self.binders()):
                if self.takes("→"):
                    return Both((*parts, Part(None, for_all(binders, self.term()))))
                parts += [Part(name, it.type) for it in binders for name in it.names]
            else:
                parts.append(Part(None, self.operators(PRODUCT + 1)))
            if not self.takes("×"):
                return Both(tuple(parts))

    def binders(self) -> tuple[Binder, ...]:
        found = []
        while it := self.binder():
            found.append(it)
        return tuple(found)

    def binder(self) -> Binder | None:
        """`(x y : A)` or `{x : A}`, if that is next."""
        if self.peek() not in ("(", "{"):
            return None
        ahead = 1
        while (
            self.at + ahead < len(self.tokens)
            and WORD.fullmatch(self.tokens[self.at + ahead].text)
            and self.peek(ahead) not in (":", "=", "→", "λ", "let", "if")
        ):
            ahead += 1
        if ahead == 1 or self.peek(ahead) != ":":
            return None
        implicit = self.next().text == "{"
        names = tuple(self.next().text for _ in range(ahead - 1))
        self.want(":")
        type_ = self.term()
        self.want("}" if implicit else ")")
        return Binder(names, type_, implicit)

    def function(self) -> Term:
        self.want("λ")
        parameters: list[Parameter] = []
        while not self.takes("."):
            if binder := self.binder():
                parameters += [Parameter(Name(it), binder.type) for it in binder.names]
            elif self.peek() in ("(", "record"):
                parameters.append(Parameter(self.atom()))
            else:
                parameters.append(Parameter(self.plain(self.next())))
        return Function(tuple(parameters), self.term())

    def let(self) -> Term:
        self.want("let")
        pattern: Term = self.atom() if self.peek() in ("(", "record") else self.plain(self.next())
        type_ = self.term() if self.takes(":") else None
        self.want("=")
        value = self.term()
        self.want("in")
        return Let(pattern, type_, value, self.term())

    def application(self) -> Term:
        function, arguments = self.atom(), list[Term]()
        while not self.is_done and self.peek() not in STOPS and self.peek() not in INFIX:
            if self.peek() in ("λ", "let"):
                arguments.append(self.term())
                break
            arguments.append(self.implicit() if self.peek() == "{" else self.atom())
        return Apply(function, tuple(arguments)) if arguments else function

    def implicit(self) -> Term:
        self.want("{")
        name = None
        if self.peek(1) == "=":
            name = self.next().text
            self.next()
        term = self.term()
        while self.takes(","):
            self.term()
        self.want("}")
        return Implicit(name, term)

    # ---- atoms

    def atom(self) -> Term:
        token = self.next()
        text = token.text
        if token.escaped:
            return self.fields_of(Name(text))
        if text == "(":
            return self.fields_of(self.in_brackets())
        if text == "record":
            return self.fields_of(self.record())
        if text == "elim":
            return self.match()
        if text == "Type":
            level = self.next().text if NUMBER.fullmatch(self.peek()) else self.peek()
            if not NUMBER.fullmatch(level):
                self.atom()
            return Universe(level)
        if text in STOPS or text in ("{", "["):
            raise NotRead(f"line {token.line}: `{text}` begins no term")
        return self.fields_of(self.plain(token))

    def plain(self, token: Token) -> Term:
        """The term that is one word."""
        text = token.text
        if text == "_" or text == "?":
            return Unknown()
        if NUMBER.fullmatch(text):
            return Number(int(text.replace("_", ""), 0))
        return Text(unescaped(text)) if text.startswith('"') else Name(text)

    def fields_of(self, term: Term) -> Term:
        """A term with the fields that follow it."""
        while self.peek() == "." and self.tokens[self.at].follows and self.tokens[self.at].precedes:
            self.next()
            term = Field(term, self.next().text)
        return term

    def in_brackets(self) -> Term:
        if self.takes(")"):
            return Tuple(())
        if self.peek().startswith("◌") and self.peek()[1:] in INFIX:
            word = self.next().text[1:]
            term = self.term()
            self.want(")")
            return Section(word, term, True)
        items = [self.term()]
        while self.takes(","):
            if self.peek() != ")":
                items.append(self.term())
        if self.peek().endswith("◌") and self.peek()[:-1] in INFIX:
            word = self.next().text[:-1]
            self.want(")")
            return Section(word, items[0], False)
        self.want(")")
        return items[0] if len(items) == 1 else Tuple(tuple(items))

    def record(self) -> Term:
        if self.peek() == "{":
            return Record(self.record_fields())
        of = self.atom()
        return Changed(of, self.record_fields())

    def record_fields(self) -> tuple[tuple[str, Term], ...]:
        self.want("{")
        found = []
        while not self.takes("}"):
            name = self.next().text
            self.want("=")
            found.append((name, self.term()))
            self.takes(";")
        return tuple(found)

    def match(self) -> Term:
        of = None if self.peek() in ("[", "[]") else self.atom()
        if self.takes("as"):
            self.atom()
        if self.takes("[]"):
            return Match(of, ())
        self.want("[")
        cases = []
        while not self.takes("]"):
            self.takes("|")
            pattern = self.operators(PRODUCT + 1)
            self.want("↦")
            cases.append(Case(pattern, self.term()))
        return Match(of, tuple(cases))


def term_of(text: str, line: int = 1) -> Term:
    """The term that a text is."""
    return Parser(tokens_of(text, line)).whole()
