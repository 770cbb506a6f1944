"""Tests of the reader of definitions, of what it computes and decides, and of the judge that is made of them."""

from __future__ import annotations

import random
import unittest

from dorydate.definitions.compiling import Clauses, Decider
from dorydate.definitions.computing import Goal, Unbound
from dorydate.definitions.files import Definition, Structure, read_file
from dorydate.definitions.library import WORDS, Defined, Library, Module
from dorydate.definitions.promise import BOOK, BOOK_AMONG, Judge, Judged, crates_folder, deeply, sources_below
from dorydate.definitions.reading import NotRead, term_of
from dorydate.definitions.terms import Apply, Both, ForAll, Name, Operation
from dorydate.definitions.values import NONE, Lambda, Value, applied, listed, number, shown, some, truth
from dorydate.definitions.words import NATIVE
from dorydate.explain.promised import said_of
from dorydate.model.log import read_log
from workshop.documents import believed
from workshop.parts import ROOT

MODULE = """
use Rattle.std.specs.Prelude.{ℕ}

-- twice as much
abbrev pub twice : ℕ → ℕ
twice zero = 0
twice (suc n) = suc (suc (twice n))

pub record Pair : Type 0 where
  pub one : ℕ
  -- the other
  pub other : ℕ

abbrev pub swapped : Pair → Pair
swapped p = record p { one = p.other; other = p.one }

pub record IsBelow (p : Pair) (n : ℕ) : Type 0 where
  pub between : ℕ
  pub low : p.one < between
  pub high : between < n

abbrev pub AreSmall : (ℕ → Type 0) → List ℕ → Type 0
AreSmall P [] = Unit {0}
AreSmall P (x ∷ xs) = P x × AreSmall P xs
"""


def decider() -> Decider:
    """One over the small module above."""
    found = Decider(Library(sources_below(crates_folder())))
    found.library.modules["small"] = Module("small", *read_file(MODULE))
    return found


def holds(text: str) -> bool:
    """Whether a statement of the small module holds."""
    at = decider()
    return at.holds((Goal(at.expression(term_of(text), "small"), {}),))


class OfTerms(unittest.TestCase):
    def test_words_bind_as_they_do_in_rattle(self) -> None:
        self.assertEqual(term_of("a + b * c ≡ d ∷ e ++ f"), term_of("(a + (b * c)) ≡ ((d ∷ e) ++ f)"))
        self.assertEqual(term_of("a ≡ b × c ⊎ d"), term_of("((a ≡ b) × c) ⊎ d"))
        self.assertEqual(term_of("A → B → C"), term_of("A → (B → C)"))

    def test_products_are_flat(self) -> None:
        found = term_of("(x y : A) × B × C")
        assert isinstance(found, Both)
        self.assertEqual([it.name for it in found.parts], ["x", "y", None, None])
        self.assertNotEqual(term_of("A × B × C"), term_of("A × (B × C)"))

    def test_a_field_has_no_space(self) -> None:
        self.assertNotEqual(term_of("f r.x"), term_of("(f r).x"))
        self.assertIsInstance(term_of("f r.x"), Apply)
        self.assertIsInstance(term_of("(x : A) → b x ≡ c"), ForAll)

    def test_what_is_no_term_is_refused(self) -> None:
        for text in ("(a", "a ≡", "record { a }", "λ x → x", "a )"):
            with self.assertRaises(NotRead):
                term_of(text)

    def test_a_file(self) -> None:
        items, faults = read_file(MODULE)
        self.assertEqual(faults, [])
        twice = next(it for it in items if isinstance(it, Definition))
        pair = next(it for it in items if isinstance(it, Structure))
        self.assertEqual((twice.name, twice.comment, len(twice.clauses)), ("twice", "twice as much", 2))
        self.assertEqual([(it.name, it.comment) for it in pair.members], [("one", ""), ("other", "the other")])

    def test_what_can_not_be_read_is_named(self) -> None:
        self.assertEqual(len(read_file("abbrev pub f : ℕ\nf = (1\n\nabbrev pub g : ℕ\ng = 1\n")[1]), 1)


class OfStatements(unittest.TestCase):
    def test_what_holds_and_what_does_not(self) -> None:
        right = [
            *("twice 21 ≡ 42", "swapped (record { one = 1; other = 2 }) ≡ record { other = 1; one = 2 }"),
            "record (record { one = 1; other = 2 }) { one = 3 } ≡ record { one = 3; other = 2 }",
            # there is
            *("(xs ys : List ℕ) × (xs ++ 5 ∷ ys ≡ 4 ∷ 5 ∷ [])", "IsBelow (record { one = 3; other = 0 }) 5"),
            # for all
            *("(n : ℕ) → Contains (3 ∷ 5 ∷ []) n → n < 6", "(b : Bool) → (b && not b) ≡ false"),
            "(n : ℕ) → n < 3 → twice n ≡ n + n",
            # statements as arguments
            "AreSmall (λ n. n < 4) (1 ∷ 3 ∷ [])",
        ]
        wrong = [
            *("twice 21 ≡ 41", "(n : ℕ) → Contains (3 ∷ 5 ∷ []) n → n < 5"),
            *("(xs ys : List ℕ) × (xs ++ 6 ∷ ys ≡ 4 ∷ 5 ∷ [])", "IsBelow (record { one = 4; other = 0 }) 5"),
            *("AreSmall (λ n. n < 3) (1 ∷ 3 ∷ [])", "AreSmall (λ n. n < 4) (1 ∷ 3 ∷ []) → ⊥"),
        ]
        for text in (*right, *wrong):
            with self.subTest(text):
                self.assertEqual(holds(text), text in right)

    def test_what_is_said_of_all_numbers_is_not_decided(self) -> None:
        for text in ("(n : ℕ) → n ≡ 3", "(n : ℕ) → (n ≡ 3 → ⊥) → n < 3", "(n : ℕ) → twice n ≡ n + n"):
            with self.assertRaises(Unbound):
                holds(text)


class OfWords(unittest.TestCase):
    """What is computed at once is what the definitions say."""

    TAKES = {
        "nat_le": "nn",
        "length": "l",
        "take": "nl",
        "drop": "nl",
        "slice_get": "ln",
        "slice_index_or": "lnn",
        "slice_split": "tl",
        "bytes_eq": "ll",
        "list_any": "tl",
        "list_all": "tl",
        "map": "fl",
        "filter": "tl",
        "find": "tl",
        "reverse": "l",
        "count_by": "tl",
    }

    def some(self, kind: str, by: random.Random) -> Value:
        numbers = listed(by.randrange(6) for _ in range(by.randrange(6)))
        test = by.randrange(6)
        made: dict[str, Value] = {
            "b": truth(by.random() < 0.5),
            "n": by.randrange(7),
            "l": numbers,
            "t": Lambda(1, lambda n: truth(n == test)),
            "f": Lambda(1, lambda n: number(n) + test),
        }
        return made[kind]

    def test_words(self) -> None:
        at, by = decider(), random.Random(7)
        for name, kinds in self.TAKES.items():
            native = NATIVE[name]
            meaning = at.library.found(WORDS, name)
            assert isinstance(meaning, Defined)
            defined = Lambda(len(kinds), Clauses(at, meaning).run)
            for _ in range(40):
                values = tuple(self.some(it, by) for it in kinds)
                said = f"{name} of {[*map(shown, values)]}"
                self.assertEqual(applied(native, values), applied(defined, values), said)

    def test_each_is_compared(self) -> None:
        words = Library(sources_below(crates_folder())).module(WORDS)
        self.assertEqual({it for it in NATIVE if it in words.own} - {*self.TAKES}, set())


class OfThePromise(unittest.TestCase):
    def test_the_definitions_are_those_of_the_page(self) -> None:
        definitions = Judge().reach(BOOK).definitions
        found = {(module.removeprefix("Rattle."), name) for module, name in definitions if module != WORDS}
        page = {(f"{crate}.specs.{path}", name) for crate, path, name in believed.reading()[1].definitions}
        self.assertEqual(found, page)

    def test_the_fields_are_those_of_the_page(self) -> None:
        with open(f"{ROOT}/logs/two-octets", "rb") as file:
            names = {it.part.name for it in judged(file.read())}
        self.assertLessEqual(names, believed.field_names())
        self.assertTrue(
            all(
                any(it == name or it.startswith(f"{name}.") or name.startswith(f"{it}.") for name in names)
                for it in believed.field_names()
            )
        )

    def test_those_among_strangers(self) -> None:
        self.assertEqual([name for name, _, _ in Judge().clauses(BOOK_AMONG)], ["among", "toward"])


def judged(octets: bytes) -> list[Judged]:
    return deeply(lambda: [*Judge().judged(read_log(octets))])


def changed(*changes: tuple[str, str], file: str = "two-octets") -> bytes:
    """A stored log, with parts of its text changed."""
    with open(f"{ROOT}/logs/{file}", encoding="ascii") as stored:
        text = stored.read()
    for old, new in changes:
        assert old in text
        text = text.replace(old, new)
    return text.encode("ascii")


class OfLogs(unittest.TestCase):
    def broken(self, *changes: tuple[str, str], file: str = "two-octets") -> dict[str, tuple[str, ...]]:
        return {it.part.name: it.reasons for it in judged(changed(*changes, file=file)) if it.holds is False}

    def test_kept(self) -> None:
        self.assertEqual(self.broken(), {})
        self.assertEqual(
            [(it.part.name, it.lacks) for it in judged(changed()) if it.holds is None],
            [("promise.told", "notices"), ("promise.joined", "reports")],
        )

    def test_other_bits(self) -> None:
        found = self.broken(("100 0 0 open 4849", "100 0 0 open 4848"))
        self.assertEqual(found["promise.formed"], ("x: line 13", "Some(16 bits 4849) isn't Some(16 bits 4848)"))
        self.assertEqual(found["promise.safe.streams.source"], ("receiver: line 13",))

    def test_a_sender_that_is_there_twice(self) -> None:
        life = next(it for it in changed().decode().split("\n") if "send" in it)
        found = self.broken((life, f"{life}\n{life}"), ("handed 24 484950", "handed 24 484950\nhanded 24 484950"))
        self.assertEqual(
            set(found),
            {"promise.safe.partners.own_once", "promise.safe.partners.partner_once", "promise.safe.streams.one"},
        )

    def test_more_than_was_granted(self) -> None:
        self.assertEqual(
            self.broken(("1 100 0 0", "1 15 0 0"))["promise.safe.grants.taken"],
            ("receiver: line 13", "16 is more than 15"),
        )

    def test_a_message_of_before_a_reset(self) -> None:
        """Whether it has the bits of the one that was sent, or both have none, only message by message it shows."""
        for file in ("an-old-message", "an-old-message-without-bits"):
            found = self.broken(file=file)
            self.assertEqual([*found], ["promise.sent"])
            self.assertIn("receiver: line 34", found["promise.sent"])

    def test_a_contact_that_nobody_sees(self) -> None:
        self.assertEqual(self.broken(("receive 1 16 1 100 0 0 open", "receive 1 16 1 100 0 0 reset")), {})

    def test_a_fate_that_nothing_leaves(self) -> None:
        self.assertEqual(
            self.broken(("receive 1 16 1 100 0 0 open", "receive 1 16 1 100 0 0 stopped"))["promise.over"],
            ("x: line 13", "f: Stopped"),
        )

    def test_strangers(self) -> None:
        self.assertEqual(self.broken(file="toward-a-stranger"), {})
        self.assertEqual([*self.broken(file="past-a-strangers-grant")], ["toward.taken"])

    def test_what_is_printed(self) -> None:
        lines, holds = said_of(read_log(changed(("1 100 0 0", "1 15 0 0"))))
        self.assertFalse(holds)
        at = next(at for at, it in enumerate(lines) if it.startswith("broken"))
        self.assertRegex(lines[at], "^broken promise.safe.grants.taken +SafeGrants.taken$")
        self.assertIn("         16 is more than 15", lines[at:])
        self.assertIn("a log has no notices", lines[3])

    def test_raw(self) -> None:
        self.assertIn("The log has no lives.", said_of(read_log(b"end\n"))[0][-1])


class OfValues(unittest.TestCase):
    def test_equal_values_are_one(self) -> None:
        self.assertIs(listed([1, 2]), listed([1, 2]))
        self.assertIsNot(listed([truth(True)]), listed([1]))
        self.assertEqual(shown(listed([some(1), NONE])), "[Some(1), None]")

    def test_names_without_a_definition(self) -> None:
        self.assertIsInstance(term_of("x"), Name)
        self.assertIsInstance(term_of("a ≡ b"), Operation)
        self.assertIsInstance(decider().library.meaning("small", "twice"), Defined)
