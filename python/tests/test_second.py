"""Tests of the second reader: what is written as Agda, worked rows, and definitions with one word changed."""

from __future__ import annotations

import shutil
import unittest

from dorydate.definitions.compiling import Decider
from dorydate.definitions.files import Definition, Structure, read_file
from dorydate.definitions.library import Library, Module
from dorydate.definitions.promise import BOOK, Judge, deeply
from dorydate.definitions.reading import term_of
from workshop.second import laws, mutants
from workshop.second.agda import Writer
from workshop.second.mutants import changes, page, spread
from workshop.second.rows import Row, all_rows, computed, rows_of, sources
from workshop.second.rust import Rust, mangled, parts_of

FORMED = "Rattle.promise.specs.Formed"


class OfAgda(unittest.TestCase):
    def test_a_definition(self) -> None:
        text = laws.of_page(Judge(), [BOOK]).texts["Promise"]
        self.assertIn("--safe", text)
        self.assertNotIn("postulate", text)
        self.assertIn("is-over-of-promise-Fates Fate°.Open = false", text)
        self.assertIn(
            "record Match-of-promise-Safe (log : (List Crossing°)) (receiver sender : Life°) : Set where", text
        )

    def test_what_never_ends_is_refused(self) -> None:
        if not shutil.which("agda"):
            self.skipTest("agda is not installed")
        for last, wrong in (("f (suc n)", "Termination"), ("f n", "")):
            made = laws.Modules({})
            made.add("Recursion", ["f : ℕ → ℕ", "f zero = 0", f"f (suc n) = {last}"], ["Base"])
            self.assertIn(wrong, found := laws.checked(made)[0])
            self.assertEqual(bool(wrong), bool(found))

    def test_names(self) -> None:
        self.assertEqual([mangled(it) for it in ("own_stamp", "to", "x")], ["own-stamp", "to′", "x"])

    def test_types_of_rust(self) -> None:
        self.assertEqual(parts_of("pub struct S { a: [u8; 4], b: Option<(u8, u16)> } rest", 14), ["a: [u8; 4]", "b: Option<(u8, u16)>"])
        rust = Rust()
        self.assertEqual(rust.type("Option<Flow>", "interface"), "(Option Flow°)")
        self.assertIn("    #link : Link°", rust.written["Flow"])


class OfRows(unittest.TestCase):
    FILE = "world_keeps_streams/src/worked_arrived.rt"
    OWN = """
use Rattle.interface.specs.Mailboxes.{same_flow}
use Rattle.interface.specs.declared.address.Flow.{Flow}

pub record IsTwo : Type 0 where
  pub number : ℕ
  pub two : number ≡ 2

abbrev pub number_of : IsTwo → ℕ
number_of it = it.number

pub record IsMore (less more : ℕ) : Type 0 where
  pub over : less < more

abbrev pub lesser : {less more : ℕ} → IsMore less more → ℕ
lesser {less} {more} it = less

abbrev pub Property : Type 0 → Type 1
Property A = A → Type 0

abbrev pub IsSmall : Property ℕ
IsSmall n = n < 3

abbrev pub Twice : Property ℕ → Property ℕ
Twice P n = P (n + n)
"""

    def rows(self) -> list[Row]:
        self.library = Library(sources())
        return [*rows_of(self.library, [self.FILE])]

    def test_rows_hold(self) -> None:
        rows = self.rows()
        self.assertGreater(len(rows), 4)
        self.assertEqual(deeply(lambda: {computed(Decider(self.library), it) for it in rows}), {"holds"})

    def test_a_wrong_definition_fails(self) -> None:
        rows = self.rows()
        own = self.library.module(FORMED).own
        texts_of = own["texts_of"]
        assert isinstance(texts_of, Definition)
        all_ = changes(self.library, (FORMED, "texts_of"), texts_of)
        own["texts_of"] = next(it.item for it in all_ if "then" in it.what)
        self.assertIn("fails", deeply(lambda: {computed(Decider(self.library), it) for it in rows}))


    def said(self, text: str) -> str:
        library = Library(sources())
        library.modules["of a test"] = Module("of a test", *read_file(self.OWN))
        row = Row("", "", "", term_of(text, 1), "of a test")
        return deeply(lambda: computed(Decider(library), row))

    def test_what_is_of_all_flows_is_tried_with_those_of_the_row(self) -> None:
        library = Library(sources())
        rows = [it for it in rows_of(library, ["net_sim/src/worked.rt"]) if it.function == "safe_books"]
        self.assertEqual([deeply(lambda: computed(Decider(library), it)) for it in rows], ["holds"])
        self.assertEqual(self.said("(f : Flow) → same_flow f f ≡ true"), "speaks of all")

    def test_what_is_written(self) -> None:
        for text, found in (
            ("Appends (Some (1 ∷ [])) (Some (1 ∷ 2 ∷ [])) (2 ∷ [])", "holds"),
            ("Keeps (Some (1 ∷ [])) (Some [])", "fails"),
            ("IsAtEnd (Some (1 ∷ [])) → ⊥", "holds"),
            ("Consumes (Some (1 ∷ [])) None [] → ⊥", "holds"),
        ):
            self.assertEqual(self.said(text), found, text)

    def test_a_function_of_evidence(self) -> None:
        self.assertEqual(self.said("(it : IsTwo) × (number_of it ≡ 2)"), "holds")
        self.assertEqual(self.said("(it : IsTwo) × (number_of it ≡ 3)"), "fails")

    def test_a_function_that_takes_in_braces_what_its_evidence_is_of(self) -> None:
        self.assertEqual(self.said("(it : IsMore 2 5) × (lesser it ≡ 2)"), "holds")
        self.assertEqual(self.said("(it : IsMore 2 5) × (lesser it ≡ 3)"), "fails")

    def test_a_statement_that_is_given_as_an_argument(self) -> None:
        for text, found in (("Twice IsSmall 1", "holds"), ("Twice IsSmall 2", "fails"), ("Twice (λ n. n < 9) 4", "holds")):
            self.assertEqual(self.said(text), found, text)


class OfChanges(unittest.TestCase):
    def test_one_word(self) -> None:
        (it,) = [
            it
            for it in read_file("abbrev pub f : ℕ → ℕ\nf n = if nat_lt n 2 then n + 1 else 0\n")[0]
            if isinstance(it, Definition)
        ]
        library = Library(sources())
        library.modules["of a test"] = Module("of a test", ())
        found = [change.what for change in changes(library, ("of a test", "f"), it)]
        self.assertEqual(
            found,
            [f"clause 1: {what}" for what in ("then ↔ else", "nat_lt → nat_le", "2 → 3", "+ → -", "1 → 2", "0 → 1")],
        )

    def test_not_too_many(self) -> None:
        library = Library(sources())
        every = [it for key, item in page().items() for it in spread([*changes(library, key, item.item)], 3)]
        self.assertGreater(len(every), 148)
        self.assertEqual(spread(every, 5)[0], every[0])

    def test_what_rows_say(self) -> None:
        rows = deeply(lambda: mutants.Rows(all_rows(["promise/src/worked.rt"])))
        ends = "Rattle.promise.specs.Ends"
        for name, what, said in (
            ("asks_for", "clause 1: && → ||", mutants.NOTICED),
            ("course", "clause 1: 0 → 1", mutants.EQUAL),
            ("Leaves", "clause 1: ≡ → ≢", mutants.MISSED),
        ):
            item = page()[ends, name].item
            change = next(it for it in changes(rows.library, (ends, name), item) if it.what == what)
            self.assertEqual(deeply(lambda: rows.say(change)), said, name)

    def test_to_names_that_are_there(self) -> None:
        (it,) = [it for it in read_file("pub record R (own : ℕ) : Type 0 where\n  pub foreign : own ≡ 1\n")[0]]
        assert isinstance(it, Structure)
        library = Library(sources())
        library.modules["of a test"] = Module("of a test", ())
        found = [change.what for change in changes(library, ("of a test", "R"), it)]
        self.assertEqual(found, ["foreign: ≡ → ≢", "foreign: 1 → 2"])


class OfLaws(unittest.TestCase):
    FILE = """
use Rattle.std.proofs.Common.{◌≡◌, ◌⊎◌, inl, inr, Bool, true, false, refl, ap, sym, ◌∙◌, arith}

pub data Light : Type 0 where
  Red : Light
  Green : Light
  Amber : (blinks : Bool) → Light

abbrev pub goes : Light → Bool
goes Green = true
goes other = false

pub goes_once : (l : Light) → (l ≡ Green) ⊎ (goes l ≡ false)
goes_once Green = inl refl
goes_once other = inr refl

pub less : (a b c : ℕ) → a ≤ b → b + c ≤ 7 → a ≤ 7
less a b c l m = omega (arith, l, m)

pub never : (l : Light) → l ≡ Green → goes l ≡ false → ⊥
never l e f = let both : true ≡ false = sym (ap goes e) ∙ f in absurd (cc)
"""

    def written(self, text: str) -> laws.Modules:
        library = Library(sources())
        name = "Rattle.a_test.proofs.Lights"
        library.modules[name] = Module(name, *read_file(text))
        writer = Writer(library)
        lines = laws.items(writer, library.module(name).items, name)
        found = laws.words(library)
        found.add("Lights", lines, [*map(laws.public, ("Base", "Words", "Lemmas")), laws.TACTICS])
        return found

    def said(self, text: str) -> str:
        if not shutil.which("agda"):
            self.skipTest("agda is not installed")
        return laws.checked(self.written(text))[0]

    def test_a_clause_of_several_forms_is_written_for_each(self) -> None:
        lines = [it for it in self.written(self.FILE).texts["Lights"].split("\n") if it.startswith("goes-once-of-a-test-Lights ")]
        self.assertEqual(len(lines), 4)  # its type, and a clause for each light

    def test_lemmas_are_proved(self) -> None:
        self.assertEqual(self.said(self.FILE), "")

    def test_wrong_ones_are_refused(self) -> None:
        no_light, other_light = ("goes l ≡ false → ⊥", "goes l ≡ true → ⊥"), ("(l ≡ Green) ⊎", "(l ≡ Red) ⊎")
        for right, wrong in (("a ≤ 7", "b < c"), no_light, other_light):
            with self.subTest(wrong):
                self.assertIn(right, self.FILE)
                self.assertNotEqual(self.said(self.FILE.replace(right, wrong)), "")

    def test_nothing_is_taken_on_trust(self) -> None:
        found = laws.of_laws(Library(sources()), "stream_law")
        hand = "".join(laws.file_of(it).read_text(encoding="utf-8") for it in laws.BY_HAND)
        for text in (*found.texts.values(), hand):
            self.assertIn("{-# OPTIONS --safe #-}", text)
            for word in ("postulate", "TERMINATING", "primTrustMe", "trustMe"):
                self.assertNotIn(word, text)
        self.assertGreater(found.lemmas, 150)
