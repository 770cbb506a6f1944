"""Tests of what `./check docs` finds: each fault is planted, and has to be named: python3 -m unittest workshop.documents.tests (in python/)."""

from __future__ import annotations

import os
import pathlib
import subprocess
import tempfile
import unittest
from unittest import mock

from workshop.documents import (
    anchors,
    believed,
    believed_words,
    budget,
    clauses,
    common,
    crates_page,
    dead,
    dialect,
    walks,
)
from workshop.documents import event_words, figures, long_clauses, named_crates, paragraphs, rules, stated, tags
from workshop.drawings import facts, formats, hosts, network, pictures, repository
from workshop.drawings.svg import Drawing
from workshop.parts import ROOT, text_of


def drawn(*texts: tuple[float, float, str]) -> Drawing:
    drawing = Drawing("test", "a title", "a description", 100)
    for x, y, words in texts:
        drawing.text(x, y, words)
    return drawing


class Drawings(unittest.TestCase):
    def test_texts_that_overlap_are_named(self) -> None:
        self.assertEqual(drawn((100, 20, "one"), (300, 20, "other")).faults(), [])
        self.assertEqual(len(drawn((100, 20, "one"), (104, 22, "other")).faults()), 1)

    def test_a_text_past_the_edge_is_named(self) -> None:
        self.assertEqual(len(drawn((470, 20, "past the edge")).faults()), 1)

    def test_a_line_through_a_text_is_named(self) -> None:
        drawing = drawn((240, 50, "a text"))
        drawing.arrow(0, 50, 480, 50)
        self.assertEqual(drawing.faults(), ["pictures/test.svg: a line runs through `a text`"])
        beside = drawn((240, 50, "a text"))
        beside.arrow(0, 80, 480, 80)
        self.assertEqual(beside.faults(), [])

    def test_a_small_text_is_named(self) -> None:
        drawing = drawn()
        drawing.text(100, 20, "small", size=9)
        self.assertEqual(drawing.faults(), ["pictures/test.svg: a text of size 9"])

    def test_a_number_that_no_source_has_is_named(self) -> None:
        self.assertEqual(pictures.unknown_numbers(drawn((240, 20, "0 to 65,535"))), [])
        self.assertEqual(
            pictures.unknown_numbers(drawn((240, 20, "0 to 65,534"))),
            ["pictures/test.svg: the number 65534 is not of the sources"],
        )

    def test_a_fact_that_the_sources_have_otherwise_is_named(self) -> None:
        right, wrong = facts.FACTS["store_places"], facts.Fact(33, facts.FACTS["store_places"].places)
        self.assertEqual(right.faults("store_places"), [])
        self.assertEqual(len(wrong.faults("store_places")), 2)
        self.assertEqual(len(facts.Fact(1, (("imp_node/specs/Room.antt", "^nothing = (1)"),)).faults("nothing")), 1)

    def test_a_command_of_another_length_is_named(self) -> None:
        with mock.patch.object(formats, "COMMANDS", formats.COMMANDS[:-1]):
            self.assertEqual(len(formats.faults()), 1)

    def test_a_crate_that_is_not_there_is_named(self) -> None:
        wrong = (("messages", "once", (("flow_law",), ("no_such_crate",), ("net_sim",))),)
        with mock.patch.object(repository, "PROOFS", wrong):
            self.assertEqual(repository.faults(), ["drawings/repository.py: no crate no_such_crate"])

    def test_every_drawing_is_legible_and_says_what_it_shows(self) -> None:
        for make in (*formats.ALL, *network.ALL, *hosts.ALL, *repository.ALL):
            drawing = make()
            self.assertEqual(drawing.faults(), [])
            self.assertTrue(drawing.title and len(drawing.description) > 40, drawing.name)
            self.assertIn("prefers-color-scheme:dark", drawing.svg())


class Pages(unittest.TestCase):
    def test_paragraphs_are_one_line(self) -> None:
        self.assertEqual(
            paragraphs.joined("a\nb\n\n- c\n  d\n- e\n\n| f |\n| g |\n"), "a b\n\n- c d\n- e\n\n| f |\n| g |\n"
        )
        self.assertEqual(
            paragraphs.joined("```\na\nb\n```\n\n    code\n    more\n"), "```\na\nb\n```\n\n    code\n    more\n"
        )

    def test_pages_that_are_too_long_are_named(self) -> None:
        self.assertEqual(
            paragraphs.too_long({"README.md": "word " * 900, "docs/a.md": "word " * (paragraphs.MOST_OF_ALL - 900)}), []
        )
        found = paragraphs.too_long({"README.md": "word " * 901, "docs/a.md": "word " * (paragraphs.MOST_OF_ALL - 900)})
        most = f"{paragraphs.MOST_OF_ALL + 1:,} words, of at most {paragraphs.MOST_OF_ALL:,}"
        self.assertEqual(found, ["README.md: 901 words, of at most 900", f"all pages: {most}"])

    def test_headings_have_the_anchors_of_the_web(self) -> None:
        with tempfile.NamedTemporaryFile("w", suffix=".md", encoding="utf-8") as file:
            file.write(
                "# What's *new*, here\n## `Code` in [a link](b.md)\n## Twice\n## Twice\n```\n# no heading\n```\n"
            )
            file.flush()
            self.assertEqual(anchors.headings(file.name), {"whats-new-here", "code-in-a-link", "twice", "twice-1"})

    def test_the_dialect_may_not_grow(self) -> None:
        counted = {area: dict.fromkeys(dialect.WORDS, 3) for area in dialect.AREAS}
        for most, faults in ((3, 0), (2, len(dialect.AREAS) * len(dialect.WORDS))):
            limits = {area: dict.fromkeys(dialect.WORDS, most) for area in dialect.AREAS}
            with mock.patch.object(dialect, "counts", return_value=counted), mock.patch.object(
                dialect, "limits", return_value=limits
            ):
                self.assertEqual(len(dialect.faults()), faults)

    def test_a_limit_only_falls(self) -> None:
        counted = {"docs": {"told": 5, "behind": 1}}
        with tempfile.TemporaryDirectory() as folder:
            path = os.path.join(folder, "limits.json")
            with mock.patch.object(dialect, "LIMITS", path), mock.patch.object(dialect, "counts", return_value=counted):
                dialect.lowered()
                self.assertEqual(dialect.limits(), counted)
            with mock.patch.object(dialect, "LIMITS", path), mock.patch.object(
                dialect, "counts", return_value={"docs": {"told": 9, "behind": 0}}
            ):
                dialect.lowered()
                self.assertEqual(dialect.limits(), {"docs": {"told": 5, "behind": 0}})

    def test_a_crate_that_is_named_without_need_is_named(self) -> None:
        code = "use low::Bits;\nghost use Rattle.middle.specs.A.{a};\nlet high = std::other::high;\n"
        self.assertEqual(named_crates.unnamed("top", "low middle high", code), ["crates.txt: top doesn't use high"])

    def test_the_nearest_crates_are_those_that_no_other_one_brings(self) -> None:
        direct: dict[str, list[str]] = {"low": [], "middle": ["low"], "high": ["low", "middle"]}
        self.assertEqual(crates_page.nearest("high", direct), ["middle"])
        self.assertEqual(crates_page.below("high", direct), {"low", "middle"})


SPECS = """-- ---- sizes

-- how many
-- there are
abbrev pub count : ℕ
count = 3
pub IsBare : ℕ
"""
SOURCE = """impl Shown for Store {
    ghost shows = { count };

    /// Returns how many there are.
    pub fn count(&self) -> usize
        ensures { result ≡ count }
    {
        self.len
    }

    fn other(&self)
        ensures { IsBare };
}
"""


LAWS = """use Rattle.a.specs.A.{IsBare, count}

-- what is sent
pub record Sending : Type 0 where
  -- as many as nobody counted
  pub granted : (n : ℕ) → n ≡ count
  pub «data» :
      IsBare →
      IsBare × IsBare
  pub last : IsLast

pub record Books {C : Type 0} (calls : Calls C) : Type 0 where
  pub kept : IsKept calls
"""
OF_LAWS = """pub fn sending()
    ensures { Sending }
{}

pub fn books<C: Carrier>()
    ensures { Books C.calls }
    ensures other { Other → Sending }
{}
"""


class Rules(unittest.TestCase):
    def test_a_definition_has_the_comment_above_it_and_its_line(self) -> None:
        found, bare = rules.definitions_in("crates/a/specs/A.antt", SPECS)
        self.assertEqual((found.name, found.place.line, found.words), ("count", 5, "how many there are"))
        self.assertEqual(found.text, "-- how many\n-- there are\nabbrev pub count : ℕ\ncount = 3")
        self.assertEqual((bare.name, bare.place.line, bare.words), ("IsBare", 7, "is bare"))

    def test_a_function_has_what_its_contract_cites_and_the_bugs_in_it(self) -> None:
        bugs = [
            rules.Bug(name, rules.Place(name), "crates/a/src/a.rt", old)
            for name, old in (("in", "self.len"), ("out", "self.size"))
        ]
        count, other, shows = rules.functions_in("crates/a/src/a.rt", SOURCE, bugs)
        self.assertEqual((count.name, count.place.line, [it.name for it in count.bugs]), ("Store::count", 5, ["in"]))
        self.assertIn("count", count.cites)
        self.assertTrue(count.text.endswith("self.len\n    }"))
        self.assertEqual(
            (other.place.line, other.text, other.cites),
            (11, "    fn other(&self)\n        ensures { IsBare };", frozenset({"IsBare"})),
        )
        self.assertEqual((shows.name, shows.place.line, shows.cites), ("Store::shows", 2, frozenset({"count"})))

    def test_a_clause_that_is_a_record_of_laws_has_its_fields_for_clauses(self) -> None:
        found = rules.laws_in("crates/a/specs/Laws.antt", LAWS)
        places = [(it.name, it.place.line, it.words) for it in found]
        self.assertEqual(places, [("Sending", 4, "what is sent"), ("Books", 12, "books")])
        fields = {"granted": "(n : ℕ) → n ≡ count", "data": "IsBare → IsBare × IsBare", "last": "IsLast"}
        self.assertEqual(found[0].fields, fields)
        sending, books = rules.functions_in("crates/a/src/law.rt", OF_LAWS, [], {it.name: it for it in found})
        self.assertEqual(([it.name for it in sending.laws], [it.name for it in books.laws]), (["Sending"], ["Books"]))
        self.assertEqual((sending.cites, books.names() & {"IsKept", "IsBare"}), (frozenset({"Sending"}), {"IsKept"}))
        self.assertLess({"Sending", "count", "IsBare", "IsLast"}, sending.names())
        self.assertNotIn("nobody", sending.names())
        shown = rules.shown(rules.definitions_in("crates/a/specs/A.antt", SPECS)[0], [], [sending], "")
        self.assertTrue(shown.endswith(f"specs/Laws.antt:4\n{found[0].text}\n\n"))

    def test_a_rule_leads_to_the_lines_of_its_names(self) -> None:
        definition, _ = rules.definitions_in("crates/a/specs/A.antt", SPECS)
        rule = rules.Rule(definition, rules.functions_in("crates/a/src/a.rt", SOURCE, [])[:1], "`row`")
        self.assertEqual(
            rules.row_of(rule),
            "| how many there are | [`count`](../../crates/a/specs/A.antt#L5) | [`Store::count`](../../crates/a/src/a.rt#L5) | `row` |  |",
        )
        self.assertTrue(rules.has_words("a", definition, rule.functions, ["MANY", "store"]))
        self.assertFalse(rules.has_words("a", definition, rule.functions, ["many", "few"]))

    def test_a_definition_leads_by_the_shortest_way_to_the_functions_that_cite_one_that_uses_it(self) -> None:
        ways = rules.Ways.__new__(rules.Ways)
        call = rules.functions_in("crates/a/src/a.rt", SOURCE, [])[0]
        ways.users = {("a", "low"): [("a", "far"), ("b", "near")], ("a", "far"): [("b", "end")]}
        ways.calls = {("b", "near"): [call], ("b", "end"): [call]}
        self.assertEqual(ways.shortest(("a", "low")), (["near"], [call]))
        self.assertEqual(ways.shortest(("b", "near")), ([], [call]))
        self.assertEqual(ways.shortest(("a", "none")), ([], []))


BELIEVED = """use Rattle.b.specs.B.{two}
use Rattle.b.specs.declared.thing.Thing.TheVariants as thing

-- a number
abbrev pub one : ℕ
one = two + field.three
pub data Kind : Type 0 where
  First : Kind

pub other : Kind → ℕ
other thing.Big = one
"""


class Believed(unittest.TestCase):
    def test_a_file_has_its_definitions_and_imports(self) -> None:
        module = believed.parsed("crates/a/specs/A.antt", BELIEVED)
        self.assertEqual(
            {it.name: len(it.lines) for it in module.definitions.values()}, {"one": 2, "Kind": 2, "other": 2}
        )
        self.assertEqual(module.definitions["one"].comment, ("-- a number",))
        self.assertEqual(
            (module.constructors, module.imports, module.modules),
            ({"First": "Kind"}, {"two": ("b", "B")}, {"thing": ("b", "declared.thing.Thing.TheVariants")}),
        )

    def test_names_are_followed_over_files_to_definitions_and_types_of_rust(self) -> None:
        modules = {
            ("a", "A"): believed.parsed("a", BELIEVED),
            ("b", "B"): believed.parsed("b", "pub use Rattle.c.specs.C.{two}\n"),
            ("c", "C"): believed.parsed("c", "pub two : ℕ\ntwo = 2\n"),
        }
        with mock.patch.object(
            believed, "module_of", lambda crate, path: modules.get((crate, path), believed.Module())
        ):
            whole = believed.Reading()
            whole.follow(("a", "A", "other"))
        # each before those that it names
        self.assertEqual(
            [*whole.definitions], [("a", "A", "other"), ("a", "A", "Kind"), ("a", "A", "one"), ("c", "C", "two")]
        )
        self.assertEqual(
            (whole.types, sum(it.size for it in whole.definitions.values())), ({("b", "declared.thing.Thing")}, 8)
        )

    def test_more_lines_than_may_be_are_named(self) -> None:
        with mock.patch.object(believed, "MOST_LINES", 10):
            self.assertIn("lines must be believed of the headline, of at most 10", believed.faults()[-1])

    def test_the_page_among_strangers_has_nothing_of_the_first_again(self) -> None:
        first, second = believed.reading()[1], believed.reading(believed.AMONG)[1]
        self.assertEqual({*first.definitions} & {*second.definitions}, set())
        self.assertIn(("mixed_worlds", "Toward", "IsCarried"), second.definitions)
        with mock.patch.object(believed, "MOST_AMONG", 10):
            self.assertIn("lines must be believed beside the headline, of at most 10", believed.faults()[-1])

    def test_a_word_that_the_key_lacks_is_named(self) -> None:
        with mock.patch.object(
            believed_words, "KEY", tuple(it for it in believed_words.KEY if "Contains" not in it[0])
        ):
            self.assertIn("docs/measured/promise.md: the key has no word `Contains`", believed.faults())

    def test_the_page_begins_with_the_promise(self) -> None:
        first, *others = believed.reading()[0]
        self.assertEqual([name for _, _, name in first[1]], ["KeepsPromise"])
        self.assertEqual(
            [heading.strip() for heading, _ in others[1:6]],
            ["### `booked`", "### `run`", "### `formed`", "### `told`", "### `safe`"],
        )


class Figures(unittest.TestCase):
    def test_a_figure_that_its_table_has_otherwise_is_named(self) -> None:
        bugs = figures.FIGURES["planted bugs"]()
        self.assertEqual([*figures.wrong_in("a.md", f"<!--=planted bugs-->{bugs}<!--/--> bugs")], [])
        self.assertEqual(
            [*figures.wrong_in("a.md", "<!--=planted bugs-->7<!--/--> bugs")],
            [f"a.md: `planted bugs` is {bugs}, and not 7 (./check docs --write)"],
        )
        self.assertEqual([*figures.wrong_in("a.md", "<!--=bugs-->7<!--/-->")], ["a.md: there is no figure `bugs`"])
        self.assertEqual(
            figures.written("<!--=planted bugs-->7<!--/--> bugs"), f"<!--=planted bugs-->{bugs}<!--/--> bugs"
        )

    def test_each_figure_is_had(self) -> None:
        self.assertEqual([name for name, figure in figures.FIGURES.items() if not figure()[0].isdigit()], [])


class Budget(unittest.TestCase):
    def test_octets_are_counted_without_comments_and_blank_lines(self) -> None:
        self.assertEqual(
            budget.octets_of("-- what it is\n\nf : ℕ -- a number\nf = a--b\n"), len("f : ℕ\nf = a--b\n".encode())
        )

    def test_a_crate_over_its_budget_is_named(self) -> None:
        found = budget.Budget({"a": 10}, [("a", 2, "a law")], {".rt": 3})
        self.assertEqual([*found.over({"a": 12}, {".rt": 3})], [])
        (fault,) = found.over({"a": 13}, {})
        self.assertIn("a: 13 octets of .antt, and its budget is 12", fault)
        self.assertEqual(len([*budget.Budget().over({"a": 1}, {})]), 1)

    def test_an_amount_without_a_reason_and_more_wide_lines_are_named(self) -> None:
        found = budget.Budget({}, [("a", 5, " ")], {".rt": 3})
        self.assertEqual(
            [*found.over({}, {".rt": 4})],
            ["a: 5 octets of its budget don't say what for", ".rt: 4 lines of over 120 columns, of at most 3"],
        )

    def test_what_is_not_used_is_taken_off(self) -> None:
        more = [("a", 2, "a law")]
        found = budget.Budget({"a": 10, "b": 4}, more, {".rt": 3}).lowered({"a": 9, "b": 5, "c": 3}, {".rt": 2})
        self.assertEqual(found, budget.Budget({"a": 7, "b": 4, "c": 3}, more, {".rt": 2}))


CONTRACT = """    fn first(self) -> u32
        requires { self.now ≡ codes "{" }
        ensures long {
          A ≡ B
        }
    {
"""


class LongClauses(unittest.TestCase):
    def test_a_clause_ends_with_its_brace(self) -> None:
        self.assertEqual(
            [*long_clauses.clauses_of(CONTRACT)],
            [(2, 'requires { self.now ≡ codes "{" }'), (3, "ensures long { A ≡ B }")],
        )

    def test_those_that_are_more_are_named(self) -> None:
        self.assertEqual([*long_clauses.over(["a.rt:1"], 1)], [])
        (fault,) = long_clauses.over(["a.rt:1", "b.rt:2"], 1)
        self.assertIn(
            "2 clauses have over 200 characters, and there may be 1 (docs/measured/budget.json): a.rt:1, b.rt:2", fault
        )

    def test_each_is_counted_where_it_begins(self) -> None:
        source = walks.Source(f"{ROOT}/crates/a/src/b.rt", CONTRACT.replace("A ≡ B", "A ≡ B × " * 30), frozenset())
        with mock.patch.object(walks, "sources", return_value=(source,)):
            self.assertEqual(long_clauses.counted(), ["crates/a/src/b.rt:3"])


WALKED = """-- Deliver Drop
step : E → ℕ
step (event.A x) = 1
step B = 2
step C = 2
step D = 2
step E = 2
step (F x) = 3
other A = 1
other B = A + C + D + E + F
"""
MATCHED = """pub enum Event {
    A,
    /// B says more.
    B { x: u32 },
    C,
    D,
    E,
    F(u32),
}

impl Event {
    fn first(self) -> u32
        ensures other { A ≢ B }
    {
        self.x
    }
}
"""


class Walks(unittest.TestCase):
    def test_cases_are_those_of_the_enum(self) -> None:
        self.assertEqual(
            walks.cases_of("Event", MATCHED, "A"), walks.Cases("Event", ("A", "B", "C", "D", "E", "F"), ("A",))
        )

    def test_a_walk_names_six_cases_in_its_clauses(self) -> None:
        event = walks.cases_of("Event", MATCHED)
        self.assertEqual(event.walks_of("a.antt", WALKED), ["step"])
        self.assertEqual(event.walks_of("a.antt", WALKED.replace("step C = 2\n", "")), [])
        self.assertEqual(event.walks_of("a.rt", MATCHED), ["Event"])

    def test_a_case_is_there_by_its_name_or_its_word(self) -> None:
        source = walks.Source("a.rt", "", frozenset(("giveup", "Ask")))
        self.assertEqual([source.has(it) for it in ("GiveUp", "Ask", "Give")], [True, True, False])

    def test_what_has_become_more_is_named_and_what_is_less_is_taken_off(self) -> None:
        may = {"Event": {"walks": 2, "A": 5}}
        self.assertEqual([*walks.over({"Event": {"walks": 2, "A": 4}}, may)], [])
        self.assertEqual(
            [*walks.over({"Event": {"walks": 3, "A": 6}}, may)],
            [
                "Event: 3 walks over its cases, and there may be 2 (docs/measured/budget.json)",
                "Event: A is in 6 sources of crates, and there may be 5 (docs/measured/budget.json)",
            ],
        )
        self.assertEqual(
            walks.lowered({"Event": {"walks": 3, "A": 4, "B": 1}}, may), {"Event": {"walks": 2, "A": 4, "B": 1}}
        )

    def test_a_crate_that_its_row_does_not_name_is_named(self) -> None:
        row = "| To add | In crates |\n|---|---|\n| an event (`Event`) | `one` and `two` |\n"
        self.assertEqual([*walks.unnamed("Event", {"one", "two"}, row)], [])
        self.assertEqual(
            [*walks.unnamed("Event", {"one", "three"}, row)],
            ["CONTRIBUTING.md: the row of `Event` doesn't name three, which has a walk over its cases"],
        )
        self.assertEqual([*walks.unnamed("Request", {"one"}, row)], ["CONTRIBUTING.md has no row of `Request`"])
        paths = f"{ROOT}/crates/one/src/a.rt", f"{ROOT}/crates/one/specs/b.antt"
        self.assertEqual(walks.walked_crates(paths), {"one"})


class EventWords(unittest.TestCase):
    KNOWN = [event_words.rows()[at].word for at in range(2, 10)]  # of carriers

    def listed(self, path: str, source: str) -> int:
        return len(event_words.listed_in(path, source, [self.KNOWN]))

    def test_six_words_in_one_list_are_named(self) -> None:
        six, five = self.KNOWN[:6], self.KNOWN[:5]
        for many, words in ((1, six), (0, five), (0, [*five, "other"]), (0, [*five, *five])):
            self.assertEqual(self.listed("a.py", f"WORDS = {words!r}"), many)
            self.assertEqual(self.listed("a.py", f"WORDS = {set(words)!r}"), many)
            self.assertEqual(self.listed("a.py", f"WORDS = re.compile('({'|'.join(words)}) x')"), many)
            self.assertEqual(self.listed("a.py", f"WORDS = '{' '.join(words)}'.split()"), many)
            self.assertEqual(self.listed("a.js", f"const WORDS = {words!r};"), many)
            self.assertEqual(self.listed("a.js", f"const WORDS = /^(?:{'|'.join(words)})$/;"), many)
            self.assertEqual(self.listed("a.js", f'const WORDS = "{" ".join(words)}".split(" ");'), many)

    def test_six_cases_of_a_match_are_named(self) -> None:
        cases = " | ".join(f'"{it}"' for it in self.KNOWN)
        self.assertEqual(self.listed("a.py", f"match kind:\n    case {cases}:\n        pass"), 1)

    def test_a_value_for_each_is_no_list(self) -> None:
        self.assertEqual(self.listed("a.py", f"WEIGHTS = {dict.fromkeys(self.KNOWN, 1)!r}"), 0)
        pairs = ", ".join(f"{it}: 1" for it in self.KNOWN)
        self.assertEqual(self.listed("a.js", f"const WEIGHTS = {{ {pairs} }};"), 0)

    def test_a_page_with_other_words_or_operands_is_named(self) -> None:
        page = text_of(event_words.PAGE)
        for was, now in (("`ask S D N`", "`ask S D`"), ("`resend I`, ", ""), ("| `NoRoom` |", "| `NoPlace` |")):
            self.assertIn(was, page)
            with mock.patch.object(event_words, "text_of", lambda path, was=was, now=now: wrong(path, was, now)):
                self.assertEqual(len(event_words.faults()), 1)

    def test_a_spelling_with_an_operand_that_is_not_known_is_named(self) -> None:
        with self.assertRaises(event_words.Unlike):
            event_words.operands_of("resend", "decimal number")


def wrong(path: str, was: str, now: str) -> str:
    """A source, the page with another text in one place."""
    with open(path, encoding="utf-8") as file:
        return file.read().replace(was, now) if path == event_words.PAGE else file.read()


class Dead(unittest.TestCase):
    def test_what_is_deleted_leaves_no_part_of_it(self) -> None:
        text = "one : A\none = refl\n\nmodule _ (a : A) where\n"
        text += "  -- said of it\n  gone : A\n  unfolding one\n  gone = elim a [\n    | b ↦ b\n  ]\n\n"
        text += "module _ where\n  two : A\n  two = one\n"
        found = dead.without(text, dead.parsed("one.antt", text), ["gone"])
        self.assertEqual(found, "one : A\none = refl\n\nmodule _ where\n  two : A\n  two = one\n")

    def test_a_module_that_another_passes_on_is_found(self) -> None:
        lemmas = dead.parsed("lemmas.antt", "pub use Rattle.a.B\n")
        every = {"a.lemmas": lemmas, "Rattle.a.B": dead.parsed("B.antt", "")}
        self.assertEqual(dead.passed_on(every, "a.lemmas.B"), "Rattle.a.B")
        self.assertEqual(dead.passed_on(every, "a.other.B"), "a.other.B")

    def test_what_is_deleted_is_taken_by_no_file(self) -> None:
        text = "use Rattle.a.proofs.B.{gone, kept}\nuse Rattle.a.proofs.B.{gone}\nuse Rattle.a.proofs.C.{gone}\n"
        found = dead.without_imports(text, {"Rattle.a.proofs.B": ["gone"]})
        self.assertEqual(found, "use Rattle.a.proofs.B.{kept}\nuse Rattle.a.proofs.C.{gone}\n")


class Stated(unittest.TestCase):
    ONE = """use Rattle.std.proofs.Common.{Bool}
pub both : (a b : Bool) → (a && b) ≡ true → (a ≡ true) × (b ≡ true)
both true b e = (refl, e)
"""
    OTHER = """use Rattle.std.proofs.Common.{Bool}

-- of two
parts : (x : Bool) (y : Bool) → (x && y) ≡ true
    → (x ≡ true) × (y ≡ true)
parts true y e = (refl, e)
"""

    def found(self, **texts: str) -> dict[str, list[stated.Lemma]]:
        """What these files state."""
        folder = tempfile.TemporaryDirectory()
        self.addCleanup(folder.cleanup)
        every = {}
        for name, text in texts.items():
            path = pathlib.Path(folder.name, f"{name}.antt")
            path.write_text(text, encoding="utf-8")
            every[f"Rattle.interface.proofs.{name}"] = dead.parsed(str(path), text)
        found: dict[str, list[stated.Lemma]] = {}
        for module in every:
            for said, lemma in stated.lemmas(every, module):
                found.setdefault(said, []).append(lemma)
        return found

    def test_a_lemma_that_is_stated_again_is_named_whatever_its_variables(self) -> None:
        found = self.found(One=self.ONE, Other=self.OTHER)
        ((said, them),) = found.items()
        self.assertEqual([it.name for it in them], ["both", "parts"])
        (fault,) = stated.over(found, {}, {})
        self.assertIn("`parts`: it states what", fault)
        self.assertEqual(stated.over(found, {}, {stated.sum_of(said): 1}), [])

    def test_a_lemma_of_std_is_taken_from_there(self) -> None:
        found = self.found(One=self.ONE)
        (said,) = found
        (fault,) = stated.over(found, {said: "Rattle.std.proofs.lemmas.Bool.and_parts"}, {})
        self.assertIn("`both`: it states what Rattle.std.proofs.lemmas.Bool.and_parts does", fault)

    def test_two_things_of_one_name_are_two(self) -> None:
        one = "use Rattle.{}.specs.Events.{{Event}}\nis_so : (e : Event) → IsTrue (is_so e)\nis_so e = refl\n"
        self.assertEqual(len(self.found(One=one.format("reset_law"), Other=one.format("stream_law"))), 2)


class Clauses(unittest.TestCase):
    NAMED = """use Rattle.std.specs.Prelude.{◌≡◌}

-- what it says
abbrev pub AllOne : Type 0
AllOne =
    (a : Bool) →
    a ≡ a
"""
    RECORD = """use Rattle.std.specs.Prelude.{◌≡◌}

pub record All : Type 0 where
  -- what it says
  pub one : (a : Bool) → a ≡ a
"""

    def promised(self, law: str, source: str) -> dict[str, str]:
        folder = tempfile.TemporaryDirectory()
        self.addCleanup(folder.cleanup)
        crate = pathlib.Path(folder.name, "c")
        for part, text in (("specs/Laws.antt", law), ("src/law.rt", source)):
            (crate / part).parent.mkdir(parents=True, exist_ok=True)
            (crate / part).write_text(text, encoding="utf-8")
        return clauses.promised(str(crate))

    def test_a_name_and_a_field_say_the_same(self) -> None:
        before = self.promised(self.NAMED, "pub fn all()\n    ensures one { AllOne }\n{}\n")
        after = self.promised(self.RECORD, "pub fn all()\n    ensures { All }\n{}\n")
        self.assertEqual(before, {"c::law::all one": "( a : Bool ) → a ≡ a"})
        self.assertEqual(clauses.compared(before, after), [])

    def test_what_is_gone_and_what_is_said_otherwise_is_named(self) -> None:
        before = self.promised(self.RECORD, "pub fn all()\n    ensures { All }\n{}\n")
        other = self.promised(self.RECORD.replace("a ≡ a", "a ≡ true"), "pub fn all()\n    ensures { All }\n{}\n")
        self.assertEqual(clauses.compared(before, {}), ["gone: c::law::all one"])
        (fault,) = clauses.compared(before, other)
        self.assertTrue(fault.startswith("otherwise: c::law::all one"))


class Common(unittest.TestCase):
    STD = "use Rattle.std.proofs.Common.{refl, ap}\n"
    HOST = "use Rattle.interface.specs.addresses.Host.{Host}\n"
    ONE = f"{STD}{HOST}\nuse Rattle.c.proofs.Other.{{x}}\none : Host\n"
    OTHER = f"use Rattle.std.proofs.Common.{{refl, sym}}\n{HOST}other : Host\n"

    def setUp(self) -> None:
        folder = tempfile.TemporaryDirectory()
        self.addCleanup(folder.cleanup)
        self.folder = pathlib.Path(folder.name, "crates/c/proofs")
        self.folder.mkdir(parents=True)
        self.proofs = common.Proofs("c", folder.name)
        self.given(Lib="-- all\npub mod One\npub mod Other\n", One=self.ONE, Other=self.OTHER)

    def given(self, **texts: str) -> None:
        for name, text in texts.items():
            (self.folder / f"{name}.antt").write_text(text, encoding="utf-8")

    def written(self) -> dict[str, list[str]]:
        """What the files have after the module was written."""
        for path, text in common.written(self.proofs).items():
            pathlib.Path(path).write_text(text, encoding="utf-8")
        return {it.stem: it.read_text(encoding="utf-8").split("\n") for it in self.folder.iterdir()}

    def alike(self) -> None:
        """Files that take the same as Other."""
        self.given(**{name: self.OTHER.replace("sym", "ap") for name in ("Third", "Fourth", "Fifth")})

    def test_what_several_files_take_comes_through_one_module(self) -> None:
        self.alike()
        found = self.written()
        line = "use Rattle.c.proofs.Common.{refl, ap, Host}"
        self.assertEqual(found["Third"], [line, "other : Host", ""])
        self.assertEqual(found["One"], [line, "", "use Rattle.c.proofs.Other.{x}", "one : Host", ""])
        self.assertEqual(found["Common"][1], "pub use Rattle.interface.specs.addresses.Host.{Host}")
        self.assertEqual(found["Common"][2], "pub use Rattle.std.proofs.Common.{ap, refl}")
        self.assertIn("pub mod Common", found["Lib"])
        self.assertEqual(self.written(), found)  # and a second time changes nothing

    def test_a_line_with_a_name_of_its_own_stays(self) -> None:
        self.alike()
        self.assertEqual(
            self.written()["Other"][:2],
            ["use Rattle.c.proofs.Common.{Host}", "use Rattle.std.proofs.Common.{refl, sym}"],
        )

    def test_what_would_take_more_octets_is_left(self) -> None:
        self.assertEqual(common.written(self.proofs), {})

    def test_what_it_passes_on_of_the_crate_is_taken_from_there_again(self) -> None:
        self.alike()
        self.given(
            Common="pub use Rattle.c.proofs.Other.{x}\n",
            One=self.ONE.replace("c.proofs.Other.{x}", "c.proofs.Common.{x}"),
        )
        found = self.written()
        self.assertEqual(found["One"][2:4], ["use Rattle.c.proofs.Other.{x}", "one : Host"])
        self.assertNotIn("pub use Rattle.c.proofs.Other.{x}", found["Common"])

    def test_what_a_file_declares_or_unfolds_isnt_taken_through_it(self) -> None:
        self.alike()
        unfolds = "  unfolding refl Host\n"
        self.given(One=self.ONE + unfolds, Other=self.OTHER + "pub Host : Type 0\n")
        found = self.written()
        self.assertEqual(found["One"], (self.ONE + unfolds).split("\n"))
        self.assertEqual(found["Other"], (self.OTHER + "pub Host : Type 0\n").split("\n"))

    def test_a_name_that_fewer_than_two_files_take_is_a_fault(self) -> None:
        self.alike()
        self.written()
        self.assertEqual(self.proofs.faults(), [])
        self.given(Third="", Fourth="", One="")
        self.assertEqual(len(self.proofs.faults()), 2)


class Tags(unittest.TestCase):
    def test_names_are_found_where_they_are_declared(self) -> None:
        self.assertEqual(
            [
                *tags.declared(
                    ".antt",
                    "-- a word : no name\npub record Rule (a : ℕ) : Type 0 where\n  pub held : ℕ\nabbrev pub twice : ℕ → ℕ\ntwice n = n\n",
                )
            ],
            [("Rule", 2), ("held", 3), ("twice", 4)],
        )
        self.assertEqual([*tags.declared(".rt", "pub struct A {\n    pub(crate) fn b() {}\n")], [("A", 1), ("b", 2)])


class Hook(unittest.TestCase):
    def status(self, message: str) -> int:
        with tempfile.NamedTemporaryFile("w", encoding="utf-8") as file:
            file.write(message)
            file.flush()
            return subprocess.run([f"{ROOT}/.githooks/commit-msg", file.name], stderr=subprocess.DEVNULL).returncode

    def test_a_subject_has_at_most_72_columns_and_an_empty_line_after_it(self) -> None:
        self.assertEqual(self.status(f"{'x' * 72}\n\nwhy\n# a comment of git\n"), 0)
        self.assertEqual(self.status(f"{'x' * 73}\n"), 1)
        self.assertEqual(self.status("a subject\nthat goes over\n"), 1)
        self.assertEqual(self.status("# only a comment\n"), 1)


if __name__ == "__main__":
    unittest.main()
