"""What the definitions of the crate `host_contract` say of own logs, beside what the judge says."""

from __future__ import annotations

import re
import unittest

from dorydate.contract import RULES
from dorydate.contract.acts import Act, Comes, Contacts, Ended, Goes, Opened, Starts, Stops
from dorydate.contract.texts import Command, text_of
from dorydate.definitions.compiling import Decider
from dorydate.definitions.library import Library
from dorydate.definitions.promise import crates_folder, deeply, sources_below
from dorydate.model.commands import CLS, RRP, RST, RTS, STR
from workshop.parts import ROOT, text_of as file_text
from workshop.contract.own_logs import Contract, by_definitions, by_judge, difference, of_interface

CONTRACT = "host_contract/specs/Contract.antt"
REQUEST = Command(RTS, (16, 33, 2))
MET: list[Act] = [Comes("0/1", 0, text_of(Command(RST))), Goes("0/1", 0, text_of(Command(RRP)))]


def contract(was: str = "", now: str = "") -> Contract:
    """The contract, with other words in one place."""
    own = sources_below(crates_folder())

    def sources(path: str) -> str | None:
        text = own(path)
        return text.replace(was, now) if text and was and path == CONTRACT else text

    return Contract(Decider(Library(sources)))


def says(*commands: Command) -> Goes:
    return Goes("0/1", 0, text_of(*commands))


class OwnLogsTest(unittest.TestCase):
    def said(self, acts: list[Act]) -> object:
        """What both say of a log."""
        self.assertEqual(deeply(lambda: difference(contract(), "0/2", acts)), "")
        judged = by_judge("0/2", acts)
        return judged and (judged[0], judged[1][0])

    def test_the_same_rules(self) -> None:
        self.assertEqual(set(contract().rules), {*RULES})

    def test_the_same_sentences(self) -> None:
        """Each rule is stated by its definition as `dorydate keeps` states it."""
        lines = file_text(f"{ROOT}/crates/host_contract/specs/Rules.antt").splitlines()
        comments = " ".join(it.strip().removeprefix("-- ") for it in lines)
        words = " ".join(re.findall(r"\w+", comments)).lower()
        for rule in RULES.values():
            if rule.is_needed:
                for sentence in (rule.says, rule.why):
                    self.assertIn(" ".join(re.findall(r"\w+", sentence)).lower(), words, rule.name)

    def test_what_both_say(self) -> None:
        self.assertIsNone(self.said(MET))
        self.assertEqual(self.said([Contacts("0/1"), says(REQUEST)]), (1, "through"))
        self.assertEqual(self.said([*MET, says(REQUEST, Command(CLS, (16, 33)), REQUEST)]), (2, "over"))

    def test_a_stop_before_they_met(self) -> None:
        self.assertEqual(self.said([Stops(), Starts(), says(REQUEST)]), (2, "stopped"))

    def test_a_notice_is_where_it_is_true(self) -> None:
        """An end opens and is closed by one message, and its user is notified after it."""
        both = text_of(Command(STR, (33, 16, 8)), Command(CLS, (33, 16)))
        self.assertIsNone(self.said([*MET, says(REQUEST), Comes("0/1", 0, both), Opened("0/1", 16, 33)]))

    def test_a_connection_ends_by_the_first_close(self) -> None:
        """One message ends a connection, and asks for the next one and closes that."""
        close, request = Command(CLS, (16, 33)), Command(RTS, (16, 33, 3))
        own = [says(Command(STR, (33, 16, 8)), Command(CLS, (33, 16)))]
        log = [*MET, Comes("0/1", 0, text_of(REQUEST)), *own, Comes("0/1", 0, text_of(close, request, close))]
        self.assertIsNone(self.said([*log, Ended("0/1", 33, 16)]))

    def test_other_peers(self) -> None:
        """What happens with others is something else that happens: an open end has counted all before it."""
        log = deeply(lambda: by_definitions(contract(), "0/2", [*MET, Goes("0/3", 0, text_of(REQUEST))]))
        self.assertEqual(log, (2, {"through"}))

    def test_a_difference_is_shown(self) -> None:
        other = contract("nat_lt 0 link", "nat_lt 9 link")
        found = deeply(lambda: difference(other, "0/2", [*MET, says(REQUEST)]))
        self.assertIn("act 2 breaks once, by the judge it is kept", found)

    def test_what_no_interface_takes(self) -> None:
        self.assertEqual(of_interface([*MET, says(REQUEST)]), MET)


if __name__ == "__main__":
    unittest.main()
