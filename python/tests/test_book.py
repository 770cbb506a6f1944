"""What `./explain --book` says of lives and messages, in the log of two octets and in changed ones."""

from __future__ import annotations

import unittest

from dorydate.explain.book import NoSuchLine, said_of
from dorydate.model.log import Book, read_log
from workshop.parts import ROOT

TWO_OCTETS = f"{ROOT}/logs/two-octets"


def book(*changes: tuple[str, str]) -> Book:
    """The book of two octets, with parts of its text changed."""
    with open(TWO_OCTETS, encoding="ascii") as file:
        text = file.read()
    for old, new in changes:
        assert old in text
        text = text.replace(old, new)
    return read_log(text.encode("ascii"))


def said(line: int, *changes: tuple[str, str]) -> dict[str, str]:
    """What each clause says of a line of it."""
    found = (it.strip().split(": ", 1) for it in said_of(book(*changes), line)[1:])
    return {clause: sentence for clause, sentence in found}


class OfBooks(unittest.TestCase):
    def test_list(self) -> None:
        self.assertEqual([it.split(":")[0] for it in said_of(book(), None)], ["line 13", "line 14", "line 10"])

    def test_receiver(self) -> None:
        clauses = said(13)
        bits = clauses["promise.formed.bits"]
        self.assertRegex(bits, "^The RTS names link 5. Its 16 bits .* the first 1 message .*: line 11.$")
        self.assertIn("of the life of line 14, whose partner's is its own", clauses["promise.safe.partners"])
        self.assertEqual(
            clauses["promise.arrived.all"],
            "It is open, and counts all 1 message that came in on its link.",
        )

    def test_message(self) -> None:
        clauses = said(10)
        self.assertIn("Its host got RFNM in line 12", clauses["promise.safe.messages.answered"])
        self.assertIn("message 1 of the life of line 13", clauses["promise.arrived.answered.arrived"])
        self.assertEqual(said(11), clauses)

    def test_the_two_lives_of_a_message(self) -> None:
        """A message of data went between a sending life that counts it and a receiving one that matches that."""
        both = "It went from the life of line 14 to that of line 13, which matches it."
        self.assertEqual(said(10)["promise.between"], both)
        self.assertNotIn("promise.between", said(1))
        taker = "life 0/1 16 0/2 33 0 4 receive 1 16 1 100 0 0 open 4849\n", ""
        none = "No receiving life matches the life of line 13, which counts it."
        self.assertEqual(said(10, taker, ("handed 0 -\n", ""))["promise.between"], none)
        giver = "life 0/2 33 0/1 16 3 1 send 1 16 0 0 0 0 open 4849\n", ""
        self.assertEqual(
            said(10, giver, ("handed 24 484950\n", ""))["promise.between"],
            "No sending life counts it.",
        )

    def test_a_receiver_that_has_closed(self) -> None:
        changes = ("receive 1 16 1 100 0 0 open 4849", "receive 0 0 1 100 0 0 open -")
        self.assertIn("a user of its host has closed it", said(10, changes)["promise.arrived.answered.arrived"])
        self.assertIn("0 messages of the 1 that came in", said(13, changes)["promise.arrived.all"])

    def test_a_loss(self) -> None:
        lost = ("receive 1 16 1 100 0 0 open 4849", "receive 0 0 1 100 0 0 ended -")
        closed = ("send 1 16 0 0 0 0 open", "send 1 16 0 0 0 0 closed")
        self.assertIn("it lacks some", said(13, lost, closed)["promise.whole"])

    def test_a_partner_that_has_closed(self) -> None:
        cls = "0008000900030000002100000010"
        crossed = f"out 0/2 0/1 0 112 {cls}\nin 0/2 0/1 0 112 {cls}\nanswer rfnm 0/2 0/1 0"
        closing = ("life 0/1 16", f"{crossed}\nlife 0/1 16")
        self.assertIn("it has the 16 bits that the life of line 17 sent", said(16, closing)["promise.arrived.closed"])
        fewer = ("receive 1 16 1 100 0 0 open 4849", "receive 0 0 1 100 0 0 open -")
        self.assertIn("only if a user of its host has closed it", said(16, closing, fewer)["promise.arrived.closed"])
        self.assertRegex(said(13)["promise.arrived.closed"], "^Only once its partner's CLS has come")

    def test_fates(self) -> None:
        reset = ("life 0/1 16", "out 0/1 0/2 0 48 00080001000C\nlife 0/1 16")
        self.assertIn("leaves it no such fate", said(14, reset)["promise.over"])
        words = said(14, reset, ("100 0 0 open", "100 0 0 reset"))["promise.over"]
        self.assertRegex(words, "^It is reset: it began in line 5, and in line 13 an RST crossed, .* of 0/1 with 0/2 were dropped.$")
        self.assertIn("by a contact with 0/2", said(13, ("100 0 0 open", "100 0 0 reset"))["promise.over"])
        down = ("life 0/1 16", "down 0/1\nlife 0/1 16")
        self.assertIn("0/1 stopped in line 13", said(14, down, ("100 0 0 open", "100 0 0 stopped"))["promise.over"])

    def test_what_a_life_counts(self) -> None:
        self.assertEqual(said(14)["promise.within"], "Nothing that crossed has ended it.")
        ended = ("life 0/1 16", "down 0/2\nlife 0/1 16"), ("0 0 0 0 open", "0 0 0 0 stopped")
        clauses = said(15, *ended)
        self.assertEqual(
            clauses["promise.within"],
            "What ended it crossed in line 13, after all that it counts: 1 message.",
        )
        self.assertEqual(said(14, *ended)["promise.within"], "Nothing that crossed has ended it.")
        data = "out 0/2 0/1 5"
        late = (data, f"down 0/2\nup 0/2\n{data}"), ("0 0 0 0 open", "0 0 0 0 stopped")
        words = "What ended it crossed in line 10, and it counts what crossed later, in line 12."
        self.assertEqual(said(16, *late)["promise.within"], words)
        contact = said(13, ("1 100 0 0 open", "1 100 0 0 reset"))
        self.assertEqual(
            contact["promise.within"],
            "A contact ended it, which doesn't cross: after it nothing is counted.",
        )

    def test_message_by_message(self) -> None:
        """What was counted went out as the partner's message of that number, or not."""
        counted = "What it counts went out in line 10: the first 1 message of the life of line 14."
        self.assertEqual(said(13)["promise.sent"], counted)
        self.assertNotIn("promise.sent", said(14))
        twice = ("in 0/2 0/1 5 56 00080002004849\n", 2 * "in 0/2 0/1 5 56 00080002004849\n"), ("1 16 1 100 0 0 open 4849", "2 32 1 100 0 0 open 48494849")
        words = "Message 2 of those that it counts, of line 12, isn't message 2 of a life that it matches."
        self.assertEqual(said(14, *twice)["promise.sent"], words)
        unsent = ("1 16 0 0 0 0 open 4849", "0 0 0 0 0 0 open -")
        self.assertRegex(
            said(13, unsent)["promise.sent"],
            "^Message 1 .*, of line 11, isn't message 1 of a life that it matches.$",
        )
        fewer = ("receive 1 16 1 100 0 0 open 4849", "receive 0 0 1 100 0 0 open -")
        self.assertEqual(said(13, fewer)["promise.sent"], "It counts no message.")

    def test_what_alls_grant(self) -> None:
        """An ALL on the life's link counts that its host took after its own request went out, and no other."""
        most = "no more than the 1 message and 100 bits that the ALLs which its host took grant on link 5."
        self.assertEqual(said(14)["promise.granted"], f"It sent 1 message and 16 bits, {most}")
        self.assertNotIn("promise.granted", said(13))
        none = "more than the 0 messages and 0 bits that the ALLs which its host took grant on link 5."
        text = "00080008000405000100000064"
        for change in ((text, text.replace("0405", "0406")), ("0/1 16 3 1 send", "0/1 16 9 1 send"), (f"in 0/1 0/2 0 104 {text}\n", "")):
            self.assertIn(none, said(13 if not change[1] else 14, change)["promise.granted"])
        fewer, nameless = (text, text.replace("00000064", "0000000F")), ("16 3 1 send", "16 3 0 send")
        self.assertIn("more than the 1 message and 15 bits", said(14, fewer)["promise.granted"])
        self.assertEqual(said(14, nameless)["promise.granted"], "No RTS names its link, so nothing is asked of what it sent.")

    def test_contacts(self) -> None:
        self.assertRegex(said(10)["promise.contacts"], "^It isn't just an RST, .* with 0/1 since 0/2 last sent there")
        reset = ("life 0/1 16", "out 0/1 0/2 0 48 00080001000C\nlife 0/1 16")
        self.assertRegex(
            said(13, reset)["promise.contacts"],
            "^It is an RST, .* a user of 0/1 may have contacted 0/2 before.$",
        )
        two = ("life 0/1 16", "out 0/1 0/2 0 56 00080002000C0C\nlife 0/1 16")
        self.assertRegex(said(13, two)["promise.contacts"], "^It isn't just an RST, ")

    def test_other_bits(self) -> None:
        clauses = said(13, ("100 0 0 open 4849", "100 0 0 open 4848"))
        self.assertEqual(clauses["promise.formed"], "It isn't made of messages that crossed.")

    def test_no_rfnm(self) -> None:
        clauses = said(10, ("answer rfnm 0/2 0/1 5", "answer incomplete 0/2 0/1 5"))
        self.assertEqual(clauses["promise.arrived.answered.arrived"], "Only RFNM means that data have arrived.")

    def test_no_such_line(self) -> None:
        for line in (0, 12, 15, 99):
            self.assertRaises(NoSuchLine, said_of, book(), line)


if __name__ == "__main__":
    unittest.main()
