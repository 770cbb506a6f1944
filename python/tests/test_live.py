"""Strangers in a replay: what they send and take, and what is refused by its name."""

from __future__ import annotations

import json
import re
import unittest
from collections.abc import Callable

from dorydate import BadLine, BadNetwork, Host, Imp, Network, Replay, Script, Stopped, Text
from dorydate.script import Flow
from dorydate.state import folded
from dorydate.trace import opening, records
from workshop.parts import ROOT, text_of

MIXED = Network.joined("UCLA-MINE", foreign=["MINE"], carrier="plain")
RST = bytes.fromhex("00080001000C")
RRP = bytes.fromhex("00080001000D")


def topology(foreign: str, raw: bool = False) -> str:
    """A topology of one IMP with three hosts and this key."""
    return f"raw = {str(raw).lower()}\n[[imp]]\nid = 7\nhosts = 3\nforeign = {foreign}\n"


class Networks(unittest.TestCase):
    def test_strangers_have_names(self) -> None:
        network = Network.joined("UCLA-SRI", hosts=2, foreign=["1 at SRI", "0/1"])
        self.assertEqual(network.strangers(), [Host(0, 1), Host(1, 2)])
        self.assertEqual(Network.read(network.toml()), network)

    def test_a_list_of_no_strangers_names_none(self) -> None:
        for raw in (False, True):
            self.assertEqual(Network.read(topology("[]", raw)).strangers(), [])

    def test_what_names_no_strangers_is_refused_by_its_name(self) -> None:
        rows: list[tuple[Callable[[], object], str]] = [
            (lambda: Network.read(topology("[3]")), "IMP 7 names a host that it hasn't: it has 3, numbered from 0."),
            (lambda: Network.read(topology("[-1]")), "`foreign` of IMP 7 names a host that it hasn't"),
            (lambda: Network.read(topology("[1, 1]")), "`foreign` of IMP 7 names a host twice."),
            (lambda: Network.read(topology("[2, 0]")), "`foreign` of IMP 7 is by rising number."),
            (lambda: Network.read(topology("[0]", raw=True)), "In a network with `raw = true` no host runs a program"),
            (lambda: Network.read(topology("1")), "`foreign` is a list of whole numbers"),
            (lambda: Network.read(topology("[true]")), "`foreign` is a list of whole numbers"),
            (lambda: Network.joined("A-B", foreign=["3 at B"]), "`foreign` of IMP 2 names a host that it hasn't"),
            (lambda: Network.joined("A-B", foreign=["B", "0/2"]), "`foreign` of IMP 2 names a host twice."),
            (lambda: Network.joined("A-B", hosts=2, foreign=["1 at B", "B"]), "IMP 2 is by rising number."),
            (lambda: Network.joined("A-B", foreign=["B"], raw=True), "In a network with `raw = true`"),
            (lambda: Network.joined("A-B", foreign=["C"]), "the network has no IMP C"),
            (lambda: Network.joined("A-B", foreign=["0/9"]), "the network has no IMP 9"),
            (lambda: Network((Imp(1, 1, foreign=(True,)),)), "`foreign` is a list of whole numbers"),
        ]
        for call, words in rows:
            with self.subTest(words), self.assertRaisesRegex(BadNetwork, re.escape(words)):
                call()

    def test_only_among_strangers_a_script_has_what_goes_out(self) -> None:
        line = "out 0/2 0/1 0 0 -"
        self.assertEqual(str(Script.read(f"{MIXED.toml()}%\n{line}\n").events[0]), line)
        for text in (Network.joined("A-B").toml(), Network.joined("A-B", raw=True).toml()):
            with self.assertRaisesRegex(BadLine, "is an event of"):
                Script.read(f"{text}%\n{line if 'raw = false' in text else 'offer 0/1'}\n")


class Live(unittest.TestCase):
    def test_a_stranger_is_told_as_any_host(self) -> None:
        net = Replay(MIXED)
        mine = net.foreign("MINE")
        self.assertEqual(mine.out("UCLA", text=RST).text, Text.of(RST))
        self.assertEqual(net.take("UCLA").printed, ["in 0/2 0/1 0 48", "ready 0/1 0/2"])
        self.assertEqual(net.offer("UCLA").printed, ["out 0/1 0/2 0 48"])
        answer, message, nothing = mine.take(), mine.take(), mine.take()
        self.assertEqual((answer.printed, answer.text), (["answer rfnm 0/2 0/1 0"], None))
        self.assertEqual((message.printed, message.text), (["in 0/1 0/2 0 48"], Text.of(RRP)))
        self.assertEqual((nothing.printed, nothing.text), ([], None))
        self.assertEqual(Replay.of(net.script).printed, net.printed)

    def test_a_stranger_takes_only_where_the_script_says(self) -> None:
        net = Replay(MIXED)
        self.assertTrue(net.contact("UCLA", "MINE"))
        self.assertEqual(net.settle().printed, ["out 0/1 0/2 0 48"])
        self.assertEqual(net.foreign("MINE").take().text, Text.of(RST))

    def test_refusals(self) -> None:
        net = Replay(MIXED)
        self.assertEqual(net.out("UCLA", "MINE").refused, "HasProgram")
        asked = [net.offer("MINE"), net.contact("MINE", "UCLA"), net.listen("MINE", 33)]
        self.assertEqual([it.refused for it in asked], ["NoProgram"] * 3)
        self.assertEqual(net.crossings, [])
        with self.assertRaisesRegex(Stopped, "UCLA is no stranger; these are: MINE"):
            net.foreign("UCLA")
        with self.assertRaisesRegex(Stopped, "A is no stranger; these are: none"):
            Replay(Network.joined("A")).foreign("A")
        with self.assertRaisesRegex(BadNetwork, "the network has no IMP SRI"):
            net.foreign("SRI")
        with self.assertRaisesRegex(Stopped, "`out` is an event of raw networks and of strangers"):
            Replay(Network.joined("A-B")).out("A", "B")

    def test_a_log_says_first_who_is_a_stranger(self) -> None:
        net = Replay(MIXED)
        self.assertEqual(net.log.splitlines(), [*(f"foreign {it}" for it in MIXED.strangers()), "end"])
        self.assertEqual(net.audit(), "kept")


class Insides(unittest.TestCase):
    """What is inside a network with strangers, by its trace."""

    def test_a_trace_says_who_is_a_stranger_and_has_programs_of_the_others(self) -> None:
        first = opening(Replay(MIXED).trace)
        self.assertEqual((first["foreign"], [*first["programs"]], [*first["services"]]), (["0/2"], ["0/1"], ["0/1"]))
        self.assertNotIn("foreign", opening(Replay(Network.joined("A-B")).trace))

    def test_events_of_a_stranger_are_traced(self) -> None:
        net = Replay(MIXED)
        mine = net.foreign("MINE")
        self.assertTrue(mine.out("UCLA", text=RST) and net.calm(1) and mine.take())
        told = [json.loads(it) for it in records(net.trace)]
        self.assertEqual([it["event"].split(" ")[0] for it in told], ["out", "take", "offer", "take"])
        printed = [it["printed"] for it in told if it["round"] == 0]
        self.assertEqual(printed, [["out 0/2 0/1 0 48"], ["answer rfnm 0/2 0/1 0"]])
        hers, mines = "host 0/1", "host 0/2"
        self.assertEqual([[*it["parts"]] for it in told], [[hers], [hers, mines], [mines], [mines]])
        self.assertEqual([[*it["programs"]] for it in told], [[], ["0/1"], ["0/1"], []])

    def test_a_trace_is_folded_to_what_is_inside(self) -> None:
        net = Replay(Network.joined("UCLA-MINE", foreign=["MINE"]))
        net.calm(2)
        net.foreign("MINE").out("UCLA", text=RST)
        self.assertEqual([str(it) for it in net.state.outstanding()], ["0/2 0/1 0"])
        self.assertEqual([str(it) for it in net.state.frames()], ["line 0 - 0: message 0 of flow 0/2 0/1 0"])
        self.assertIn(">1</text>", net._repr_svg_())
        net.calm(2)
        imp = net.state.imp(2)
        assert imp
        waits = [(it.flow, it.text) for it in imp.hosts[0].messages]
        self.assertEqual(waits, [(Flow(Host(0, 1), Host(0, 2), 0), Text.of(RRP))])
        self.assertEqual([it.kind for it in imp.hosts[0].answers], ["rfnm"])
        self.assertEqual(net.state, folded(net.network, net.trace))

    def test_the_examples_are_replayed(self) -> None:
        for name in ("a-stolen-socket", "a-request-that-takes-a-listener"):
            net = Replay.of(Script.read(text_of(f"{ROOT}/examples/{name}")))
            self.assertEqual([*net.printed, *net.lives, "end"], text_of(f"{ROOT}/examples/{name}.stdout").splitlines())


if __name__ == "__main__":
    unittest.main()
