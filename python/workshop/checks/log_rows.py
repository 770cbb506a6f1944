"""Logs that were written by hand, and what is to be said of each, with the line: rows for `check audit`.

Most are made of one short log, that of docs/audit.md, with something changed in it.
"""

from __future__ import annotations

import re
import subprocess
from collections.abc import Iterator

from workshop.checks import stranger_rows
from workshop.parts import ROOT, text_of

PAGE, OLD = (text_of(f"{ROOT}/{it}") for it in ("docs/audit.md", "logs/an-old-message"))
SHORT = text_of(f"{ROOT}/logs/two-octets")

# ---- the short log with a text changed, and the verdict. Its crossings are the lines 1 to 12, its lives 13 and 14, its lists 15 and 16

RECEIVER, SENDER = SHORT.splitlines()[12:14]
LIST, LISTS, LISTS_TURNED = "handed 0 -\n", "handed 0 -\nhanded 24 484950\n", "handed 24 484950\nhanded 0 -\n"
BOTH = f"{RECEIVER}\n{SENDER}\n{LISTS}"
ENDED, NONE_TAKEN, NONE_SENT = (
    RECEIVER.replace("open", "ended"),
    RECEIVER.replace("1 16 1", "0 0 1").replace("4849", "-"),
    SENDER.replace("1 16 0", "0 0 0").replace("4849", "-"),
)
CLOSED = SENDER.replace("open", "closed")
NONE_ENDED = NONE_TAKEN.replace("open", "ended")
ALL_TAKEN = "handed 0 -\nhanded 16 4849\n"  # the lists where no more was handed over than was taken
ASKS, OFFERS, GRANTS, DATA = ("".join(f"{line}\n" for line in SHORT.splitlines()[at : at + 3]) for at in (0, 3, 6, 9))
MORE = DATA.replace("56 00080002004849", "48 000800010051")


def asks(commands: str) -> str:
    """The first three lines with other commands in the message of host 0/1."""
    count = len(commands) // 2
    return ASKS.replace("120 0008000A0001000000100000002105", f"{40 + 8 * count} 0008{count:04X}00{commands}")


LINE_FEED = "\n"
GRANT, NOT_GRANTED = "0405000100000064", "broken grants line 14"
TURNED = BOTH.replace("33 0 4", "33 3 1").replace("16 3 1", "16 0 4")  # where the sender asks first
LATER = BOTH.replace("33 0 4", "33 6 1").replace("16 3 1", "16 0 7")  # and its ALL comes before its partner asks
RTS, RTS_6 = "01000000100000002105", "01000000100000002106"
REQUESTS = [  # what host 0/1 says in the place of its request, and the verdict
    (RTS, "kept"),
    (f"00{RTS}", "kept"),
    (RTS + RTS_6, "kept"),
    (RTS_6 + RTS, f"broken lives line 13\n{NOT_GRANTED}"),
    (f"01000000100000002101{RTS}", "kept"),
    (RTS_6, f"broken lives line 13\n{NOT_GRANTED}"),
    ("01000000100000002120", "broken lives line 13"),
    ("02000000100000002105", "broken lives line 13"),
    (RTS.replace("10", "12"), "broken lives line 13"),
    (f"0E{RTS}", "broken lives line 13"),
    (f"{RTS[:-2]}", "broken lives line 13"),
]


def again(request: str, crossed: str, took: str, sent: str) -> str:
    """The data, then the requests of a second connection of the same sockets, what crossed then, and all lives."""
    lives = f"{RECEIVER}\n{SENDER}\nlife 0/1 16 0/2 33 12 16 receive {took}\nlife 0/2 33 0/1 16 15 13 send {sent}\n"
    grants = GRANTS.replace("0405", f"04{request[-2:]}")
    return f"{DATA}{asks(request)}{OFFERS}{grants}{crossed}{lives}{LISTS}handed 0 -\nhanded 8 51\n"


def control(source: str, destination: str, commands: str) -> str:
    """A message with commands that goes out, comes in and is answered."""
    count = len(commands) // 2
    crossed = f"{source} {destination} 0 {40 + 8 * count} 0008{count:04X}00{commands}"
    return f"out {crossed}\nin {crossed}\nanswer rfnm {source} {destination} 0\n"


def fated(
    crossed: str, receiver: str, sender: str, named: int, before: str = "", offers: str = OFFERS, between: str = ""
) -> tuple[str, str]:
    """The short log, what crosses before and after it, and between its requests, its lives with these fates, and which
    of them is named."""
    first = before.count(LINE_FEED)
    second = first + 3 + between.count(LINE_FEED)
    crossings = f"{before}{ASKS}{between}{offers}{GRANTS}{DATA}{crossed}"
    lives = [
        f"life 0/1 16 0/2 33 {first} {second + 1} receive 1 16 1 100 0 0 {receiver} 4849",
        f"life 0/2 33 0/1 16 {second} {first + 1} send 1 16 0 0 0 0 {sender} 4849",
    ]
    wanted = f"broken fates line {crossings.count(LINE_FEED) + named}\nsafe" if named else "kept"
    return f"{crossings}{lives[0]}\n{lives[1]}\n{ALL_TAKEN}end\n", wanted


CLS, CLS_BACK, OTHER_CLS, STR = "030000001000000021", "030000002100000010", "030000001200000021", "02000000210000001008"
RST, RST_BACK, RRP = control("0/1", "0/2", "0C"), control("0/2", "0/1", "0C"), control("0/1", "0/2", "0D")
BOTH_CLS = control("0/2", "0/1", CLS_BACK) + control("0/1", "0/2", CLS)
FAILS, OTHER_FAILS = "out 0/2 0/1 5 0 -\nanswer dead 0/2 0/1 5\n", "out 0/1 0/3 5 0 -\nanswer dead 0/1 0/3 5\n"
OWN_FAILS = "out 0/1 0/2 7 0 -\nanswer incomplete 0/1 0/2 7\n"
# what crosses after the data, the fates of receiver and sender, which of them is named (0 for none), what crosses first,
# in the place of the second request, and before that
FATES = [
    fated("", "open", "open", 0),
    fated("", "open", "closed", 2),
    fated("", "stopped", "open", 1),
    fated("", "reset", "reset", 0),
    # a host stops: its own lives end, and none of its peer's
    fated("down 0/2\n", "open", "stopped", 0),
    fated("down 0/2\n", "open", "open", 2),
    fated("down 0/2\n", "stopped", "stopped", 1),
    fated("down 0/2\n", "open", "reset", 0),
    fated("down 0/2\nup 0/2\n", "open", "open", 2),
    fated("down 0/3\n", "open", "open", 0),
    fated("down 0/2\n", "open", "closed", 2),
    # an RST resets where it goes out, and where it is taken
    fated(RST, "reset", "reset", 0),
    fated(RST, "open", "reset", 1),
    fated(RST, "reset", "open", 2),
    fated(RST, "stopped", "reset", 1),
    fated(RST, "closed", "reset", 1),
    fated(RST_BACK + RRP, "open", "reset", 1),
    # an RRP resets where it goes out and isn't owed
    fated(RRP, "reset", "open", 0),
    fated(RRP, "open", "open", 1),
    fated(RRP, "reset", "stopped", 2),
    fated(RRP, "open", "open", 0, RST_BACK),
    fated(RRP + RRP, "open", "open", 1, RST_BACK),
    fated(RRP, "open", "open", 1, f"{RST_BACK}down 0/1\nup 0/1\n"),
    fated(RRP, "open", "open", 1, RST_BACK + RRP),
    # a message for the peer that fails resets, unless an RRP is owed
    fated(FAILS, "open", "reset", 0),
    fated(FAILS, "open", "open", 2),
    fated(FAILS, "reset", "stopped", 2),
    fated(OTHER_FAILS, "open", "open", 0),
    fated(OWN_FAILS, "open", "open", 1),
    fated(OWN_FAILS, "open", "open", 0, RST_BACK),
    # both CLS end a life, and one doesn't
    fated(BOTH_CLS, "ended", "closed", 0),
    fated(BOTH_CLS, "closed", "closed", 0),
    fated(BOTH_CLS, "open", "closed", 1),
    fated(BOTH_CLS, "ended", "open", 2),
    fated(BOTH_CLS, "ended", "stopped", 2),
    # whose own CLS was the first its own user had closed; and after a contact an RST goes out before any CLS
    fated(BOTH_CLS, "ended", "ended", 2),
    fated(BOTH_CLS, "ended", "reset", 0),
    fated(BOTH_CLS, "reset", "closed", 1),
    fated(control("0/2", "0/1", CLS_BACK), "open", "open", 0),
    fated(control("0/2", "0/1", CLS_BACK), "ended", "open", 1),
    fated(control("0/2", "0/1", CLS_BACK), "open", "closed", 2),
    fated(control("0/1", "0/2", CLS) * 2, "closed", "open", 1),
    fated(control("0/2", "0/1", CLS_BACK) + control("0/1", "0/2", OTHER_CLS), "ended", "open", 1),
    fated(control("0/2", "0/1", CLS_BACK) + control("0/1", "0/2", f"0E{CLS}"), "ended", "open", 1),
    fated(BOTH_CLS + RST, "ended", "closed", 0),
    fated(f"{RST}down 0/1\n", "stopped", "reset", 1),
    # commands of one text have their order
    fated(control("0/1", "0/2", CLS), "ended", "closed", 0, "", control("0/2", "0/1", STR + CLS_BACK)),
    fated(control("0/1", "0/2", CLS), "open", "closed", 1, "", control("0/2", "0/1", STR + CLS_BACK)),
    # nothing that ends lives comes between a life's two requests, and before the first of them it may
    fated("", "open", "open", 1, "", control("0/2", "0/1", CLS_BACK + STR)),
    fated("", "ended", "open", 1, "", control("0/2", "0/1", CLS_BACK + STR)),
    fated("", "reset", "reset", 1, between=RST),
    fated("", "open", "open", 1, between=control("0/1", "0/2", CLS)),
    fated("", "open", "open", 1, between="down 0/1\nup 0/1\n"),
    fated("", "open", "open", 2, between="down 0/2\nup 0/2\n"),
    fated("", "open", "open", 0, f"{RST}{BOTH_CLS}down 0/1\nup 0/1\n"),
    fated("", "open", "open", 0, between="down 0/3\nup 0/3\n"),
]


def late(crossed: str, receiver: str, sender: str, named: int, sent: str = "") -> tuple[str, str]:
    """The short log, where this crosses before its data, its lives with these fates, and which is the first that counts
    them too late; and what is said of the messages that were sent."""
    crossings = f"{ASKS}{OFFERS}{GRANTS}{crossed}{DATA}"
    lives = f"{RECEIVER.replace('open', receiver)}\n{SENDER.replace('open', sender)}\n"
    wanted = f"broken lives line {crossings.count(LINE_FEED) + named}" if named else "kept"
    return f"{crossings}{lives}{ALL_TAKEN}end\n", wanted + sent


def contacted(words: str, named: int, between: str = "", peer: str = "0/2", after: str = "") -> tuple[str, str]:
    """The short log, then a second connection of host 0/1, with 0/2 or another, and what crosses after that, its four
    lives with these fates, and which of them is named."""
    first = f"{ASKS}{OFFERS}{GRANTS}{DATA}{between}"
    crossings = first + f"{asks(RTS_6)}{OFFERS}".replace("0/2", peer) + after
    at = first.count(LINE_FEED)
    lives = [
        *(RECEIVER, SENDER),
        f"life 0/1 16 {peer} 33 {at} {at + 4} receive 0 0 1 100 0 0 open -",
        f"life {peer} 33 0/1 16 {at + 3} {at + 1} send 0 0 0 0 0 0 open -",
    ]
    said = "".join(f"{life.replace('open', word)}\n" for life, word in zip(lives, words.split()))
    wanted = f"broken fates line {crossings.count(LINE_FEED) + named}\nsafe" if named else "kept"
    return f"{crossings}{said}{ALL_TAKEN}{LIST}{LIST}end\n", wanted


OWN_CLS, CLS_TAKEN = control("0/1", "0/2", CLS), control("0/2", "0/1", CLS_BACK)
CLOSED_FIRST, STOPS, RESTARTS = OWN_CLS + CLS_TAKEN, "down 0/1\n", "down 0/1\nup 0/1\n"
# the fates of the receiver and the sender of each connection, and which of them is named; what crosses between the two,
# with whom the second is, and what crosses after them
CONTACTED = [
    contacted("open open open open", 0),
    # a contact resets all lives of its host with the peer, and none of the peer's
    contacted("reset open reset open", 0),
    contacted("open reset open reset", 0),
    contacted("reset reset reset reset", 0),
    contacted("reset open open open", 3),
    contacted("open open reset open", 3),
    contacted("open reset open open", 4),
    contacted("reset open reset reset", 4),
    contacted("reset reset open open", 3),
    # not those with others
    contacted("reset open open open", 0, peer="0/3"),
    contacted("open open reset open", 0, peer="0/3"),
    # nor those that something else had ended, or begun after that
    contacted("reset reset open open", 0, RST),
    contacted("reset reset reset open", 0, RST),
    contacted("open stopped open open", 0, "down 0/2\nup 0/2\n"),
    contacted("open reset open open", 0, "down 0/2\nup 0/2\n"),
    contacted("reset stopped open open", 3, "down 0/2\nup 0/2\n"),
    # a contact before a stop resets all that the stop would have ended, not what was over before, or begins later
    contacted("reset open reset open", 0, after=STOPS),
    contacted("stopped open stopped open", 0, after=STOPS),
    contacted("reset open stopped open", 3, after=STOPS),
    contacted("stopped open reset open", 3, after=STOPS),
    contacted("reset open stopped open", 0, peer="0/3", after=STOPS),
    contacted("closed ended reset open", 0, CLOSED_FIRST, after=STOPS),
    contacted("reset open open open", 0, RESTARTS),
    contacted("reset open stopped open", 0, RESTARTS, after=STOPS),
    # so does one before a partner's CLS; what begins after it comes after an RST or a stop
    contacted("reset ended open open", 3, CLOSED_FIRST),
    contacted("reset ended stopped open", 3, CLOSED_FIRST, after=STOPS),
    contacted("reset ended open open", 0, CLOSED_FIRST + RST),
    contacted("reset ended open open", 0, CLOSED_FIRST + RESTARTS),
    contacted("reset ended open open", 0, CLOSED_FIRST, peer="0/3"),
    # what an RST resets no contact did, and another may be over by a CLS of the same text
    contacted("closed ended reset reset", 0, OWN_CLS, after=control("0/2", "0/1", f"{CLS_BACK}0C")),
]


RRP_BACK = control("0/2", "0/1", "0D")
LATE = [
    late("", "open", "open", 0),
    # a host stops, a pair is reset, a message fails, both CLS cross: then the life is over, and no data are of it
    late("down 0/2\nup 0/2\n", "open", "stopped", 2),
    late("down 0/1\nup 0/1\n", "stopped", "open", 1),
    late(RST + RRP_BACK, "reset", "reset", 1),
    late(OWN_FAILS, "reset", "open", 1),
    late(FAILS, "open", "reset", 2, "\nbroken sent lines 15 16"),  # the one that failed is the sender's first
    late(BOTH_CLS, "ended", "closed", 1),
    # after one CLS it may count more, and after what happens to others
    late(control("0/2", "0/1", CLS_BACK), "open", "open", 0),
    late(control("0/1", "0/2", CLS), "open", "open", 0),
    late("down 0/3\nup 0/3\n", "open", "open", 0),
]


NOTHING, ONE = ("0 0 1 100 0 0 open -", "0 0 0 0 0 0 open -"), ("1 8 1 100 0 0 open 51", "1 8 0 0 0 0 open 51")
ON_6 = MORE.replace("0/1 5", "0/1 6")
FATES_13, FATES_14 = "broken fates line 13", "broken fates line 14"
RFNM = "answer rfnm 0/2 0/1 5\n"
SAFE_13, SAFE_14 = f"{FATES_13}\nsafe", f"{FATES_14}\nsafe"
CLOSES = "broken closes lines 13 14\n" + FATES_13
ALONE = "broken streams line 13\nbroken sent line 13"  # of a life that took something, and matches none
BAD_13, BAD_14 = (f"broken lives line {line}\nmalformed line {line}" for line in (13, 14))
VERDICTS = [
    ("", "", "kept"),
    # what isn't promised
    ("484950\n", "4849FF\n", "kept"),
    ("1 100 0 0 open", "2 999 0 0 open", "kept"),
    ("1 16 1 100 0 0 open 4849\n", "1 7 1 100 0 0 open 48\n", "broken lives line 13"),
    ("receive 1 16 1 100 0 0 open 4849", "receive 0 0 1 16 0 0 open -", "kept"),
    (LIST, "handed 8 FF\n", "kept"),
    # the run of the mailboxes
    ("answer rfnm 0/2 0/1 5", "answer dead 0/2 0/1 5", "broken run line 12\n" + FATES_14),
    ("answer rfnm 0/2 0/1 5", "answer nottaken 0/2 0/1 5", "broken run line 12\n" + FATES_14),
    ("answer rfnm 0/2 0/1 5", "answer incomplete 0/2 0/1 5", SAFE_14),
    ("answer rfnm 0/2 0/1 5", "out 0/2 0/1 5 0 -", "broken run line 12"),
    ("answer rfnm 0/2 0/1 5", "down 0/2", SAFE_14),
    ("answer rfnm 0/2 0/1 5\n", "down 0/2\nanswer rfnm 0/2 0/1 5\n", "broken run line 13\nbroken fates line 15"),
    ("answer rfnm 0/2 0/1 5\n", f"down 0/2\nup 0/2\n{RFNM}", "broken run line 14\nbroken fates line 16"),
    # lives of the messages that crossed: none crossed, others did, not all of one, and none but the second counts
    (DATA, "", "broken lives line 10"),
    (DATA, DATA.replace("4849", "4142"), "broken lives line 13"),
    ("receive 1 16 1 100 0 0 open 4849", "receive 1 8 1 100 0 0 open 48", "broken lives line 13"),
    (DATA, MORE + DATA, "broken lives line 16"),
    (DATA, DATA + MORE, "kept"),
    *((ASKS, asks(commands), wanted) for commands, wanted in REQUESTS),
    (OFFERS, OFFERS.replace("1008", "1000"), "broken lives line 13"),
    # sockets that are used again: a life has the messages of its own link, after its own requests
    (DATA + BOTH, again(RTS_6, "", *NOTHING), "kept"),
    (DATA + BOTH, again(RTS_6, ON_6, *ONE), "kept"),
    (DATA + BOTH, again(RTS, MORE, *ONE), "kept"),
    (DATA + BOTH, again(RTS_6, MORE, *ONE), "broken lives line 27"),
    (
        DATA + BOTH,
        again(RTS, "", "1 16 1 100 0 0 open 4849", "1 16 0 0 0 0 open 4849"),
        "broken lives line 24\nbroken streams line 25",
    ),
    # messages
    ("answer rfnm 0/2 0/1 5", "in 0/2 0/1 5 56 00080002004849", "broken run line 12\nbroken messages line 12"),
    (
        "in 0/2 0/1 5 56 00080002004849",
        "in 0/2 0/1 5 56 00080002004848",
        "broken run line 11\nbroken lives line 13\nbroken messages line 11",
    ),
    (
        "in 0/2 0/1 5 56 00080002004849",
        "in 0/2 0/1 6 56 00080002004849",
        "broken run line 11\nbroken lives line 13\nbroken messages line 11",
    ),
    ("in 0/2 0/1 5 56 00080002004849\n", "", "broken run line 11\nbroken lives line 12\nbroken messages line 11"),
    ("answer rfnm 0/2 0/1 5", "answer rfnm 0/2 0/1 4", "broken run line 12\nbroken messages line 12"),
    # stamps: one that names no such message, and which life comes first
    *(("16 0/2 33 0 4", f"16 0/2 33 {stamps}", BAD_13) for stamps in ("7 4", "1 4", "0 3", "0 12")),
    *(("33 0/1 16 3 1", f"33 0/1 16 {stamps}", BAD_14) for stamps in ("3 10", "18446744073709551615 1")),
    ("life 0/2 33 0/1", "life 0/3 33 0/1", BAD_14),
    ("0/2 0/1 0", "0/2 0/1 1", "broken run line 5\nbroken lives line 14\nmalformed line 13\nbroken messages line 5"),
    # numbers of lives and lists
    ("handed 24 484950\n", "", "malformed line 14"),
    (LISTS, "", "malformed line 13"),
    (LIST, LIST + LIST, "malformed line 17"),
    (SENDER + "\n", "", "malformed line 15"),
    (RECEIVER + "\n" + SENDER + "\n", "", "malformed line 13"),
    # partners
    (f"{SENDER}\n{LIST}", f"{SENDER}\n{RECEIVER}\n{LIST}{LIST}", "broken partners lines 13 15\nbroken streams line 14"),
    (f"{SENDER}\n{LISTS}", f"{SENDER}\n{SENDER}\n{LISTS}handed 24 484950\n", "broken partners lines 14 15"),
    ("33 0/1 16 3 1", "33 0/1 18 3 1", f"broken lives line 14\n{ALONE}"),
    # streams
    ("open 4849\nlife", "open 4848\nlife", "broken lives line 13\nbroken streams lines 13 14"),
    (
        "receive 1 16 1 100 0 0 open 4849",
        "receive 1 17 1 100 0 0 open 484900",
        "broken lives line 13\nbroken streams lines 13 14",
    ),
    ("handed 24 484950", "handed 15 4848", "broken streams line 14"),
    ("handed 24 484950", "handed 0 -", "broken streams line 14"),
    ("send 1 16 0 0 0 0 open 4849", "send 1 17 0 0 0 0 open 484980", "broken lives line 14\nbroken streams line 14"),
    (f"{SENDER}\n{LISTS}", LIST, ALONE),
    # grants
    ("receive 1 16 1 100", "receive 1 16 1 15", "broken grants lines 13 14"),
    ("receive 1 16 1 100", "receive 1 16 0 100", "broken grants lines 13 14"),
    ("1 100 0 0", "1 100 0 85", "broken grants lines 13 14"),
    ("1 100 0 0", "1 100 1 0", "broken grants lines 13 14"),
    ("1 100 0 0", "2 100 1 84", "kept"),
    ("receive 1 16 1 100", "receive 2 16 1 100", "broken lives line 13\nbroken grants lines 13 14"),
    ("send 1 16", "send 2 16", "broken lives line 14\nbroken grants lines 13 14"),
    # what was sent is within the ALLs that came from the peer after the own request, with the partner's or after it
    (GRANTS, "", "broken grants line 11"),
    (GRANTS, control("0/1", "0/2", "0406000100000064"), NOT_GRANTED),
    (GRANTS, control("0/1", "0/2", "040500010000000F"), NOT_GRANTED),
    (GRANTS, control("0/1", "0/2", "0405000000000064"), NOT_GRANTED),
    (GRANTS, control("0/1", "0/2", "0405000100000010"), "kept"),
    (GRANTS, control("0/1", "0/2", "04050001000000080405000000000008"), "kept"),
    (GRANTS, control("0/1", "0/2", "0405000000000010") + control("0/1", "0/2", "0405000100000000"), "kept"),
    (GRANTS, GRANTS.splitlines(keepends=True)[0], "broken grants line 12"),
    (GRANTS, control("0/3", "0/2", GRANT), NOT_GRANTED),
    (GRANTS, control("0/2", "0/1", GRANT), NOT_GRANTED),
    (GRANTS, f"{GRANTS}{control('0/2', '0/1', '0605000100000064')}", "kept"),
    (f"{GRANTS}{DATA}", f"{DATA}{GRANTS}", "kept"),
    (f"{ASKS}{OFFERS}{GRANTS}", f"{asks(RTS + GRANT)}{OFFERS}", "broken grants line 11"),
    (f"{ASKS}{OFFERS}{GRANTS}{DATA}{BOTH}", f"{OFFERS}{asks(RTS + GRANT)}{DATA}{TURNED}", "kept"),
    (f"{ASKS}{OFFERS}{GRANTS}{DATA}{BOTH}", f"{OFFERS}{GRANTS}{ASKS}{DATA}{LATER}", NOT_GRANTED),
    # closes: a receiving life that its partner ended took all that was sent, and all that was handed over there
    (BOTH, f"{ENDED}\n{SENDER}\n{LISTS}", f"{CLOSES}\nsafe"),
    (BOTH, f"{ENDED}\n{SENDER}\n{ALL_TAKEN}", SAFE_13),
    (BOTH, f"{ENDED}\n{SENDER.replace('open', 'ended')}\n{ALL_TAKEN}", SAFE_13),
    *(
        (
            BOTH,
            f"{RECEIVER.replace('open', word)}\n{SENDER.replace('open', 'ended')}\n{LISTS}",
            f"broken fates line {line}\nsafe",
        )
        for word, line in (("closed", 13), ("reset", 14), ("stopped", 13))
    ),
    *(
        (BOTH, f"{NONE_TAKEN.replace('open', word)}\n{SENDER}\n{LISTS}", wanted)
        for word, wanted in (("open", "kept"), ("closed", SAFE_13), ("reset", "kept"), ("stopped", SAFE_13))
    ),
    (BOTH, f"{NONE_ENDED}\n{SENDER}\n{LISTS}", f"{CLOSES}\nsafe"),
    (DATA + BOTH, f"{NONE_ENDED}\n{NONE_SENT}\n{LISTS}", "broken closes lines 10 11\nbroken fates line 10\nsafe"),
    (DATA + BOTH, f"{NONE_ENDED}\n{NONE_SENT}\n{LIST}{LIST}", "broken fates line 10\nsafe"),
    (BOTH, f"{SENDER}\n{ENDED}\n{LISTS_TURNED}", "broken closes lines 14 13\n" + SAFE_14),
    (BOTH, f"{ENDED}\n{LIST}", f"{ALONE}\n{FATES_13}"),
    (BOTH, f"{NONE_ENDED}\n{LIST}", SAFE_13),
    (BOTH, f"{ENDED.replace('receive 1', 'receive 0')}\n{SENDER}\n{ALL_TAKEN}", "broken lives line 13\n" + CLOSES),
    (
        BOTH,
        f"{ENDED}\n{SENDER.replace('4849', '4848')}\n{ALL_TAKEN.replace('4849', '4848')}",
        "broken lives line 14\nbroken streams lines 13 14\n" + CLOSES,
    ),
    (
        BOTH,
        f"{ENDED}\n{SENDER.replace('33 0/1 16', '33 0/1 18')}\n{LISTS}",
        f"broken lives line 14\n{ALONE}\n{FATES_13}",
    ),
    (
        BOTH,
        f"{ENDED}\n{SENDER}\n{SENDER}\n{LIST}handed 16 4849\nhanded 24 484950\n",
        "broken partners lines 14 15\n" + CLOSES,
    ),
    (
        BOTH,
        f"{ENDED}\n{ENDED}\n{SENDER}\n{LIST}{LISTS}",
        "broken partners lines 13 14\nbroken closes lines 13 15\n" + FATES_13,
    ),
    (
        BOTH,
        f"{ENDED}\n{NONE_ENDED}\n{SENDER}\n{LIST}{ALL_TAKEN}",
        "broken partners lines 13 14\nbroken closes lines 14 15\n" + FATES_13,
    ),
    # a life that ends as both CLS let it, and lost something
    (DATA + RECEIVER, DATA + BOTH_CLS + ENDED, "broken closes lines 19 20\nbroken fates line 20\nsafe"),
    (f"{DATA}{RECEIVER}\n{SENDER}", f"{DATA}{BOTH_CLS}{ENDED}\n{CLOSED}", "broken closes lines 19 20\nsafe"),
    # with a part that may be asked of any program there is no word
    (RECEIVER, RECEIVER.replace("1 100", "1 15").replace("open", "closed"), "broken grants lines 13 14\n" + FATES_13),
    # the life that fails is the receiving one, wherever it is
    (BOTH, f"{SENDER}\n{RECEIVER[:-1]}8\n{LISTS_TURNED}", "broken lives line 14\nbroken streams lines 14 13"),
    (BOTH, f"{SENDER}\n{RECEIVER.replace('1 100', '1 15')}\n{LISTS_TURNED}", "broken grants lines 14 13"),
    (
        BOTH,
        f"{SENDER.replace('send 1', 'send 2')}\n{RECEIVER}\n{LISTS_TURNED}",
        "broken lives line 13\nbroken grants line 13",
    ),
    (BOTH, f"{SENDER}\n{RECEIVER}\n{LISTS_TURNED}", "kept"),
    (BOTH, f"{SENDER}\n{RECEIVER}\n{LISTS}", "broken streams line 13"),
    # each part that fails is named
    (
        "receive 1 16 1 100 0 0 open 4849",
        "receive 1 16 0 0 0 0 open 4848",
        "broken lives line 13\nbroken streams lines 13 14\nbroken grants lines 13 14",
    ),
    (
        BOTH,
        f"{RECEIVER}\n{RECEIVER}\n{SENDER.replace('4849', '4848')}\n{LIST}{LISTS}",
        "broken lives line 15\nbroken partners lines 13 14\nbroken streams lines 13 15",
    ),
    (
        BOTH,
        f"{RECEIVER.replace('1 100', '1 15')}\n{SENDER}\n{SENDER}\n{LISTS}handed 8 48\n",
        "broken partners lines 14 15\nbroken streams line 15\nbroken grants lines 13 14",
    ),
    ("0/2 0/1 5\nlife 0/1", "0/2 0/1 6\nlife 0/1", "broken run line 12\nbroken messages line 12"),
    # two senders of one life are odd partners, and its stream is that of either
    (
        BOTH,
        f"{RECEIVER}\n{SENDER.replace('4849', '4848')}\n{SENDER}\n{LISTS}handed 24 484950\n",
        "broken lives line 14\nbroken partners lines 14 15\nbroken streams line 14",
    ),
]

# ---- the log of a message of before a reset that is taken after it, with a text changed, and the verdict

TAKES_TWO, SENDS_TWO = OLD.splitlines()[33:35]
SENT = [
    ("", "", "broken sent lines 34 35"),
    # the first only isn't the sender's first, and none is counted
    (TAKES_TWO, TAKES_TWO.replace("2 16 9", "1 8 9").replace("5858", "58"), "broken sent lines 34 35"),
    (TAKES_TWO, TAKES_TWO.replace("2 16 9", "0 0 9").replace("5858", "-"), "kept"),
    # whichever line is first, the receiver's is named first; and nobody else where its sender isn't there
    (f"{TAKES_TWO}\n{SENDS_TWO}", f"{SENDS_TWO}\n{TAKES_TWO}", "broken streams line 34\nbroken sent lines 35 34"),
    (
        SENDS_TWO,
        SENDS_TWO.replace("0/1 16 19", "0/1 18 19"),
        "broken lives line 35\nbroken streams line 34\nbroken sent line 34",
    ),
]

# ---- logs of one line and `end`, and the verdict; those that are bad

LIFE = "life 0/1 16 0/2 33 0 4 receive 1 16 1 100 0 0 open 4849"
GREATEST = f"life 3/63 4294967294 3/63 4294967295 {2**64 - 1} {2**64 - 1} receive {2**128 - 1} 0 {' '.join([str(2**128 - 1)] * 4)} ended -"
LINES = {
    "kept": [
        *("out 0/1 0/2 5 0 -", "out 3/63 0/1 255 1 80", "out 0/1 0/1 0 8 FF", f"out 0/1 0/2 5 8063 {'FF' * 1007}FE"),
        "down 0/1",
    ],
    "broken run line 1": [
        "answer dead 0/1 0/2 0",
        "answer incomplete 3/63 0/1 255",
        "answer nottaken 0/1 0/2 0",
        "up 3/63",
    ],
    "broken run line 1\nbroken messages line 1": ["in 0/1 0/2 5 0 -", "answer rfnm 0/1 0/2 5"],
    "broken lives line 1\nmalformed line 1": [
        *(LIFE, GREATEST, LIFE.replace("16 1 100", "13 1 100").replace("4849", "4848")),
        *(LIFE.replace("open", word) for word in ("closed", "ended", "reset", "stopped")),
    ],
    "malformed line 1": ["handed 0 -", "handed 9 FF80"],
}
BAD_LINES = [
    *("", " ", "#", "# end", "End", "end ", " end", "end\r", "end\0", "\xef\xbb\xbfend", "kept", "%", "take 0/1"),
    *(
        "ready 0/1 0/2",
        "opened 0/1 16 0/2 33",
        "sent 0/1 33 8",
        "arrived 0/1 16 8",
        "refused Blocked",
        "down",
        "down 0/1 0/2",
        "up 0",
        "Up 0/1",
    ),
    *(
        "out 0/1 0/2 5 0",
        "out 0/1 0/2 5 0 - ",
        "out 0/1 0/2 5 0  -",
        "out\t0/1 0/2 5 0 -",
        "out 0/1 0/2 5 0 -\r",
        "OUT 0/1 0/2 5 0 -",
        "out 0/1 0/2 5 0 - -",
    ),
    *(
        "out 0/1 0/2 5 8 ff",
        "out 0/1 0/2 5 8 F",
        "out 0/1 0/2 5 8 FF00",
        "out 0/1 0/2 5 9 FF",
        "out 0/1 0/2 5 7 FF",
        "out 0/1 0/2 5 8 -",
        "out 0/1 0/2 5 0 00",
    ),
    *(
        "out 0/1 0/2 5 08 FF",
        "out 0/1 0/2 5 +8 FF",
        "out 0/1 0/2 5 -0 -",
        "out 0/1 0/2 5 0x8 FF",
        f"out 0/1 0/2 5 8064 {'FF' * 1008}",
    ),
    *(
        "out 0/1 0/2 256 0 -",
        "out 0/1 0/2 05 0 -",
        "out 0/1 0/2 -1 0 -",
        "out 4/1 0/2 5 0 -",
        "out 0/64 0/2 5 0 -",
        "out 0/0 0/2 5 0 -",
        "out 00/1 0/2 5 0 -",
    ),
    *(
        "out 0/1 0/02 5 0 -",
        "out 1 0/2 5 0 -",
        "in 0/1 0/2 5 0",
        "in 0/1 5 0 -",
        "answer rfn 0/1 0/2 5",
        "answer RFNM 0/1 0/2 5",
        "answer rfnm 0/1 0/2",
    ),
    *(
        "answer rfnm 0/1 0/2 256",
        "answer rfnm 0/1 0/2 5 0",
        "answer 0/1 0/2 5",
        "answer notTaken 0/1 0/2 5",
        "answer never 0/1 0/2 5",
        "handed",
        "handed 0",
        "handed 0 00",
        "handed 8 -",
        "handed 1 C0",
        "handed 08 FF",
    ),
    *(
        LIFE.replace("0/1 16", f"0/1 {2**32 + 16}"),
        LIFE.replace("0/2 33", f"0/2 {2**32 + 33}"),
        LIFE.replace("0/2 33", f"0/2 0{33}"),
    ),
    *(
        LIFE.replace(" 0 4 ", f" {2**64} 4 "),
        LIFE.replace(" 0 4 ", f" 0 {2**64} "),
        LIFE.replace(" 0 4 ", " 00 4 "),
        LIFE.replace(" 0 4 ", " 0 -4 "),
    ),
    *(
        LIFE.replace("receive 1 ", f"receive {2**128} "),
        LIFE.replace(" 1 100", f" {2**128} 100"),
        LIFE.replace(" 1 100", f" 1 {2**128}"),
    ),
    *(
        LIFE.replace("0 0 open", f"{2**128} 0 open"),
        LIFE.replace("0 0 open", f"0 {2**128} open"),
        LIFE.replace("0 0 open", f"0 {'9' * 5000} open"),
    ),
    *(LIFE.replace("receive", "send"), LIFE.replace("0/1 16", "0/1 17"), LIFE.replace("receive", "recv")),
    *(LIFE.replace("open", word) for word in ("closing", "Ended", "over", "end", "0", "ended ended", "resets", "stop")),
    *(
        LIFE.replace(" 4849", ""),
        LIFE + " ",
        LIFE.replace("1 16 1", "1 17 1"),
        LIFE.replace("1 16 1", "1 15 1"),
        LIFE.replace("1 16 1", "1 8 1"),
    ),
    *(
        LIFE.replace("1 16 1", "1 0 1"),
        LIFE.replace("4849", "-"),
        LIFE.replace("0/1 16", "0/0 16"),
        LIFE.replace("life 0/1", "life 4/1"),
        LIFE.replace(" open", ""),
    ),
]

# ---- whole logs, octet by octet, and the verdict or the number of the bad line

OCTETS: list[tuple[bytes, int | str]] = [
    (b"", 1),
    (b"end", 1),
    (b"end\n", "kept"),
    (b"\nend\n", 1),
    (b"end\n\n", 2),
    (b"end\nend\n", 2),
    (b"end\nx", 2),
    (b"end\r\n", 1),
    (b"down 0/1\n", 2),
    (b"down 0/1", 1),
    (b"down 0/1\nend", 2),
    (b"down 0/1\nup 0/1\n", 3),
    (b"down 0/1\0\nend\n", 1),
    (b"down 0/1\n\nend\n", 2),
    # hosts that go down and come up: a message that went out before is forgotten, and one that waits is taken by a host that is up
    (b"down 0/1\nup 0/1\nend\n", "kept"),
    (b"down 0/1\ndown 0/1\nend\n", "broken run line 2"),
    (b"down 0/1\nout 0/1 0/2 5 0 -\nend\n", "broken run line 2"),
    (b"out 0/1 0/2 5 0 -\ndown 0/1\nup 0/1\nout 0/1 0/2 5 0 -\nend\n", "kept"),
    (b"out 0/1 0/2 5 0 -\ndown 0/2\nup 0/2\nout 0/1 0/2 5 0 -\nend\n", "broken run line 4"),
    (b"out 0/1 0/2 5 0 -\ndown 0/1\nin 0/1 0/2 5 0 -\nend\n", "kept"),
    (b"out 0/1 0/2 5 0 -\ndown 0/2\nin 0/1 0/2 5 0 -\nend\n", "broken run line 3"),
    (b"out 0/1 0/2 5 0 -\ndown 0/1\nanswer dead 0/1 0/2 5\nend\n", "broken run line 3"),
    (b"out 0/1 0/2 5 0 -\nanswer dead 0/1 0/2 5\nout 0/1 0/2 5 0 -\nend\n", "kept"),
    (b"out 0/1 0/2 5 0 -\nin 0/1 0/2 5 0 -\nout 0/1 0/2 5 0 -\nend\n", "broken run line 3"),
    # each part that is broken is named: of a run the first crossing
    (b"answer dead 0/1 0/2 5\nin 0/1 0/2 5 0 -\nend\n", "broken run line 1\nbroken messages line 2"),
    (b"handed 0 -\ndown 0/1\nend\n", 2),
    (f"{LIFE}\ndown 0/1\nend\n".encode(), 2),
    (f"handed 0 -\n{LIFE}\nend\n".encode(), 2),
    (f"{LIFE}\nhanded 0 -\n{LIFE}\nhanded 0 -\nend\n".encode(), 3),
    (f"{LIFE}\nhanded 0 -\ndown 0/1\nend\n".encode(), 3),
    (b"down 0/1\nno\nno\nend\n", 2),
]


def rows_of_page() -> Iterator[tuple[bytes, str]]:
    """The changes of the page's logs, as sed makes them, and what the program prints of each."""
    log = ""
    for part in re.findall(r"`logs/[a-z-]+`|^```text\n[^`]*^```$|^\| `sed '.*$", PAGE, re.MULTILINE):
        if part.startswith("`logs/"):
            log = text_of(f"{ROOT}/{part.strip('`')}")
        elif part.startswith("```"):
            if part != f"```text\n{log}```":
                raise ValueError(f"docs/audit.md has another log than the one that it names: {part}")
        elif row := re.match(r"\| `sed '(.*)'` \| ([^|]*?) \|", part):
            changed = subprocess.run(["sed", row[1]], input=log.encode(), capture_output=True, check=True).stdout
            yield changed, "\n".join(re.findall("`([^`]*)`", row[2])) or row[2]


def rows() -> Iterator[tuple[bytes, str]]:
    """Each log, and what is to be said of it, with the line."""
    for text, other, wanted in VERDICTS:
        if text not in SHORT:
            raise ValueError(f"the short log has no {text}")
        yield SHORT.replace(text, other, 1).encode(), wanted
    yield from ((OLD.replace(text, other, 1).encode(), wanted) for text, other, wanted in SENT)
    yield from ((text.encode(), wanted) for text, wanted in [*FATES, *CONTACTED, *LATE])
    for wanted, lines in LINES.items():
        yield from ((f"{line}\nend\n".encode(), wanted) for line in lines)
    yield from ((f"{line}\nend\n".encode("latin-1"), "bad log line 1") for line in BAD_LINES)
    yield from ((f"down 0/1\n{line}\nend\n".encode("latin-1"), "bad log line 2") for line in BAD_LINES)
    yield from ((octets, f"bad log line {said}" if isinstance(said, int) else said) for octets, said in OCTETS)
    yield from stranger_rows.rows()
