"""Logs of networks with strangers that were written by hand, and what is to be said of each: rows for `check audit`.

They are made of one log, `logs/beside-a-stranger`, with something changed in it. Its line 1 says that 0/3 is a stranger;
its crossings are the lines 2 to 28. Lines 29 and 31 are the two lives of a connection between hosts with programs, 30 and
32 such a host's lives with the stranger, one that receives and one that sends; 33 to 36 are their lists.
"""

from __future__ import annotations

from collections.abc import Iterator

from workshop.parts import ROOT, text_of

LOG = text_of(f"{ROOT}/logs/beside-a-stranger")
FOREIGN = "foreign 0/3\n"
TAKES, HAS, SENDS, GIVES = (f"{line}\n" for line in LOG.splitlines()[28:32])
NO_LIST, SENT_LIST, GIVEN_LIST = "handed 0 -\n", "handed 24 484950\n", "handed 16 5253\n"
LAST = "answer rfnm 0/2 0/3 7\n"  # of the crossings
STRANGERS = "life 0/3 35 0/1 18 0 13 send 1 8 0 0 0 0 open 51\n"  # what a stranger's life would be
MORE = STRANGERS.replace("1 8", "2 16").replace("51", "5151")
LISTS, AFTER = f"{NO_LIST}{NO_LIST}{SENT_LIST}", f"{HAS}{SENDS}{GIVES}"
PAST = HAS.replace("1 8 1 8", "1 8 1 7")  # a bit past what was granted
GRANTED = "receive 1 8 1 8 0 0 open 51"
CLS = "112 0008000900030000001000000021"  # of sockets 16 and 33

SAFE = "\nsafe"
CHANGED = [
    ("", "", "kept"),
    # who is a stranger: nobody, others too, and hosts of which nothing crossed
    (FOREIGN, "", "broken streams line 29\nbroken grants line 31\nbroken sent line 29"),
    (FOREIGN, "foreign 0/2\n", "broken streams line 30\nbroken sent line 30\nbroken toward line 31"),
    (FOREIGN, f"foreign 0/2\n{FOREIGN}", "broken toward line 32"),
    (FOREIGN, f"foreign 0/1\n{FOREIGN}", "broken toward line 30"),
    (FOREIGN, f"foreign 0/1\nforeign 0/2\n{FOREIGN}", "broken toward line 31"),
    (FOREIGN, f"foreign 1/2\n{FOREIGN}", "kept"),
    (FOREIGN, f"foreign 3/1\n{FOREIGN}foreign 1/3\nforeign 0/63\n", "kept"),
    # what a host took from a stranger is within what it granted, with what it had back; what it took is not looked at
    *(
        (GRANTED, f"receive 1 8 {it} open 51", "broken toward line 30")
        for it in ("1 7 0 0", "0 8 0 0", "1 8 0 1", "1 8 1 0")
    ),
    *((GRANTED, f"receive 1 8 {it}", "kept") for it in ("2 9 1 1 open 51", "9 99 0 0 open 51", "1 8 0 0 open 50")),
    *((GRANTED, f"receive {it}", "kept") for it in ("0 0 0 0 0 0 open -", "2 16 2 16 0 0 open 5152")),
    # what it sent to one is a prefix of what was handed over; what crossed is not looked at, nor what was granted
    (GIVEN_LIST, "handed 8 52\n", "kept"),
    (GIVEN_LIST, "handed 7 52\n", "broken toward line 32"),
    (GIVEN_LIST, "handed 16 5352\n", "broken toward line 32"),
    (GIVEN_LIST, NO_LIST, "broken toward line 32"),
    (f"{NO_LIST}{SENT_LIST}{GIVEN_LIST}", f"handed 8 FF\n{SENT_LIST}{GIVEN_LIST}", "kept"),
    (f"{SENT_LIST}{GIVEN_LIST}", f"{GIVEN_LIST}{SENT_LIST}", "broken streams line 31\nbroken toward line 32"),
    ("send 1 8 0 0 0 0 open 52", "send 1 8 0 0 0 0 open 53", "broken toward line 32"),
    ("send 1 8 0 0 0 0 open 52", "send 9 16 0 0 0 0 open 5253", "kept"),
    (f"{GIVES}{LISTS}{GIVEN_LIST}", f"{GIVES.replace('52', '53')}{LISTS}handed 8 53\n", "kept"),
    # the first life that breaks it is printed
    (f"{AFTER}{LISTS}{GIVEN_LIST}", f"{PAST}{SENDS}{GIVES}{LISTS}{NO_LIST}", "broken toward line 30"),
    # how lives with a stranger end is not looked at, nor whether two of them can be in one book
    *((HAS, HAS.replace("open", word), "kept") for word in ("closed", "ended", "reset", "stopped")),
    (GIVES, GIVES.replace("open", "stopped"), "kept"),
    (f"{GIVES}{LISTS}", f"{GIVES}{GIVES}{LISTS}{GIVEN_LIST}", "kept"),
    (f"{AFTER}{NO_LIST}", f"{HAS}{AFTER}{NO_LIST}{NO_LIST}", "kept"),
    # a stranger's life, wherever it is and whatever it says
    (f"{GIVES}{LISTS}", f"{STRANGERS}{GIVES}{LISTS}handed 8 51\n", "broken toward line 32"),
    (f"{TAKES}{AFTER}", f"{STRANGERS}{TAKES}{AFTER}handed 8 51\n", "broken toward line 29"),
    (f"{TAKES}{AFTER}", f"{TAKES}{STRANGERS}{SENDS}{GIVES}", "broken toward line 30"),
    (
        f"{AFTER}{LISTS}{GIVEN_LIST}",
        f"{HAS.replace('open', 'ended')}{SENDS}{GIVES}{MORE}{LISTS}{GIVEN_LIST}handed 16 5151\n",
        "broken toward line 33",
    ),
    # the lives among the others are judged as ever, over all that crossed, with their own lists
    ("receive 1 16 1 100", "receive 1 16 1 15", "broken grants lines 29 31"),
    ("100 0 0 open 4849", "100 0 0 open 4848", "broken lives line 29\nbroken streams lines 29 31"),
    ("send 1 16 0 0 0 0 open 4849", "send 1 16 0 0 0 0 open 4848", "broken lives line 31\nbroken streams lines 29 31"),
    (SENT_LIST, "handed 8 48\n", "broken streams line 31"),
    (f"{SENDS}{GIVES}{LISTS}", f"{SENDS}{SENDS}{GIVES}{LISTS}{SENT_LIST}", "broken partners lines 31 32"),
    (f"{TAKES}{AFTER}{NO_LIST}", f"{TAKES}{HAS}{TAKES}{SENDS}{GIVES}{NO_LIST}{NO_LIST}", "broken partners lines 29 31"),
    (SENDS, SENDS.replace("open", "closed"), f"broken fates line 31{SAFE}"),
    (TAKES, TAKES.replace("open", "ended"), f"broken closes lines 29 31\nbroken fates line 29{SAFE}"),
    (f"{HAS}{SENDS}{GIVES}", f"{HAS}{SENDS.replace('open', 'reset')}{GIVES}", "kept"),
    (LAST, f"{LAST}down 0/2\n", f"broken fates line 32{SAFE}"),
    # whatever a stranger does: it stops and starts, names others' sockets, and takes nothing of what is said to it
    (LAST, f"{LAST}down 0/3\nup 0/3\n", "kept"),
    (LAST, f"{LAST}out 0/3 0/2 0 {CLS}\nin 0/3 0/2 0 {CLS}\n", "kept"),
    (LAST, f"{LAST}out 0/2 0/3 0 {CLS}\nanswer dead 0/2 0/3 0\n", "kept"),
    # what is wrong with what crossed to or from a stranger
    ("in 0/3 0/1 6 48 000800010051", "in 0/3 0/1 6 48 000800010050", "broken run line 18\nbroken messages line 18"),
    ("answer rfnm 0/3 0/1 6", "answer dead 0/3 0/1 6", "broken run line 19"),
    (LAST, f"{LAST}out 0/3 0/1 6 0 -\nout 0/3 0/1 6 0 -\n", "broken run line 30"),
    (LAST, f"{LAST}answer rfnm 3/63 0/3 9\n", "broken run line 29\nbroken messages line 29"),
    (LAST, f"{LAST}up 0/3\n", "broken run line 29"),
    # forms and stamps are of all lives; of a malformed log nothing toward strangers is judged
    (" 12 1 receive", " 11 1 receive", "malformed line 30"),
    (" 12 1 receive 1 8 1 8", " 12 2 receive 1 8 1 7", "malformed line 30"),
    (" 21 19 send", " 21 99 send", "malformed line 32"),
    (GIVEN_LIST, "", "malformed line 32"),
    (f"{AFTER}{LISTS}{GIVEN_LIST}", f"{PAST}{SENDS}{GIVES}{LISTS}", "malformed line 32"),
    (GIVEN_LIST, f"{GIVEN_LIST}{NO_LIST}", "malformed line 37"),
    (GIVES, STRANGERS.replace("13 send", "12 send"), "malformed line 32"),
    # it comes last, and of any program it may be asked: with it there is no word
    (f"{HAS}{SENDS}", f"{PAST}{SENDS.replace('open', 'closed')}", "broken fates line 31\nbroken toward line 30"),
    (
        f"{TAKES}{HAS}",
        f"{TAKES.replace('open', 'ended')}{HAS.replace('1 8 1 8', '1 8 0 8')}",
        "broken closes lines 29 31\nbroken fates line 29\nbroken toward line 30",
    ),
]

# ---- who is a stranger: logs of a few lines, with the verdict or the number of the bad line

NAMED: list[tuple[str, int | str]] = [
    ("foreign 0/1\nend\n", "kept"),
    ("foreign 3/63\nend\n", "kept"),
    ("foreign 0/1\n", 2),
    ("foreign 0/1", 1),
    ("foreign 0/1\nforeign 0/2\ndown 0/1\nend\n", "kept"),
    ("foreign 0/1\nforeign 0/2\nup 0/1\nend\n", "broken run line 3"),
    ("foreign 0/1\nforeign 1/1\nforeign 3/1\nforeign 0/2\nend\n", "kept"),
    ("foreign 3/1\nforeign 0/2\nend\n", "kept"),
    ("foreign 0/1\nforeign 0/1\nend\n", 2),
    ("foreign 1/1\nforeign 0/1\nend\n", 2),
    ("foreign 0/2\nforeign 3/1\nend\n", 2),
    ("foreign 0/2\nforeign 0/10\nforeign 0/9\nend\n", 3),
    ("foreign 0/1\nforeign 0/2\nforeign 0/1\nend\n", 3),
    ("down 0/1\nforeign 0/1\nend\n", 2),
    ("foreign 0/1\ndown 0/1\nforeign 0/2\nend\n", 3),
    (f"{STRANGERS}{FOREIGN}end\n", 2),
    (f"{NO_LIST}{FOREIGN}end\n", 2),
    ("end\nforeign 0/1\n", 2),
    ("foreign 0/1\nhanded 0 -\nend\n", "malformed line 2"),
    (f"{FOREIGN}{STRANGERS}end\n", "malformed line 2"),
    (f"foreign 1/3\n{TAKES}end\n", "broken lives line 2\nmalformed line 2"),
]
BAD_LINES = [
    *("foreign", "foreign ", "foreign 0", "foreign 1", "foreign 4/1", "foreign 0/0", "foreign 0/64", "foreign -1/1"),
    *("foreign 00/1", "foreign 0/01", "foreign 0/1 0/2", "foreign 0/1 ", "foreign  0/1", " foreign 0/1"),
    "foreign 0/1\r",
    *("Foreign 0/1", "FOREIGN 0/1", "strange 0/1", "foreign UCLA", "foreign 0/1,0/2", "foreign\t0/1", "foreign 1 0"),
]


def rows() -> Iterator[tuple[bytes, str]]:
    """Each log, and what is to be said of it, with the line."""
    for text, other, wanted in CHANGED:
        if text not in LOG:
            raise ValueError(f"the log beside a stranger has no {text}")
        yield LOG.replace(text, other, 1).encode(), wanted
    for text, said in NAMED:
        yield text.encode(), f"bad log line {said}" if isinstance(said, int) else said
    for line in BAD_LINES:
        yield f"{line}\nend\n".encode(), "bad log line 1"
        yield f"foreign 0/1\n{line}\nend\n".encode(), "bad log line 2"
