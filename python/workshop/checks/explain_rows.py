"""What ./explain has to say of replays, written by hand: of events of the examples and of scripts, and of the texts of messages."""

from __future__ import annotations

from collections.abc import Callable

# an example, the line of a refused event in it, and words of the cause that is meant
REFUSALS = [
    ("first-message", 13, "That of line 11 waits for host 0/2: `take 0/2`"),
    ("two-flows", 18, "That of line 12 waits for host 0/2: `take 0/2`"),
    *(("no-such-host", line, "no host 0/3: IMP 3 has none.") for line in (11, 12)),
    ("no-such-host", 18, "no host 3/2: IMP 2 has only 0/2."),
    ("a-message-given-up", 25, "the message of line 22 was answered in line 24"),
    ("a-host-stops-and-starts", 13, "Host 0/2 is down already, since line 12"),
    ("a-host-stops-and-starts", 21, "a message that it sent (line 17) waited"),
    ("a-host-stops-and-starts", 25, "host 0/1 sent nothing to 0/2 on link 5 since it started in line 24"),
    ("a-host-stops-and-starts", 27, "Host 0/2 is up already, since line 16"),
    ("a-host-stops-and-starts", 28, "no host 0/3: IMP 3 has none."),
]

# an example, the change that the tour proposes, the line that is then to be seen, and what it prints
CHANGES: list[tuple[str, Callable[[list[bytes]], list[bytes]], int, list[str]]] = [
    ("first-message", lambda lines: [*lines[:12], *lines[13:], lines[12]], 17, ["out 0/1 0/2 5 8"]),
    ("a-message-given-up", lambda lines: [*lines[:23], *lines[24:], b"take 0/1"], 25, ["answer incomplete 0/1 0/2 5"]),
    ("rerouted-over-a-triangle", lambda lines: [*lines[:-1], b"enddown 1 1", lines[-1]], 28, ["in 0/1 0/2 5 8"]),
    ("a-connection-and-its-book", lambda lines: [*lines[:16], *lines[17:]], 20, ["refused NoSuchSocket"]),
]

# an example, the line of an event in it, and words of what is said of the inside
INSIDES = [
    ("first-message", 13, "That of line 11 waits for host 0/2"),
    ("no-route-is-dead-at-once", 13, "No IMP knows a route yet: put `calm 1` first."),
    ("rerouted-over-a-triangle", 25, "IMP 1 sends message 0 of flow 0/1 0/2 5 to IMP 3 on line 1."),
    ("an-rfnm-is-lost", 16, "Message 0 of flow 0/1 0/2 9 arrives at IMP 2 from IMP 1, over line 0. The message is whole and now waits for host 0/2."),
    ("an-rfnm-is-lost", 17, "IMP 1 still holds it, not acknowledged, and sends it again at `resend 1`."),
    ("an-rfnm-is-lost", 18, "It acknowledges message 0 of flow 0/1 0/2 9."),
    ("an-rfnm-is-lost", 22, "Still alive: the RFNM for message 0 of flow 0/1 0/2 9, in channel 0 of line 0 at IMP 2"),
    ("an-rfnm-is-lost", 26, "No route is left for the RFNM for message 0 of flow 0/1 0/2 9: dropped."),
    ("a-frame-is-garbled", 17, "Message 0 of flow 0/1 0/2 9 arrives at IMP 2 on line 0 from IMP 1 with a wrong checksum: it is refused, and nothing is acknowledged."),
    ("a-frame-is-garbled", 17, "IMP 1 still holds it, not acknowledged, and sends it again at `resend 1`."),
    ("harvard-tells-lies", 251, "From its next distances on, until it stops (`impdown 9`), IMP 9 announces that it is at distance 0 from every IMP."),
    ("a-repeat-is-taken-once", 18, "It came before, so it is only acknowledged again."),
    ("abandon-frees-a-slot", 15, "The message is not whole yet: a slot holds 1 of its pieces."),
    ("an-imp-comes-up-when-its-past-is-gone", 22, "IMP 2 still keeps the last numbers of flows from IMP 1 (`forget 2 1`). The next event to clear it: `forget 2 1`."),
    ("arpanet-of-december-1969", 43, "No route leads from IMP 4 to IMP 1"),
    ("a-question-overtakes-its-message", 16, "IMP 1 asks IMP 2 what became of message 0 of flow 0/1 0/2 9. IMP 1 sends the question about message 0"),
    ("a-question-overtakes-its-message", 17, "IMP 2 has not seen message 0 as a whole, and notes it as never come: from now on its packets are old here. IMP 2 sends the Never for message 0"),
    ("a-question-overtakes-its-message", 20, "Host 0/1 gets NotTaken, which is printed as `incomplete` too: the IMP of host 0/2 had never seen its message on link 9 whole, and now never will take it."),
    ("an-rfnm-is-lost-and-asked-for", 23, "Nothing of message 0 of flow 0/1 0/2 9 is left in the network, and IMP 1 gives it up."),
    ("an-rfnm-is-lost-and-asked-for", 24, "Host 0/1 gets Incomplete: its message to host 0/2 on link 9 was given up, taken or not."),
    ("an-rfnm-is-lost-and-asked-for", 33, "Host 0/1 gets RFNM (ready for next message): host 0/2 took its message"),
    ("a-question-about-a-message-that-waits", 18, "Message 0 waits there for host 0/2. No answer goes back."),
    ("a-question-after-a-restart", 26, "Still alive: the question about message 0 of flow 0/1 0/2 9, in channel 0 of line 0 at IMP 1"),
    ("a-question-after-a-restart", 33, "Message 0 of flow 0/1 0/2 9 is outstanding. The next event to clear it: `giveup 0/1 0/2 9`."),
    ("a-question-after-a-restart", 43, "IMP 2 sends the Never for message 1"),
    ("a-question-after-a-restart", 44, "had never seen its message on link 9 whole, and now never will take it"),
]

# scripts over two IMPs with a host each, whose last event delivers a packet with the channel's other bit, and what has become of it
REPEAT, LOST = "It came before, so it is only acknowledged again.", "it is LOST"
THROWN_AWAY = [
    ("it arrives twice", REPEAT, ["calm 2", "out 0/1 0/2 5 8 41", "deliver 0 + 0", "deliver 0 + 0"]),
    ("one end was reset", LOST, ["calm 2", "out 0/1 0/2 5 8 41", "calm 4", "enddown 1 0", "endup 1 0", "calm 2", "out 0/1 0/2 5 8 42", "deliver 0 + 0"]),
    (
        "its IMP started anew",
        LOST,
        ["calm 2", "out 0/1 0/2 5 8 41", "calm 6", "impdown 2", "forget 1 2", "calm 2", "impup 2", "hostup 0/2", "calm 5", "out 0/1 0/2 5 8 42", "deliver 0 + 0"],
    ),
    (
        "it was accepted before the end was reset",
        REPEAT,
        ["calm 2", "out 0/1 0/2 5 8 41", "deliver 0 + 0", "deliver 0 - 0", "take 0/2", "enddown 1 0", "enddown 2 0", "endup 1 0", "endup 2 0"]
        + ["route 2", "deliver 0 - 2", "out 0/1 0/2 6 8 42", "deliver 0 + 1", "deliver 0 + 0"],
    ),
    (
        "its source's IMP started anew, and counts its messages from 0 again",
        LOST,
        ["calm 2", "out 0/1 0/2 5 8 41", "calm 6", "impdown 1", "forget 2 1", "impup 1", "hostup 0/1", "calm 2", "out 0/1 0/2 5 8 41", "deliver 0 + 0"],
    ),
]

# charts of an example: an arrow or a note that is drawn in it, and whether with --short
DRAWN = [
    ("a-question-overtakes-its-message", False, "network-->>h0_1: NotTaken, the message to 0/2 had not come, link 9"),
    ("a-question-overtakes-its-message", True, "Note over h0_1: NotTaken, the message to 0/2 had not come, link 9"),
    ("an-rfnm-is-lost-and-asked-for", False, "network-->>h0_1: Incomplete, the message to 0/2 was given up, link 9"),
    ("an-rfnm-is-lost-and-asked-for", False, "network-->>h0_1: RFNM, 0/2 took the message, link 9"),
]

# the link and the octets of a text, and what it says
TEXTS = [
    (0, "00080001000C", "RST"),
    (0, "00080001000D", "RRP"),
    (0, "0008000A0001000000100000002105", "RTS 16 from 33 on link 5"),
    (0, "0008000A0002000000210000001008", "STR 33 to 16, bytes of 8 bits"),
    (0, "0008000900030000001000000021", "CLS 16 33"),
    (0, "0008000800040500020000" + "0064", "ALL 2 messages, 100 bits on link 5"),
    (0, "000800040005054080", "GVB 64/128 of the messages, 128/128 of the bits on link 5"),
    (0, "0008000800060500010000" + "0001", "RET 1 message, 1 bit on link 5"),
    (0, "00080005000705" + "0805" + "00", "INR on link 5, INS on link 5, NOP"),
    (0, "0008000400" + "0907" + "0A07", "ECO 7, ERP 7"),
    (0, "0008000C00" + "0B04" + "0300000010000000" + "2100", "ERR 4 (no such socket), quoting CLS 16 33"),
    (0, "0008000C00" + "0B01" + "0E" + "00" * 9, "ERR 1 (illegal code), quoting 0E000000000000000000"),
    (0, "0008000200" + "0C0E", "RST, code 14, which no command has"),
    (0, "0008000200" + "0101", "RTS cut off after 2 octets"),
    (0, "0008000A00" + "01" + "00000011" + "00000022" + "01", "RTS 17 from 34 on link 1 (erroneous: 17 is a send socket; 34 is a receive socket; link 1 is never connected)"),
    (0, "0007000100" + "0C", "malformed: commands in bytes of 7 bits, and they have to be of 8"),
    (0, "0008007900" + "00" * 121, "malformed: 121 octets of commands, and there may be 120"),
    (0, "00080000", "malformed: 32 bits, fewer than the 40 of a header"),
    (2, "0008000700" + "48454C4C4F0D0A", "7 bytes of 8 bits: “HELLO\\r\\n”"),
    (2, "0020000100" + "00000064", "1 byte of 32 bits: 00000064"),
    (2, "0008000500" + "4142", "malformed: its header announces 5 bytes of 8 bits, and 16 bits follow"),
    (2, "0008000000", "0 bytes of 8 bits"),
]

# the example whose dialogue is explained line by line
DIALOGUE = "from-a-terminal-to-a-server"

# a script of two hosts at one IMP over plain mailboxes, or of two IMPs with a line, and what is said to wait at its last calm
STALLS: list[tuple[str, list[str], str | None]] = [
    ("plain", ["send 1/1 33 8 41", "calm 5"], "8 bits on socket 33 of host 1/1, host 1/1's program; 0 messages and 0 bits are left of the grant, for a grant of host 0/1 (`grant 0/1 16 1 8`)"),
    ("plain", ["grant 0/1 16 1 4", "send 1/1 33 8 41", "calm 5"], "1 message and 4 bits are left of the grant"),
    ("plain", ["grant 0/1 16 1 8", "send 1/1 33 8 41", "calm 5"], None),
    ("raw", ["out 0/1 0/2 5 8 41", "drop 0 + 0", "impdown 2", "enddown 1 0", "calm 9"], "message 0 of flow 0/1 0/2 5: nothing of it is alive: ask, or give it up (`giveup 0/1 0/2 5`)"),
    ("raw", ["impdown 2", "out 0/1 0/2 5 8 41", "calm 9"], "IMP 2 is down, and its neighbours don't see it, for its neighbours' ends of its lines to go down (`enddown 1 0`)"),
    ("raw", ["out 0/1 0/2 5 8 41", "calm 9"], None),
    ("raw", ["calm 9"], None),
]
READY_PAIR = 'carrier = "plain"\n[[imp]]\nid = 1\nhosts = 2\n%\ncontact 0/1 1/1\ncalm 3\n'
PLAIN_PAIR = f"{READY_PAIR}listen 1/1 33 8\nopenrecv 0/1 1/1 16 33\ncalm 2\n"
RAW_PAIR = "raw = true\n[[imp]]\nid = 1\nhosts = 1\n[[imp]]\nid = 2\nhosts = 1\n[[line]]\na = 1\nb = 2\n%\ncalm 1\n"

# scripts of two ready hosts at one IMP over plain mailboxes, whose last event is refused as NotOpen, and words of the cause
NOT_OPEN: list[tuple[list[str], str]] = [
    (["type 0/1 HELLO"], "No user on this host has come to a terminal"),
    (["openrecv 0/1 1/1 16 33", "grant 0/1 16 1 8"], "the request of host 0/1 for it hasn't gone out"),
    (["listen 0/1 33 8", "openrecv 1/1 0/1 16 33", "grant 1/1 16 1 8"], "the request of host 1/1 for it hasn't gone out"),
    (["listen 1/1 33 8", "openrecv 0/1 1/1 16 33", "offer 0/1", "grant 0/1 16 1 8"], "the request of host 1/1 for it hasn't come"),
    (["openrecv 0/1 1/1 16 33", "offer 0/1", "take 1/1", "grant 0/1 16 1 8"], "host 1/1 refuses it, as nobody listened on its socket 33"),
    (["openrecv 0/1 1/1 16 33", "close 0/1 16", "grant 0/1 16 1 8"], "a CLS of host 0/1 is queued or out"),
    (["listen 1/1 33 8", "openrecv 0/1 1/1 16 33", "calm 2", "close 0/1 16", "grant 0/1 16 1 8"], "a CLS of host 0/1 is queued or out"),
    (["listen 1/1 33 8", "openrecv 0/1 1/1 16 33", "calm 2", "close 1/1 33", "offer 1/1", "take 0/1", "grant 0/1 16 1 8"], "the CLS of host 1/1 has come"),
]
