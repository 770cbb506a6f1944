"""What ./explain has to say of inputs and logs that are refused, written by hand, each with words of the cause that is meant."""

from __future__ import annotations

from dorydate.program import MOST_OCTETS

# a script line, and words of the cause that is meant
BAD_LINES = [
    (b"jump", "`jump` is not an event"),
    (b"tak 0/1", "Is `take` meant?"),
    (b"Take 0/1", "Is `take` meant?"),
    (b"cut 3", "`cut` is not an event of this network. A line is cut by `enddown I L` at both of its IMPs."),
    (b"mend 0", "mended by `endup I L`"),
    (b"crash 1", "An IMP stops by `impdown I`, and a host by `hostdown H`."),
    (b"receive 0/1", "A host takes what its IMP has for it by `take H`."),
    (b"connect 0/1 0/2", "this network has `raw = true`"),
    (b"%", "A second one is not an event"),
    (b"take 0/1\r", "carriage return"),
    (b"take\t0/1", "not printable ASCII"),
    (b"take  0/1", "single spaces"),
    (b"take 0/1 ", "single spaces"),
    (b" ", "single spaces"),
    (b"take", "needs 1 word after it: take H. This line has 0"),
    (b"out 0/1 0/2 5 0", "needs 5 words after it: out S D N BITS OCTETS. This line has 4"),
    (b"take 1", "`1` is not a host"),
    (b"take 4/1", "out of range: the host's number is 0 to 3"),
    (b"take 0/64", "out of range: the IMP's number is 1 to 63"),
    (b"take 0/0", "out of range: the IMP's number is 1 to 63"),
    (b"take 00/1", "without a sign and without leading zeros"),
    (b"giveup 0/1 0/2 256", "out of range: the link is 0 to 255"),
    (b"giveup 0/1 0/2 +1", "without a sign and without leading zeros"),
    (b"ask 0/1 0/2", "needs 3 words after it: ask S D N. This line has 2"),
    (b"ask 0/1 2", "needs 3 words after it: ask S D N. This line has 2"),
    (b"ask 0/1 0/64 5", "out of range: the IMP's number is 1 to 63"),
    (b"giveup 0/1 0/2 4294967301", "out of range: the link is 0 to 255"),
    (b"out 0/1 0/2 5 8064 " + b"FF" * 1008, "out of range: the number of bits is 0 to 8063"),
    (b"out 0/1 0/2 5 0 00", "A text of no bits is written `0 -`"),
    (b"out 0/1 0/2 5 8 -", "`-` is for no octets, but 8 bits are asked for"),
    (b"out 0/1 0/2 5 8 ff", "lower-case letters are not accepted"),
    (b"out 0/1 0/2 5 8 FFF", "8 bits fill 1 octet, which are 2 hexadecimal digits. This line has 3"),
    (b"out 0/1 0/2 5 24 4142", "24 bits fill 3 octets, which are 6 hexadecimal digits. This line has 4"),
    (b"out 0/1 0/2 5 16 FF", "16 bits fill 2 octets, which are 4 hexadecimal digits. This line has 2"),
    (b"out 0/1 0/2 5 8 FFFF", "8 bits fill 1 octet, which are 2 hexadecimal digits. This line has 4"),
    (b"out 0/1 0/2 5 8 FG", "hexadecimal digits, 0 to 9 and A to F"),
    (b"out 0/1 0/2 5 08 FF", "without a sign and without leading zeros"),
    (b"out 0/1 0/2 256 0 -", "out of range: the link is 0 to 255"),
    (b"impdown 64", "out of range: the IMP's number is 1 to 63"),
    (b"resend", "needs 1 word after it: resend I. This line has 0"),
    (b"enddown 1 4294967296", "out of range: the line's number is 0 to 4294967295"),
    (b"deliver 0 * 0", "`*` is not a direction"),
    (b"drop 0 - 01", "without a sign and without leading zeros"),
    (b"forget 1 0", "out of range: the IMP's number is 1 to 63"),
    (b"abandon 0/1 0/64 5", "out of range: the IMP's number is 1 to 63"),
    (b"calm", "needs 1 word after it: calm ROUNDS. This line has 0"),
    (b"calm 01", "without a sign and without leading zeros"),
    (b"calm 4294967296", "out of range: the number of rounds is 0 to 4294967295"),
    (b"offer 0/1", "`offer` is an event of networks with host programs"),
    (b"calm 2 # settle", "A comment has a line of its own, with `#` as its first character: put `# settle` on the line before."),
    (b"take 0/1 #x", "A comment has a line of its own"),
    (b'out 0/1 0/2 5 24 "ABC"', '"ABC" is `24 414243`'),
    (b'out 0/1 0/2 5 "A B"', '"A B" is `24 412042`'),
    (b'out 0/1 0/2 5 0 ""', '"" is `0 -`'),
    (b"out 0/1 0/2 5 8 0xfF", "hexadecimal digits without `0x`: `FF`"),
    (b"out 1/0 2/0 5 0 -", "the IMP's number is 1 to 63. Is `0/1` meant?"),
    (b"take 63/0", "Is `0/63` meant?"),
    (b"out 0/1 0/2 5 7 FF", "A text of 7 bits has 1 bit of its last octet unused: zero is needed there."),
    (b"out 0/1 0/2 5 1 FF", "A text of 1 bit has 7 bits of its last octet unused: zero is needed there."),
]

# what a terminal's user may get wrong
BAD_LINES_OF_WORLDS = [
    (b"cut 3", "A line is cut by `enddown I L` at both of its IMPs."),
    (b"receive 0/1 16", "A host listens by `listen H SOCKET SIZE`"),
    (b"connect 0/1 0/2", "Two hosts begin by `contact H P`"),
    (b"say 0/1 hello", "types at a terminal by `type H TEXT`"),
    (b"type 0/1", "An empty line is typed by `type 0/1 `, with one space after the host"),
    (b'send 0/1 33 24 "ABC"', '"ABC" is `24 414243`'),
    (b"contact 0/1 0/2 # first", "A comment has a line of its own"),
]

TOO_LONG = f"at most {MOST_OCTETS} octets are read"  # of an input that has one more

GOOD = b'carrier = "plain"\nraw = true\n[[imp]]\nid = 1\nhosts = 1\n'
NAMED = b'carrier = "plain"\n[[imp]]\nid = 1\nhosts = 2\n'
# what is before the script, and words of the cause that is meant
BAD_TOPOLOGIES = [
    (GOOD, "No line is exactly `%`"),
    (GOOD + b"% \n", "Line 6 of the file:\n  % \nNo line is exactly `%`"),
    (GOOD + b"%\r\n", "It ends in a carriage return"),
    (GOOD + b"# \xff\n%\n", "Line 6 of the file:\n  # \\xff\nThe topology is not UTF-8"),
    (GOOD + b"imp\n%\n", "Line 6 of the file:\n  imp\nThe topology is not a TOML document"),
    (b" \n", "The input is empty"),
    (GOOD.decode().encode("utf-16"), "The file is UTF-16"),
    (GOOD + b"take 0/1\n", "Line 6 of the file:\n  take 0/1\nNo line is exactly `%`, which separates the topology from the script. Does the script begin here?"),
    (b"carier" + GOOD[7:] + b"%\n", "Line 1 of the file:\n  carier = \"plain\"\nThere is no key `carier`"),
    (b'carrier = "plain"\nraw = true\n%\n', "1 to 63 IMPs"),
    (b'carrier = "plain"\nraw = true\nimps = 3\n%\n', "Line 3 of the file:\n  imps = 3\nThere is no key `imps`"),
    (GOOD + b"[[imp]]\nid = 1\nhosts = 1\n%\n", "Line 6 of the file:\n  [[imp]]\nTwo IMPs have the `id` 1"),
    (b'carrier = "plain"\nraw = "true"\n[[imp]]\nid = 1\nhosts = 1\n%\n', "Line 2 of the file:\n  raw = \"true\"\n`raw` is `true` or `false`"),
    (GOOD + b"[[imp]]\nid = 2\n%\n", "exactly the keys id and hosts; here it has id"),
    (GOOD + b"[[imp]]\nid = 2\nhosts = 5\n%\n", "Line 8 of the file:\n  hosts = 5\n`hosts` of `[[imp]]` is a whole number from 0 to 4"),
    (GOOD + b"[[imp]]\nid = 2\nhosts = true\n%\n", "whole number from 0 to 4"),
    (GOOD + b"[[line]]\na = 1\nb = 2\n%\n", "Line 6 of the file:\n  [[line]]\nThe line from 1 to 2 does not join"),
    (GOOD + b"[[imp]]\nid = 2\nhosts = 1\n[[line]]\na = 1\nb = 2\n[[line]]\na = 2\nb = 1\n%\n", "Two lines join"),
    (GOOD + b"[[imp]]\nid = 2\nhosts = 1\n[[line]]\na = 1\nb = 2\n[[line]]\na = 1\nb = 2\n%\n", "Two lines join"),
    (GOOD + b"[[imp]]\nid = 2\nhosts = 1\n[[line]]\na = 1\nb = 2\nc = 1\n%\n", "exactly the keys a and b; here it has a, b, c"),
    (GOOD + b"[[line]]\na = 1\nb = 1\n%\n", "from 1 to 1 does not join"),
    (GOOD + b"[[imp]]\nid = 0\nhosts = 1\n%\n", "whole number from 1 to 63"),
    (GOOD + b"[[imp]]\nid = 64\nhosts = 1\n%\n", "whole number from 1 to 63"),
    (GOOD + b"[[imp]]\nid = 257\nhosts = 1\n%\n", "whole number from 1 to 63"),
    (GOOD + b"[[imp]]\nid = -1\nhosts = 1\n%\n", "whole number from 1 to 63"),
    (GOOD + b"[[imp]]\nid = 2.0\nhosts = 1\n%\n", "whole number from 1 to 63"),
    (GOOD + b"[[imp]]\nid = 2\nhosts = 1\nlines = 1\n%\n", "exactly the keys id and hosts"),
    (b'carrier = "plain"\nraw = true\nimp = []\n%\n', "1 to 63 IMPs"),
    (b'carrier = "Plain"\nraw = true\n[[imp]]\nid = 1\nhosts = 1\n%\n', "There are two carriers"),
    (GOOD + b"".join(b"[[imp]]\nid = %d\nhosts = 1\n[[line]]\na = 1\nb = %d\n" % (it, it) for it in range(2, 8)) + b"%\n", "more than five lines"),
    (b'carrier = "plain"\n[[imp]]\nid = 1\nhosts = 1\nraw = true\n%\n', "Line 5 of the file:\n  raw = true\n`raw` comes after `[[imp]]`, so it is a key of that table. Put it before the first `[[`."),
    (GOOD + b"imp = " + b"[" * 10_000 + b"\n%\n", "brackets within brackets, hundreds deep"),
    (GOOD + b"a." * 100_000 + b"a = 1\n%\n", "It has more than 100 dots"),
    (GOOD + b"x = " + b"7" * 5_000 + b"\n%\n", "It has a number of 1000 digits or more"),
    (GOOD + b"[[imp]]\nid = 2\nhosts = 1\n" + b"[[line]]\na = 1\nb = 2\n" * 30_000 + b"%\n", "Line 12 of the file:\n  [[line]]\nTwo lines join the IMPs 1 and 2."),
    (b"out 0/1 0/2 5 8 FF\nin 0/1 0/2 5 8 FF\nend\n", "This is a log and not an input. `./explain --audit < FILE`"),
    (b"down 0/1\nend\n", "This is a log and not an input."),
    (
        NAMED + b"foreign = [2]\n%\n",
        "Line 5 of the file:\n  foreign = [2]\n`foreign` of IMP 1 names a host that it hasn't: it has 2, numbered from 0.",
    ),
    (NAMED + b"foreign = [1, 1]\n%\n", "`foreign` of IMP 1 names a host twice."),
    (NAMED + b"foreign = [1, 0]\n%\n", "`foreign` of IMP 1 is by rising number."),
    (NAMED + b"foreign = 1\n%\n", "`foreign` is a list of whole numbers"),
    (
        GOOD + b"foreign = [0]\n%\n",
        "Line 6 of the file:\n  foreign = [0]\nIn a network with `raw = true` no host runs a program",
    ),
]

# the line of logs/two-octets that is changed (0 for one put before its first), what is there then, and words of the cause
BAD_LOG_LINES = [
    (3, b"answer RFNM 0/1 0/2 0", "`RFNM` is none of rfnm, dead, incomplete, nottaken. Is `rfnm` meant? The form is `answer rfnm|dead|incomplete|nottaken S D N`."),
    (10, b"out 0/2 0/1 5 56 0008000200484", "56 bits fill 7 octets, which are 14 hexadecimal digits. This line has 13, for 52 bits. The form is `out S D N BITS OCTETS`."),
    (10, b"out 0/2 0/1 5 56 00080002004849\r", "carriage return at its end"),
    (1, b"# my network", "A log has no comments"),
    (1, b"# my network\nraw = true\n%", "This is an input and not a log, since a line is `%`. `./arpasim --log < FILE` prints the log of its replay."),
    (1, b"", "A log has no empty lines"),
    (
        1,
        b"OUT 0/1 0/2 0 0 -",
        "begins no line of a log. They begin with foreign, out, in, answer, down, up, life, handed, end, in lower case. "
        "Is `out` meant?",
    ),
    (1, b"out 0/1 0/2 0 0", "It has 4 words after `out`, and 5 are needed"),
    (1, b"out 0/1  0/2 0 0 -", "single spaces"),
    (1, b"in 0/1 0/2 0 8 ff", "lower-case letters are not accepted"),
    (1, b"in 0/1 0/2 256 0 -", "out of range: the link is 0 to 255"),
    (1, b"in 0/1 0/2 5 8064 " + b"FF" * 1008, "the number of bits is 0 to 8063"),
    (1, b"down 0/64", "the IMP's number is 1 to 63. The form is `down H`."),
    (1, b"up\t0/1", "not printable ASCII"),
    (13, b"life 0/1 16 0/2 33 0 4 receive 1 16 1 100 0 0 OPEN 4849", "`OPEN` is none of open, closed, ended, reset, stopped. Is `open` meant?"),
    (13, b"life 0/1 16 0/2 33 0 4 receive 1 016 1 100 0 0 open 4849", "`016` can't be read as a number"),
    (13, b"life 0/1 16 0/2 33 0 4 send 1 16 1 100 0 0 open 4849", "Socket 16 is even and receives"),
    (13, b"life 0/1 4294967296 0/2 33 0 4 receive 1 16 1 100 0 0 open 4849", "out of range: the socket is 0 to 4294967295"),
    (13, b"life 0/1 16 0/2 33 18446744073709551616 4 receive 1 16 1 100 0 0 open 4849", "it is a number of 64 bits"),
    (13, b"life 0/1 16 0/2 33 0 4 receive 1 16 1 100 0 0 close 4849", "`close` is none of open, closed, ended, reset, stopped. Is `closed` meant?"),
    (1, b"foreign 0/64", "the IMP's number is 1 to 63. The form is `foreign H`."),
    (1, b"foreign 0/1 0/2", "It has 2 words after `foreign`, and 1 is needed. The form is `foreign H`."),
    (1, b"Foreign 0/1", "Is `foreign` meant?"),
    (
        2,
        b"foreign 0/2",
        "It is one of the strangers, and follows crossings. A log has all crossings first, then all lives, then a `handed` "
        "for each life, then `end`. Before all of them",
    ),
    (14, b"up 0/1", "It is one of the crossings, and follows lives"),
    (16, b"handed 24 48", "24 bits fill 3 octets"),
    (16, b"end", "It follows `end`, and nothing may."),
    (17, b"end of it", "It has 2 words after `end`, and 0 are needed. The form is `end`."),
]
# ends of that log, in place of its own, and words of the cause
BAD_LOG_ENDS = [(b"", "Its last line has to be `end`"), (b"end", "It isn't ended by a line feed"), (b"end\nend\n", "It follows `end`")]
FATES_13, FATES_14 = "broken fates line 13", "broken fates line 14"
SAFE_13, SAFE_14 = f"{FATES_13}\nsafe", f"{FATES_14}\nsafe"
RST = b"out 0/1 0/2 0 48 00080001000C"
DROPPED = [  # crossings that drop connections, and words of the cause
    (12, b"rfnm", b"incomplete", "0/2 dropped its connections with 0/1 in line 12, where a message of its host failed."),
    (12, b"1 5", b"1 5\n" + RST, "0/1 dropped its connections with 0/2 in line 13, where RST went out."),
]


def contacted(one: str, other: str) -> list[tuple[int, bytes, bytes, str, str]]:
    """A second life of the first one's host and peer, the two with these fates, of which one is `reset`."""
    more = f"{one} 4849\nlife 0/1 16 0/2 33 0 4 receive 0 0 1 100 0 0 {other} -".encode()
    words = f"Line 13 says `{one}`, and this one `{other}`. Both are lives of 0/1 with 0/2"
    return [(13, b"open 4849", more, f"malformed line 15\n{FATES_14}", words)]


TOOK = b"life 0/1 16 0/2 33 0 4 receive 1 16 1 100 0 0 open 4849"


def stopped(one: str, other: str, which: str, rest: str) -> list[tuple[int, bytes, bytes, str, str]]:
    """Their host stops, and of the two lives one is `reset`."""
    second = TOOK.replace(b"1 16 1 100 0 0 open 4849", f"0 0 1 100 0 0 {other} -".encode())
    lives = TOOK.replace(b"open", one.encode()), second
    words = f"Nothing that crossed has reset {which}, so a contact did before 0/1 stopped in line 13."
    spared = f"So {rest} is `reset`, too: it wasn't over before line 13."
    verdict = "malformed line 16\nbroken fates line 15"
    return [(13, TOOK, b"down 0/1\n" + b"\n".join(lives), verdict, it) for it in (words, spared)]


BrokenLog = tuple[int, bytes, bytes, str, str]
# what is changed in a line of that log, the verdict, and words of what is said of the two lines
BROKEN_LOGS: list[BrokenLog] = [
    (13, b"4849", b"4848", "broken lives line 13\nbroken streams lines 13 14", "Line 13 took what line 14 didn't send: at octet 2 what was taken has 48, and what was sent has 49."),
    (16, b"24 484950", b"8 48", "broken streams line 14", "what wasn't handed over in line 16: what was sent has 16 bits, and what was handed over has 8."),
    (14, b"0/1 16 3", b"0/1 18 3", "broken lives line 14\nbroken streams line 13\nbroken sent line 13", "It took 16 bits, and no life matches it. That would be one of host 0/2, socket 33"),
    (13, b"100", b"15", "broken grants lines 13 14", "at most 1 with 15 bits may pass. But line 13 took 1 message with 16 bits and line 14 sent 1 message with 16 bits."),
    (8, b"0405000100000064", b"040500010000000F", "broken run line 8\nbroken messages line 8\nbroken grants line 14", "It sent 1 message and 16 bits, more than the 1 message and 15 bits that the ALLs which its host took grant on link 5."),
    (13, b"0 0 open", b"0 85 open", "broken grants lines 13 14", "had 0 and 85 back: at most 1 with 15 bits may pass"),
    (13, b"open", b"ended", "broken closes lines 13 14\n" + SAFE_13, "all that was handed over in line 16, but octet 3 of what was handed over, 50, was not taken: what was taken has 16 bits, and what was handed over has 24."),
    (13, b"1 16 1 100 0 0 open 4849", b"1 8 1 100 0 0 ended 48", "broken lives line 13\nbroken closes lines 13 14\n" + FATES_13, "all that line 14 sent, but octet 2 of what was sent, 49, was not taken: what was taken has 8 bits, and what was sent has 16."),
    (13, b"0 0 open 4849", b"0 0 ended 4841", "broken lives line 13\nbroken streams lines 13 14\nbroken closes lines 13 14\n" + FATES_13, "So it took all that line 14 sent, but at octet 2 what was taken has 41, and what was sent has 49."),
    (13, b"receive 1 16 1 100 0 0 open", b"receive 0 16 1 100 0 0 ended", "broken lives line 13\nbroken closes lines 13 14\n" + FATES_13, "all that line 14 sent, but it counts 0 messages, and line 14 1."),
    (13, b"33 0 4", b"33 0 3", "broken lives line 13\nmalformed line 13", "Its PARTNER is 3, and at place 3 (line 4) is `out 0/2 0/1 0`."),
    (13, b"33 0 4", b"33 99 4", "broken lives line 13\nmalformed line 13", "Its OWN is 99, and the log has 12 crossings only."),
    (16, b"handed 24 484950\n", b"", "malformed line 14", "There are 2 lives and 1 list of what was handed over: this life has none."),
    (11, b"49\n", b"48\n", "broken run line 11\nbroken lives line 13\nbroken messages line 11", "It isn't what went out in line 10: at octet 7 what was taken has 48, and what went out has 49."),
    (11, b"49\n", b"48\n", "broken run line 11\nbroken lives line 13\nbroken messages line 11", "Another text waits on the flow 0/2 0/1 5, that of line 10: at octet 7 what was taken has 48, and what went out has 49."),
    (12, b"answer", b"in 0/2 0/1 5 56 00080002004849\nanswer", "broken run line 12\nbroken messages line 12", "The message of line 10 was taken already in line 11."),
    (11, b"in 0/2 0/1 5 56 00080002004849\n", b"", "broken run line 11\nbroken lives line 12\nbroken messages line 11", "The last message of the flow 0/2 0/1 5 went out in line 10, and no line since then says that it was taken"),
    (11, b"0/1 5", b"0/1 6", "broken run line 11\nbroken lives line 13\nbroken messages line 11", "No message of the flow 0/2 0/1 6 went out before it."),
    (12, b"rfnm", b"dead", "broken run line 12\n" + FATES_14, "The message of line 10, of the flow 0/2 0/1 5, was taken already, in line 11."),
    (12, b"rfnm 0/2 0/1 5", b"dead 0/2 0/1 6", "broken run line 12\n" + FATES_14, "No message of the flow 0/2 0/1 6 is outstanding."),
    (11, b"in 0/2 0/1 5 56 00080002004849", b"out 0/2 0/1 5 0 -", "broken run line 11\nbroken lives line 13\nbroken messages line 12", "The last message of the flow 0/2 0/1 5, in line 10, has no answer yet, and one may be outstanding."),
    (12, b"answer rfnm 0/2 0/1 5", b"up 0/1", "broken run line 12", "Host 0/1 is up already."),
    (10, b"out", b"down 0/2\nout", "broken run line 11\nbroken lives line 15\nbroken fates line 15", "Host 0/2 is down."),
    (10, b"out", b"down 0/2\nout", "broken run line 11\nbroken lives line 15", "It counts none that crossed after that."),
    # fates
    *((line, old, new, SAFE_14, f"It says `open`, but {why} It would be `reset`.") for line, old, new, why in DROPPED),
    (13, b"open", b"closed", SAFE_13, "no CLS of socket 16 with socket 33 went out and no CLS of socket 33 with"),
    (14, b"open", b"stopped", SAFE_14, "It says `stopped`, but its host, 0/2, hasn't stopped since it began."),
    (12, b"answer", b"down 0/2\nanswer", "broken run line 13\nbroken fates line 15", "0/2, stopped in line 12. It would"),
    *contacted("open", "reset"),
    *contacted("reset", "open"),
    *stopped("reset", "stopped", "line 14", "this one"),
    *stopped("stopped", "reset", "this one", "line 14"),
    (13, b"open", b"closed", SAFE_13, "2 lives made of them. Only how lives end is otherwise than this program promises."),
    (14, b"3 1 send", b"3 1 send", "kept", "The book is safe: 12 crossings, a run of the mailboxes, and 2 lives made of them."),
    # lives of the messages that crossed
    (14, b"send 1", b"send 2", "broken lives line 14\nbroken grants lines 13 14", "It isn't made of the messages that crossed: it counts 2 messages, and after its requests 1 went out on 0/2 0/1 5."),
    (13, b"4849", b"4848", "broken lives line 13\nbroken streams lines 13 14", "at octet 2 what it says has 48, and what came in on 0/2 0/1 5 has 49. That is in line 11, octet 2 of its data."),
    (2, b"2105", b"2305", "broken run line 2\nbroken lives line 14\nbroken messages line 2", "no RTS of socket 16 with socket 33 is in the `in 0/1 0/2 0` at its PARTNER."),
    (13, b"33 0 4", b"33 0 3", "broken lives line 13\nmalformed line 13", "no STR of socket 33 with socket 16 is at its PARTNER: at place 3 (line 4) is `out 0/2 0/1 0`."),
]

# the same of logs/beside-a-stranger, whose line 1 says that 0/3 is a stranger
TAKES = b"life 0/1 18 0/3 35 12 1 receive"  # of the life with 0/3
ITS = b"life 0/3 35 0/1 18 0 13 send"  # of what 0/3's own would be
OTHER_TEXT = "broken run line 18\nbroken messages line 18"
BROKEN_BESIDE: list[BrokenLog] = [
    (
        2,
        b"out",
        b"out",
        "kept",
        "a run of the mailboxes, and 2 lives made of them, between hosts that run the program. "
        "2 lives with a stranger (0/3) took no more than was granted, and sent what was handed over.",
    ),
    (
        30,
        b"1 8 1 8",
        b"1 8 1 7",
        "broken toward line 30",
        "Its peer 0/3 is a stranger, by line 1. Line 30 granted 1 message and 7 bits, and had 0 and 0 back: "
        "at most 1 with 7 bits may pass. But line 30 took 1 message with 8 bits.",
    ),
    (30, b"1 8 0 0", b"1 8 1 0", "broken toward line 30", "had 1 and 0 back: at most 0 with 8 bits may pass."),
    (
        36,
        b"5253",
        b"5353",
        "broken toward line 32",
        "It sent what wasn't handed over in line 36: at octet 1 what was sent has 52, and what was handed over has 53.",
    ),
    (36, b"16 5253", b"0 -", "broken toward line 32", "what was sent has 8 bits, and what was handed over has 0."),
    (30, TAKES, ITS, "broken toward line 30", "Host 0/3 is a stranger, by line 1: it runs no program of these, so nobody"),
    (
        30,
        b"12 1",
        b"11 1",
        "malformed line 30",
        "at place 11 (line 13) is `answer rfnm 0/2 0/1 5`. It has to be the place of an `out 0/1 0/3 0`, the message with "
        "this end's own request. (Line 2 is place 0.)",
    ),
    # lines are those of the file
    (18, b"0051", b"0050", OTHER_TEXT, "Another text waits on the flow 0/3 0/1 6, that of line 17"),
    (18, b"0051", b"0050", OTHER_TEXT, "It isn't what went out in line 17"),
    (29, b"4849", b"4848", "broken lives line 29\nbroken streams lines 29 31", "That is in line 12, octet 2 of its"),
    (28, b"7\n", b"7\ndown 0/2\n", "broken fates line 32\nsafe", "It says `open`, but its host, 0/2, stopped in line 29."),
    (35, b"24 484950", b"8 48", "broken streams line 31", "It sent what wasn't handed over in line 35"),
]
