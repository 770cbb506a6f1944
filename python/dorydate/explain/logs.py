"""What `./explain --audit < LOG` adds to the verdict: what is wrong with a bad line, and which two lines of a broken book disagree.

A bad line is checked against the forms of docs/program.md. A broken part is worked out from the log once more, by the independent
reader of logs, and the first place at which its two lines differ is named.
"""

from __future__ import annotations

import difflib
import re
from collections.abc import Callable

from dorydate.model import fates, firsts
from dorydate.model.audit import is_passed, last_out, match, own_request, partner_request
from dorydate.model.bits import Bits
from dorydate.model.bits import octets as octets_of
from dorydate.model.book import Life
from dorydate.model.crossings import Answered, Passed, Turned
from dorydate.model.fates import Deed, Over
from dorydate.model.firsts import Data
from dorydate.model.names import Flow, HostName, spell_flow, spell_host
from dorydate.model.log import BadLog, Book, read_log
from dorydate.model.mailboxes import Holds, Mailboxes, hosts_of
from dorydate.explain.book import granted, partners, sent as which_was_sent
from dorydate.explain.faults import wrong_with_text, wrong_with_word
from dorydate.given import shown
from dorydate.where import here

FORMS = {
    "foreign": "H",
    "out": "S D N BITS OCTETS",
    "in": "S D N BITS OCTETS",
    "answer": "ANSWER S D N",
    "down": "H",
    "up": "H",
    "life": "H SOCKET P FOREIGN PLACE PLACE KIND AMOUNT LENGTH AMOUNT AMOUNT AMOUNT AMOUNT FATE OCTETS",
    "handed": "LENGTH OCTETS",
    "end": "",
}
WRITTEN = {  # how a form is shown
    "life": "HOST SOCKET PEER FOREIGN OWN PARTNER KIND MESSAGES BITS GM GB RM RB FATE OCTETS",
    "handed": "BITS OCTETS",
    "answer": "rfnm|dead|incomplete|nottaken S D N",
}
WORDS = {"ANSWER": ["rfnm", "dead", "incomplete", "nottaken"], "KIND": ["send", "receive"], "FATE": ["open", "closed", "ended", "reset", "stopped"]}
BITS_OF = {"PLACE": 64, "LENGTH": 64, "AMOUNT": 128}
# a log's lines, in this order
PARTS = [("foreign",), ("out", "in", "answer", "down", "up"), ("life",), ("handed",), ("end",)]
NO_CAUSE = "No cause was found. docs/program.md has the forms of a log's lines."
NAMES = ["strangers", "crossings", "lives", "what was handed over", "the end"]
END = len(PARTS) - 1


def explained(octets: bytes, verdict: str) -> str:
    """Why the program says this of a log."""
    if found := re.fullmatch(r"bad log line (\d+)", verdict):
        return why_bad(octets, int(found[1]))
    try:
        book = read_log(octets)
    except BadLog as line:
        return f"The independent reader in Python finds line {line} bad. No cause was found."
    return "\n".join(part for line in verdict.splitlines() for part in explained_line(octets, book, line))


def explained_line(octets: bytes, book: Book, verdict: str) -> list[str]:
    """The lines of the log that one line of a verdict names, and why."""
    shown_lines = [f"  {number}: {short(octets, number)}" for number in map(int, re.findall(r"\d+", verdict))]
    return [*shown_lines, why_so(book, verdict)]


def why_lives(book: Book, numbers: list[int]) -> str:
    """Why a life isn't made of the messages that crossed."""
    log, life = book.log, life_at(book, numbers[0])
    requests = [("OWN", life.own, "out", Flow(life.host, life.peer, 0), life.socket, life.foreign), ("PARTNER", life.partner, "in", Flow(life.peer, life.host, 0), life.foreign, life.socket)]
    for word, place, kind, flow, own, foreign in requests:
        if not firsts.RIGHT.named_at(log, place, kind, flow, own, foreign):
            is_there = place < len(log) and is_passed(log[place], kind, flow)
            where = f"in the `{kind} {spell_flow(flow)}` at its {word}" if is_there else f"at its {word}: {crossing_at(book, place)}"
            request = f"{'STR' if own % 2 else 'RTS'} of socket {own} with socket {foreign}"
            return f"It isn't made of the messages that crossed: no {request} is {where}."
    placed, over = firsts.placed(log, life), fates.over(log, life)
    if placed is not None and over is not None:
        late = book.crossing_line(placed.places[-1])
        why = why_over(book, life, over)
        return f"It counts the message of line {late}, but {why} It counts none that crossed after that."
    return f"It isn't made of the messages that crossed: {why_other(book, life)}"


def why_other(book: Book, life: Life) -> str:
    """Why the first messages on a life's link aren't those that it has."""
    flow = firsts.flow_of(book.log, life)
    found = firsts.messages_of(book.log, life)
    way = f"{'came in' if life.receives() else 'went out'} on {spell_flow(flow)}" if flow else "crossed"
    if len(found) < life.messages:
        return f"it counts {counted(life.messages, 'message')}, and after its requests {len(found)} {way}."
    first = [bits for _, bits in found[: life.messages]]
    malformed = next((at for at, bits in found[: life.messages] if bits is None), None)
    if malformed is not None:
        return f"what came in in line {book.crossing_line(malformed)} is shorter than its header says."
    what = difference(life.bits, "".join(bits or "" for bits in first), "what it says", f"what {way}")
    return what + where_of(book, life, found[: life.messages])


def where_of(book: Book, life: Life, messages: list[tuple[int, Data]]) -> str:
    """The line that has the octet at which what crossed isn't what a life says, and where in its data: nothing where there is none."""
    bits = "".join(bits or "" for _, bits in messages)
    octet = next((at for at in range(len(bits) // 8) if bits[8 * at : 8 * at + 8] != life.bits[8 * at : 8 * at + 8]), None)
    before = 0
    for place, data in messages if octet is not None and 8 * octet < len(life.bits) else []:
        if octet is not None and 8 * octet < before + len(data or ""):
            return f" That is in line {book.crossing_line(place)}, octet {octet - before // 8 + 1} of its data."
        before += len(data or "")
    return ""


def short(octets: bytes, number: int) -> str:
    """A line of the log, its middle left out where it is long."""
    lines = octets.split(b"\n")
    return shown(lines[number - 1]) if number <= len(lines) else ""


# ---- bad lines


def part_of(line: bytes) -> int | None:
    """The part of a log that a line belongs to by its first word."""
    word = line.split(b" ")[0].decode("latin-1")
    return next((place for place, names in enumerate(PARTS) if word in names), None)


def why_bad(octets: bytes, number: int) -> str:
    """What is wrong with the first bad line of a log, and the form that it should have."""
    *lines, rest = octets.split(b"\n")
    if number > len(lines):
        if rest:
            return f"Line {number} is:\n  {shown(rest)}\nIt isn't ended by a line feed."
        return f"The log ends after line {len(lines)}. Its last line has to be `end`."
    line = lines[number - 1]
    if number == 1 and b"%" in lines:
        return f"Line {number} is:\n  {shown(line)}\n" + here("This is an input and not a log, since a line is `%`. `./arpasim --log < FILE` prints the log of its replay.")
    before = [part for part in map(part_of, lines[: number - 1]) if part is not None]
    why = wrong_with_entry(line) or out_of_order(line, before) or misnamed(line, lines[: number - 1]) or NO_CAUSE
    return f"Line {number} is:\n  {shown(line)}\n{why}"


def out_of_order(line: bytes, before: list[int]) -> str | None:
    """Why a good line can't follow others of these parts."""
    part = part_of(line)
    if END in before:
        return "It follows `end`, and nothing may."
    if part is not None and before and part < max(before):
        order = "all crossings first, then all lives, then a `handed` for each life, then `end`"
        strangers = "" if part else " Before all of them it has a `foreign` for each stranger, if there are any."
        return f"It is one of the {NAMES[part]}, and follows {NAMES[max(before)]}. A log has {order}.{strangers}"
    return None


def misnamed(line: bytes, before: list[bytes]) -> str | None:
    """Why a line that names a stranger can't follow others that do."""
    if part_of(line) != 0 or not before:
        return None
    if line in before:
        return f"Line {before.index(line) + 1} says so already. Each stranger is named once."
    last = shown(before[-1].split(b" ")[-1])
    order = "by the rising numbers of their IMPs, and those of one IMP by their own"
    return f"It follows host {last}. Strangers are named {order}."


def wrong_with_entry(line: bytes) -> str | None:
    """Why a line is not one of a log, with the form that it should have; None where it may be one."""
    if line.endswith(b"\r"):
        return "It has a carriage return at its end. The lines of a log are ended by line feeds only."
    if not line:
        return "It is empty. A log has no empty lines."
    if line.startswith(b"#"):
        return "It is a comment. A log has no comments."
    if any(it < 32 or it > 126 for it in line):
        return "It has a character that is not printable ASCII, perhaps a tab."
    words = line.decode("ascii").split(" ")
    if "" in words:
        return "Its words have to be separated by single spaces, with no space before the first word and none after the last."
    name = words[0]
    if name not in FORMS:
        return unknown_entry(name)
    names, form = FORMS[name].split(), f"The form is `{f'{name} {WRITTEN.get(name, FORMS[name])}'.rstrip()}`"
    if len(words) != 1 + len(names):
        return f"It has {counted(len(words) - 1, 'word')} after `{name}`, and {len(names)} {'is' if len(names) == 1 else 'are'} needed. {form}."
    causes = [wrong_with_part(what, word) for what, word in zip(names, words[1:])]
    cause = next(filter(None, causes), None) or wrong_with_octets(name, words) or wrong_with_kind(name, words)
    return f"{cause} {form}." if cause else None


def unknown_entry(name: str) -> str:
    meant = difflib.get_close_matches(name.lower(), FORMS, 1)
    hint = f" Is `{meant[0]}` meant?" if meant else ""
    return f"`{shown(name.encode())}` begins no line of a log. They begin with {', '.join(FORMS)}, in lower case.{hint}"


def wrong_with_part(what: str, word: str) -> str | None:
    """Why a word isn't one for its place."""
    if what in WORDS:
        if word in WORDS[what]:
            return None
        meant = difflib.get_close_matches(word.lower(), WORDS[what], 1)
        return f"`{word}` is none of {', '.join(WORDS[what])}.{f' Is `{meant[0]}` meant?' if meant else ''}"
    if what in BITS_OF:
        if not re.fullmatch("0|[1-9][0-9]*", word):
            return f"`{word}` can't be read as a number: numbers are decimal, without a sign and without leading zeros."
        return None if int(word[:40]) < 1 << BITS_OF[what] else f"`{word}` is out of range: it is a number of {BITS_OF[what]} bits."
    found: str | None = wrong_with_word(what, word)
    return found


def wrong_with_octets(name: str, words: list[str]) -> str | None:
    """Why the octets of a line are not those of its number of bits."""
    if name not in ("out", "in", "life", "handed"):
        return None
    bits = int(words[9] if name == "life" else words[-2])
    found: str | None = wrong_with_text(bits, words[-1])
    return found


def wrong_with_kind(name: str, words: list[str]) -> str | None:
    """Why a life's kind is not that of its socket."""
    if name != "life" or (words[7] == "send") == (int(words[2]) % 2 == 1):
        return None
    return f"Socket {words[2]} is {'odd and sends' if int(words[2]) % 2 else 'even and receives'}, so its life isn't one that {'sends' if words[7] == 'send' else 'receives'}."


# ---- what a book breaks


def why_so(book: Book, verdict: str) -> str:
    """Why a book that was read has this verdict."""
    numbers = [int(it) for it in re.findall(r"\d+", verdict)]
    parts: dict[str, Callable[[Book, list[int]], str]] = {
        "broken run": why_run,
        "broken lives": why_lives,
        "malformed": why_malformed,
        "broken messages": why_messages,
        "broken partners": why_partners,
        "broken streams": why_streams,
        "broken grants": why_grants,
        "broken sent": why_sent,
        "broken closes": why_closes,
        "broken fates": why_fates,
        "broken toward": why_toward,
    }
    if verdict in ("kept", "safe"):
        safe = f"The book is safe: {counted(len(book.log), 'crossing')}, a run of the mailboxes, and {lives_of(book)}"
        return safe if verdict == "kept" else f"{safe} Only how lives end is otherwise than this program promises."
    found = next((tell for name, tell in parts.items() if verdict.startswith(name)), None)
    return found(book, numbers) if found and numbers else "No cause was found."


def lives_of(book: Book) -> str:
    """The lives of a safe book, in words."""
    toward = [it for it in book.lives if it.peer in book.strangers]
    made = f"{counted(len(book.lives) - len(toward), 'life', 'lives')} made of them"
    if not book.strangers:
        return f"{made}."
    among = f"{made}, between hosts that run the program"
    kept = "took no more than was granted, and sent what was handed over"
    if not toward:
        return f"{among}."
    return f"{among}. {counted(len(toward), 'life', 'lives')} with {strangers_of(book)} {kept}."


def strangers_of(book: Book) -> str:
    """Who is a stranger, in words."""
    hosts = ", ".join(map(spell_host, book.strangers))
    return f"{'a stranger' if len(book.strangers) == 1 else 'strangers'} ({hosts})"


def counted(number: int, noun: str, nouns: str = "") -> str:
    return f"{number} {noun if number == 1 else nouns or noun + 's'}"


def place_of_life(book: Book, number: int) -> int:
    """The place of the life in a line of the log."""
    return number - book.life_line(0)


def life_at(book: Book, number: int) -> Life:
    """The life in a line of the log."""
    return book.lives[place_of_life(book, number)]


def list_of(book: Book, number: int) -> tuple[Bits, int]:
    """What was handed over in the life of a line, with the line of that."""
    place = place_of_life(book, number)
    return book.handed[place], book.list_line(place)


def why_malformed(book: Book, numbers: list[int]) -> str:
    log, lives, handed = book.log, book.lives, book.handed
    if len(lives) > len(handed):
        return f"There are {counted(len(lives), 'life', 'lives')} and {counted(len(handed), 'list')} of what was handed over: this life has none. Each life needs its line `handed BITS OCTETS`."
    if len(handed) > len(lives):
        return f"There are {counted(len(handed), 'list')} of what was handed over and {counted(len(lives), 'life', 'lives')}: this list belongs to no life."
    life = life_at(book, numbers[0])
    host, peer = spell_host(life.host), spell_host(life.peer)
    if not (life.own < len(log) and is_passed(log[life.own], "out", Flow(life.host, life.peer, 0))):
        owed = f"an `out {host} {peer} 0`, the message with this end's own request"
        return f"Its OWN is {life.own}, and {crossing_at(book, life.own)}. It has to be the place of {owed}. {first_place(book)}"
    if not (life.partner < len(log) and is_passed(log[life.partner], "in", Flow(life.peer, life.host, 0))):
        owed = f"an `in {peer} {host} 0`, the message with its partner's request. {first_place(book)}"
        return f"Its PARTNER is {life.partner}, and {crossing_at(book, life.partner)}. It has to be the place of {owed}"
    return f"Its PARTNER is {life.partner}, but before that place no `out {peer} {host} 0` went out that could have come in there."


def first_place(book: Book) -> str:
    """Which line is the first place, in words."""
    return "(The first line is place 0.)" if not book.strangers else f"(Line {book.crossing_line(0)} is place 0.)"


def crossing_at(book: Book, place: int) -> str:
    """The crossing at a place of the log."""
    if place >= len(book.log):
        return f"the log has {counted(len(book.log), 'crossing')} only"
    crossing = book.log[place]
    if isinstance(crossing, Answered):
        what = f"{crossing.answer} {spell_flow(crossing.flow)}"
    else:
        what = spell_flow(crossing.flow) if isinstance(crossing, Passed) else spell_host(crossing.host)
    return f"at place {place} (line {book.crossing_line(place)}) is `{crossing.kind} {what}`"


def why_run(book: Book, numbers: list[int]) -> str:
    log, at = book.log, numbers[0] - book.crossing_line(0)
    mailboxes = Mailboxes(hosts_of(log))
    for crossing in log[:at]:
        mailboxes.crosses(crossing)
    crossing = log[at]
    if isinstance(crossing, Turned):
        return f"Host {spell_host(crossing.host)} is {'up' if mailboxes.is_up[crossing.host] else 'down'} already."
    host = crossing.flow.destination if crossing.kind == "in" else crossing.flow.source
    if not mailboxes.is_up[host]:
        return f"Host {spell_host(host)} is down."
    return why_boxed(crossing, mailboxes.boxes.get(crossing.flow), book, at)


def why_boxed(crossing: Passed | Answered, box: tuple[Holds, Bits] | None, book: Book, at: int) -> str:
    """What a crossing doesn't find in the box of its flow, and the line of the message that is there."""
    log, flow, out = book.log, spell_flow(crossing.flow), last_out(book.log, crossing.flow, at)
    if box is None or out is None:
        return f"No message of the flow {flow} is outstanding."
    line = f"line {book.crossing_line(out)}"
    if crossing.kind == "out":
        return f"The last message of the flow {flow}, in {line}, has no answer yet, and one may be outstanding."
    if isinstance(crossing, Passed) and box[0] == "waits":
        what = difference(crossing.text, box[1], "what was taken", "what went out")
        return f"Another text waits on the flow {flow}, that of {line}: {what}"
    taken = next((place for place in range(out, at) if is_passed(log[place], "in", crossing.flow)), None)
    is_taken = box[0] == "taken" and taken is not None
    became = f"was taken already, in line {book.crossing_line(taken or 0)}" if is_taken else "was not taken"
    return f"The message of {line}, of the flow {flow}, {became}."


def why_messages(book: Book, numbers: list[int]) -> str:
    log, at = book.log, numbers[0] - book.crossing_line(0)
    crossing = log[at]
    assert not isinstance(crossing, Turned)  # what breaks the messages is a taking or an answer
    flow = crossing.flow
    out = last_out(log, flow, at)
    if out is None:
        return f"No message of the flow {spell_flow(flow)} went out before it."
    taken = [place for place in range(out, at) if is_passed(log[place], "in", flow)]
    line = f"line {book.crossing_line(out)}"
    if isinstance(crossing, Answered):
        untaken = f"The last message of the flow {spell_flow(flow)} went out in {line}, and no line since then says that it was taken"
        return f"{untaken}: an RFNM is about a message that was."
    if taken:
        first = book.crossing_line(taken[0])
        return f"The message of {line} was taken already in line {first}. Each message is taken once at most."
    sent = log[out]
    assert isinstance(sent, Passed)
    what = difference(crossing.text, sent.text, "what was taken", "what went out")
    return f"It isn't what went out in {line}: {what}"


def difference(one: str, other: str, its: str, others: str) -> str:
    """At which octet two lists of bits differ first, in words."""
    for place in range(min(len(one), len(other)) // 8 + 1):
        a, b = one[8 * place : 8 * place + 8], other[8 * place : 8 * place + 8]
        if a != b and a and b and not a.startswith(b) and not b.startswith(a):
            return f"at octet {place + 1} {its} has {hexadecimal(a)}, and {others} has {hexadecimal(b)}."
    return f"{its} has {counted(len(one), 'bit')}, and {others} has {len(other)}."


def hexadecimal(bits: str) -> str:
    return str(octets_of(bits).hex().upper())


def why_partners(book: Book, numbers: list[int]) -> str:
    log = book.log
    one, other = life_at(book, numbers[0]), life_at(book, numbers[-1])
    if len(numbers) > 1 and own_request(one) == own_request(other):
        return f"Both have the same own request: the message at place {one.own}, from socket {one.socket} for socket {one.foreign}. A request opens one life only."
    if len(numbers) > 1 and partner_request(log, one) == partner_request(log, other):
        return f"Both have the same partner's request: it went out at place {partner_request(log, one)[0]}, from socket {one.foreign} for socket {one.socket}. A request opens one life only."
    if own_request(other) == partner_request(log, one):
        one, other = other, one
        numbers = numbers[::-1]
    return (
        f"The own request of line {numbers[0]} (place {one.own}) is the partner's of line {numbers[-1]}. So line {numbers[0]} must have the own request of line {numbers[-1]} (place {other.own}) "
        f"for its partner's, but what came in at its PARTNER, place {one.partner}, went out at place {partner_request(log, one)[0]}, for sockets {one.foreign} and {one.socket}."
    )


def why_streams(book: Book, numbers: list[int]) -> str:
    life = life_at(book, numbers[0])
    if not life.receives():
        handed, list_line = list_of(book, numbers[0])
        return f"It sent what wasn't handed over in line {list_line}: {difference(life.bits, handed, 'what was sent', 'what was handed over')}"
    senders = [line for line, it in enumerate(book.lives, book.life_line(0)) if match(book.log, life, it)]
    if len(senders) > 1:
        return f"Two lives match it, in lines {senders[0]} and {senders[1]}, and a connection has one sender."
    if not senders:
        return (
            f"It took {counted(len(life.bits), 'bit')}, and no life matches it. That would be one of host {spell_host(life.peer)}, socket {life.foreign}, with socket {life.socket} of {spell_host(life.host)}, "
            f"whose own request is the partner's of this life, and the other way round.{perhaps_stranger(book, life)}"
        )
    sender = life_at(book, senders[0])
    return f"Line {numbers[0]} took what line {senders[0]} didn't send: {difference(life.bits, sender.bits, 'what was taken', 'what was sent')}"


def perhaps_stranger(book: Book, life: Life) -> str:
    """What to write where a peer has no lives at all since it keeps none."""
    if any(it.host == life.peer for it in book.lives):
        return ""
    peer = spell_host(life.peer)
    begins = f"the log begins with `foreign {peer}`"
    return f" The log has no life of {peer}. If it runs another program, whose lives nobody knows, {begins}."


def why_toward(book: Book, numbers: list[int]) -> str:
    """Why a life is none that a log has beside a stranger."""
    life = life_at(book, numbers[0])
    if life.host in book.strangers:
        named = f"Host {spell_host(life.host)} is a stranger, by line {line_of_stranger(book, life.host)}"
        none = "it runs no program of these, so nobody knows its lives. A log has only those of the other hosts."
        return f"{named}: {none}"
    start = f"Its peer {spell_host(life.peer)} is a stranger, by line {line_of_stranger(book, life.peer)}."
    if life.receives():
        return f"{start} {why_grants(book, numbers)}"
    handed, list_line = list_of(book, numbers[0])
    what = difference(life.bits, handed, "what was sent", "what was handed over")
    return f"{start} It sent what wasn't handed over in line {list_line}: {what}"


def line_of_stranger(book: Book, host: HostName) -> int:
    """The line that names a stranger."""
    return book.strangers.index(host) + 1


def why_grants(book: Book, numbers: list[int]) -> str:
    """What was granted, and how much more passed."""
    life = life_at(book, numbers[0])
    if not life.receives():
        return granted(book, life)
    messages, bits = life.granted[0] - life.returned[0], life.granted[1] - life.returned[1]
    left = f"Line {numbers[0]} granted {counted(life.granted[0], 'message')} and {counted(life.granted[1], 'bit')}, and had {life.returned[0]} and {life.returned[1]} back"
    used = [(number, life_at(book, number)) for number in numbers]
    passed = [f"line {number} {'took' if it.receives() else 'sent'} {counted(it.messages, 'message')} with {counted(len(it.bits), 'bit')}" for number, it in used]
    return f"{left}: at most {max(messages, 0)} with {counted(max(bits, 0), 'bit')} may pass. But {' and '.join(passed)}."


def why_sent(book: Book, numbers: list[int]) -> str:
    """Which of the messages that a life counts isn't the one with its number of a life that it matches."""
    life = life_at(book, numbers[0])
    return which_was_sent(book, life, partners(book, life))


def why_closes(book: Book, numbers: list[int]) -> str:
    """What a life that its partner ended has lost."""
    life = life_at(book, numbers[0])
    start = f"Line {numbers[0]} is `{life.fate}`: its partner ended it, and nobody at its host had closed it. So it took all that line {numbers[-1]} sent"
    sender, (handed, list_line) = life_at(book, numbers[-1]), list_of(book, numbers[-1])
    if life.bits != sender.bits:
        return f"{start}, but {lost(life.bits, sender.bits, 'what was sent')}"
    if life.messages != sender.messages:
        return f"{start}, but it counts {counted(life.messages, 'message')}, and line {numbers[-1]} {sender.messages}."
    return f"{start}, and all that was handed over in line {list_line}, but {lost(life.bits, handed, 'what was handed over')}"


def why_fates(book: Book, numbers: list[int]) -> str:
    """Why what crossed doesn't leave a life its fate, and which it leaves."""
    life = life_at(book, numbers[0])
    over = fates.over(book.log, life)
    if over is None:
        return "No cause was found."
    if over.early:
        begins = "A life begins only where nothing that ends lives comes between its two requests."
        return f"{why_early(book, life, over.early)} {begins}"
    if life.fate in fates.LEAVES[over.left()]:
        return why_contact(book, place_of_life(book, numbers[0]))
    sooner = ", or `reset` if its user contacted the peer before that."
    left = {"reset": "`reset`.", "stopped": f"`stopped`{sooner}", "closed out": f"`closed`{sooner}"}
    left["closed in"] = "`closed` or `ended`."
    may_be = left[over.left() or ""] if over.by else "`open`, or `reset` if its user has contacted the peer."
    return f"It says `{life.fate}`, but {why_over(book, life, over)} It would be {may_be}"


def why_contact(book: Book, place: int) -> str:
    """With which earlier life one disagrees on a contact of their host, which would have reset both."""
    known = [fates.begun(book.log, it) for it in book.lives[: place + 1]]
    begun = known[-1]
    other = begun and fates.at_odds([*filter(None, known[:-1])], begun)
    if begun is None or other is None:
        return "No cause was found."
    life, number = begun.life, book.life_line(known.index(other))
    host, peer = spell_host(life.host), spell_host(life.peer)
    line = f"Line {number} says `{other.life.fate}`, and this one `{life.fate}`."
    why = f"A contact drops all connections with {peer}, and the RST that then goes out first ends what begins later."
    if begun.over.by is None and other.over.by is None:
        both = f"Both are lives of {host} with {peer} that have begun, and nothing that crossed has ended either."
        return f"{line} {both} {why} So both are `reset`, or neither is."
    reset, spared = (begun, other) if life.fate == "reset" else (other, begun)
    which, rest = ("this one", f"line {number}") if reset is begun else (f"line {number}", "this one")
    both = f"Both are lives of {host} with {peer}"
    between = f"{both}, and neither a reset nor a stop of {host} came between where they begin."
    contact = f"Nothing that crossed has reset {which}, so a contact did{before_end(book, reset)}."
    return f"{line} {between} {contact} {why} So {rest} is `reset`, too: {why_spared(book, spared)}"


def before_end(book: Book, begun: fates.Begun) -> str:
    """Before what a contact came that reset a life, in words."""
    last = begun.over.last
    if begun.over.by is None or last is None:
        return ""
    host, line = spell_host(begun.life.host), f"line {book.crossing_line(last.place)}"
    stop, cls = f" before {host} stopped in {line}", f" before its partner's CLS came in, in {line}"
    return stop if begun.over.by == "stopped" else cls


def why_spared(book: Book, begun: fates.Begun) -> str:
    """That a life wasn't over before a contact, in words."""
    last = begun.over.last
    if begun.over.by is None or last is None:
        return "nothing that crossed has ended it."
    return f"it wasn't over before line {book.crossing_line(last.place)}."


def why_early(book: Book, life: Life, deed: Deed) -> str:
    """What came between the two requests of a life, with its line."""
    word, way = deed.what.split()
    host, peer, line = spell_host(life.host), spell_host(life.peer), f"line {book.crossing_line(deed.place)}"
    if word == "down":
        return f"Its host, {host}, stopped in {line}, between its two requests."
    if word == "closes":
        return f"A CLS of its sockets {'came in' if way == 'in' else 'went out'} in {line}, between its two requests."
    return f"{host} dropped its connections with {peer} in {line}, between its two requests."


def why_over(book: Book, life: Life, over: Over) -> str:
    """By what a life is over, with the line; or what its own fate would need, where it continues."""
    host, peer = spell_host(life.host), spell_host(life.peer)
    if over.last is None:
        is_stop = life.fate == "stopped"
        stop = f"its host, {host}, hasn't stopped since it began."
        return stop if is_stop else f"it hasn't ended: {lacking_cls(life, over)}."
    line = f"line {book.crossing_line(over.last.place)}"
    if over.by == "stopped":
        return f"its host, {host}, stopped in {line}."
    if over.by == "closed":
        first = "its own first" if over.closed[0] == "out" else "its partner's first"
        return f"both CLS of sockets {life.socket} and {life.foreign} have crossed, {first}, and the second in {line}."
    word, way = over.last.what.split()
    rst = f"RST {'was taken' if way == 'in' else 'went out'}"
    what = {"fails": "a message of its host failed", "rst": rst, "rrp": "an RRP went out that wasn't owed"}
    return f"{host} dropped its connections with {peer} in {line}, where {what[word]}."


def lacking_cls(life: Life, over: Over) -> str:
    """Which CLS of a life that continues hasn't crossed, in words."""
    own = f"CLS of socket {life.socket} with socket {life.foreign} went out"
    partner = f"CLS of socket {life.foreign} with socket {life.socket} came in"
    return " and ".join(f"no {what}" for what, way in ((own, "out"), (partner, "in")) if way not in over.closed)


def lost(taken: Bits, given: Bits, what: str) -> str:
    """The first octet that was given and not taken, in words."""
    found = difference(taken, given, "what was taken", what)
    octet = len(taken) // 8
    if given.startswith(taken) and given != taken:
        return f"octet {octet + 1} of {what}, {hexadecimal(given[8 * octet : 8 * octet + 8])}, was not taken: {found}"
    return found
