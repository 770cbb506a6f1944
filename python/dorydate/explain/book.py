"""What each clause of `headline::book_of` says of a life or a message: `./explain --book [LINE] < FILE`.

FILE is a log, or an input, of whose replay the log is taken. LINE is a line of the log; without it the lives and the
messages of data are listed. The names before each sentence are those of docs/measured/promise.md, and of a life with a
stranger those of `mixed_worlds::law::toward`. All is worked out by the independent model, only from the log.
"""

from __future__ import annotations

from collections.abc import Iterator, Sequence
from typing import NamedTuple

from dorydate.model import firsts
from dorydate.model.arrived import Arrived
from dorydate.model.audit import is_passed, last_out, match, own_request, partner_request
from dorydate.model.bits import Bits
from dorydate.model.book import Life
from dorydate.model.commands import RST
from dorydate.model.crossings import Answered, Crossing, Passed, Turned
from dorydate.model.fates import LEAVES
from dorydate.model.fates import over as crossed_by
from dorydate.model.log import Book
from dorydate.model.names import Flow, spell_host
from dorydate.model.was_sent import WasSent
from dorydate.sentences.table import filled, listed, sentences

SAID = sentences("book")
TEXTS = sentences("texts")
ANSWERS = sentences("answers")
READING = Arrived()
SENT = WasSent()


class Said(NamedTuple):
    """A clause, by its names on the page of the promise, and what it says here."""

    clause: str
    sentence: str

    def line(self) -> str:
        return f"  {self.clause}: {self.sentence}"


class NoSuchLine(Exception):
    """A line of the log that is neither a life nor a message."""


def said_of(book: Book, line: int | None) -> list[str]:
    """What the clauses say of the life or the message in a line of the log, or the lines that may be asked for."""
    log, lives = book.log, book.lives
    if line is None:
        data = [at for at, it in enumerate(log) if is_data(it)]
        return [*(a_life(book, at) for at in range(len(lives))), *(a_message(book, at) for at in data)]
    life, place = line - book.life_line(0), line - book.crossing_line(0)
    if 0 <= life < len(lives):
        return [a_life(book, life), *(it.line() for it in of_life(book, life))]
    if 0 <= place < len(log) and isinstance(message := log[place], Passed):
        out = place if message.kind == "out" else last_out(log, message.flow, place)
        if out is not None:
            return [a_message(book, out), *(it.line() for it in of_message(book, out))]
    raise NoSuchLine(line)


def is_data(crossing: object) -> bool:
    """Whether a message of data goes out by a crossing."""
    return isinstance(crossing, Passed) and crossing.kind == "out" and crossing.flow.link != 0


def line_of(book: Book, life: Life) -> int:
    """The line of a life."""
    return book.life_line(next(at for at, it in enumerate(book.lives) if it is life))


def a_life(book: Book, at: int) -> str:
    """A life, in a line."""
    it = book.lives[at]
    ends = {"socket": it.socket, "host": spell_host(it.host), "foreign": it.foreign, "peer": spell_host(it.peer)}
    way = "receives from" if it.receives() else "sends to"
    counts = {"messages": it.messages, "bits": len(it.bits)}
    return filled(SAID["a life"], {**ends, **counts}, line=book.life_line(at), way=way, word=it.fate)


def a_message(book: Book, at: int) -> str:
    """A message, in a line."""
    it = book.log[at]
    assert isinstance(it, Passed)
    ends = {"source": spell_host(it.flow.source), "destination": spell_host(it.flow.destination), "link": it.flow.link}
    return filled(SAID["a message"], ends, line=book.crossing_line(at), bits=len(it.text))


# ---- a life


def of_life(book: Book, at: int) -> Iterator[Said]:
    """What each clause says of a life."""
    life = book.lives[at]
    if {life.host, life.peer} & {*book.strangers}:
        yield from toward(book, at)
        return
    others = partners(book, life)
    yield from formed(book, life)
    yield Said("promise.safe.partners", paired(book, life))
    yield stream(book, at, others)
    yield from grants(book, life, others)
    yield Said("promise.over", over(book, life))
    yield Said("promise.within", within(book, life))
    if life.receives():
        yield Said("promise.sent", sent(book, life, others))
    else:
        yield Said("promise.granted", granted(book, life))
    yield Said("promise.whole", whole(book, life, others))
    yield Said("promise.arrived.all", all_counted(book, life))
    yield Said("promise.arrived.closed", all_there(book, life, others))


def toward(book: Book, at: int) -> Iterator[Said]:
    """The same of a life with a stranger."""
    life, log = book.lives[at], book.log
    if life.host in book.strangers:
        yield Said("toward.owner", SAID["a stranger's"])
        return
    yield Said("toward.owner", filled(SAID["with a stranger"], peer=spell_host(life.peer)))
    own = firsts.RIGHT.named_at(log, life.own, "out", Flow(life.host, life.peer, 0), life.socket, life.foreign)
    partner = firsts.RIGHT.named_at(log, life.partner, "in", Flow(life.peer, life.host, 0), life.foreign, life.socket)
    for name, place, ends, named in (
        ("own", life.own, (life.socket, life.foreign), own),
        ("partner", life.partner, (life.foreign, life.socket), partner),
    ):
        asked = {"line": book.crossing_line(place), "request": request(*ends, named[0])} if named else {}
        yield Said(f"toward.asked.{name}", filled(SAID[name], asked) if named else SAID["unmade"])
    if life.receives():
        yield from (Said("toward.taken", it.sentence) for it in grants(book, life, []))
    else:
        yield Said("toward.handed", handed_over(life, book.handed[at] if at < len(book.handed) else ""))


def partners(book: Book, life: Life) -> list[Life]:
    """The lives that a life matches."""
    return [it for it in book.lives if (match(book.log, life, it) if life.receives() else match(book.log, it, life))]


def formed(book: Book, life: Life) -> Iterator[Said]:
    """Its two requests, and its bits."""
    log = book.log
    going, coming = Flow(life.host, life.peer, 0), Flow(life.peer, life.host, 0)
    own = firsts.RIGHT.named_at(log, life.own, "out", going, life.socket, life.foreign)
    partner = firsts.RIGHT.named_at(log, life.partner, "in", coming, life.foreign, life.socket)
    placed = firsts.placed(log, life)
    if not own or not partner or placed is None:
        yield Said("promise.formed", SAID["unmade"])
        return
    asked, answered = request(life.socket, life.foreign, own[0]), request(life.foreign, life.socket, partner[0])
    came = book.crossing_line(life.partner)
    yield Said("promise.formed.own", filled(SAID["own"], line=book.crossing_line(life.own), request=asked))
    yield Said("promise.formed.partner", filled(SAID["partner"], line=came, request=answered))
    counts = {"bits": len(life.bits), "messages": life.messages, "lines": lines(book, placed.places)}
    sentence = SAID["link" if placed.places else "link only"]
    crossed = "came in" if life.receives() else "went out"
    yield Said("promise.formed.bits", filled(sentence, counts, link=placed.flow.link, crossed=crossed))


def request(own: int, foreign: int, named: int) -> str:
    """A request, as it is spelled."""
    return filled(TEXTS["STR" if own % 2 else "RTS"], own=own, foreign=foreign, size=named, link=named)


def lines(book: Book, places: list[int]) -> str:
    """The lines of some places."""
    return f"line{'s' * (len(places) > 1)} {listed([str(book.crossing_line(at)) for at in places])}"


def paired(book: Book, life: Life) -> str:
    """Whose request its partner's is."""
    log = book.log
    asked = partner_request(log, life)
    place = asked[0]
    own = [it for it in book.lives if own_request(it) == own_request(life)]
    same = [it for it in book.lives if partner_request(log, it) == asked]
    found = [it for it in book.lives if own_request(it) == asked]
    is_mutual = all(partner_request(log, it) == own_request(life) for it in found)
    if place is None or len(own) > 1 or len(same) > 1 or not is_mutual:
        return SAID["unpaired"]
    if not found:
        return filled(SAID["single"], line=book.crossing_line(place))
    return filled(SAID["partners"], line=book.crossing_line(place), other=line_of(book, found[0]))


def stream(book: Book, at: int, others: list[Life]) -> Said:
    """What it took of its partner, or sent of what was handed over."""
    life = book.lives[at]
    if not life.receives():
        return Said("promise.safe.streams.sent", handed_over(life, book.handed[at] if at < len(book.handed) else ""))
    clause = "promise.safe.streams.source"
    if not life.bits:
        return Said(clause, SAID["nothing"])
    if len(others) != 1 or not others[0].bits.startswith(life.bits):
        return Said(clause, SAID["unsourced"])
    counts = {"bits": len(life.bits), "sent": len(others[0].bits)}
    return Said(clause, filled(SAID["source"], counts, other=line_of(book, others[0])))


def handed_over(life: Life, handed: Bits) -> str:
    """What a life sent, of what was handed over in it."""
    name = "handed" if handed.startswith(life.bits) else "unhanded"
    return filled(SAID[name], bits=len(life.bits), handed=len(handed))


def grants(book: Book, life: Life, others: list[Life]) -> Iterator[Said]:
    """What was granted to it, or by it."""
    for receiver in [life] if life.receives() else others:
        counts, back, most = [life.messages, len(life.bits)], receiver.returned, receiver.granted
        is_kept = all(it + returned <= granted for it, returned, granted in zip(counts, back, most))
        messages = {"messages": counts[0], "messages_back": back[0], "messages_granted": most[0]}
        bits = {"bits": counts[1], "bits_back": back[1], "bits_granted": most[1]}
        sentence = filled(SAID["granted" if is_kept else "ungranted"], messages | bits, other=line_of(book, receiver))
        yield Said(f"promise.safe.grants.{'taken' if life.receives() else 'sent'}", sentence)


def granted(book: Book, life: Life) -> str:
    """Whether what a sending life sent is within what the ALLs grant on its link that its host took."""
    link = next(iter(firsts.RIGHT.requested(book.log, life)[0]), None)
    if link is None:
        return SAID["unlinked"]
    messages, bits = firsts.RIGHT.granted(book.log, life, link)
    is_kept = life.messages <= messages and len(life.bits) <= bits
    counts = {"messages": life.messages, "bits": len(life.bits), "messages_granted": messages, "bits_granted": bits}
    return filled(SAID["allowed" if is_kept else "not allowed"], counts, link=link)


def over(book: Book, life: Life) -> str:
    """By what it is over."""
    found = crossed_by(book.log, life)
    hosts = {"host": spell_host(life.host), "peer": spell_host(life.peer), "word": life.fate}
    if found is None or found.early or life.fate not in LEAVES[found.left()]:
        return filled(SAID["unfit"], hosts)
    begun = book.crossing_line(firsts.RIGHT.begun(life))
    if found.last is None or (life.fate == "reset" and found.by != "reset"):
        return filled(SAID["contact" if life.fate == "reset" else "open"], hosts, line=begun)
    name, what = life.fate if life.fate in SAID else "by cls", SAID.get(found.last.what.split(" ")[0], "")
    return filled(SAID[name], hosts, line=begun, place=book.crossing_line(found.last.place), what=what)


def within(book: Book, life: Life) -> str:
    """Whether all that it counts crossed before it was over."""
    found = crossed_by(book.log, life)
    if found is None or found.last is None or (life.fate == "reset" and found.by != "reset"):
        return SAID["called" if life.fate == "reset" else "continues"]
    place = found.last.place
    late = next((it for it in READING.counted(book.log, life) if it > place), None)
    if late is None:
        return filled(SAID["in time"], place=book.crossing_line(place), messages=life.messages)
    return filled(SAID["too late"], place=book.crossing_line(place), late=book.crossing_line(late))


def sent(book: Book, life: Life, others: list[Life]) -> str:
    """Whether the messages that it counts are the first of a life that it matches."""
    outs = SENT.outs(book.log, life)
    if not outs:
        return SAID["none counted"]
    known = [common(outs, SENT.counted(book.log, it)) for it in others]
    most = max(known, default=0)
    if most < len(outs):
        place = SENT.counted(book.log, life)[most]
        return filled(SAID["not that"], number=most + 1, line=book.crossing_line(place))
    other = line_of(book, others[known.index(most)])
    went = [it for it in outs if it is not None]
    return filled(SAID["each sent"], messages=len(outs), lines=lines(book, went), other=other)


def common(some: Sequence[int | None], others: Sequence[int]) -> int:
    """How many are the same at the start of both lists."""
    return next((at for at, (it, other) in enumerate(zip(some, others)) if it != other), min(len(some), len(others)))


def whole(book: Book, life: Life, others: list[Life]) -> str:
    """Whether it has all that its partner sent, where it ended."""
    if not life.receives() or life.fate != "ended" or not others:
        return SAID["not ended"]
    handed = {id(it): bits for it, bits in zip(book.lives, book.handed)}
    has_all = all((it.bits, it.messages, handed.get(id(it))) == (life.bits, life.messages, life.bits) for it in others)
    return filled(SAID["whole" if has_all else "lacking"], bits=len(life.bits), other=line_of(book, others[0]))


def all_counted(book: Book, life: Life) -> str:
    """Whether it counts all that came in, where it is open."""
    if not life.receives() or life.fate != "open":
        return SAID["not open"]
    came = len(READING.places(book.log, life))
    return filled(SAID["all" if came == life.messages else "closing"], messages=life.messages, came=came)


def all_there(book: Book, life: Life, others: list[Life]) -> str:
    """Whether it has all that its partner sent, where that has closed it and it is open."""
    found = crossed_by(book.log, life)
    is_closed = found is not None and found.by is None and "in" in found.closed
    if not (life.receives() and life.fate == "open" and is_closed and others):
        return SAID["partner open"]
    has_all = all((it.bits, it.messages) == (life.bits, life.messages) for it in others)
    return filled(SAID["partner closed" if has_all else "short"], bits=len(life.bits), other=line_of(book, others[0]))


# ---- a message


def of_message(book: Book, at: int) -> Iterator[Said]:
    """What each clause says of the message that went out at a place."""
    log = book.log
    message = log[at]
    assert isinstance(message, Passed)
    flow = message.flow
    before = last_out(log, flow, at)
    is_empty = before is None or any(frees(it, flow) for it in log[before:at])
    boxed = None if is_empty or before is None else book.crossing_line(before)
    yield Said("promise.run", SAID["run"] if boxed is None else filled(SAID["box"], line=boxed))
    end = next((place for place in range(at + 1, len(log)) if is_passed(log[place], "out", flow)), len(log))
    taken = [place for place in range(at + 1, end) if is_passed(log[place], "in", flow)]
    once = filled(SAID["taken"], line=book.crossing_line(taken[0])) if taken else SAID["untaken"]
    yield Said("promise.safe.messages.once", once)
    answer = next((place for place in range(at + 1, end) if is_answer(log[place], flow)), None)
    yield Said("promise.safe.messages.answered", answer_in_words(book, answer))
    if {flow.source, flow.destination} & {*book.strangers}:
        return  # of what users ask for and are notified of nothing more is promised beside a stranger
    hosts = {"source": spell_host(flow.source), "destination": spell_host(flow.destination)}
    is_reset = flow.link == 0 and list(firsts.RIGHT.commands(message.text)) == [bytes([RST])]
    yield Said("promise.contacts", filled(SAID["only rst" if is_reset else "no contact"], hosts))
    if flow.link != 0:
        yield Said("promise.told", SAID["sent"])
        yield Said("promise.between", between(book, at))
        yield from arrived(book, at, taken, answer)


def is_answer(crossing: Crossing, flow: Flow) -> bool:
    """Whether a crossing says what became of a flow's message."""
    return isinstance(crossing, Answered) and crossing.flow == flow


def frees(crossing: Crossing, flow: Flow) -> bool:
    """Whether the box of a flow is empty after a crossing."""
    comes_up = isinstance(crossing, Turned) and (crossing.kind, crossing.host) == ("up", flow.source)
    return comes_up or is_answer(crossing, flow)


def answer_in_words(book: Book, place: int | None) -> str:
    """What the answer at a place says."""
    if place is None:
        return SAID["unanswered"]
    answer = book.log[place]
    assert isinstance(answer, Answered)
    name = "rfnm" if answer.answer == "rfnm" else "other answer"
    return filled(SAID[name], answer=ANSWERS[answer.answer], line=book.crossing_line(place))


def senders_of(book: Book, at: int) -> list[Life]:
    """The sending lives that count the message that went out at a place."""
    return [it for it in book.lives if not it.receives() and at in READING.counted(book.log, it)]


def between(book: Book, at: int) -> str:
    """Between which two lives it went."""
    senders = senders_of(book, at)
    pairs = [(line_of(book, it), line_of(book, other)) for it in senders for other in partners(book, it)]
    if pairs:
        return filled(SAID["between"], line=pairs[0][0], other=pairs[0][1])
    return filled(SAID["to none"], line=line_of(book, senders[0])) if senders else SAID["of none"]


def arrived(book: Book, at: int, taken: list[int], answer: int | None) -> Iterator[Said]:
    """Which sending life counts it, and whether the receiving one does that this matches."""
    log = book.log
    senders = senders_of(book, at)
    if not senders:
        yield Said("promise.arrived.answered.sent", SAID["of none"])
        return
    number = READING.counted(log, senders[0]).index(at) + 1
    yield Said("promise.arrived.answered.sent", filled(SAID["of life"], number=number, line=line_of(book, senders[0])))
    reply = log[answer] if answer is not None else None
    if not (isinstance(reply, Answered) and reply.answer == "rfnm" and taken):
        yield Said("promise.arrived.answered.arrived", SAID["no rfnm"])
        return
    receivers = partners(book, senders[0])
    yield from (Said("promise.arrived.answered.arrived", counted_by(book, it, taken[0])) for it in receivers)
    if not receivers:
        yield Said("promise.arrived.answered.arrived", SAID["unmatched"])


def counted_by(book: Book, life: Life, place: int) -> str:
    """Whether a receiving life counts the message that came in at a place."""
    counted = READING.counted(book.log, life)
    if place in counted:
        return filled(SAID["counted"], number=counted.index(place) + 1, line=line_of(book, life))
    name = "may be uncounted" if life.fate == "open" else "uncounted"
    return filled(SAID[name], line=line_of(book, life), word=life.fate)
