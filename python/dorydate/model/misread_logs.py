"""Readers and judges of logs that are wrong in one place each: some log by hand has to distinguish each from the right one."""

from __future__ import annotations

from collections.abc import Callable, Iterable, Iterator, Sequence
from dataclasses import replace
from typing import TypeVar

from dorydate.model.audit import Lives, Log, match, partners_are_kept
from dorydate.model.bits import Bits, octets
from dorydate.model.book import Fate, Life
from dorydate.model.commands import HEADER, LENGTHS, RTS, STR
from dorydate.model.crossings import Answered, Crossing, Turned
from dorydate.model.firsts import Data, Firsts, Placed, on_link
from dorydate.model.log import BadLog, Book, LogReader
from dorydate.model.mailboxes import Mailboxes
from dorydate.model.misread_fates import JUDGES as OF_FATES
from dorydate.model.misread_grants import JUDGES as OF_GRANTS
from dorydate.model.misread_strangers import JUDGES as OF_STRANGERS
from dorydate.model.misread_strangers import READERS as READERS_OF_STRANGERS
from dorydate.model.names import Flow
from dorydate.model.verdict import Judge

ANY = 1_000  # bits of a number of any size here
T = TypeVar("T")

# ---- readers


class GoesOn(LogReader):
    """Lines may follow the end."""

    def follows(self, lines: Sequence[str], rest: str) -> bool:
        return False


class NoLineFeed(LogReader):
    """The end needs no line feed."""

    def lines_of(self, octets: bytes) -> tuple[list[str], str]:
        return octets.decode("latin-1").splitlines(), ""


class NoEnd(LogReader):
    """No end is needed."""

    def unended(self, lines: Sequence[str], book: Book) -> Book:
        return book


class EndAtLastLine(LogReader):
    """A missing end is put at the last line."""

    def unended(self, lines: Sequence[str], book: Book) -> Book:
        raise BadLog(len(lines))


class AnyOrder(LogReader):
    """Lines come in any order."""

    def may_follow(self, kind: int, part: int) -> bool:
        return True


class AnyText(LogReader):
    """A text has any length."""

    most_text = 1_000_000


class AnySocket(LogReader):
    """A socket has any size."""

    socket_bits = ANY


class AnyStamp(LogReader):
    """A stamp has any size."""

    stamp_bits = ANY


class ShortStamp(LogReader):
    """A stamp has 32 bits."""

    stamp_bits = 32


class AnyAmount(LogReader):
    """An amount has any size."""

    amount_bits = ANY


class ShortAmount(LogReader):
    """An amount has 64 bits."""

    amount_bits = 64


class AnyKind(LogReader):
    """The kind is not looked at."""

    def kind_fits(self, life: Life, kind: str) -> bool:
        return True


class TwoFates(LogReader):
    """A life that is over is ended."""

    def fate_of(self, word: str) -> Fate:
        return "open" if word == "open" else "ended"


class AnyFate(LogReader):
    """How a life ended is not looked at."""

    def fate_of(self, word: str) -> Fate:
        return "open"


# ---- judges


class FewerLists(Judge):
    """Lists may be fewer."""

    def life_too_many(self, lives: Sequence[Life], handed: Sequence[str]) -> int | None:
        return None


class MoreLists(Judge):
    """Lists may be more."""

    def list_too_many(self, lives: Sequence[Life], handed: Sequence[str]) -> int | None:
        return None


class ToldOfItsList(Judge):
    """A life too many is named by its list."""

    def life_too_many(self, lives: Sequence[Life], handed: Sequence[str]) -> int | None:
        return len(lives) + len(handed)


class LineOfItsNumber(Judge):
    """The line of a life is that of its number."""

    def line(self, book: Book, place: int) -> int:
        return place


class BreakBefore(Judge):
    """A break is put at the entry before it."""

    def first_break(self, entries: Sequence[T], are_kept: Callable[[Sequence[T]], bool]) -> int:
        return super().first_break(entries, are_kept) - 1


class LastMalformed(Judge):
    """The last malformed life is named."""

    def first(self, lives: Iterable[Life], is_meant: Callable[[Life], bool]) -> int:
        return [place for place, life in enumerate(lives, 1) if is_meant(life)][-1]


class FirstAtOdds(Judge):
    """Of two lives the first that is at odds with a later one is named."""

    def at_odds(self, log: Log, lives: Lives) -> list[int]:
        second = len(lives) + 1 - self.first_break(lives[::-1], lambda lives: partners_are_kept(log, lives))
        return [self.first(lives, lambda life: not partners_are_kept(log, [life, lives[second - 1]])), second]


class WrongWayRound(Judge):
    """Two lives are named the wrong way round."""

    def at_odds(self, log: Log, lives: Lives) -> list[int]:
        return super().at_odds(log, lives)[::-1]


class FirstOfAll(Judge):
    """The first of two lives is the first of all."""

    def at_odds(self, log: Log, lives: Lives) -> list[int]:
        return [1, super().at_odds(log, lives)[1]]


class NoMatch(Judge):
    """The match is not named."""

    def with_match(self, place: int, matching: Sequence[int]) -> list[int]:
        return [place]


class MatchFirst(Judge):
    """The match is named first."""

    def with_match(self, place: int, matching: Sequence[int]) -> list[int]:
        return [*matching[:1], place]


class SenderOfStream(Judge):
    """A stream that breaks is its sender's fault too."""

    def stream_fails(self, log: Log, lives: Lives, life: Life) -> bool:
        return not life.receives() or super().stream_fails(log, lives, life)


class SenderOfGrant(Judge):
    """What is not granted is the sender's fault too."""

    def grant_fails(self, log: Log, lives: Lives, life: Life) -> bool:
        return not life.receives() or super().grant_fails(log, lives, life)


# ---- judges of closes


class SenderEnded(Judge):
    """It counts whether the partner's life was ended."""

    def close_fails(self, log: Log, lives: Lives, life: Life) -> bool:
        return life.receives() and any(match(log, life, it) and it.fate == "ended" and not self.took_all(life, it) for it in lives)


class OneFateMore(Judge):
    """A life of one fate more has to have taken all."""

    fate = ""

    def is_judged(self, life: Life) -> bool:
        return super().is_judged(life) or life.receives() and life.fate == self.fate


class AllWhole(OneFateMore):
    """A life that is open has to have taken all."""

    fate = "open"


class WholeWhereClosed(OneFateMore):
    """A life that its own user closed has to have taken all."""

    fate = "closed"


class WholeWhereReset(OneFateMore):
    """A life that was reset has to have taken all."""

    fate = "reset"


class WholeWhereStopped(OneFateMore):
    """A life whose host stopped has to have taken all."""

    fate = "stopped"


class BitsOnly(Judge):
    """The messages of a life that was ended are not counted."""

    def took_all(self, life: Life, sender: Life) -> bool:
        return super().took_all(replace(life, messages=sender.messages), sender)


class MessagesOnly(Judge):
    """The bits of a life that was ended are only counted."""

    def took_all(self, life: Life, sender: Life) -> bool:
        return (life.messages, len(life.bits)) == (sender.messages, len(sender.bits)) and len(life.bits) == len(sender.handed)


class SentOnly(Judge):
    """What was handed over to be sent to a life that was ended is not looked at."""

    def took_all(self, life: Life, sender: Life) -> bool:
        return super().took_all(life, replace(sender, handed=life.bits))


class NothingExcuses(Judge):
    """A life that was ended and took nothing needn't have taken what was handed over."""

    def took_all(self, life: Life, sender: Life) -> bool:
        return super().took_all(life, sender if life.bits else replace(sender, handed=""))


class LostOfTheFirst(Judge):
    """Only the first life that one matches is looked at."""

    def close_fails(self, log: Log, lives: Lives, life: Life) -> bool:
        matching = [it for it in lives if match(log, life, it)][:1]
        return self.is_judged(life) and not all(self.took_all(life, it) for it in matching)


class LostWithoutPartner(Judge):
    """A life that was ended has to match one."""

    def close_fails(self, log: Log, lives: Lives, life: Life) -> bool:
        return super().close_fails(log, lives, life) or self.is_judged(life) and not any(match(log, life, it) for it in lives)


# ---- judges of the run of the mailboxes


class NoRun(Judge):
    """The run is not looked at."""

    def of_run(self, book: Book) -> str | None:
        return None


class RunAlone(Judge):
    """Only the first thing that is wrong is named."""

    def verdict(self, book: Book) -> str:
        return super().verdict(book).splitlines()[0]


class FirstPartOnly(Judge):
    """Of the parts of a safe book only the first that is broken is named."""

    def of_book(self, book: Book) -> list[str | None]:
        found: list[str | None] = [*filter(None, super().of_book(book))]
        return found[:1]


class FormAlone(Judge):
    """The messages of a malformed book are not looked at."""

    def of_book(self, book: Book) -> list[str | None]:
        return [form] if (form := self.of_form(book)) else super().of_book(book)


class TwoSenders(Judge):
    """A receiving life that matches two senders breaks streams, too."""

    def stream_fails(self, log: Log, lives: Lives, life: Life) -> bool:
        return super().stream_fails(log, lives, life) or sum(match(log, life, it) for it in lives) > 1


class RunBefore(Judge):
    """A break of the run is put at the line before it."""

    def of_run(self, book: Book) -> str | None:
        found = super().of_run(book)
        return found and f"broken run line {int(found.split()[-1]) - 1}"


class KeptBoxes(Mailboxes):
    def keeps(self, flow: Flow, crossing: Turned) -> bool:
        return True


class BoxesStay(Judge):
    """A host that comes up keeps what it handed over."""

    mailboxes = KeptBoxes


class ClearedBoxes(Mailboxes):
    def keeps(self, flow: Flow, crossing: Turned) -> bool:
        return crossing.kind == "down" or crossing.host not in (flow.source, flow.destination)


class BoxesToItGo(Judge):
    """What waits for a host that comes up is forgotten too."""

    mailboxes = ClearedBoxes


class DownBoxes(Mailboxes):
    def keeps(self, flow: Flow, crossing: Turned) -> bool:
        return flow.source != crossing.host


class BoxesGoAtOnce(Judge):
    """What a host handed over is forgotten when it goes down."""

    mailboxes = DownBoxes


class AlwaysUp(Mailboxes):
    def turns(self, crossing: Turned) -> bool:
        fits = super().turns(crossing)
        self.is_up[crossing.host] = True
        return fits or crossing.kind == "up"


class NobodyIsDown(Judge):
    """Hosts that are down are not looked at."""

    mailboxes = AlwaysUp


class AnyAnswers(Mailboxes):
    def is_answered(self, crossing: Answered) -> bool:
        return self.is_up.get(crossing.flow.source, False) and self.boxes.pop(crossing.flow, None) is not None


class AnyAnswer(Judge):
    """Any answer fits a message that is outstanding."""

    mailboxes = AnyAnswers


# ---- judges of lives


class NoLives(Judge):
    """Lives are not looked at."""

    def of_lives(self, book: Book) -> str | None:
        return None


class TrustedCounts(Firsts):
    def are_enough(self, life: Life, first: Sequence[tuple[int, Data]]) -> bool:
        return True


class CountsAreTrusted(Judge):
    """A life's count of messages is trusted."""

    firsts = TrustedCounts


class LastLinks(Firsts):
    def named_at(self, log: Sequence[Crossing], place: int, kind: str, flow: Flow, own: int, foreign: int) -> list[int]:
        found = (super(LastLinks, self).named_at(log, at, kind, flow, own, foreign) for at in range(len(log) - 1, place - 1, -1))
        return next(filter(None, found), []) if super().named_at(log, place, kind, flow, own, foreign) else []


class LinkOfTheLastRequest(Judge):
    """The link of a life is that of the last request of its sockets."""

    firsts = LastLinks


class LastLink(Firsts):
    def link(self, log: Sequence[Crossing], life: Life) -> int | None:
        return next(reversed(self.links(log, life)), None)


class LastRequestInAMessage(Judge):
    """Of several requests of the sockets in a message the last one counts."""

    firsts = LastLink


class AnyLink(Firsts):
    def placed(self, log: Sequence[Crossing], life: Life) -> Placed | None:
        found = (self.placed_on(log, life, on_link(life, link)) for link in self.links(log, life))
        return next(filter(None, found), None)


class AnyRequestInAMessage(Judge):
    """Of several requests of the sockets in a message any one counts."""

    firsts = AnyLink


class AnyPartner(Firsts):
    def links(self, log: Sequence[Crossing], life: Life) -> list[int]:
        own = life.own, "out", Flow(life.host, life.peer, 0), life.socket, life.foreign
        partner = life.partner, "in", Flow(life.peer, life.host, 0), life.foreign, life.socket
        return self.named_at(log, *(own if life.receives() else partner))


class NoSize(Judge):
    """Only the request that names the link is looked at."""

    firsts = AnyPartner


class FromTheBeginning(Firsts):
    def begun(self, life: Life) -> int:
        return -1


class AllOnTheLink(Judge):
    """The messages on the link before a life's requests count, too."""

    firsts = FromTheBeginning


class NotTheFirst(Firsts):
    def messages_on(self, log: Sequence[Crossing], life: Life, flow: Flow) -> list[tuple[int, Data]]:
        found = super().messages_on(log, life, flow)
        return found[len(found) - life.messages :] if life.messages <= len(found) else found


class LastMessages(Judge):
    """A life has the last messages on its link."""

    firsts = NotTheFirst


class AnyOctets(Firsts):
    def commands(self, text: Bits) -> Iterator[bytes]:
        left = octets(text[HEADER:])
        yield from (left[at : at + LENGTHS[RTS]] for at in range(len(left) - LENGTHS[RTS] + 1) if left[at] in (RTS, STR))


class RequestsAnywhere(Judge):
    """A request is found anywhere in a message."""

    firsts = AnyOctets


# ---- judges of the word


class NeverSafe(Judge):
    """No log is safe that isn't kept."""

    def word(self, found: Sequence[str]) -> list[str]:
        return [] if found else super().word(found)


class SafeByItsEnds(Judge):
    """A log of which closes or fates are broken is safe, whatever else is."""

    def word(self, found: Sequence[str]) -> list[str]:
        return super().word([*found[-1:]])


class SafeByFates(Judge):
    """Closes may be asked of any program."""

    def word(self, found: Sequence[str]) -> list[str]:
        return [] if found and found[0].startswith("broken closes") else super().word(found)


class SafeByCloses(Judge):
    """Fates may be asked of any program."""

    def word(self, found: Sequence[str]) -> list[str]:
        return [] if found and found[-1].startswith("broken fates") else super().word(found)


class SafeAndKept(Judge):
    """A log that is kept is safe, too."""

    def word(self, found: Sequence[str]) -> list[str]:
        return ["safe", *super().word(found)] if not found else super().word(found)


READERS: list[type[LogReader]] = [
    GoesOn, NoLineFeed, NoEnd, EndAtLastLine, AnyOrder, AnyText, AnySocket, AnyStamp, ShortStamp, AnyAmount, ShortAmount, AnyKind, TwoFates, AnyFate,
]  # fmt: skip
JUDGES: list[type[Judge]] = [
    FewerLists, MoreLists, ToldOfItsList, LineOfItsNumber, BreakBefore, LastMalformed, FirstAtOdds, WrongWayRound, FirstOfAll, NoMatch, MatchFirst,
    SenderOfStream, SenderOfGrant, SenderEnded, AllWhole, WholeWhereClosed, WholeWhereReset, WholeWhereStopped, BitsOnly, MessagesOnly, SentOnly, NothingExcuses,
    LostOfTheFirst, LostWithoutPartner, NoRun, RunAlone, FirstPartOnly, FormAlone, TwoSenders, RunBefore, BoxesStay, BoxesToItGo, BoxesGoAtOnce, NobodyIsDown, AnyAnswer,
    NoLives, CountsAreTrusted, LinkOfTheLastRequest, LastRequestInAMessage, AnyRequestInAMessage, NoSize, AllOnTheLink, LastMessages, RequestsAnywhere,
    *OF_FATES,
    NeverSafe, SafeByItsEnds, SafeByFates, SafeByCloses, SafeAndKept,
]  # fmt: skip


def judge_with(reader: type[LogReader]) -> Judge:
    """A judge that is right, over a reader that is not."""
    judge = Judge()
    judge.reader = reader()
    return judge


MISREADINGS: dict[str, Judge] = {str(it.__doc__): judge_with(it) for it in [*READERS, *READERS_OF_STRANGERS]} | {
    str(it.__doc__): it() for it in [*JUDGES, *OF_GRANTS, *OF_STRANGERS]
}
