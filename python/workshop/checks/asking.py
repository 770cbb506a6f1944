"""Logs of networks whose IMPs ask, checked against the mailboxes, only in the model (half a minute for 1,000): ./check asking [RUNS]

Runs random scripts with questions (python/dorydate/model/chance/questions.py), only in the independent model. Of each log it is looked at whether it is
a run of the mailboxes, and that no message is taken, before or after, whose source was notified of "not taken" (python/dorydate/model/mailboxes.py).
So this script doesn't try the program: `check model` does. It tries the rules of questions themselves.

First the mailboxes are tried, on logs written by hand that are runs, and on logs that are wrong in one place. At last the rules are
tried, each left out or broken in turn: some script has to come to a log that is no run. There numbers are 0 to 7 and the window
is 3 wide, so that numbers wrap around within a script. Not each of the rules is needed for the mailboxes: those that are owed to
the exact contracts as such are not among them.
"""

from __future__ import annotations

from collections import Counter
from functools import partial

from workshop.words import Words
from dorydate.model.chance.questions import Counting, MakesSubnet, Questions
from dorydate.model.crossings import Answer, Answered, Crossing, Passed, Reply, Turned
from dorydate.model.imp import TELLS, Deed, Imp
from dorydate.model.imp_state import NUMBERS, Fate, Numbers
from dorydate.model.mailboxes import first_break, never_taken
from dorydate.model.names import Flow, HostName
from dorydate.model.packets import DEAD, NEVER, RFNM
from dorydate.model.subnet import Subnet
from dorydate.model.without.network import AskedUnnoted, BeginsKept, Impatient

RUNS = 1000
MOST_TRIED = 4000  # this many scripts are run to find that a rule is lacking
FEW = Numbers(8, 3)

# ---- logs by hand

ONE, OTHER = HOSTS = [HostName(0, 1), HostName(0, 2)]
FLOW, BACK = Flow(ONE, OTHER, 9), Flow(OTHER, ONE, 9)
OUT, TAKEN, NEXT = Passed("out", FLOW, "1"), Passed("in", FLOW, "1"), Passed("out", FLOW, "0")
DOWN, UP = Turned("down", ONE), Turned("up", ONE)


def told(kind: Answer, flow: Flow = FLOW) -> Answered:
    """A crossing of an answer."""
    return Answered("answer", kind, flow)


# logs, and the place of the first crossing that finds no box as it needs it
LOGS: list[tuple[list[Crossing], int | None]] = [
    ([OUT, told("nottaken")], None),
    ([OUT, told("nottaken"), NEXT, Passed("in", FLOW, "0"), told("rfnm")], None),
    ([OUT, TAKEN, told("rfnm")], None),
    ([OUT, TAKEN, told("incomplete")], None),
    ([OUT, told("incomplete")], None),
    ([OUT, told("dead")], None),
    ([OUT, DOWN, TAKEN, UP, NEXT], None),
    ([OUT, Passed("out", BACK, ""), Passed("in", BACK, ""), TAKEN, told("rfnm", BACK), told("rfnm")], None),
    ([OUT, TAKEN, told("nottaken")], 2),
    ([OUT, told("nottaken"), TAKEN], 2),
    ([OUT, told("nottaken"), told("nottaken")], 2),
    ([told("nottaken")], 0),
    ([OUT, DOWN, told("nottaken")], 2),
    ([OUT, told("nottaken", BACK)], 1),
    ([OUT, TAKEN, told("dead")], 2),
    ([OUT, told("rfnm")], 1),
    ([OUT, NEXT], 1),
    ([OUT, Passed("in", FLOW, "0")], 1),
    ([OUT, TAKEN, TAKEN], 2),
    ([OUT, Turned("down", OTHER), TAKEN], 2),
    ([UP], 0),
    ([DOWN, DOWN], 1),
    ([DOWN, OUT], 1),
    ([Turned("down", HostName(0, 3))], 0),
]

# logs, and whether no message is taken whose source was notified of "not taken"
TOLD: list[tuple[list[Crossing], bool]] = [
    ([OUT, told("nottaken"), NEXT, Passed("in", FLOW, "0")], True),
    ([OUT, TAKEN, told("rfnm"), NEXT, told("nottaken")], True),
    ([OUT, Passed("in", BACK, "1"), told("nottaken")], True),
    ([OUT, told("nottaken"), TAKEN], False),
    ([OUT, TAKEN, told("nottaken")], False),
    ([OUT, told("nottaken"), DOWN, UP, TAKEN], False),
]

# ---- rules that are left out or broken, beside those of python/dorydate/model/without


class TakenIsNever(Imp):
    """A question about a message that was taken is answered by another packet than RFNM."""

    told = NEVER

    def answer_to(self, flow: Flow, number: int) -> Deed | None:
        taken = self.kept.get(flow) == number and self.fates[flow] == "taken"
        return self.with_reply(self.told, flow, number) if taken else super().answer_to(flow, number)


class TakenIsDead(TakenIsNever):
    told = DEAD


class NeverIsTaken(Imp):
    """A number that is new is answered by an RFNM."""

    def answer_to(self, flow: Flow, number: int) -> Deed | None:
        return self.with_reply(RFNM, flow, number) if self.is_new(flow, number) else super().answer_to(flow, number)


class OldFates(Imp):
    """A number that is noted keeps the fate of the one before it."""

    def note(self, flow: Flow, number: int, fate: Fate) -> None:
        super().note(flow, number, self.fates.get(flow, fate))


class AnyNumber(Imp):
    """A question is answered by the fate of whatever number was noted last."""

    def answer_to(self, flow: Flow, number: int) -> Deed | None:
        if self.is_new(flow, number) or self.fates[flow] == "waits":
            return super().answer_to(flow, number)
        return self.with_reply(TELLS[self.fates[flow]], flow, number)


class ToldWhenDown(Imp):
    """NotTaken waits for a host that is down."""

    def tell(self, kind: Answer, flow: Flow) -> None:
        if kind == "nottaken" and flow.source.number < len(self.hosts):
            self.hosts[flow.source.number].answers.append(Reply(kind, flow))
        else:
            super().tell(kind, flow)


class AwaitedIsForgotten(Subnet):
    """An IMP forgets the flows of another one though that may ask about a message."""

    def is_awaiting(self, other: int, at: int) -> bool:
        return False


class StartsAwaited(Subnet):
    """An IMP starts though another one may ask it about a message."""

    def is_awaited(self, at: int) -> bool:
        return False


def of_imps(kind: type[Imp]) -> MakesSubnet:
    """Subnets with IMPs of another kind, and few numbers."""
    return partial(Subnet, numbers=FEW, make_imp=kind)


WRONG: dict[str, MakesSubnet] = {
    "Never is told of a message that waits": of_imps(Impatient),
    "a new number that is asked about isn't noted": of_imps(AskedUnnoted),
    "Never is told of a message that was taken": of_imps(TakenIsNever),
    "Dead is told of a message that was taken": of_imps(TakenIsDead),
    "RFNM comes for a message that never came": of_imps(NeverIsTaken),
    "a number that is noted keeps the fate of the one before it": of_imps(OldFates),
    "a question is answered by the fate of another number": of_imps(AnyNumber),
    "NotTaken waits for a host that is down": of_imps(ToldWhenDown),
    "a number is begun though the destination's IMP keeps it": partial(BeginsKept, numbers=FEW),
    "an IMP forgets flows though a message is outstanding": partial(AwaitedIsForgotten, numbers=FEW),
    "an IMP starts though a message to it is outstanding": partial(StartsAwaited, numbers=FEW),
}


def is_kept(subnet: Subnet) -> bool:
    """Whether the log of a subnet is a run of the mailboxes in which "not taken" is true."""
    return first_break(subnet.hosts(), subnet.log) is None and never_taken(subnet.log)


def scripts_until_broken(make: MakesSubnet) -> int | None:
    """How many scripts it takes until one comes to a log that is no run; None where none does."""
    return next((seed + 1 for seed in range(MOST_TRIED) if not is_kept(Questions(seed, 200, make).subnet)), None)


def wrong_by_hand() -> str | None:
    """What is wrong with how logs by hand are judged."""
    for log, wanted in LOGS:
        if (found := first_break(HOSTS, log)) != wanted:
            return f"the mailboxes break at {found}, and should at {wanted}: {log}"
    for log, is_right in TOLD:
        if never_taken(log) != is_right:
            return f"whether none is taken of which NotTaken is told is {never_taken(log)}, and should be {is_right}: {log}"
    return None


def runs_of(numbers: Numbers, runs: int, seen: Counter[str]) -> bool:
    """Whether each log of random scripts is a run of the mailboxes. What they came to is counted."""
    for seed in range(runs):
        questions = Questions(seed, 200, partial(Counting, numbers=numbers))
        subnet = questions.subnet
        assert isinstance(subnet, Counting)
        if not is_kept(subnet):
            print(f"check asking: run {seed} with {numbers.count} numbers is no run of the mailboxes: {questions.network}", *questions.lines, sep="\n")
            return False
        seen += subnet.came_to()
    return True


def main() -> int:
    """The exit status."""
    runs = Words(__doc__).count("runs", RUNS, "random scripts for each of the two ranges of numbers").asked().runs
    if wrong := wrong_by_hand():
        print(f"check asking: {wrong}")
        return 1
    seen = Counter[str]()
    if not all(runs_of(numbers, runs, seen) for numbers in (NUMBERS, FEW)):
        return 1
    print(f"check asking: {len(LOGS) + len(TOLD)} logs by hand, each judged rightly; {2 * runs} scripts, each log a run of the mailboxes")
    print("check asking: they came to", ", ".join(f"{count} {name}" for name, count in sorted(seen.items())))
    for name, make in WRONG.items():
        found = scripts_until_broken(make)
        if found is None:
            print(f"check asking: no script of {MOST_TRIED} tells that {name}")
            return 1
        print(f"check asking: script {found} tells that {name}")
    return 0
