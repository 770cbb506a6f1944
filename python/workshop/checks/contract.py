"""The contract of a host: its stored scripts, and the promise in random worlds of hosts that keep it (a minute).

Tries the contract (python/dorydate/contract): ./check contract [WORLDS [FIRST]], or ./check contract --power [WORLDS]

Each file of without/contract has one host that lacks one rule: the promise breaks by just the clauses that it names,
and by their own logs that host breaks that rule and the others none. The rules that the crate `host_contract` defines
are computed over these own logs and over 150 of random worlds, which keep them or not: the first act that
breaks one, and which it breaks, has to be what the judge says. Then WORLDS random worlds of each kind, from the seed
FIRST:

  keepers     hosts that do any act that the contract allows next, and strangers, over anything that the mailboxes allow
  around      two keepers while most of a stored script happens, as far as they may
  programs    the independent model's own worlds, over boxes and subnets: its hosts' own logs keep the contract, and the
              lives that they have are those of the book
  among       programs, keepers and strangers

In each the promise among keepers has to hold, messages compared by their places. --power says instead in how many
worlds the promise breaks where one of two hosts lacks a rule: at random, and around that rule's script.
"""

from __future__ import annotations

import os
from collections import Counter
from collections.abc import Callable, Iterator
from functools import lru_cache
from itertools import chain, count, islice

from dorydate.contract import RULES, Broken
from dorydate.contract.worlds.play import Acts, some_world, tally
from dorydate.contract.worlds.programs import among, of_program, tried
from dorydate.contract.worlds.stored import Run, Script, wrong_with
from dorydate.definitions.compiling import Decider
from dorydate.definitions.library import Library
from dorydate.definitions.promise import crates_folder, deeply, sources_below
from workshop.parts import ROOT, text_of
from workshop.contract.own_logs import Contract, by_judge, difference
from workshop.contract.random_logs import OwnLog, by_host, of_world
from workshop.words import Words

FOLDER = f"{ROOT}/without/contract"
WORLDS, POWER, LOGS = 200, 60, 150
Tried = tuple[Counter[str], list[str]]  # what worlds came to, and what is wrong


@lru_cache(maxsize=1)
def scripts() -> dict[str, Script]:
    """The stored scripts, by the rules that they lack."""
    return {it: Script.read(text_of(f"{FOLDER}/{it}")) for it in sorted(os.listdir(FOLDER))}


@lru_cache(maxsize=1)
def acts() -> dict[str, Acts]:
    """What happens in each."""
    return {name: Run(it).acts for name, it in scripts().items()}


def stored() -> int:
    """Whether the stored scripts show what they say, and each rule that is needed has one. The status."""
    wrong = [f"{name}: {why}" for name, it in scripts().items() if (why := wrong_with(it))]
    wrong += [f"{it.name}: no script" for it in RULES.values() if it.is_needed and it.name not in scripts()]
    print(*[f"check contract: {it}" for it in wrong], sep="\n", end="\n" if wrong else "")
    print(f"check contract: {len(scripts())} scripts, in each of which one host lacks one rule, and the promise breaks")
    return 1 if wrong else 0


def own_logs(first: int) -> Iterator[OwnLog]:
    """The own logs of the stored scripts, and of random worlds."""
    yield from (it for one in acts().values() for it in by_host(one))
    yield from islice(chain.from_iterable(map(of_world, count(first))), LOGS)


def defined(first: int) -> int:
    """Whether the crate's definitions and the judge say the same of own logs. The status."""
    contract = Contract(Decider(Library(sources_below(crates_folder()))))
    seen: Counter[str] = Counter()
    wrong = [f"the crate and the judge don't both have {it}" for it in sorted({*RULES} ^ {*contract.rules})]
    for host, log in own_logs(first):
        contract.decider.forget()
        if why := difference(contract, host, log):
            wrong.append(why)
        breach = by_judge(host, log)
        seen[breach[1][0] if breach else "kept"] += 1
    print(*[f"check contract: {it}" for it in wrong[:1]], sep="\n", end="\n" if wrong else "")
    total, rules = sum(seen.values()), len(seen) - ("kept" in seen)
    kept = f"{seen['kept']} of which are kept, and {rules} rules are broken by the others"
    print(f"check contract: {total} own logs by the definitions, {kept}; {len(wrong)} are judged otherwise", flush=True)
    return 1 if wrong else 0


def keepers(seed: int) -> Tried:
    play = some_world(seed)
    return tally(play), sorted(play.world.broken())


def around(seed: int) -> Tried:
    play = some_world(seed, (), [*acts().values()])
    return tally(play), sorted(play.world.broken())


def programs(seed: int) -> Tried:
    world, wrong = of_program(seed)
    lives, logs = len(world.book.lives), len(world.own)
    return Counter({"worlds": 1, "crossings": len(world.carrier.log), "lives": lives, "own logs": logs}), wrong


def with_programs(seed: int) -> Tried:
    try:
        play = among(seed)
    except Broken as why:
        return Counter({"worlds": 1}), [f"a program breaks {why}"]
    return tally(play) + tried(play), sorted(play.world.broken())


KINDS: dict[str, Callable[[int], Tried]] = {
    "keepers": keepers,
    "around": around,
    "programs": programs,
    "among": with_programs,
}


def worlds(kind: str, many: int, first: int) -> int:
    """Tries random worlds of a kind. The status."""
    come_to: Counter[str] = Counter()
    broken = 0
    for seed in range(first, first + many):
        one, wrong = KINDS[kind](seed)
        come_to += one
        if wrong:
            broken += 1
            print(f"check contract: {kind} {seed}: {', '.join(wrong)}", flush=True)
    seen = ", ".join(f"{many:,} {what}" for what, many in come_to.items())
    print(f"check contract: {kind}: {seen}; {broken} break the promise or the contract", flush=True)
    return 1 if broken else 0


def power(many: int) -> int:
    """Says how often the lack of a rule is seen in random worlds."""
    for rule, script in acts().items():
        some = sum(bool(some_world(seed, (rule,)).world.broken()) for seed in range(many))
        near = sum(bool(some_world(seed, (rule,), [script]).world.broken()) for seed in range(many))
        print(f"{rule}: {some} and {near} of {many}", flush=True)
    return 0


def main() -> int:
    words = Words(__doc__).count("worlds", WORLDS, "random worlds of each kind")
    words.count("first", 0, "the number of the first of them")
    power_of = "say which rules random scripts show, and no more"
    words.add_argument("--power", nargs="?", type=int, const=POWER, metavar="SCRIPTS", help=power_of)
    asked = words.asked()
    if asked.power is not None:
        return power(asked.power)
    many, first = asked.worlds, asked.first
    return max([stored(), deeply(lambda: defined(first)), *(worlds(kind, many, first) for kind in KINDS)])
