"""Each planted bug of crates/*/wrong-bodies is refused by the proofs: ./check edits [WAY] [--note] [--jobs N] [CRATE | CRATE/NAME ..]

WAY is --gate, --built or --whole. It takes minutes for a crate, and an hour for all.

Edits of different functions of a crate are tried together, in a copy of the crate and of what its last check kept. A function is proved over the
contracts of those it calls, so an edit counts as refused only at goals of its own function, which are printed. So only these
functions are checked, with those that they call, first as they are and then with the edits. What a batch leaves open is tried
alone. An edit that is in no function, or in one that `rt check --only` doesn't find, is tried over whole checks of the crate, and
with --whole so is each. An edit that doesn't compile is named, and so is one that is refused only because a proof file names what
it took away: neither says anything of the contract. Nothing is written beside the copy, which is removed.

With --built they are tried over the libraries that an `rt ci` built in this clone, and with no check of the functions as
they are, since it has proved them. Each has to be in one function. With --gate only those with the line `# The gate tries
this bug.` are tried in this way, right after that `rt ci`, and as many crates at once as --jobs says or there are cores.

With --note the day on which each was refused is written into docs/measured/planted.json, and shown in planted.md.
"""

from __future__ import annotations

import argparse
import functools
import os
import re
import tempfile
import time
from collections.abc import Sequence
from concurrent.futures import ThreadPoolExecutor

from workshop.builds.drivers import CORES, crates_below
from workshop.checks.copies import Copy, CopyOfCrate, CopyOverGate, lines_of_crates
from workshop.checks.planting import Edit, Texts, edits_of, first_batch
from workshop.documents import planted
from workshop.parts import ROOT
from workshop.words import Words

# what antt says of a proof that names what is no longer there, or answers a goal that says nothing any more
GONE = r"has no field|is not in scope|has no `|was not admitted|\(nearest: \.|types are `Unit \{0\}` \(expected\)"


def answer_errors(name: str, said: str) -> list[str]:
    """The errors in the answers to the goals of a function."""
    folder = "/".join(it for it in name.split("::")[1:] if it != "fn")
    return re.findall(rf"^(?:\./)?proofs/{re.escape(folder)}/[\w/]*\.antt:\d+:\d+: error: (.*)$", said, re.MULTILINE)


def open_goals(said: str) -> dict[str, list[str]]:
    """The goals that are not proved, of each function that has any. That it calls a function which isn't proved is no goal of its own."""
    found = {}
    for name, why in re.findall(r"^fn (\S+): (.*)$", said, re.MULTILINE):
        if why.startswith("no proof: expected answers in"):
            found[name] = re.findall(r"`([\w-]+)`", why.partition("did not prove")[2].partition("; it ")[0])
        elif why.startswith("not proved"):
            errors = answer_errors(name, said)
            if errors and not all(re.search(GONE, it) for it in errors):
                found[name] = [f"the answer to {it[1]}: {it[2][:120]}" if (it := re.match(r"`([\w-]+)`: (.*)", error)) else f"an answer: {error[:120]}" for error in errors]
    return {name: goals for name, goals in found.items() if goals}


def refusal(edit: Edit, said: str) -> str:
    """The goals of its own at which the checker refused the function of an edit, or a closure in it; "" where it didn't."""
    return ", ".join(dict.fromkeys(goal for name, goals in open_goals(said).items() if edit.is_in(name) for goal in goals))


def not_compiled(batch: Sequence[Edit], texts: Texts, said: str) -> list[Edit]:
    """The edits of a batch at whose lines the compiler stopped."""
    found = []
    for edit in batch:
        lines = texts[edit.files[0]].split("\n")
        at = {number for number, line in enumerate(lines, 1) if any(new and new in line for _, new in edit.pairs)}
        if any(path == edit.files[0] and int(number) in at for path, number in re.findall(r"^(?:\./)?(src/\S+?):(\d+):\d+: error\[", said, re.MULTILINE)):
            found.append(edit)
    return found


def functions_of(edits: Sequence[Edit], whole: bool) -> list[str]:
    """What a check of these edits looks at: their functions, or with `whole` the crate."""
    return [] if whole else [*dict.fromkeys(it.only for it in edits if it.only)]


def verdict_alone(edit: Edit, said: str) -> tuple[bool, str]:
    """What a check with only this edit says of it, as whether it is refused and in words."""
    ended = re.search(r"^(?:logic=(proved)?|only=(\d+) proved=(\d+)$)", said, re.MULTILINE)
    if "\nrattle: no verdict" in said:
        return False, "NOT JUDGED: the prover met a limit"
    if not ended:
        error = re.search(r"^.*\berror.*$", said, re.MULTILINE)
        return False, f"DOES NOT COMPILE: {error[0] if error else said[-300:]}"
    if ended[1] or (ended[2] and ended[2] == ended[3]):
        return False, f"NOT REFUSED: the {'crate' if ended[1] else 'function'} is still proved with this edit"
    goals = refusal(edit, said) if edit.function else "; ".join(f"{name}: {', '.join(goals)}" for name, goals in open_goals(said).items())
    if goals:
        return True, f"refused, alone ({goals})"
    errors = re.findall(r"^(?:\./)?\S+:\d+:\d+: error.*$|^fn \S+: (?!proved$).*$", said, re.MULTILINE)
    return False, f"SAYS NOTHING: it is refused, but at no goal of its own function: {'; '.join(errors)[:400]}"


def try_in_batches(copy: Copy, edits: list[Edit], whole: bool) -> list[Edit]:
    """Tries the edits together where that shows something, and prints those that are refused. Gives those that are left."""
    waiting, batches = edits, 0
    alone: list[Edit] = []
    while True:
        batch, texts = first_batch(waiting)
        waiting = [it for it in waiting if it not in batch]
        if len(batch) < 2:
            return batch + waiting + alone
        batches += 1
        said = copy.check_with(texts, functions_of(batch, whole))
        if not re.search(r"^fn ", said, re.MULTILINE):
            bad = not_compiled(batch, texts, said)
            alone += bad or batch
            waiting = [it for it in batch if bad and it not in bad] + waiting
            continue
        # a function without an edit has no open goals, whatever it calls; where one has some, the batch doesn't show whose they are
        others = [name for name in open_goals(said) if not any(it.is_in(name) for it in batch)]
        for edit in batch:
            if not others and (goals := refusal(edit, said)):
                print(f"{copy.crate}/{edit.name}: refused, in batch {batches} ({goals})", flush=True)
            else:
                alone.append(edit)
        if others:
            print(f"{copy.crate}: batch {batches} tells nothing, since it leaves goals open in {', '.join(others)}", flush=True)


def begin(copy: CopyOfCrate, edits: list[Edit], whole: bool) -> tuple[list[Edit], bool]:
    """Checks the functions of the edits as they are, or with `whole` the crate. Gives the edits whose functions that finds, and whether
    these are proved."""
    found = edits
    while found:
        status, said = copy.keep(functions_of(found, whole))
        unknown = re.findall(r"(?:has no function|several functions are named) `([^`]+)`", said) if status == 2 else []
        if not unknown:
            if status:
                print(f"{copy.crate}: edits can't be tried, since what they are in is not proved as it stands:\n{said[-2000:]}", flush=True)
            looked_at = re.findall(r"^fn (\S+): proved$", said, re.MULTILINE)
            return [it for it in found if whole or status or any(it.is_in(name) for name in looked_at)], status == 0
        found = [it for it in found if it.only not in unknown]
    return [], True


def try_all(copy: Copy, edits: list[Edit], whole: bool) -> list[Edit]:
    """Tries the edits over their functions, or with `whole` over the crate. Gives those that are not refused, and prints what comes of each."""
    failed = []
    for edit in try_in_batches(copy, edits, whole):
        texts = edit.applied({})
        is_refused, words = verdict_alone(edit, copy.check_with(texts, functions_of([edit], whole))) if texts else (False, "DOES NOT FIT: what it replaces doesn't stand once in its file")
        print(f"{copy.crate}/{edit.name}: {words}", flush=True)
        if not is_refused:
            failed.append(edit)
    return failed


def check_crate(crate: str, names: list[str], whole: bool, words: list[str]) -> tuple[int, int]:
    """Tries the edits of a crate, all of them or those that are named. Gives how many are refused, and how many are not."""
    begun = time.monotonic()
    edits = [it for it in edits_of(crate) if not names or it.title in names]
    left, quick, failed = edits, 0, []
    with tempfile.TemporaryDirectory(prefix="edits-") as room:
        copy = CopyOfCrate(crate, room, words)
        for is_whole in (False, True)[whole:]:
            tried, is_proved = begin(copy, left if is_whole else [it for it in left if it.only], is_whole)
            left = [it for it in left if it not in tried]
            failed += try_all(copy, tried, is_whole) if is_proved else tried
            if left:
                print(f"{crate}: over whole checks: {', '.join(it.name for it in left)}", flush=True)
            quick += 0 if is_whole else len(tried)
    print(f"{crate}: {len(edits) - len(failed)} of {len(edits)} refused, {quick} tried over their functions alone, {time.monotonic() - begun:.0f} seconds", flush=True)
    noted(crate, edits, failed)
    return len(edits) - len(failed), len(failed)


def has_built(crate: str) -> bool:
    """Whether `rt ci` built what the crate uses in this clone: what `rt check` builds has a stamp."""
    below = crates_below({name: below.split() for name, below in lines_of_crates().items()}, crate)
    built = {it: f"{ROOT}/crates/{it}/out/rlib" for it in below if it != crate}
    return all(os.path.isdir(f"{at}/{it}.rlib") and not os.path.exists(f"{at}/stamp") for it, at in built.items())


def noted(crate: str, edits: Sequence[Edit], failed: Sequence[Edit]) -> None:
    """Writes down, with --note, which of these edits were refused."""
    if asked().note:
        planted.note(crate, [it for it in edits if it not in failed], failed)


def check_for_gate(crate: str, names: list[str]) -> tuple[int, int]:
    """Tries those edits of a crate that the gate tries, all of them or those that are named. Gives how many are refused, and how many are not."""
    edits = [it for it in edits_of(crate) if it.is_of_gate and (not names or it.title in names)]
    return check_over_built(crate, edits) if edits else (0, 0)


def check_over_built(crate: str, edits: list[Edit]) -> tuple[int, int]:
    """Tries edits of a crate over what `rt ci` built. Gives how many are refused, and how many are not."""
    if not has_built(crate):
        print(f"{crate}: `rt ci` left no libraries here, so `rt check` proves what the crate stands on", flush=True)
        return check_crate(crate, [it.title for it in edits], False, ["--jobs", "1"])
    begun = time.monotonic()
    failed = [it for it in edits if not it.only]
    for edit in failed:
        print(f"{crate}/{edit.name}: NOT TRIED: it is not in one function alone", flush=True)
    with tempfile.TemporaryDirectory(prefix="edits-") as room:
        failed += try_all(CopyOverGate(crate, room), [it for it in edits if it.only], False)
    noted(crate, edits, failed)
    print(f"{crate}: {len(edits) - len(failed)} of {len(edits)} refused, {time.monotonic() - begun:.0f} seconds", flush=True)
    return len(edits) - len(failed), len(failed)


def words_of() -> Words:
    """The words that it takes."""
    words = Words(__doc__).names("edit", "a crate, or one bug of it as CRATE/NAME; all, if none is named")
    way = words.add_mutually_exclusive_group()
    way.add_argument("--gate", action="store_true", help="only those that the gate tries, over what `rt ci` has built")
    way.add_argument("--built", action="store_true", help="over what `rt ci` has built")
    way.add_argument("--whole", action="store_true", help="each over whole checks of its crate")
    words.add_argument("--jobs", type=int, metavar="N", help="how many are tried at once")
    return words.flag("note", "write down which were refused")


@functools.cache
def asked() -> argparse.Namespace:
    """What is asked for."""
    return words_of().asked()


def status_of(counts: Sequence[tuple[int, int]]) -> int:
    """Prints how many are refused in all, and gives the status: 1 too where none was tried."""
    refused, failed = (sum(it) for it in zip(*counts))
    print(f"{refused} refused, {failed} not")
    return 0 if refused and not failed else 1


def main() -> int:
    having = [it for it in sorted(os.listdir(f"{ROOT}/crates")) if os.path.isdir(f"{ROOT}/crates/{it}/wrong-bodies")]
    given = asked()
    jobs = [] if given.jobs is None else ["--jobs", str(given.jobs)]
    named: dict[str, list[str]] = {}
    for word in given.edit or having:
        crate, _, name = word.partition("/")
        if crate not in having:
            print(f"check edits: no planted bugs stand in crates/{crate}/wrong-bodies; there are some in {', '.join(having)}")
            return 1
        if name and name not in [it.title for it in edits_of(crate)]:
            print(f"check edits: no planted bug of {crate} is called {name}")
            return 1
        named.setdefault(crate, []).extend([name] if name else [])
    if given.gate:
        with ThreadPoolExecutor(given.jobs or CORES) as threads:
            return status_of([*threads.map(check_for_gate, named, named.values())])
    if not given.built:
        counts = [check_crate(crate, names, given.whole, jobs) for crate, names in named.items()]
    else:
        counts = [
            check_over_built(crate, [it for it in edits_of(crate) if not names or it.title in names])
            for crate, names in named.items()
        ]
    return status_of(counts)
