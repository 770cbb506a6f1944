"""`./explore`: finds a short script that prints what a pattern asks for.

    ./explore taken-and-incomplete
    ./explore --network A-B --raw --find 'in A B N .. then answer incomplete A B N'
"""

from __future__ import annotations

import argparse
import sys
from collections.abc import Sequence
from dataclasses import replace
from pathlib import Path

from dorydate import ending
from dorydate.expect import expected
from dorydate.explore import breadth, fast, lockup, without
from dorydate.explore.breadth import Asked
from dorydate.explore.campaign import BadTable, Campaign
from dorydate.explore.confirm import NotConfirmed, confirm
from dorydate.explore.engine import Cluster, Local, NoCluster, OtherProgram, Workers, available, batches_of, hash_of
from dorydate.explore.kinds import Pools, chosen, fit, pools
from dorydate.explore.many import CannotRun
from dorydate.explore.named import SEARCHES
from dorydate.explore.pattern import BadPattern, Pattern, read
from dorydate.explore.search import MATCHES, Job, NotKept, Progress
from dorydate.explore.shrink import Script as Found
from dorydate.explore.state import OtherState, State
from dorydate.network import BadNetwork, Network
from dorydate.program import NoProgram, Program, TookTooLong
from dorydate.where import found, here
from dorydate.script import BadLine, Calm, Script, octets_of
from dorydate.trace import BadTrace

MOST_EXPECTED = 40  # lines of one event that are written as its expectation
FOUND, NOT_FOUND, WRONG = 0, 1, 2  # exit statuses; with --never the first two are exchanged


class Wrong(Exception):
    """What is wrong with the words of the command."""


# what is said in one line
WRONGS = (
    *(NotKept, NotConfirmed, Wrong, BadPattern, BadNetwork, BadLine, BadTrace, CannotRun, NoProgram, TookTooLong),
    *(NoCluster, OtherProgram, OtherState, BadTable),
)


def parser() -> argparse.ArgumentParser:
    about = "Finds a short script that prints what a pattern asks for (docs/python.md)."
    made = argparse.ArgumentParser(here("./explore"), description=about)
    made.add_argument("name", nargs="?", help="a search with a name (--list), or a file with a topology")
    made.add_argument("--list", action="store_true", help="print the searches with names")
    made.add_argument("--find", metavar="PATTERN", help="what is looked for")
    made.add_argument("--never", metavar="PATTERN", help="what must not come: status 1 if it does")
    made.add_argument("--network", metavar="CHAIN", nargs="+", help="a network by chains of sites, as in UCLA-SRI-UTAH")
    made.add_argument("--raw", action="store_true", help="the script itself sends and takes messages")
    made.add_argument("--plain", action="store_true", help="mailboxes in the place of a subnet")
    made.add_argument("--foreign", metavar="HOST", nargs="+", default=[], help="hosts of --network that are strangers")
    made.add_argument("--kinds", metavar="KIND", nargs="+", help="the kinds of events, all of the network where none are named")
    made.add_argument("--runs", type=int, default=1_000_000, help="schedules at most")
    made.add_argument("--seconds", type=float, default=600.0, help="seconds at most")
    made.add_argument("--seed", type=int, default=1)
    made.add_argument("--matches", type=int, default=MATCHES, help="matches to shrink; the shortest is printed")
    made.add_argument("--cores", type=int, default=available(), help="processes that look at schedules; what is found for a seed is the same for any number of them")
    made.add_argument("--cluster", metavar="tcp://HOST:PORT", help="workers of a cluster of dask.distributed look at schedules")
    made.add_argument("--state", metavar="FILE", help="keep there how far the search has come, and continue from there")
    made.add_argument("--campaign", metavar="TABLE", help="a search for each row and seed of a table (CSV); --out has the results")
    made.add_argument("--out", metavar="FILE", help="where the results of a campaign go: FILE.csv or FILE.json")
    made.add_argument("--audit", action="store_true", help="give the log of each schedule to the proved audit")
    made.add_argument("--all", type=int, metavar="EVENTS", help="look at every list of at most EVENTS events, from the shortest, state by state")
    made.add_argument("--from", dest="opening", metavar="FILE", help="a script with which each list of --all or --fast begins; it names the network")
    made.add_argument("--calms", type=int, nargs="*", metavar="ROUNDS", help="calms among the events of --all (1 where none is named) and --fast (1 2 3 5)")
    made.add_argument("--fast", action="store_true", help="the same by the plain program, of which nothing is proved; what it finds is confirmed by the proved one")
    made.add_argument("--rest", action="store_true", help="with --fast: states that a long calm doesn't bring to rest, or leaves stuck")
    made.add_argument("--megabytes", type=int, default=fast.MEGABYTES, help="memory for the states of --fast")
    made.add_argument("--without", metavar="RULE", help="the independent model without one rule in the place of the program: which promise breaks")
    made.add_argument("--rules", action="store_true", help="print the rules that can be left out")
    made.add_argument("--save", metavar="FILE", help="write the script there too, and what it prints beside it")
    made.add_argument("--quiet", action="store_true", help="show no progress")
    return made


def network_of(words: argparse.Namespace) -> Network:
    """The network that is explored."""
    if words.network:
        carrier = "plain" if words.plain else "subnet"
        return Network.joined(*words.network, raw=words.raw, carrier=carrier, foreign=words.foreign)
    if words.opening:
        return opening_of(words).network
    if words.name in SEARCHES:
        return SEARCHES[words.name].network
    if words.name is None:
        raise Wrong("name a search, a file with a topology, or a --network; --list prints the searches")
    try:
        text = Path(words.name).read_text(encoding="utf-8", errors="surrogateescape")
    except OSError as fault:
        raise Wrong(f"{words.name} is no search with a name, and as a file: {fault.strerror}") from None
    return Network.read(text.split("\n%\n")[0])


def opening_of(words: argparse.Namespace) -> Script:
    """The script with which each list begins."""
    try:
        return Script.of_octets(Path(words.opening).read_bytes())
    except OSError as fault:
        raise Wrong(f"{words.opening}: {fault.strerror}") from None


def pattern_of(words: argparse.Namespace) -> Pattern:
    text = words.find or words.never or (SEARCHES[words.name].pattern if words.name in SEARCHES else None)
    if text is None:
        raise Wrong("nothing is looked for: name a search, or give --find PATTERN or --never PATTERN")
    return read(text)


def pools_of(words: argparse.Namespace, network: Network) -> Pools:
    every = pools(network)
    kinds = words.kinds or (SEARCHES[words.name].kinds if words.name in SEARCHES else ())
    if unknown := [it for it in kinds if it not in every]:
        raise Wrong(f"`{unknown[0]}` is no kind of event of this network; there are {', '.join(every)}")
    return chosen(every, kinds) if kinds else every


DEEPEST = 64  # events of a list of --fast, where no other number is given
CALMS = (1, 2, 3, 5)  # rounds of the calms among them
SELDOM = 10  # where nobody watches, one line of progress of these is written


class Shown:
    """Writes the line of progress: over the one before on a terminal, and more seldom elsewhere."""

    def __init__(self, pattern: Pattern, runs: int, name: str = "") -> None:
        self.pattern, self.runs, self.name, self.count = pattern, runs, name, 0

    def __call__(self, progress: Progress) -> None:
        self.count += 1
        line = f"explore: {self.name}{progress.line(self.pattern.length(), self.runs)}"
        if sys.stderr.isatty():
            print(f"\r{line}\033[K", end="", file=sys.stderr, flush=True)
        elif self.count % SELDOM == 0:
            print(line, file=sys.stderr, flush=True)


def written(network: Network, pattern: Pattern, script: Found, program: Program) -> str:
    """A script whose plain replay matches, with the pattern's last calm and with what each event prints (`#=`)."""
    confirm(network, pattern, script, program)
    last = (Calm(pattern.calm.rounds),) if pattern.calm.rounds else ()
    heading = [here("Found by ./explore: ") + pattern.text]
    full = expected(Script.of(network, (*script, *last), heading), program)
    short = tuple(it if len(it.expected or ()) <= MOST_EXPECTED else replace(it, expected=None) for it in full.entries)
    return replace(full, entries=short).text()


def saved(path: str, text: str, program: Program) -> None:
    """Writes a script as an example: the file, and beside it what it prints."""
    Path(path).write_text(text, encoding="utf-8")
    Path(f"{path}.stdout").write_text(program.run(octets_of(text)).output, encoding="utf-8")
    print(f"explore: {path} has the script, and {path}.stdout what it prints; {here('./explain')} --page < {path} makes a page of it", file=sys.stderr)


def print_list() -> int:
    for name, search in SEARCHES.items():
        print(f"  {name:22} {search.what}\n  {'':22} {search.pattern}")
    print(f"  {'lockup':22} {lockup.WHAT}")
    return FOUND


def workers_of(words: argparse.Namespace, program: Program) -> Workers | None:
    """Who looks at schedules; None where this process does so itself."""
    if words.cluster:
        return Cluster(words.cluster)
    return Local(words.cores, program) if words.cores > 1 else None


def searched(words: argparse.Namespace, program: Program) -> int:
    """A search by random schedules."""
    network, pattern = network_of(words), pattern_of(words)
    kinds = tuple(words.kinds or (SEARCHES[words.name].kinds if words.name in SEARCHES else ()))
    pools_of(words, network)
    job = Job(network.toml(), pattern.text, kinds, words.seed, words.audit)
    state = State(words.state, hash_of(program.file)) if words.state else None
    search = job.search(program)
    search.progress = (state.resumed("", job) if state else None) or search.progress
    workers = workers_of(words, program)
    try:
        batches = batches_of(job, program, workers, search.progress.next)
        keep = (lambda progress: state.keep("", job, progress)) if state else None
        search.run(words.runs, words.seconds, words.matches, None if words.quiet else Shown(pattern, words.runs), batches, keep)
    except WRONGS:
        if search.progress.best is not None:
            print(written(network, pattern, search.progress.best, program), end="")
        raise
    finally:
        if state:
            state.keep("", job, search.progress, True)
        if workers:
            workers.close()
    if sys.stderr.isatty() and not words.quiet:
        print(file=sys.stderr)
    return told(words, network, pattern, search.progress, program)


def told(words: argparse.Namespace, network: Network, pattern: Pattern, progress: Progress, program: Program) -> int:
    """Prints what a search found."""
    best = progress.best
    print(f"explore: {progress.line(pattern.length())}, in {progress.seconds():.1f} s", file=sys.stderr)
    if best is None:
        print("explore: nothing found", file=sys.stderr)
        return FOUND if words.never else NOT_FOUND
    print(f"explore: the first match after {progress.first_after} schedules and {progress.first:.2f} s; shrunk to {len(best)} events in {progress.shrinking} runs", file=sys.stderr)
    text = written(network, pattern, best, program)
    print(text, end="")
    if words.save:
        saved(words.save, text, program)
    return NOT_FOUND if words.never else FOUND


def campaigned(words: argparse.Namespace, program: Program) -> int:
    """The searches of a table."""
    if not words.out:
        raise Wrong("--campaign needs --out FILE.csv or FILE.json")
    try:
        table = Path(words.campaign).read_text(encoding="utf-8")
    except (OSError, UnicodeDecodeError) as fault:
        raise Wrong(f"{words.campaign}: {getattr(fault, 'strerror', None) or 'is no text'}") from None
    campaign = Campaign.read(table, words.out)
    state = State(words.state, hash_of(program.file)) if words.state else None
    workers = workers_of(words, program)
    try:
        return FOUND if campaign.run(program, workers, state, not words.quiet) else NOT_FOUND
    finally:
        if state:
            state.write()
        if workers:
            workers.close()


def asked_of(words: argparse.Namespace, pattern: Pattern, calms: Sequence[int]) -> Asked:
    """What is asked where all states are looked at."""
    network = network_of(words)
    if words.all is not None and words.all < 1:
        raise Wrong(f"--all {words.all}: lists have at least one event")
    rounds = words.calms if words.calms is not None else calms
    if wrong := [it for it in rounds if it < 1]:
        raise Wrong(f"--calms {wrong[0]}: a calm has at least one round")
    events = [event for kind in fit(pools_of(words, network), pattern).values() for event in kind]
    opening = opening_of(words).events if words.opening else ()
    return Asked(network, pattern, opening, (*events, *map(Calm, rounds)), words.all or DEEPEST, words.seconds)


def all_states(words: argparse.Namespace, program: Program) -> int:
    """Every list, by the program."""
    pattern = pattern_of(words)
    breadth.checked(network_of(words), pattern)
    status = breadth.command(asked_of(words, pattern, (1,)), program)
    return {FOUND: NOT_FOUND, NOT_FOUND: FOUND}[status] if words.never else status


def found_fast(words: argparse.Namespace, program: Program) -> int:
    """Every list, by the plain program. What it finds is shown if the program prints it, too."""
    pattern = Pattern("", ()) if words.rest else pattern_of(words)
    asked = asked_of(words, pattern, CALMS)
    options = ["--megabytes", str(words.megabytes), *(["--calms"] if words.rest else [])]
    fast.input_of(asked)  # what it can't do is said before it is built
    answer = fast.searched(asked, not words.quiet, options)
    if answer.stopped:
        print(f"explore: stopped: {answer.stopped} was up before all of {answer.whole + 1} events were looked at", file=sys.stderr)
    if words.rest:
        return told_of_rest(asked, answer)
    if answer.found is None:
        print(f"explore: {fast.last_words(asked, answer)}", file=sys.stderr)
        return FOUND if words.never else NOT_FOUND
    script = (*asked.opening, *answer.found)
    print(f"explore: {fast.last_words(asked, answer)}{breadth.by_whom(program)}", file=sys.stderr)
    text = written(asked.network, pattern, script, program)
    print(text, end="")
    if words.save:
        saved(words.save, text, program)
    return NOT_FOUND if words.never else FOUND


def told_of_rest(asked: Asked, answer: fast.Answer) -> int:
    """Prints what a long calm makes of states."""
    for it in answer.classes:
        print(f"{it.count} states: {it.label}\n    {'; '.join(map(str, (*asked.opening, *it.script)))}")
    length = "of any length" if answer.is_all else f"of up to {answer.whole} events"
    print(f"explore: {len(answer.classes)} kinds of states after lists {length} of {asked.words()}, by the plain program", file=sys.stderr)
    return FOUND if answer.classes else NOT_FOUND


def chose(words: argparse.Namespace) -> int:
    """Does what the words ask for."""
    if words.list:
        return print_list()
    if words.rules:
        return without.print_rules()
    if words.without:
        return without.command(words.without, words.seed, words.seconds, words.runs, words.save)
    program = found()
    if words.name == "lockup":
        return lockup.command(program, words.seed, words.seconds)
    if words.campaign:
        return campaigned(words, program)
    if words.fast or words.rest:
        return found_fast(words, program)
    if words.all is not None:
        return all_states(words, program)
    if words.opening:
        raise Wrong("--from goes with --all or --fast")
    return searched(words, program)


def main(options: Sequence[str] | None = None) -> int:
    """The exit status."""
    words = parser().parse_args(options)
    try:
        return chose(words)
    except WRONGS as why:
        print(f"explore: {why}", file=sys.stderr)
        return WRONG
    except BrokenPipeError:
        raise
    except OSError as fault:
        print(f"explore: {ending.in_words(fault)}", file=sys.stderr)
        ending.hand_on()
        return WRONG


def run() -> int:
    """The command as `pip` installs it."""
    return ending.run("explore", main)
