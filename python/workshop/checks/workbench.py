"""The workbench: its modules by Node and by the independent model, and with --browser in browsers (2 minutes).

With Node (Debian's package `nodejs`), over the native program (over its module, which is faster, while it is not
proved and has one):
- each example's moments print what is stored, each stop is there once, and a change at a random position is exact;
- what each event leaves inside, in the programs of hosts too, is what the independent model in Python has then, part
  for part;
- packets that are thrown away are called repeats or lost, as rows written by hand say;
- of a life or a message of a book it says what ./explain --book says, in broken books too;
- nothing that waits is left out at any stop, each message has its lane, each sentence is whole, and faults, texts and
  addresses are as by hand;
- random lines have a fault here exactly where the reader in Python finds one;
- planted faults in all of these are found.

TypeScript (`node-typescript`) checks the types where it is there. With --browser the page of `./build --wasm`, or
that of the released module where it is of these sources, is opened in Chromium, Firefox and WebKit (Debian's packages
`chromium`, `firefox-esr`, and `webkit2gtk-driver` with `xvfb`), as many of them as there are: each lesson is stepped
forth and back, parts are tapped, sizes measured, planted faults found. Of a whole run each browser takes ten minutes of
the processor, so it may be tried in parts: --browser firefox maps looks. Selenium isn't used, since Debian 12 has no
geckodriver, without which it drives no Firefox: web/check/browser.js speaks each browser's own protocol.
"""

from __future__ import annotations

import json
import os
import random
import re
import shutil
import subprocess
import tempfile
from collections.abc import Callable
from typing import Any

from dorydate.model.chance.books import of_world, small
from dorydate.model.log import BadLog, Book, read_log, spelled_log
from dorydate.model.runs import opened
from dorydate.model.script import Event, read_event
from dorydate.explain.inside import Inside
from dorydate.explain.topology import of_model
from dorydate.explore.named import SEARCHES
from dorydate.explore.pattern import BadPattern, read
from dorydate.explain import faults, topologies, waits
from dorydate.explain.book import NoSuchLine, said_of
from dorydate.given import Input
from dorydate.network import Network
from dorydate.model.subnet import Subnet
from dorydate.model.trace import all_parts
from dorydate.model.trace_world import state_of
from dorydate.model.world import World
from dorydate.sentences import DEEDS, silence
from workshop.checks.explain_rows import NOT_OPEN, READY_PAIR
from workshop.parts import ROOT, any_program, read_octets, text_of
from workshop.tools import lacking, left_out
from workshop.words import Words

BOOKS = 40  # random ones of each sort
MOST_ROUNDS = 400  # of calm in an example that the model follows
# scripts in which things wait that wait in no example: for room at the next IMP, for a host that is down, for a service
IMPS = "".join(f"[[imp]]\nid = {it}\nhosts = 1\n" for it in (1, 2, 3))
CHAIN = f"raw = true\n{IMPS}[[line]]\na = 1\nb = 2\n[[line]]\na = 2\nb = 3\n%\ncalm 3\n"
PAIR = 'carrier = "plain"\n[[imp]]\nid = 1\nhosts = 2\n%\ncontact 0/1 1/1\ncalm 3\n'
LINKED = f"{PAIR}listen 1/1 33 8\nopenrecv 0/1 1/1 16 33\ncalm 2\n"
FULL = "".join(f"out 0/2 0/3 {link} 8063 {'00' * 1008}\n" for link in range(4))
TYPED = f"type 0/1 {'A' * 100}\n" * 6
SUBNET = f"{IMPS}[[line]]\na = 1\nb = 2\n[[line]]\na = 2\nb = 3\n%\ncalm 3\n"
STRANGER = f"{IMPS}foreign = [0]\n[[line]]\na = 1\nb = 2\n[[line]]\na = 2\nb = 3\n%\ncalm 3\n"
ROUNDS = "calm 1\n" * 9
EACH = "offer 0/1\ntake 1/1\noffer 1/1\ntake 0/1\n"
READY = f"{STRANGER}out 0/3 0/1 0 48 00080001000C\ncalm 6\ntake 0/3\ntake 0/3\ncalm 6\n"
WAITING = [
    f"{CHAIN}{FULL}out 0/1 0/3 5 8 41\ndrop 0 + 0\n",
    "raw = true\n[[imp]]\nid = 1\nhosts = 2\n%\nout 0/1 1/1 5 8 41\nhostdown 1/1\n",
    f"{PAIR}contact 0/1 1/1\nhostdown 1/1\n",
    f"{PAIR}user 0/1 1/1 7 16\nhostdown 1/1\n",
    f"{LINKED}grant 0/1 16 9 99\ncalm 2\nsend 1/1 33 8 41\noffer 1/1\nsend 1/1 33 8 42\n",
    f"{LINKED}send 1/1 33 8 41\nclose 1/1 33\ncalm 2\nclose 0/1 16\noffer 0/1\ntake 1/1\ncalm 1\n",
    f"{PAIR}server 1/1 7 100\nuser 0/1 1/1 7 16\ncalm 30\n{TYPED}offer 0/1\ntake 1/1\n",
    f"{STRANGER}contact 0/1 0/3\ncalm 3\ntake 0/3\ncalm 3\nhostdown 0/3\ncalm 3\nhostup 0/3\ncalm 3\n",
    f"{STRANGER}out 0/3 0/1 0 48 00080001000C\ncalm 4\nuser 0/1 0/3 7 16\ncalm 3\nhostdown 0/3\ncalm 3\n",
    f"{READY}user 0/1 0/3 7 16\ncalm 9\ntake 0/3\ncalm 9\n",
    f"{READY}openrecv 0/1 0/3 16 33\ncalm 9\ntake 0/3\ncalm 9\nclose 0/1 16\ncalm 9\ntake 0/3\ncalm 9\n",
    f"{SUBNET}contact 0/1 0/3\ncalm 9\nlisten 0/3 33 8\nopenrecv 0/1 0/3 16 33\n{ROUNDS}",
    f"{PAIR}openrecv 0/1 1/1 16 33\noffer 0/1\ntake 1/1\nhostdown 1/1\nhostup 1/1\n",
    f"{PAIR}openrecv 0/1 1/1 16 33\noffer 0/1\ntake 1/1\ntake 0/1\noffer 1/1\ncontact 1/1 0/1\ntake 1/1\ntake 0/1\n",
    f"{PAIR}openrecv 0/1 1/1 16 33\noffer 0/1\ntake 1/1\ntake 0/1\ncontact 1/1 0/1\n",
    f"{LINKED}grant 0/1 16 9 99\ncalm 2\nsend 1/1 33 8 41\noffer 1/1\nclose 0/1 16\noffer 0/1\ntake 1/1\ntake 0/1\n",
    f"{PAIR}contact 0/1 1/1\noffer 0/1\ntake 1/1\ntake 0/1\nhostdown 1/1\nhostup 1/1\n",
    f"{PAIR}server 1/1 7 100\nuser 0/1 1/1 7 16\n{6 * EACH}",
    f"{PAIR}server 1/1 7 100\nuser 0/1 1/1 7 16\n{2 * EACH}hostdown 1/1\n",
]
NOT_OPEN_INPUTS = ["\n".join([READY_PAIR.rstrip(), *script, ""]) for script, _ in NOT_OPEN]


class Wrong(Exception):
    """What differs."""


def node() -> str | None:
    return shutil.which("node") or shutil.which("nodejs")


def states_of(text: bytes) -> list[dict[str, dict[str, Any] | None]] | None:
    """The parts of a subnet, and the programs of its hosts, after each event of an input, by the independent model; None for plain
    mailboxes, and for long calms."""
    network, lines = input_of(text)
    if network.carrier == "plain" or is_long(network, lines):
        return None
    place = opened(of_model(network))
    subnet = getattr(place, "carrier", place)
    if not isinstance(subnet, Subnet):
        return None
    states = []
    for line in lines:
        place.happen(*event_of(network, line))
        states.append(all_parts(subnet) | programs_of(place))
    return states


def input_of(text: bytes) -> tuple[Network, list[str]]:
    """The network of an input, and the lines of its events."""
    head, _, script = text.decode().partition("\n%\n")
    return Network.read(head), [it for it in script.split("\n") if it and not it.startswith("#")]


def event_of(network: Network, line: str) -> Event:
    """The event of a line."""
    return read_event(line, network.raw, bool(network.strangers()))


def is_long(network: Network, lines: list[str]) -> bool:
    """Whether the model would be long at an input."""
    return sum(int(it.split(" ")[1]) for it in lines if it.startswith("calm ")) > MOST_ROUNDS or len(network.imps) > 16


def waits_of(text: bytes) -> list[list[str]] | None:
    """What waits after each event of an input, by ./explain, sorted; None where sites have names or calms are long."""
    network, lines = input_of(text)
    if is_long(network, lines) or any(it.name for it in network.imps):
        return None
    place = opened(of_model(network))
    carrier = place.carrier if isinstance(place, World) else place
    found = []
    for line in lines:
        place.happen(*event_of(network, line))
        all_waits = waits.waiting(place, carrier)
        spelled = ["|".join([it.what, it.where, it.reason, str(it.is_bad).lower(), *it.cures]) for it in all_waits]
        found.append(sorted(re.sub(r"(?:the )?message(?: \d+)? of flow", "message", it) for it in spelled))
    return found


def refusals_of(text: bytes) -> list[str]:
    """What ./explain says of the last event of an input, which is refused."""
    network, lines = input_of(text)
    goes = Inside(of_model(network))
    return [goes.happen(event_of(network, it)).sentences for it in lines][-1]


def programs_of(place: object) -> dict[str, dict[str, Any] | None]:
    """What the programs of hosts hold, where hosts have programs."""
    programs = state_of(place)["programs"] if isinstance(place, World) else {}
    return {f"program {host}": it for host, it in programs.items()}


def told_of_deeds() -> dict[str, dict[str, str]]:
    """What ./explain says of each deed of a user, by the line of the script, in examples whose sites have no names."""
    found: dict[str, dict[str, str]] = {}
    for name in sorted(os.listdir(f"{ROOT}/examples")):
        if "." in name or os.path.exists(f"{ROOT}/examples/{name}.status"):
            continue
        with open(f"{ROOT}/examples/{name}", "rb") as file:
            head, _, script = file.read().decode().partition("\n%\n")
        network = Network.read(head)
        lines = script.split("\n")
        rounds = sum(int(it.split(" ")[1]) for it in lines if it.startswith("calm "))
        if network.raw or any(it.name for it in network.imps) or rounds > MOST_ROUNDS:
            continue
        goes = Inside(of_model(network))
        for number, line in enumerate(lines, 1):
            if line and not line.startswith("#"):
                outcome = goes.happen(event_of(network, line))
                words = line.split(" ", 2) if line.startswith("type ") else line.split(" ")
                if words[0] in DEEDS and not any(it.startswith("refused ") for it in outcome.printed):
                    found.setdefault(name, {})[str(number)] = f"{silence(words)} {' '.join(outcome.sentences)}".rstrip()
    return found


def books_said() -> list[dict[str, object]]:
    """What ./explain --book says of stored logs and of random books, whole and broken."""
    stored = [read_octets(f"{ROOT}/logs/{it}") for it in sorted(os.listdir(f"{ROOT}/logs")) if "." not in it]
    found: list[dict[str, object]] = []
    random_books = [it for seed in range(BOOKS) for it in (of_world(seed)[1], small(seed))]
    for octets in [*stored, *map(spelled_log, random_books)]:
        try:
            its = read_log(octets)
        except BadLog:
            continue
        if its.strangers:
            continue  # of a network with strangers the workbench shows no book
        lines = {line: said for line in range(1, len(its.log) + len(its.lives) + 1) if (said := said_at(its, line))}
        found.append({"log": octets.decode(), "entries": said_of(its, None), "said": lines})
    return found


def said_at(its: Book, line: int) -> list[str] | None:
    """What is said of a line of a book, None where it is no life and no message."""
    try:
        return said_of(its, line)
    except NoSuchLine:
        return None


def example_names() -> list[str]:
    return [it for it in sorted(os.listdir(f"{ROOT}/examples")) if "." not in it]


def of_examples(look: Callable[[bytes], object]) -> dict[str, object]:
    """What is seen in each example that the program replays, where anything is."""
    replayed = [it for it in example_names() if not os.path.exists(f"{ROOT}/examples/{it}.status")]
    found = {name: look(read_octets(f"{ROOT}/examples/{name}")) for name in replayed}
    return {name: it for name, it in found.items() if it is not None}


def lines_by_chance(count: int) -> list[tuple[str, bool, str]]:
    """Lines of scripts, most of them changed at one place; whether the network is raw, and what ./explain says is wrong."""
    chance = random.Random(59)
    known = []
    for name in sorted(os.listdir(f"{ROOT}/examples")):
        if "." not in name:
            with open(f"{ROOT}/examples/{name}", encoding="utf-8") as file:
                head, _, script = file.read().partition("\n%\n")
            known += [(line, "raw = true" in head) for line in script.split("\n") if line and not line.startswith("#") and len(line) < 200]
    found = []
    for _ in range(count):
        line, raw = chance.choice(known)
        at = chance.randrange(len(line) + 1)
        changes = [line, line[:at] + chance.choice("0123456789/+-ABf ") + line[at:], line[:at] + line[at + 1 :], line[:at], chance.choice(known)[0]]
        line = chance.choice(changes)
        if line and not line.startswith("#"):
            found.append((line, raw, faults.wrong_with_line(line.encode(), raw) or ""))
    return found


# lines that are put into topologies at random
WRITTEN = (
    "raw = 1|carrier = \"Plain\"|imps = 3|[[imp]]|[[line]]|id = 1|id = 64|hosts = 5|hosts = true|a = 2|b = 2|b = 0|c = 1"
    "|take 0/1|line = 3|% |in 0/1 0/2 5 0 -|foreign = [0]|foreign = [2, 1]|foreign = []|foreign = 1|foreign = [0, 0]"
).split("|")


def topologies_by_chance(count: int) -> list[tuple[str, str]]:
    """Inputs with a topology of an example that was changed in a line or two, and what ./explain says is wrong."""
    chance = random.Random(17)
    heads = [text_of(f"{ROOT}/examples/{it}").partition("\n%\n")[0] for it in example_names()]
    known = [it.split("\n") for it in heads if len(it) < 5000]
    found = []
    for _ in range(count):
        lines = [it for it in chance.choice(known) if not it.startswith("#")]
        for _ in range(chance.choice([1, 1, 2])):
            at = chance.randrange(len(lines))
            written = chance.choice([*WRITTEN, chance.choice(lines)])
            lines[at : at + chance.randrange(2)] = [written] * chance.randrange(2)
        text = "\n".join([*lines, *["%"] * (chance.random() < 0.9), ""])
        found.append((text, topologies.wrong_with_topology(Input(text.encode())) or ""))
    return found


# patterns with a fault each
BAD_PATTERNS = ("", "A B", "in .. A .. B", "in a B ..", "In A", "not in A", "in A where A", "in A B where A < 12345678901", "calm 12345678901: nothing", "calm 5: quiet", "calm 5: no")


def faults_of_patterns() -> dict[str, str]:
    """What ./explore says is wrong with them."""
    found = {}
    for text in BAD_PATTERNS:
        try:
            read(text)
        except BadPattern as why:
            found[text] = str(why)
    return found


def patterns_by_chance(count: int) -> list[dict[str, object]]:
    """Patterns over lines of examples that were shuffled or cut, and the names with which ./explore says that they match."""
    chance = random.Random(80)
    printed = []
    for name in sorted(os.listdir(f"{ROOT}/examples")):
        if name.endswith(".stdout"):
            with open(f"{ROOT}/examples/{name}", encoding="utf-8") as file:
                printed.append([it for it in file.read().split("\n") if re.match("(?:out|in|answer|up|down|refused|ready|life) ", it)])
    patterns = [it.pattern for it in SEARCHES.values() if not read(it.pattern).needs_trace()]
    patterns += ["in A B N .. then in A B N ..", "out A B N K then not in A B N K then out A B N M where K < M", "answer _ A B N and in B A M ..", "up A then not down A"]
    found: list[dict[str, object]] = []
    for _ in range(count):
        lines = chance.choice(printed)
        at = chance.randrange(len(lines) + 1)
        lines = [*lines[at : at + 14], *chance.sample(lines, min(3, len(lines)))]
        last = lines[: chance.randrange(4)]
        pattern = chance.choice(patterns)
        found.append({"pattern": pattern, "lines": lines, "last": last, "names": read(pattern).match(lines, last)})
    return found


def check_types() -> None:
    command = shutil.which("tsc")
    if not command:
        lacking("workbench", "types", "tsc")
        return
    ran = subprocess.run([command, "-p", f"{ROOT}/web"], capture_output=True, text=True)
    if ran.returncode:
        raise Wrong(ran.stdout)
    print("check workbench: the types are right")


def fastest(program: str) -> str:
    """A program that was built without proofs isn't optimised, and the module that is made of it is."""
    module = f"{program}.wasm"
    return module if program.endswith("-unproved") and os.path.exists(module) else program


def check_modules(command: str, program: str) -> None:
    """The tests in Node, with the states of the independent model in a file."""
    with tempfile.NamedTemporaryFile("w", suffix=".json") as states:
        given = {
            "states": of_examples(states_of),
            "waits": {**of_examples(waits_of), **{it: waits_of(it.encode()) for it in WAITING}},
            "not open": {it: refusals_of(it.encode()) for it in NOT_OPEN_INPUTS},
            "lines": lines_by_chance(4000),
            "topologies": topologies_by_chance(2000),
            "deeds": told_of_deeds(),
            "books": books_said(),
            "patterns": patterns_by_chance(400),
            "bad patterns": faults_of_patterns(),
        }
        json.dump(given, states)
        states.flush()
        folder = f"{ROOT}/web/workbench/tests"
        tests = [f"{folder}/{it}" for it in sorted(os.listdir(folder)) if it.endswith(".test.js")]
        ran = subprocess.run([command, "--test", *tests], env={**os.environ, "ARPASIM": program, "STATES": states.name}, capture_output=True, text=True)
    counts = {line.split(" ")[1]: line.split(" ")[2] for line in ran.stdout.splitlines() if line.startswith("# ") and line.count(" ") == 2}
    if ran.returncode:
        raise Wrong(f"{counts.get('fail')} tests failed\n{failures(ran.stdout)}")
    print(f"check workbench: {counts.get('pass')} tests in Node")


def failures(told: str) -> str:
    lines = told.splitlines()
    return "\n".join(line for at, line in enumerate(lines) if any("not ok" in it for it in lines[max(0, at - 14) : at + 1]))[:4000]


# of each browser the names of its programs
BROWSERS = {"chromium": ("chromium", "chromium-browser", "google-chrome"), "firefox": ("firefox", "firefox-esr"), "webkit": ("WebKitWebDriver",)}


def check_browsers(command: str, asked: list[str]) -> None:
    """The page in the browsers that are there and asked for, and the parts that are."""
    names = [it for it in asked if it in BROWSERS] or [*BROWSERS]
    parts = [f"--{it}" for it in asked if it not in BROWSERS]
    known = [BROWSERS[it] for it in names if it != "webkit" or shutil.which("Xvfb")]
    browsers = [found[0] for names in known if (found := [path for name in names if (path := shutil.which(name))])]
    if not browsers:
        left_out("workbench", "the page in a browser", "neither Chromium, Firefox nor WebKit is installed")
        return
    made = subprocess.run([f"{ROOT}/tools/keep-wasm", "--any"], stdout=subprocess.PIPE, text=True)
    if made.returncode:
        raise Wrong("tools/keep-wasm made no page")
    page = made.stdout.strip().splitlines()[-1]
    if subprocess.run([command, f"{ROOT}/web/check/workbench.js", page, *parts, *browsers]).returncode:
        raise Wrong("the page in a browser")


def main() -> int:
    words = Words(__doc__).flag("browser", "in browsers")
    asked = words.names("part", f"{', '.join(BROWSERS)}; lessons, deeds, sizes, maps, looks, faults, or lessons=PATTERN, faults=WORDS; all without one").asked()
    command, program = node(), any_program()
    if not command:
        lacking("workbench", "all of it", "Node")
        return 0
    if not program:
        return 1
    try:
        if not asked.part:
            check_types()
            check_modules(command, fastest(program))
        if asked.browser or asked.part:
            check_browsers(command, asked.part)
    except Wrong as what:
        print(f"check workbench: {what}")
        return 1
    return 0
