"""Each rule of docs/argument.md is needed: without it, a script breaks the promise (seconds).

Shows what each rule of docs/argument.md is there for: ./check headline [FILE]

Each file of `without`, and of `without/shortest`, has a network and a script, and says in its first two lines which rule is lacking and what breaks.
It runs in the model that lacks this rule (python/dorydate/model/without), where the audit of the book has to find that part of the
promise broken; in the model with all its rules, where nothing may break; and once more without each of its lines, where
nothing may break either: so no line could be left out, but for one that a file may name as being there for the reader. With a
FILE it prints both outputs, without the rule and with it.

`without/shortest` has the shortest script for each rule that `./explore --without RULE` has found, and no longer one
than `without`. Those of the two rules about numbers that wrap around are found again, by the search's plans.

What comes of numbers that wrap around is the same whatever their number, as long as it is more than twice the window
(docs/numbers.md). So a file may have a line `# numbers: N W`: there the model has N numbers and a window of W, and few messages
do for tens of thousands.

Nothing of this is the program: it has all its rules. Some rules of the page are not in `without`, since no book was seen to
break where only one of them is lacking: ./check headline --harmless [RUNS] tries these at random.
"""

from __future__ import annotations

import glob
import os
import random
from collections.abc import Iterator

from dorydate.explore.without import Search, event_of, rules, sought_for
from dorydate.model.chance.worlds import Script, some_world
from dorydate.model.without import HARMLESS, LACKING, broken, opened_without
from dorydate.model.without.stored import Lesson, unrolled
from dorydate.model.world import World
from workshop.parts import ROOT
from workshop.words import Words

SECONDS = 600.0  # at most, of a search with a plan


def check(path: str) -> str | None:
    """What is wrong with a file, None where it shows what it should."""
    lesson = Lesson(path)
    if lesson.rule not in LACKING:
        return f"there is no rule `{lesson.rule}`"
    if (found := lesson.part(lesson.rule, lesson.script)) != lesson.breaks:
        return f"without the rule it breaks {found}, not {lesson.breaks}"
    if found := lesson.part(None, lesson.script):
        return f"with the rule it breaks {found}"
    for number, line, script in lesson.without_a_line():
        if lesson.part(lesson.rule, script) == lesson.breaks:
            return f"it breaks {lesson.breaks} without line {number} too: {line}"
    return None


def stored() -> list[str]:
    """The stored scripts."""
    return sorted(it for it in [*glob.glob(f"{ROOT}/without/*"), *glob.glob(f"{ROOT}/without/shortest/*")] if os.path.isfile(it))


def longer(path: str) -> str | None:
    """What is wrong with a shortest script: it is longer than the one for readers."""
    other = path.replace("/shortest/", "/")
    if other == path or not os.path.isfile(other):
        return None
    short, long = (sum(bool(line) and not line.startswith("#") for line in unrolled(Lesson(it).script)) for it in (path, other))
    return f"it has {short} events, and {os.path.relpath(other, ROOT)} has {long}" if short > long else None


def unfound() -> Iterator[str]:
    """The scripts that the searches with a plan don't find again."""
    paths = {Lesson(it).rule: it for it in stored() if "/shortest/" in it}
    for rule in filter(lambda it: sought_for(it).plan, rules()):
        search = Search(rule, 1)
        search.climb(SECONDS)
        found = [*map(str, search.best.script)] if search.best else []
        if found != [str(event_of(it)) for it in Lesson(paths[rule]).script if it]:
            yield f"{os.path.basename(paths[rule])}: the search finds {'; '.join(found) or 'nothing'}"


def harmless(runs: int) -> int:
    """Tries at random whether a book breaks without those rules of which none was seen to."""
    for rule in HARMLESS:
        for seed in range(runs):
            chance = random.Random(seed)
            network = some_world(chance)
            length, world = chance.choice([40, 150, 300]), opened_without(rule, network)
            assert isinstance(world, World)
            script = Script(chance, network, length, True, world)
            if part := broken(script.world):
                print(f"check headline: without `{rule}` run {seed} breaks {part}", *script.lines, sep="\n")
                return 1
        print(f"check headline: {runs} runs without `{rule}`: each book keeps the promise")
    return 0


def show(path: str) -> int:
    """Prints what a file comes to without its rule and with it."""
    lesson = Lesson(path)
    rules: list[tuple[str, str | None]] = [(f"without the rule: {lesson.rule}", lesson.rule), ("with it", None)]
    for title, rule in rules:
        place = lesson.run(rule, lesson.script)
        lives = place.end_of_book() if isinstance(place, World) else []
        print(f"-- {title}", *place.printed, *lives, f"breaks: {lesson.part(rule, lesson.script) or 'nothing'}", sep="\n")
    return 0


def main() -> int:
    """The exit status."""
    words = Words(__doc__).one("script", None, "a script, of which is shown what it breaks, and no more")
    runs = "try as many random worlds without each rule that should do no harm"
    words.add_argument("--harmless", nargs="?", type=int, const=1_000, metavar="RUNS", help=runs)
    asked = words.asked()
    if asked.harmless is not None:
        return harmless(asked.harmless)
    if asked.script is not None:
        return show(asked.script)
    wrong, paths = 0, stored()
    for path in paths:
        if cause := check(path) or longer(path):
            wrong += 1
            print(f"check headline: {os.path.basename(path)}: {cause}")
    for cause in unfound():
        wrong += 1
        print(f"check headline: {cause}")
    rules = {Lesson(it).rule for it in paths if os.path.dirname(it).endswith("shortest")}
    if missing := [it for it in LACKING if it not in rules and it not in HARMLESS]:
        print(f"check headline: no shortest script without the rule: {missing[0]}")
        wrong += 1
    print(f"check headline: {len(paths)} scripts of {len(rules)} rules, {wrong} that don't show theirs")
    return 1 if wrong else 0
