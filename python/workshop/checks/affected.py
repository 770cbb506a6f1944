"""Names what a change affects, and what has to run for it (a second): ./check affected [REVISION]

The change is all that differs from the revision, by default from origin/main, or from main where there is none: commits, what isn't committed,
and files that git doesn't know yet. Crates that a change of contracts or definitions has proved again are those above it, by crates.txt; a change
of nothing but bodies and proofs leaves them. Which checks look at a file is in the table below. What proofs cost comes
first, in minutes of the processor, by the table of docs/measured/gate.md.
"""

from __future__ import annotations

import re
import subprocess
import sys
from collections.abc import Iterator

from workshop.documents.crates_page import below, needs
from workshop.measure import gate
from workshop.parts import ROOT, text_of
from workshop.words import Words

# paths, and the checks that look at them
CHECKS = (
    (r"crates/.*", ("docs", "examples")),
    (r"crates/(interface|flow_law)/.*", ("model",)),
    (r"crates/(bit_messages|leader1822|ncp_control)/.*", ("rows", "readers")),
    (r"crates/(imp_node|imp_channel|packetiser|routing|link_table)/.*", ("rows", "imp 200", "model")),
    (r"crates/subnet/.*", ("rows", "subnet 200", "model")),
    (r"crates/(host_pairs|sockets)/.*", ("rows", "hosts 200", "model")),
    (r"crates/(icp|terminal|host_services)/.*", ("rows", "services 200", "model")),
    (r"crates/(trace|subnet_trace|world_trace)/.*", ("trace", "explain", "workbench")),
    (r"crates/(net_sim|promise|replay|world_script|book_log|command_line)/.*", ("rows", "model")),
    (r"crates/(book_judge|book_log|promise|headline)/.*", ("audit 500", "worlds 1000")),
    (r"crates/(script|topology|replay|world_script|world_replay|command_line|simulator|arpasim)/.*", ("limits", "failures", "readers", "steps", "stops 10", "seen")),
    (r"crates/.*/wrong-bodies/.*", ("docs",)),
    (r"(examples|cases|logs)/.*", ("examples", "docs")),
    (r"(cases|tools)/calls/.*", ("rows", "imp 200", "subnet 200", "hosts 200", "services 200", "readers")),
    (r"without/contract/.*", ("contract",)),
    (r"without/[^/]*|without/shortest/.*", ("headline",)),
    (r"python/dorydate/contract/.*", ("contract",)),
    (r"(docs/.*|[^/]*\.md)", ("docs",)),
    (r"python/dorydate/model/.*", ("worlds 1000", "asking 300", "model", "trace", "audit 500", "rows", "imp 200", "subnet 200", "hosts 200", "services 200")),
    (r"python/dorydate/(explain|sentences)/.*", ("explain", "workbench")),
    (r"python/.*", ("python", "docs")),
    (r"web/.*", ("workbench",)),
    (r"tools/wasm/.*", ("wasm",)),
    (r"tools/plain/.*", ("plain",)),
    (r"tools/steps.rs", ("steps",)),
)
STATEMENT = re.compile(r"^[+-]\s*(?:ensures|requires|ghost|pub (?:\(crate\) )?fn|pub (?:struct|enum|trait|const))\b")


def git(*words: str) -> str:
    return subprocess.run(["git", "-C", ROOT, *words], capture_output=True, text=True, check=False).stdout


def base() -> str:
    """The revision with which this clone is compared where none is named."""
    return "origin/main" if git("rev-parse", "--verify", "-q", "origin/main") else "main"


def changed(revision: str) -> list[str]:
    """The files that differ from a revision, and those that are new."""
    since = git("merge-base", revision, "HEAD").strip() or revision
    return sorted({*git("diff", "--name-only", since).split("\n"), *git("ls-files", "--others", "--exclude-standard").split("\n")} - {""})


def states_more(path: str, revision: str) -> bool:
    """Whether the change of a source reaches beyond bodies and proofs: a definition, a clause, a public name, or a lemma that is lent out."""
    if re.match(r"crates/\w+/(specs/|proofs/lemmas\.antt$)", path):
        return True
    since = git("merge-base", revision, "HEAD").strip() or revision
    return path.endswith(".rt") and any(STATEMENT.match(it) for it in git("diff", "-U0", since, "--", path).split("\n"))


def crates_of(files: list[str]) -> dict[str, list[str]]:
    """The changed sources of each crate."""
    found: dict[str, list[str]] = {}
    for path in files:
        if part := re.match(r"crates/(\w+)/(?:src|specs|proofs)/", path):
            found.setdefault(part[1], []).append(path)
    return found


def checks_for(files: list[str]) -> list[str]:
    """The checks that look at any of these files, in the order of the table."""
    return [*dict.fromkeys(check for pattern, checks in CHECKS for check in checks if any(re.fullmatch(pattern, it) for it in files))]


def cost(crates: list[str]) -> str:
    """What proving crates costs, with their tests, by the gate's table."""
    table, _ = gate.stored(text_of(gate.PAGE))
    seconds = {it: sum(table[it].seconds[:2]) if it in table else 0 for it in crates}
    unknown = [it for it, took in seconds.items() if not took]
    without = f", without {', '.join(unknown)}, of which nothing is known" if unknown else ""
    return f"about {sum(seconds.values()) / 60:.0f} minutes{without}"


def lines_of(revision: str) -> Iterator[str]:
    """What a change affects, in lines."""
    files = changed(revision)
    if not files:
        yield f"nothing differs from {revision}"
        return
    direct, sources = needs(), crates_of(files)
    beyond = [it for it in sources if any(states_more(path, revision) for path in sources[it])]
    above = [it for it in direct if it not in sources and below(it, direct) & {*beyond}]
    yield f"{len(files)} files differ from {revision}"
    if sources:
        yield f"what changed costs {cost([*sources])}"
    if above:
        yield f"what is proved again above it costs {cost(above)}"
    for crate in (it for it in direct if it in sources):
        yield f"  tools/check-one {crate}" + ("" if crate in beyond else "      bodies and proofs only: nothing above is proved again")
        yield f"  ./check edits {crate}" if crate in beyond else f"  rt try --test      in crates/{crate}"
    if above:
        yield f"proved again, {len(above)} crates: {' '.join(above)}"
        yield f"  rt ci {' '.join(it for it in above if not any(it in below(other, direct) for other in above))}"
    yield from (f"  ./check {it}" for it in checks_for(files))


def main() -> int:
    words = Words(__doc__).one("revision", None, "what the change is to; else the commit that main has")
    before = words.asked().revision
    if before is not None and not git("rev-parse", "--verify", "-q", before):
        print(f"check affected: there is no revision {before}", file=sys.stderr)
        return 1
    print(*lines_of(base() if before is None else before), sep="\n")
    return 0
