"""A second reader: definitions in Agda, worked rows, and the judge beside the audit (three minutes): ./check second [LOGS]

Agda reads the definitions of the promise, with strangers and without, in a mechanical translation, and finds each well
typed and each recursion ending. It is Debian's `agda-bin`; where there is none, that is said.

The evaluator of `python/dorydate/definitions` knows how definitions compute and how a statement of given values is
searched, and no rule of the network. It computes the worked rows of all crates, the clauses of functions `worked_..`;
those that speak of all values of a type are counted. Each definition of the promise is changed in one word, which a row
has to notice. And it judges 1,000 logs, by hand, of the examples and of random books with strangers and without, as
`--audit` does: each part has to be the same.

./check second --laws has Agda check the laws of streams, resets and pairing, each lemma from the same text (some minutes
of the processor). It is no part of the gate: `./check release` does it before a release.

./check second --mutants does that in 20 ways, and prints which of these changes no row refuses, and why (a minute of
the processor). ./check second --contract changes those of the crate `host_contract` in all ways (five minutes of it).
"""

from __future__ import annotations

import shutil
from collections import Counter

from dorydate.definitions.promise import BOOK, BOOK_AMONG, Judge, deeply
from workshop.documents import believed
from workshop.second import laws, mutants, rows
from workshop.second.beside import beside_audit
from workshop.tools import lacking
from workshop.words import Words

LOGS = 1_000
CONTRACT_ROWS = "host_contract/src/law.rt"


def listed(seen: Counter[str]) -> str:
    return ", ".join(f"{many:,} {it}" for it, many in sorted(seen.items()) if many)


def in_agda() -> list[str]:
    """What is wrong with the definitions, as Agda says."""
    judge = Judge()
    plain, both = laws.of_page(judge, [BOOK]).definitions, laws.of_page(judge, [BOOK, BOOK_AMONG])
    owed = len(believed.reading()[1].definitions)
    wrong = [] if plain == owed else [f"{plain} definitions are written of the promise, and its page has {owed}"]
    all_ = f"{both.definitions} with those among strangers, and {both.types} types of Rust"
    what = f"{plain} definitions of the promise, {all_}"
    if not shutil.which("agda"):
        lacking("second", f"Agda over the {what}", "Agda")
        return wrong
    said, _ = laws.checked(both)
    print(f"check second: Agda: {what}: {'refused' if said else 'each is well typed, and each recursion ends'}", flush=True)
    return wrong + ([f"Agda: {said[:2000]}"] if said else [])


def worked() -> list[str]:
    """What is wrong with rows; each definition is tried with one word changed, too, which rows have to notice."""
    all_ = deeply(rows.all_rows)
    print(f"check second: worked rows: {listed(all_.counted())}", flush=True)
    found = deeply(lambda: [*mutants.tried(all_, 1)])
    print(f"check second: definitions with one word changed: {listed(Counter(it for _, it in found))}", flush=True)
    return all_.wrong + mutants.lacking_rows(found)


def changed_contract() -> list[tuple[mutants.Change, str]]:
    """What its rows say of changes of the contract."""
    return [*mutants.tried_of_contract(rows.all_rows([CONTRACT_ROWS]))]


def judge(count: int) -> list[str]:
    """What is wrong with the judge, beside the audit."""
    seen, wrong = beside_audit(count)
    print(f"check second: the judge of the definitions and the audit: {listed(seen)}; {len(wrong)} differ", flush=True)
    return wrong


def main() -> int:
    words = Words(__doc__).count("logs", LOGS, "how many logs are judged")
    what = words.add_mutually_exclusive_group()
    what.add_argument("--laws", action="store_true", help="have Agda check the laws of streams and of resets")
    changed = "change each definition of the promise in one word, and say which changes no row notices"
    what.add_argument("--mutants", action="store_true", help=changed)
    of_contract = "change each definition of the contract in one word, and say which changes no row notices"
    what.add_argument("--contract", action="store_true", help=of_contract)
    asked = words.asked()
    if asked.laws:
        wrong = laws.faults()
        print(*wrong, sep="\n", end="\n" if wrong else "")
        print("check second: laws are refused" if wrong else "check second: the laws are proved a second time")
        return 1 if wrong else 0
    if asked.mutants or asked.contract:
        found = deeply(changed_contract if asked.contract else lambda: [*mutants.tried(rows.all_rows())])
        print(*mutants.table(found), *mutants.lacking_rows(found), sep="\n")
        return 1 if mutants.lacking_rows(found) else 0
    wrong = [*in_agda(), *worked(), *judge(asked.logs)]
    print(*wrong[:10], sep="\n", end="\n" if wrong else "")
    print(f"check second: {len(wrong)} wrong" if wrong else "check second: the second reader says what the first does")
    return 1 if wrong else 0
