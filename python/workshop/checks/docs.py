"""Each link, source, name and number in the documents is there, and what is made of them is as it is made (seconds): ./check docs [--write | --lower | --rule [WORD..] | --tags]

Checks what the documents name: each link leads to a file, each source that is named by its path exists, and each name
that the claims about a crate have is in the code.

crates/NAME/CLAIMS.md is about the crate in whose folder it lies, in at most 300 words (workshop.documents.paragraphs).
What it says before its heading `How it was attacked` is what is proved or not. Each name there between backquotes, or its
last part if it is a path, has to be declared in src/ or specs/ of that crate, or of one that it is built on: as a
function, a type, a variant, a constant, a clause or a definition. `law::NAME` has to be a function of that crate's module
law, and the name of a file a file of the crate or of the repository. Below that heading each name has to be one of these,
a row (a function of that crate or of one above it, a stored call, a stored input of cases/), or a planted bug of the
crate. So it is with the definitions and rows of docs/measured/guarded.json.

docs/PROVED.md names each clause after the path of its call, `CRATE::..::CALL`, and docs/measured/crates.md leads to the claims of each crate.
crates.txt names for each crate only others that its sources name. The version of the program is that of the package, the citation and the change log.

The drawings of docs/pictures, the page of crates, the page of what must be believed and that of the package in Python have to be as they are made, the numbers in drawings as the sources have them, and
no text of a drawing over another one or over a line. Figures in prose have to be those of their tables (workshop.documents.figures), and each crate's octets of
.antt within its budget, which a commit raises only with a line that says what for (workshop.documents.budget), and walks
over the cases of an event, a request or a refusal only become fewer (workshop.documents.walks), as do clauses of over 200
characters (workshop.documents.long_clauses). The table of events and refusals that Python and JavaScript read is made
of the definitions, and nothing lists them once more (workshop.documents.event_words). No lemma
states what another lemma or one of std states, beyond those that do so already (workshop.documents.stated). Words of the house's dialect are counted against limits that can only fall
(workshop.documents). With --write these and the page of planted bugs are made anew, and with --lower the limits are lowered to what is counted.
With --tags a file `tags` is made, by which editors find where a name is declared. With --rule the rules in which all of the words occur are printed (without words an index of all), each with its definition, its functions, its rows and its planted bugs.

Each file in released/ has the hash that its note names.

Then it counts what hides borders and what is dead, each against its limit: imports that reach into another crate's proofs/
beside its module lemmas, declarations of proofs/ to which nothing leads that is proved, folders of proofs/ with too many
entries, and clauses that are only names for statements of specs/Laws.
"""

from __future__ import annotations

import functools
import glob
import io
import os
import re
import subprocess
import unittest
from collections.abc import Iterator

from workshop.checks import release
from workshop.documents import anchors, believed, budget, clauses, common, crates_page, dead, dialect, event_words
from workshop.documents import figures, named_crates, notebook, paragraphs, planted, reference, rules, stated, tags
from workshop.documents import tests, versions, walks
from workshop.drawings import pictures
from workshop.parts import ROOT
from workshop.rows import row_names
from workshop.words import Words

# the pages whose links and sources are looked for
LINKING = ("*.md", "docs/*.md", "docs/measured/*.md", "crates/*/CLAIMS.md", "crates/*/WHY.md")
MOST_REACHING = 0  # imports into another crate's proofs/ beside lemmas
MOST_DEAD = 40  # declarations of proofs/ that nothing leads to that is proved; `python3 python dead` names them
MOST_ENTRIES = 40  # of a folder of proofs/
MOST_CROWDED = 0
MOST_FEW = 0  # names that a crate's Common passes on to one file
MOST_NAMED = 0
DECLARED = re.compile(
    r"\bimpl(?:<[^>]*>)? +(?:\w+::)*(\w+)"
    r"|\b(?:fn|struct|enum|trait|const|ensures|requires|ghost|abbrev pub|record|data|pub(?= «?\w+»? :)) +«?(\w+)"
    r"|^ +([A-Z]\w*)[,({ ]",
    re.MULTILINE,
)


@functools.cache
def text_of(path: str) -> str:
    with open(path, encoding="utf-8") as file:
        return file.read()


def missing_files() -> Iterator[str]:
    """Links of the documents that lead to no file, and sources that are named and do not exist."""
    for page in sorted(it for some in LINKING for it in glob.glob(f"{ROOT}/{some}")):
        for link in re.findall(r"\]\(([^)#]+)[^)]*\)", text_of(page)):
            if "://" not in link and not os.path.exists(os.path.join(os.path.dirname(page), link)):
                yield f"{os.path.relpath(page, ROOT)}: no file {link}"
        for name in re.findall(r"`([\w/]+/[\w/]+\.(?:rt|antt))`", text_of(page)):
            if not any(glob.glob(f"{ROOT}/{at}{name}") for at in ("", "crates/", "crates/*/")):
                yield f"{os.path.relpath(page, ROOT)}: no source {name}"


def built_on(crate: str) -> list[str]:
    """The libraries that crates.txt names for a crate."""
    found = re.search(rf"^{crate}:(.*)$", text_of(f"{ROOT}/crates.txt"), re.MULTILINE)
    return found[1].split() if found else []


@functools.cache
def declared_in(crate: str) -> tuple[set[str], set[str]]:
    """The names that a crate's src/ and specs/ declare, and the functions of its module law."""
    files = [it for part in ("src", "specs") for it in glob.glob(f"{ROOT}/crates/{crate}/{part}/**/*.*", recursive=True)]
    names = {name for it in files for found in DECLARED.findall(text_of(it)) for name in found}
    return names, {name for it in files if "/src/law" in it for name in re.findall(r"pub fn (\w+)", text_of(it))}


def crates_with_claims() -> list[str]:
    """The crates, each of which has something to claim."""
    return re.findall(r"^(\w+):", text_of(f"{ROOT}/crates.txt"), re.MULTILINE)


def missing_claims() -> Iterator[str]:
    """Crates without claims, and claims to which docs/measured/crates.md doesn't lead."""
    top = text_of(f"{ROOT}/docs/measured/crates.md")
    for crate in crates_with_claims():
        if not os.path.exists(f"{ROOT}/crates/{crate}/CLAIMS.md"):
            yield f"crates/{crate}: no CLAIMS.md"
        if f"](../../crates/{crate}/CLAIMS.md)" not in top:
            yield f"docs/measured/crates.md: no link to the claims of {crate}"


def claims_of(crate: str) -> tuple[str, str]:
    """What a crate's claims say is proved or not, and how they were attacked."""
    path = f"{ROOT}/crates/{crate}/CLAIMS.md"
    claimed, _, attacked = (text_of(path) if os.path.exists(path) else "").partition("\n## How it was attacked\n")
    return claimed, attacked


def names_in(text: str) -> list[str]:
    return re.findall(r"`([^`\n]+)`", text)


@functools.cache
def with_those_above(crate: str) -> list[str]:
    """A crate, and those that crates.txt says to use it."""
    return [crate, *(it for it in crates_with_claims() if crate in built_on(it))]


def is_row(name: str, crate: str) -> bool:
    is_stored = name in row_names() or any(glob.glob(f"{ROOT}/cases/{at}{name}") for at in ("", "*/"))
    return is_stored or any(is_known(name, it) for it in with_those_above(crate))


def is_planted_bug(name: str, crate: str) -> bool:
    return os.path.exists(f"{ROOT}/crates/{crate}/wrong-bodies/{name}.edit")


def unknown_attacks(crate: str, attacked: str) -> Iterator[str]:
    """Names of what attacks a crate's contracts that the code does not have."""
    for name in names_in(attacked):
        if not is_row(name, crate) and not is_planted_bug(name, crate):
            yield f"neither the code nor a planted bug is called `{name}`"


def unknown_rows() -> Iterator[str]:
    """Definitions and rows of docs/measured/guarded.json that the code does not have."""
    for crate, guarded in rules.guarded().items():
        for definition, rows in guarded.items():
            wrong = [f"the code has no `{definition}`"] * (not is_known(definition, crate))
            wrong += [f"no row is called `{it}`" for it in rows if not is_row(it, crate)]
            yield from (f"docs/measured/guarded.json: {crate}: {it}" for it in wrong)


def unknown_names() -> Iterator[str]:
    """Names in the claims of the crates that the code does not have."""
    for crate in crates_with_claims():
        claimed, attacked = claims_of(crate)
        unknown = [f"the code has no `{it}`" for it in names_in(claimed) if not is_known(it, crate)]
        for what in (*unknown, *unknown_attacks(crate, attacked)):
            yield f"crates/{crate}/CLAIMS.md: {what}"


def unknown_clauses() -> Iterator[str]:
    """Names in docs/PROVED.md that the code does not have: each comes after a path that begins with its crate."""
    for line in text_of(f"{ROOT}/docs/PROVED.md").splitlines():
        crate = None
        for name in names_in(line):
            first = name.split("::")[0]
            is_clause = crate is not None and name in declared_in(crate)[0]  # a clause may have the name of a crate
            crate = first if os.path.isdir(f"{ROOT}/crates/{first}") and not is_clause else crate
            if crate and not is_known(name, crate):
                yield f"docs/PROVED.md: {crate} has no `{name}`"


def is_known(name: str, crate: str) -> bool:
    if not re.fullmatch(r"[\w:]+", name) and not re.fullmatch(r"[\w./-]+", name):
        return True  # no name, but words of another kind
    if "/" in name or "." in name:
        return any(os.path.exists(f"{ROOT}/{at}/{name}") for at in (".", "crates", f"crates/{crate}"))
    first, *rest = name.split("::")
    if rest and os.path.isdir(f"{ROOT}/crates/{first}"):
        return is_known("::".join(rest), first)
    names, laws = declared_in(crate)
    if first == "law" and rest:
        return rest[-1] in laws
    below = built_on(crate)
    is_declared = name.split("::")[-1] in names.union(*(declared_in(it)[0] for it in below))
    is_there = os.path.exists(f"{ROOT}/{name}") or os.path.isdir(f"{ROOT}/crates/{name}")
    return is_declared or name in below or is_there or name.startswith("-")


def sources(pattern: str = "crates/*") -> list[str]:
    """The sources of all crates, by their paths."""
    found = glob.glob(f"{ROOT}/{pattern}/**/*.*", recursive=True)
    return sorted(it for it in found if it.endswith((".rt", ".antt")) and "/out/" not in it)


def strayed() -> Iterator[str]:
    """Sources that are in no crate, for which `rt ci` refuses the whole repository."""
    listed = subprocess.run(["git", "ls-files", "--cached", "--others", "--exclude-standard"], cwd=ROOT, capture_output=True, text=True, check=False)
    for path in listed.stdout.splitlines():
        if path.endswith((".rt", ".antt")) and not re.match(r"crates/\w+/(src|specs|proofs)/", path):
            yield f"{path}: a source outside of a crate's src/, specs/ and proofs/"


def reaching() -> Iterator[str]:
    """The imports that reach into another crate's proofs/ beside its module lemmas."""
    crates = {os.path.basename(it) for it in glob.glob(f"{ROOT}/crates/*")}
    for path in sources():
        own = os.path.relpath(path, f"{ROOT}/crates").split("/")[0]
        for crate, part in re.findall(r"\bRattle\.(\w+)\.proofs\.(\w+)", text_of(path)):
            if crate in crates and crate != own and part.lower() != "lemmas":
                yield f"{os.path.relpath(path, ROOT)}: it reaches into {crate}/proofs beside lemmas"


def crowded() -> Iterator[str]:
    """The folders of proofs/ with too many entries."""
    for folder in {part for path in sources("crates/*/proofs") for part in parents(path)}:
        if (count := len({*os.listdir(folder)} - {"Common.antt"})) > MOST_ENTRIES:
            yield f"{os.path.relpath(folder, ROOT)}: {count} entries, of at most {MOST_ENTRIES}"


def parents(path: str) -> Iterator[str]:
    """The folders of a file, up to proofs/."""
    while os.path.basename(path) != "proofs":
        path = os.path.dirname(path)
        yield path


def over_limits() -> Iterator[str]:
    """What is above the limits, after a line with the counts."""
    kinds = (
        ("imports into another crate's proofs/ beside lemmas", [*reaching()], MOST_REACHING),
        ("declarations of proofs that nothing leads to", dead.faults(), MOST_DEAD),
        ("crowded folders", sorted(crowded()), MOST_CROWDED),
        ("names that are passed on to fewer than two files", common.faults(), MOST_FEW),
        ("clauses that are names for statements", clauses.faults(), MOST_NAMED),
    )
    print("check docs:", ", ".join(f"{len(found)} {what}" for what, found, _ in kinds))
    for _, found, most in kinds:
        yield from found if len(found) > most else []


def failed_tests() -> list[str]:
    """The tests of these checks that fail."""
    ran = unittest.TextTestRunner(stream=io.StringIO()).run(unittest.defaultTestLoader.loadTestsFromModule(tests))
    return [f"workshop/documents/tests.py: {test.id()} fails: {why.splitlines()[-1]}" for test, why in (*ran.failures, *ran.errors)]


def made() -> list[str]:
    """What isn't as it is made, and what the drawings and the words of the documents have that they shouldn't."""
    print("check docs:", paragraphs.summary())
    print("check docs:", dialect.summary())
    print("check docs:", budget.summary())
    print("check docs:", walks.summary())
    print("check docs:", stated.summary())
    return [
        *failed_tests(), *paragraphs.faults(), *anchors.faults(), *pictures.faults(), *crates_page.faults(),
        *planted.faults(), *believed.faults(), *notebook.faults(), *reference.faults(),
        *figures.faults(), *event_words.faults(), *budget.faults(), *stated.faults(), *dialect.faults(),
        *named_crates.faults(), *versions.faults(), *release.faults(),
    ]


def write() -> int:
    """Makes the drawings and the pages of crates, of planted bugs, of what must be believed and of the package."""
    crates_page.write()
    planted.write()
    believed.write()
    notebook.write()
    figures.write()
    event_words.write()
    reference.write()
    pages = "docs/measured/crates.md, planted.md, promise.md, docs/reference.md, docs/experiment.ipynb"
    print(f"check docs: {pages}, python/dorydate/sentences/events.mjs and {pictures.write()} drawings are written")
    return 0


def main() -> int:
    parser = Words(__doc__)
    parser.add_argument("--write", action="store_true", help="make the drawings and the pages that are made of the sources")
    parser.add_argument("--lower", action="store_true", help="lower the limits of the dialect to what is counted")
    rule = "print the rules with these words, each with its definition and functions, or an index"
    parser.add_argument("--rule", metavar="WORD", nargs="*", help=rule)
    parser.add_argument("--tags", action="store_true", help="make the file by which editors find where a name is declared")
    options = parser.parse_args()
    if options.tags:
        print(f"check docs: tags has {tags.write():,} names")
        return 0
    if options.rule is not None:
        return 0 if rules.show(options.rule) else 1
    if options.lower:
        dialect.lowered()
        budget.lower()
        stated.lower()
    if options.write or options.lower:
        return write() if options.write else 0
    wrong = [*missing_files(), *strayed(), *missing_claims(), *unknown_names(), *unknown_rows(), *unknown_clauses()]
    wrong += [*made(), *over_limits()]
    print(*wrong, sep="\n", end="\n" if wrong else "")
    print(f"check docs: {len(wrong)} wrong" if wrong else "check docs: each link, source, name and number is there, and each count within its limit")
    return 1 if wrong else 0
