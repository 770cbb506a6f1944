"""Packs a page, its scripts, the examples and the program into one file: python3 python pack FOLDER MODULE FILE

FOLDER has `page.html`, `page.css` and `main.js`, the module of JavaScript that the page begins with (web/page, or another
one). In `page.html` four comments say where what is packed goes: `<!-- policy -->`, `<!-- style -->`, `<!-- data -->` and
`<!-- script -->`. The data are blocks that no browser runs: `program` (MODULE), `code` (main.js and all that it imports),
`examples` (JSON: a name, a title and the text of each input in examples/) and `chronology` (docs/chronology.md), all by
gzip and base85; `worker` (web/run/worker.js), and `opened`, a list that is empty, into which ./explain --page puts inputs
like these, with which the page opens. The script (web/run/start.js) unpacks `code` and runs it.

Modules are joined to one script, each in a function of its own, so names of two never meet. They may import names, or all
names as one (`import * as it`), from other files, and export declarations and lists of names; anything else is refused.
The policy of the page forbids every request, and runs only this style and these two scripts, by their hashes. Comments of
whole lines are left out. The same files give the same octets.
"""

from __future__ import annotations

import base64
import gzip
import hashlib
import json
import os
import re
import sys
from dataclasses import dataclass, field

from workshop.parts import ROOT
from workshop.words import Words

IMPORT = re.compile(r"^import\s+(?:\{([^}]*)\}|\*\s+as\s+(\w+))\s+from\s+\"(\.{1,2}/[^\"]+)\";[ ]*$", re.MULTILINE)
EXPORT = re.compile(r"^export\s+((?:async\s+)?function\s*\*?\s*(\w+)|class\s+(\w+)|const\s+(\w+))", re.MULTILINE)
EXPORT_LIST = re.compile(r"^export\s+\{([^}]*)\};[ ]*$", re.MULTILINE)
COMMENT = re.compile(r"/\*\*.*?\*/", re.DOTALL)  # where types are
DOCUMENTATION = re.compile(r"^[ ]*/\*\*(?:[^*]|\*(?!/))*\*/[ ]*\n", re.MULTILINE)
IMPORTED = re.compile(r'^@import "([^"]*)";$', re.MULTILINE)
OF_STYLE = re.compile(r"/\*(?:[^*]|\*(?!/))*\*/")
SPACES = re.compile(r"\s*([{};])\s*|(?<=:)\s+")  # of a style, but for those that part words
LEFT_OVER = re.compile(r"^(?:import|export)\b.*$|\bimport\(", re.MULTILINE)
ALIAS = re.compile(r"(\w+)(?:\s+as\s+(\w+))?")
ENDINGS = re.compile(r"\.\w+$")
AVOIDED, INSTEAD = "<`", ",."  # digits of base85 that would end a block or a text in a script, and those in their place


class Refused(Exception):
    """Why a page can't be packed."""


@dataclass
class Packed:
    """Modules that are joined so far: the place of each, and their text."""

    places: dict[str, int] = field(default_factory=dict)
    open: list[str] = field(default_factory=list)
    texts: list[str] = field(default_factory=list)


def read(path: str) -> str:
    with open(path, encoding="utf-8") as file:
        return file.read()


def names(text: str) -> list[tuple[str, str]]:
    """The names of a list, each with the one that it is known by after `as`."""
    found = [ALIAS.fullmatch(it.strip()) for it in text.split(",") if it.strip()]
    if not all(found):
        raise Refused(f"no list of names: {text.strip()}")
    return [(it[1], it[2] or it[1]) for it in found if it]


def style_of(path: str) -> str:
    """A style, with those that it imports in their places."""
    folder = os.path.dirname(path)
    return IMPORTED.sub(lambda it: style_of(f"{folder}/{it[1]}"), read(path))


def bare_style(text: str) -> str:
    """A style without comments, and with no spaces but those that part words."""
    return SPACES.sub(r"\1", OF_STYLE.sub("", text)).strip()


def add(packed: Packed, path: str) -> int:
    """Adds a module and those that it imports, before it, and answers its place."""
    if path in packed.places:
        return packed.places[path]
    if path in packed.open:
        way = ", ".join(os.path.relpath(it, ROOT) for it in packed.open)
        raise Refused(f"{os.path.relpath(path, ROOT)} imports itself, by way of {way}")
    packed.open.append(path)
    text = DOCUMENTATION.sub("", read(path))

    def imported(found: re.Match[str]) -> str:
        place = add(packed, os.path.normpath(os.path.join(os.path.dirname(path), found[3])))
        if found[2]:
            return f"const {found[2]} = module{place};"
        taken = ", ".join(name if name == here else f"{name}: {here}" for name, here in names(found[1]))
        return f"const {{ {taken} }} = module{place};"

    given: list[tuple[str, str]] = []
    text = IMPORT.sub(imported, text)
    for found in EXPORT.finditer(text):
        name = found[2] or found[3] or found[4]
        given.append((name, name))
    for found in EXPORT_LIST.finditer(text):
        given += names(found[1])
    text = EXPORT_LIST.sub("", EXPORT.sub(r"\1", text))
    left = LEFT_OVER.search(COMMENT.sub("", text))
    if left:
        raise Refused(f"{os.path.relpath(path, ROOT)} has a form that isn't packed: {left[0]}")
    packed.open.remove(path)
    place = packed.places[path] = len(packed.places)
    answer = ", ".join(name if name == there else f"{there}: {name}" for name, there in given)
    packed.texts.append(f"const module{place} = (() => {{\n{text}return {{ {answer} }};\n}})();\n")
    return place


def joined(entry: str) -> str:
    """The script of a module and of all that it imports."""
    packed = Packed()
    add(packed, os.path.normpath(entry))
    return '"use strict";\n' + "".join(packed.texts)


def title_of(name: str, text: str) -> str:
    """The title of an example: the words of its file's name, as its comments write them within their sentences."""
    comments = " ".join(it for it in text.splitlines() if it.startswith("#"))
    found = re.findall(r"(?<=[a-z,;] )[A-Z][a-z]+\b|\b[A-Z]{2,}\b", comments)
    capitals = {"imp": "IMP", "rfnm": "RFNM"} | {it.lower(): it for it in found}
    words = [capitals.get(it, it) for it in name.split("-")]
    title = " ".join(words)
    return title[:1].upper() + title[1:]


def examples_in(folder: str) -> list[dict[str, str]]:
    """The inputs of a folder, by their names."""
    inputs = [it for it in sorted(os.listdir(folder)) if os.path.isfile(f"{folder}/{it}") and not ENDINGS.search(it)]
    texts = {it: read(f"{folder}/{it}") for it in inputs}
    return [{"name": it, "title": title_of(it, text), "text": text} for it, text in texts.items()]


def block(name: str, kind: str, text: str) -> str:
    """A data block, which no browser runs."""
    if re.search(r"</script|<!--", text, re.IGNORECASE):
        raise Refused(f"the block {name} would end too early")
    return f'<script type="{kind}" id="{name}">{text}</script>\n'


def spell_octets(octets: bytes) -> str:
    """Octets by gzip and base85, with two other digits, so that no block ends too early."""
    return base64.b85encode(gzip.compress(octets, 9, mtime=0)).decode().translate(str.maketrans(AVOIDED, INSTEAD))


def read_octets(text: str) -> bytes:
    """The octets that `spell_octets` spelled."""
    return gzip.decompress(base64.b85decode(text.translate(str.maketrans(INSTEAD, AVOIDED))))


def block_in(page: str, name: str) -> bytes:
    """The octets of a block that a page holds packed."""
    found = re.findall(rf'<script type="application/octet-stream" id="{name}">([^<]*)</script>', page)
    if len(found) != 1:
        raise Refused(f"the page holds no {name}")
    return read_octets(str(found[0]))


def module_in(page: str) -> bytes:
    """The module that a page holds."""
    return block_in(page, "program")


def hash_of(text: str) -> str:
    """The hash of a style or a script, as a policy names it."""
    return f"'sha256-{base64.b64encode(hashlib.sha256(text.encode()).digest()).decode()}'"


def policy_of(style: str, scripts: list[str]) -> str:
    """The policy of a page, which forbids every request, and runs only what it names by its hash."""
    run = " ".join(hash_of(it) for it in scripts)
    rules = [
        "default-src 'none'",
        f"script-src {run} 'wasm-unsafe-eval'",
        f"style-src {hash_of(style)}",
        "worker-src blob:",
        "base-uri 'none'",
        "form-action 'none'",
    ]
    return f'<meta http-equiv="Content-Security-Policy" content="{"; ".join(rules)}">'


def data_of(module: bytes, code: str) -> str:
    """The data blocks of a page."""
    packed = {
        "program": module,
        "code": code.encode(),
        "examples": json.dumps(examples_in(f"{ROOT}/examples"), ensure_ascii=False).encode(),
        "chronology": read(f"{ROOT}/docs/chronology.md").encode(),
    }
    blocks = [block(name, "application/octet-stream", spell_octets(octets)) for name, octets in packed.items()]
    worker = block("worker", "text/plain", joined(f"{ROOT}/web/run/worker.js"))
    return "".join([*blocks, worker, block("opened", "application/json", "[]")])


def page(folder: str, module: bytes) -> str:
    """The page, whole."""
    style, code = f"\n{bare_style(style_of(f'{folder}/page.css'))}", joined(f"{folder}/main.js")
    script = f"\n{joined(f'{ROOT}/web/run/start.js')}"
    if "</style" in style or "</script" in script + code:
        raise Refused("the style or a script would end too early")
    parts = {
        "policy": policy_of(style, [script, code]),
        "style": f"<style>{style}</style>",
        "data": data_of(module, code),
        "script": f'<script type="module">{script}</script>',
    }
    text = read(f"{folder}/page.html")
    for name, part in parts.items():
        if text.count(f"<!-- {name} -->") != 1:
            raise Refused(f"page.html does not say once where the {name} goes")
        text = text.replace(f"<!-- {name} -->", part)
    return text


def main() -> int:
    words = Words(__doc__)
    words.add_argument("folder", metavar="FOLDER", help="of the page and its scripts")
    words.add_argument("module", metavar="MODULE", help="the program as WebAssembly")
    words.add_argument("file", metavar="FILE", help="where the page is written")
    asked = words.asked()
    to = asked.file
    try:
        with open(asked.module, "rb") as file:
            text = page(os.path.realpath(asked.folder), file.read())
    except (Refused, OSError) as why:
        print(f"pack: {why}", file=sys.stderr)
        return 1
    with open(f"{to}.new", "w", encoding="utf-8", newline="\n") as made:
        made.write(text)
    os.replace(f"{to}.new", to)
    return 0
