"""Pages of the documents as HTML: their links lead to pages of the site, their headings have the anchors that the documents name."""

from __future__ import annotations

import html
import os
import re
from collections.abc import Callable
from dataclasses import dataclass, field

import markdown
from workshop.builds.site_charts import drawn
from workshop.parts import ROOT

OWN = {
    "README.md": "index.html",
    "CONTRIBUTING.md": "contributing.html",
    "CHANGELOG.md": "changelog.html",
    "released/dorydate.html": "dorydate.html",
    "examples": "examples/index.html",
}
COPIED = (".svg", ".png", ".ipynb")
MERMAID = re.compile(r"^```mermaid\n(.*?)^```$", re.MULTILINE | re.DOTALL)
LIST_AFTER_TEXT = re.compile(r"^((?![-*>|#]|\d+\. |\s).*\S.*)\n(?=(?:[-*]|\d+\.) )", re.MULTILINE)
CODE = re.compile(r"^```[\s\S]*?^```", re.MULTILINE)
TAG = re.compile(r"<[^>]+>")
ADDRESS = re.compile(r'\b(href|src|srcset)="([^"]+)"')
HEADING = re.compile(r'<h([1-6])(?: id="([^"]*)")?>(.*?)</h\1>', re.DOTALL)


class Lost(Exception):
    """A link that leads nowhere."""


def address_of(path: str) -> str:
    """Where a file or folder of the repository is in the site."""
    if path in OWN:
        return OWN[path]
    if found := re.fullmatch(r"crates/(\w+)/(CLAIMS|WHY)\.md", path):
        return f"crates/{found[1]}{'' if found[2] == 'CLAIMS' else '-why'}.html"
    if re.fullmatch(r"docs/.*\.md|web/README\.md", path):
        return f"{path.removesuffix('.md')}.html"
    if re.fullmatch(r"examples/[a-z0-9-]+", path):
        return f"{path}.html"
    if path.startswith("docs/") and path.endswith(COPIED):
        return path
    return f"sources/{path}/index.html" if os.path.isdir(f"{ROOT}/{path}") else f"sources/{path}.html"


@dataclass
class Linked:
    """The files of the repository that pages lead to and that are no pages of their own."""

    paths: set[str] = field(default_factory=set)

    def rewritten(self, page: str, target: str) -> str:
        """The address of a link from a page, both as they are in the repository."""
        if re.match(r"[a-z]+:|#", target):
            return target
        path, mark, anchor = target.partition("#")
        full = os.path.normpath(os.path.join(os.path.dirname(page), path))
        if not os.path.exists(f"{ROOT}/{full}"):
            raise Lost(f"{page}: {target} leads nowhere")
        to = address_of(full)
        if to.startswith("sources/") or to.endswith(COPIED):
            self.paths.add(full)
        return os.path.relpath(to, os.path.dirname(address_of(page)) or ".") + mark + anchor


@dataclass(frozen=True)
class Page:
    """A page: its address, its title, and its body as HTML."""

    address: str
    title: str
    body: str

    def sections(self) -> list[tuple[str, str, str]]:
        """Its sections, each as its heading, its anchor and its text."""
        found = [*HEADING.finditer(self.body)]
        ends = [*(it.start() for it in found[1:]), len(self.body)]
        return [(plain(it[3]), it[2] or "", plain(self.body[it.end() : end])) for it, end in zip(found, ends)]


def plain(text: str) -> str:
    """HTML without its tags."""
    return re.sub(r"\s+", " ", html.unescape(TAG.sub(" ", text))).strip()


def slug(words: str, separator: str = "-") -> str:
    """The anchor of a heading, as it is on the web (workshop.documents.anchors)."""
    return re.sub(r"[^\w\- ]", "", words.lower()).strip().replace(" ", separator)


def charts_drawn(text: str, keep: Callable[[str], str]) -> str:
    """A page whose charts are drawn."""
    return MERMAID.sub(lambda found: keep(f'<div class="chart">{drawn(found[1])}</div>'), text)


def with_lists(text: str) -> str:
    """A page in which an empty line comes before each list, as this reader of Markdown wants it, and deeper items are four columns in."""
    parts, place = [], 0
    for found in [*CODE.finditer(text), None]:
        between = text[place : found.start() if found else len(text)]
        parts.append(LIST_AFTER_TEXT.sub(r"\1\n\n", between))
        if found:
            parts.append(found[0])
            place = found.end()
    return "".join(parts)


def unique_anchors(body: str) -> str:
    """A body whose headings have anchors numbered as they are on the web: `-1` for the second of a name."""
    seen: dict[str, int] = {}

    def numbered(found: re.Match[str]) -> str:
        name = slug(html.unescape(TAG.sub("", found[3])))
        seen[name] = seen.get(name, -1) + 1
        anchor = f"{name}-{seen[name]}" if seen[name] else name
        return f'<h{found[1]} id="{html.escape(anchor, quote=True)}">{found[3]}</h{found[1]}>'

    return HEADING.sub(numbered, body)


def page_of(path: str, text: str, linked: Linked) -> Page:
    """A document as a page of the site."""
    kept: list[str] = []

    def keep(block: str) -> str:
        kept.append(block)
        return f"\n\nBLOCK{len(kept) - 1}BLOCK\n\n"

    source = with_lists(charts_drawn(text, keep))
    body = markdown.markdown(source, extensions=["tables", "fenced_code", "sane_lists", "md_in_html"])
    body = re.sub(r"<p>BLOCK(\d+)BLOCK</p>", lambda found: kept[int(found[1])], body)
    body = unique_anchors(body).replace("<table>", '<div class="table"><table>').replace("</table>", "</table></div>")
    body = ADDRESS.sub(
        lambda found: f'{found[1]}="{html.escape(linked.rewritten(path, html.unescape(found[2])), quote=True)}"', body
    )
    heading = HEADING.search(body)
    return Page(address_of(path), plain(heading[3]) if heading else path, body)
