"""Makes the site: all pages and all examples as files that need no server: python3 python site FOLDER [WORKBENCH]

FOLDER is made anew. It has the documents as pages, the claims of each crate, the sources that they lead to, a page for each example with
its chart, and a copy of the workbench (WORKBENCH, else released/dorydate.html), which each example opens. ./release calls it.

It wants python3-markdown (apt-get install python3-markdown), and a program for the charts: the variable DORYDATE_PROGRAM, or the kept one.
"""

from __future__ import annotations

import glob
import html
import importlib.util
import json
import os
import re
import shutil
import subprocess
import sys
from collections.abc import Iterable, Iterator

from workshop.parts import ROOT, any_program, text_of
from workshop.words import Words

PAGES = (
    "README.md",
    "CONTRIBUTING.md",
    "CHANGELOG.md",
    "docs/*.md",
    "docs/measured/*.md",
    "crates/*/CLAIMS.md",
    "crates/*/WHY.md",
    "web/README.md",
)
ASSETS = ("style.css", "search.js")
SYSTEM = "/usr/bin/python3"  # sees the system's packages, where another interpreter is first on the path
NAVIGATION = {
    "Tour": "docs/tour.html",
    "Lessons": "docs/lessons.html",
    "Examples": "examples/index.html",
    "Workbench": "dorydate.html",
    "All pages": "pages.html",
}
GROUPS = {
    "To begin with": r"index|docs/(tour|lessons|workbench|program|python|reference|export|audit)",
    "Rules and laws": r"docs/[a-z-]+",
    "How it is made": r"docs/[A-Z]+|contributing|changelog|web/README",
    "Measured and listed": r"docs/measured/.*",
    "Claims of crates": r"crates/.*",
}
MOST_WORDS = 400  # of a section, that can be found
HREF = re.compile(r'\b(?:href|src|srcset)="([^"]+)"')


class NoSite(Exception):
    """Why there is no site."""


def write(folder: str, address: str, text: str) -> None:
    path = f"{folder}/{address}"
    os.makedirs(os.path.dirname(path), exist_ok=True)
    with open(path, "w", encoding="utf-8", newline="\n") as file:
        file.write(text)


def whole(address: str, title: str, body: str) -> str:
    """A page with what all pages have."""
    top = "../" * address.count("/")
    links = "".join(f'<a href="{top}{to}">{name}</a>' for name, to in NAVIGATION.items())
    return f"""<!doctype html>
<html lang="en">
<meta charset="utf-8">
<meta name="viewport" content="width=device-width, initial-scale=1">
<title>{html.escape(title)}{"" if title == "Dorydate" else " · Dorydate"}</title>
<link rel="stylesheet" href="{top}style.css">
<header><a href="{top}index.html">Dorydate</a><nav aria-label="Pages">{links}</nav>
<form id="search" role="search"><input type="search" placeholder="Search" aria-label="Search all pages" autocomplete="off"><ol aria-live="polite"></ol></form></header>
<main>
{body}
</main>
<footer>Dorydate: a simulator of the ARPANET whose code is proved correct. Apache 2.0 or MIT.</footer>
<script src="{top}search.js" data-top="{top}"></script>
</html>
"""


def documents() -> list[str]:
    """The pages of the repository."""
    return sorted(os.path.relpath(it, ROOT) for some in PAGES for it in glob.glob(f"{ROOT}/{some}"))


def listing(titles: dict[str, str]) -> str:
    """The page that has all pages, in groups."""
    left, parts = dict(titles), ["<h1>All pages</h1>"]
    for group, pattern in GROUPS.items():
        own = {to: left.pop(to) for to in [*left] if re.fullmatch(rf"(?:{pattern})\.html", to)}
        parts += [
            f"<h2>{group}</h2>",
            "<ul>",
            *(f'<li><a href="{to}">{html.escape(title)}</a></li>' for to, title in own.items()),
            "</ul>",
        ]
    if left:
        raise NoSite(f"no group has the page {min(left)}")
    return "\n".join(parts)


def index_of(sections: Iterable[tuple[str, str, str, str]]) -> str:
    """The script that the search loads: of each section its page, heading, address and words."""
    rows = []
    for page, heading, address, text in sections:
        words = dict.fromkeys(re.findall(r"[^\W_][\w:/'-]*", text.lower()))
        rows.append([page, heading, address, " ".join([*words][:MOST_WORDS])])
    return f"window.SECTIONS = {json.dumps(rows, ensure_ascii=False, separators=(',', ':'))};\n"


def source_page(path: str) -> str:
    """A source, or what is in a folder of sources."""
    full = f"{ROOT}/{path}"
    if os.path.isdir(full):
        names = [it for it in sorted(os.listdir(full)) if it != "out"]
        return (
            f"<h1><code>{html.escape(path)}</code></h1>\n<ul>\n"
            + "\n".join(f"<li><code>{html.escape(it)}</code></li>" for it in names)
            + "\n</ul>"
        )
    with open(full, encoding="utf-8", errors="replace") as file:
        lines = "".join(
            f'<span id="L{number}">{html.escape(line)}</span>\n'
            for number, line in enumerate(file.read().split("\n"), 1)
        )
    return f'<h1><code>{html.escape(path)}</code></h1>\n<pre class="lines">{lines}</pre>'


def write_sources(folder: str, paths: Iterable[str]) -> int:
    """Writes what pages lead to beside pages: pictures as they are, sources as pages."""
    from workshop.builds.site_pages import address_of

    count = 0
    for count, path in enumerate(sorted(paths), 1):
        to = address_of(path)
        if to.endswith(".html"):
            write(folder, to, whole(to, path, source_page(path)))
        else:
            os.makedirs(os.path.dirname(f"{folder}/{to}"), exist_ok=True)
            shutil.copyfile(f"{ROOT}/{path}", f"{folder}/{to}")
    return count


def make(folder: str, workbench: str, program: str | None) -> int:
    """Makes the site. How many pages it has, sources not counted."""
    from dorydate.where import program_at
    from workshop.builds.site_examples import example_pages
    from workshop.builds.site_pages import Linked, Page, page_of

    if os.path.exists(folder) and os.listdir(folder) and not os.path.exists(f"{folder}/pages.html"):
        raise NoSite(f"{folder} is there already, and is no site")
    shutil.rmtree(folder, ignore_errors=True)
    os.makedirs(folder)
    linked = Linked()
    pages: list[Page] = [page_of(it, text_of(f"{ROOT}/{it}"), linked) for it in documents()]
    titles = {it.address: it.title for it in pages}
    pages += example_pages(program_at(program) if program else None)
    for it in [*pages, Page("pages.html", "All pages", listing(titles))]:
        write(folder, it.address, whole(it.address, it.title, it.body))
    write(
        folder,
        "index.js",
        index_of(
            (it.title, heading, f"{it.address}#{anchor}" if anchor else it.address, text)
            for it in pages
            for heading, anchor, text in it.sections()
        ),
    )
    write_sources(folder, linked.paths)
    shutil.copyfile(workbench, f"{folder}/dorydate.html")
    for name in ASSETS:
        shutil.copyfile(f"{ROOT}/web/site/{name}", f"{folder}/{name}")
    if lost := [*broken(folder)]:
        raise NoSite(f"{len(lost)} links lead nowhere: {lost[0]}")
    return len(pages) + 1


def broken(folder: str) -> Iterator[str]:
    """The links in the pages of a folder that lead to no file of it, or to no heading of a page."""
    anchors: dict[str, set[str]] = {}
    for path in sorted(glob.glob(f"{folder}/**/*.html", recursive=True)):
        if os.path.basename(path) == "dorydate.html":
            continue
        for found in HREF.finditer(text_of(path)):
            target = html.unescape(found[1])
            if re.match(r"[a-z]+:", target):
                continue
            to, _, anchor = target.partition("#")
            full = os.path.normpath(os.path.join(os.path.dirname(path), to)) if to else path
            if not os.path.isfile(full):
                yield f"{os.path.relpath(path, folder)}: {target}"
            elif anchor and full.endswith(".html") and os.path.basename(full) != "dorydate.html":
                if full not in anchors:
                    anchors[full] = {*re.findall(r'\bid="([^"]+)"', text_of(full))}
                if anchor not in anchors[full]:
                    yield f"{os.path.relpath(path, folder)}: {target}"


def made(folder: str, workbench: str, program: str) -> None:
    """Makes the site in a process of its own, which may be another Python: a release does."""
    env = {**os.environ, "DORYDATE_PROGRAM": program}
    ran = subprocess.run(
        [sys.executable, "-B", f"{ROOT}/python", "site", folder, workbench], capture_output=True, text=True, env=env
    )
    if ran.returncode:
        raise NoSite((ran.stderr.strip() or ran.stdout.strip()).split("\n")[-1])


def has_markdown() -> bool:
    return importlib.util.find_spec("markdown") is not None


def main() -> int:
    words = Words(__doc__)
    words.add_argument("folder", metavar="FOLDER", help="where the site is made")
    page = "the page of the workbench; else the released one"
    asked = words.one("workbench", f"{ROOT}/released/dorydate.html", page).asked()
    if not has_markdown():
        if os.path.realpath(sys.executable) != os.path.realpath(SYSTEM) and os.path.exists(SYSTEM):
            os.execv(SYSTEM, [SYSTEM, "-B", f"{ROOT}/python", "site", *sys.argv[1:]])
        print("site: Python has no package markdown: apt-get install python3-markdown", file=sys.stderr)
        return 1
    folder = os.path.abspath(asked.folder)
    try:
        count = make(folder, asked.workbench, os.environ.get("DORYDATE_PROGRAM") or any_program())
    except (NoSite, OSError) as why:
        print(f"site: {why}", file=sys.stderr)
        return 1
    print(f"site: {count} pages in {folder}; index.html is the first")
    return 0
