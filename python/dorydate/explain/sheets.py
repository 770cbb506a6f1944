"""Sheets for a class as files of HTML: a worksheet, its answers, and the first hour as slides."""

from __future__ import annotations

from collections.abc import Callable, Iterable, Iterator
from html import escape

from dorydate.explain.runs import Happened, kept_program, replay
from dorydate.explain.telling import past_of, said_beside, telling_event
from dorydate.given import Input
from dorydate.sentences.table import TABLE, sentences
from dorydate.where import examples_folder

WORDS = sentences("paper")
HOUR: list[tuple[int, str, str, str]] = [(it[0], it[1], it[2], it[3]) for it in TABLE["hour"]]
MOST_TOLD = 7  # sentences on a slide
STYLE = """body{font:11pt/1.4 system-ui,sans-serif;margin:2rem auto;max-width:60rem;padding:0 1rem;color:#161a20}
table{border-collapse:collapse;width:100%}
td{padding:.25rem .6rem .25rem 0;border-bottom:1px solid #dedbd2;vertical-align:top}
code{font:10pt ui-monospace,monospace}.note td{font-style:italic;padding-top:.6rem}
.blank td{height:3em;border-bottom:1px dotted #555}.open td{height:2.2em}
.reply td{font-weight:600}.name{border-bottom:1px dotted #555;max-width:20rem}tr{break-inside:avoid}"""
SLIDES = """body{margin:0;font-family:system-ui,sans-serif;color:#161a20}
html{scroll-snap-type:y mandatory}section{scroll-snap-align:start}
section{min-height:100vh;box-sizing:border-box;padding:7vh 8vw;display:flex;flex-direction:column;gap:3vh}
section{page-break-after:always}section.title{background:#14273f;color:#f2f5f9;justify-content:center}
h1{font-size:9vh;margin:0}p,li{font-size:3.3vh;line-height:1.35;margin:0 0 1vh}.big{font-size:5vh;font-weight:600}
.kicker{color:#0a5f9e;font-weight:600;font-size:2.6vh}.title .kicker{color:#a9bbd2}"""


def page(title: str, style: str, parts: Iterable[str]) -> str:
    """A file of HTML."""
    head = f'<meta charset="utf-8"><title>{escape(title)}</title><style>{style}</style>'
    return "\n".join([f'<!doctype html>\n<html lang="en"><head>{head}</head><body>', *parts, "</body></html>"])


def sentences_of(given: Input, events: list[Happened]) -> dict[int, list[str]]:
    """What is said of each event, by the number of its line, without what the program prints."""
    past, found = past_of(given), {}
    for event, said in zip(events, said_beside(given, events)):
        told = telling_event(past, event, said)
        lines = [it.removeprefix("prints nothing. ") for it in told if not it.startswith("prints: ")]
        found[event.number] = [it for it in lines if it]
    return found


def sheet(given: Input, events: list[Happened], name: str, with_answers: bool) -> str:
    """A worksheet, which says nothing of what happens after its first question; or the same with its answers."""
    title = f"{WORDS['answers' if with_answers else 'worksheet']}: {name}"
    told = sentences_of(given, events)
    named = [] if with_answers else [f'<p class="name">{WORDS["name"]}: </p>']
    rows = rows_of(given, told, with_answers)
    return page(title, STYLE, [f"<h1>{escape(title)}</h1>", *named, "<table>", *rows, "</table>"])


def rows_of(given: Input, told: dict[int, list[str]], with_answers: bool) -> Iterator[str]:
    """The rows of a sheet."""
    texts = [(number, octets.decode("latin-1")) for number, octets in given.script]
    is_open = with_answers or any(text.startswith("#?") for _, text in texts)
    for number, text in texts:
        kind, words = text[:2], text.lstrip("#?! ")
        if number in told:
            said = escape(" ".join(told[number])) if is_open else ""
            start = "<tr>" if said else '<tr class="open">'  # with room to write it in
            yield f"{start}<td>{number}</td><td><code>{escape(text)}</code></td><td>{said}</td></tr>"
        elif kind == "#?":
            is_open = with_answers
            yield note_row("note", words)
            if not with_answers:
                yield '<tr class="blank"><td colspan="3"></td></tr>'
        elif kind == "#!":
            if with_answers:
                yield note_row("note reply", words)
        elif text.startswith("#") and words and is_open:
            yield note_row("note", words)


def note_row(kind: str, words: str) -> str:
    return f'<tr class="{kind}"><td colspan="3">{escape(words)}</td></tr>'


def slides(open_example: Callable[[str], bytes] | None = None) -> str:
    """The first hour: of each lesson its question, what happens, and the answer."""
    read = open_example or (lambda name: (examples_folder() / name).read_bytes())
    parts = [f'<section class="title"><p class="kicker">Dorydate</p><h1>{WORDS["slides"]}</h1></section>']
    for minutes, name, question, answer in HOUR:
        title = name.replace("-", " ").capitalize()
        kicker = " · ".join(it for it in (title, f"{minutes} min") if it)
        parts.append(slide(kicker, f'<p class="big">{escape(question)}</p>'))
        if name:
            given = Input(read(name))
            found = replay(given, kept_program())
            said = [" ".join(it) for it in sentences_of(given, found.events).values() if it]
            every = -(-len(said) // MOST_TOLD)
            items = "".join(f"<li>{escape(it)}</li>" for it in said[::every])
            parts.append(slide(f"{title} · {WORDS['what happens']}", f"<ul>{items}</ul>"))
        parts.append(slide(WORDS["answer"], f'<p class="big">{escape(question)}</p><p>{escape(answer)}</p>'))
    return page(WORDS["slides"], SLIDES, parts)


def slide(kicker: str, content: str) -> str:
    return f'<section><p class="kicker">{escape(kicker)}</p>{content}</section>'
