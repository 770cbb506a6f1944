"""Tests of the site: charts that are drawn, pages that are made of documents, and links of the whole site, where Markdown's package is there."""

from __future__ import annotations

import os
import subprocess
import sys
import tempfile
import unittest
from pathlib import Path

from dorydate.where import found
from workshop.builds.site import NoSite, broken, index_of, listing
from workshop.builds.site_charts import NotDrawn, drawn, read
from workshop.parts import ROOT

CHART = """sequenceDiagram
    participant h0_1 as Host 0/1 at UCLA
    participant h0_2 as Host 0/2
    h0_1->>h0_2: 1 byte of 8 bits: #35;, on link 2
    h0_1-xh0_2: a message that is lost, and whose words are long and want a second line
    Note over h0_2: down
"""


class Charts(unittest.TestCase):
    def test_lanes_and_rows(self) -> None:
        lanes, rows = read(CHART)
        self.assertEqual(lanes, {"h0_1": "Host 0/1 at UCLA", "h0_2": "Host 0/2"})
        self.assertEqual(
            [(it.kind, it.source, it.destination) for it in rows],
            [("->>", "h0_1", "h0_2"), ("-x", "h0_1", "h0_2"), ("note", "h0_2", "h0_2")],
        )
        self.assertEqual(rows[0].words, "1 byte of 8 bits: #, on link 2")

    def test_a_lost_message_ends_in_a_cross_and_long_words_in_a_second_line(self) -> None:
        picture = drawn(CHART)
        self.assertEqual(
            (picture.count('class="head"'), picture.count('class="lost"'), picture.count("<rect")), (1, 2, 1)
        )
        self.assertGreater(len(read(CHART)[1][1].lines(["h0_1", "h0_2"])), 1)

    def test_what_is_not_drawn_is_refused(self) -> None:
        for chart, words in (
            ("graph TD\n", "begins with graph TD"),
            (CHART + "    loop x\n", "the line loop x"),
            (CHART + "    Note over h9_9: x\n", "no participant h9_9"),
        ):
            with self.subTest(words), self.assertRaisesRegex(NotDrawn, words):
                read(chart)


class Parts(unittest.TestCase):
    def test_a_link_that_leads_nowhere_is_found(self) -> None:
        with tempfile.TemporaryDirectory() as folder:
            Path(folder, "a.html").write_text(
                '<a href="b.html">b</a> <a href="a.html#there">x</a> <a href="#none">y</a> <h1 id="there">A</h1> <a href="https://example.org/">z</a>'
            )
            self.assertEqual([*broken(folder)], ["a.html: b.html", "a.html: #none"])

    def test_each_page_is_in_a_group(self) -> None:
        self.assertIn('<a href="docs/tour.html">A tour</a>', listing({"docs/tour.html": "A tour"}))
        with self.assertRaisesRegex(NoSite, "no group has the page other.html"):
            listing({"other.html": "Other"})

    def test_words_of_a_section_are_found_once(self) -> None:
        self.assertEqual(
            index_of([("A page", "Head", "a.html#head", "One two, one")]),
            'window.SECTIONS = [["A page","Head","a.html#head","one two"]];\n',
        )


class Whole(unittest.TestCase):
    def test_every_link_of_the_site_resolves(self) -> None:
        with tempfile.TemporaryDirectory() as room:
            folder = f"{room}/site"
            env = {**os.environ, "DORYDATE_PROGRAM": found().path}
            ran = subprocess.run(
                [sys.executable, "-B", f"{ROOT}/python", "site", folder], capture_output=True, text=True, env=env
            )
            if "no package markdown" in ran.stderr:
                self.skipTest(ran.stderr.strip())
            self.assertEqual((ran.returncode, ran.stderr), (0, ""))
            self.assertEqual([*broken(folder)], [])
            page = Path(folder, "examples", "lo-of-login.html").read_text(encoding="utf-8")
            self.assertIn('href="../dorydate.html#e=lo-of-login"', page)
            self.assertIn('<div class="chart"><svg', page)
            self.assertIn(
                '<span id="L1">',
                Path(folder, "sources", "crates", "headline", "src", "book.rt.html").read_text(encoding="utf-8"),
            )
