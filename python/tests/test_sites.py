"""The comment after an IMP's number: its site, its machines and its place; and networks that keep it."""

from __future__ import annotations

import unittest

from dorydate.explain.topology import names_of
from dorydate.network import Network
from dorydate.sites import Site

COMMENTS = [
    ("UCLA", Site("UCLA")),
    ("UCLA [Sigma 7] @ 34.07 -118.44", Site("UCLA", ("Sigma 7",), (34.07, -118.44))),
    ("MIT [GE-645, PDP-10]", Site("MIT", ("GE-645", "PDP-10"))),
    ("LONDON @ 51.5 0", Site("LONDON", (), (51.5, 0.0))),
    ("mail@home", Site("mail@home")),
    ("", Site()),
]
TEXT = "raw = true\n[[imp]]\nid = 1 # UCLA [Sigma 7] @ 34.07 -118.44\nhosts = 1\n[[imp]]\nid = 2 # SRI\nhosts = 1\n[[line]]\na = 1\nb = 2\n"


class Sites(unittest.TestCase):
    def test_each_form(self) -> None:
        for comment, site in COMMENTS:
            self.assertEqual(Site.read(comment), site, comment)

    def test_networks_name_the_site_and_keep_the_rest(self) -> None:
        network = Network.read(TEXT)
        self.assertEqual([it.name for it in network.imps], ["UCLA", "SRI"])
        self.assertIn("id = 1 # UCLA [Sigma 7] @ 34.07 -118.44\n", network.toml())
        self.assertEqual(Network.read(network.toml()), network)
        self.assertEqual(names_of(network), {1: "UCLA", 2: "SRI"})


if __name__ == "__main__":
    unittest.main()
