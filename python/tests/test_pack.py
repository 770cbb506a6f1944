"""Tests of pack.py: what is joined runs as the modules do, and what isn't known is refused."""

import json
import os
import random
import re
import shutil
import subprocess
import tempfile
import unittest
from typing import Dict

from dorydate.explain.page import opened
from workshop.parts import ROOT
from workshop.tools import absence
from workshop.wasm.pack import Refused, bare_style, block_in, hash_of, joined, page, read_octets, spell_octets, title_of

NODE = shutil.which("node") or shutil.which("nodejs")


class Joined(unittest.TestCase):
    def setUp(self) -> None:
        self.room = tempfile.TemporaryDirectory()
        self.addCleanup(self.room.cleanup)

    def ran(self, script: str) -> "subprocess.CompletedProcess[str]":
        return subprocess.run([NODE or "", "-"], input=script, capture_output=True, text=True)

    def joined(self, files: Dict[str, str]) -> str:
        for name, text in files.items():
            os.makedirs(os.path.dirname(f"{self.room.name}/{name}"), exist_ok=True)
            with open(f"{self.room.name}/{name}", "w", encoding="utf-8") as file:
                file.write(text)
        return joined(f"{self.room.name}/main.js")

    @unittest.skipUnless(NODE, absence("Node"))
    def test_names_of_two_modules_never_meet(self) -> None:
        script = self.joined(
            {
                "main.js": 'import { f as g, C } from "./a.js";\nimport * as b from "./low/b.js";\nconst f = 1;\nconsole.log(f, g(), new C().x, b.k, b.f());\n',
                "a.js": 'import { k, f as there } from "./low/b.js";\nexport function f() { return k + there(); }\nexport class C { x = 7; }\n',
                "low/b.js": "const k = 40;\nfunction f() { return 2; }\nexport { k, f };\n",
            }
        )
        ran = self.ran(script)
        self.assertEqual((ran.stdout, ran.stderr), ("1 42 7 40 2\n", ""))

    def test_a_module_is_joined_once_and_before_those_that_import_it(self) -> None:
        script = self.joined(
            {
                "main.js": 'import { a } from "./a.js";\nimport { b } from "./b.js";\n',
                "a.js": 'import { b } from "./b.js";\nexport const a = b;\n',
                "b.js": "export const b = 1;\n",
            }
        )
        self.assertEqual(script.count("const b = 1;"), 1)
        self.assertLess(script.index("const b = 1;"), script.index("const a = b;"))

    def test_other_forms_are_refused(self) -> None:
        for form in (
            "export default 1;",
            "export let a = 1;",
            'export * from "./b.js";',
            'import "./b.js";',
            'import a from "./b.js";',
            'const a = import("./b.js");',
            'import { a } from "b";',
        ):
            with self.assertRaises(Refused, msg=form):
                self.joined({"main.js": f"{form}\n", "b.js": ""})

    def test_documentation_is_left_out(self) -> None:
        texts = ['f("/** kept */");', "const g = 1; /** @type {number} */", "const h = `one", "    two`;"]
        main = "\n".join(["/** The page. */", "", "    /**", "     * Answers one.", "     */", *texts, ""])
        script = self.joined({"main.js": main})
        self.assertIn("\n".join(["", *texts, ""]), script)
        self.assertNotIn("The page", script)
        self.assertNotIn("Answers one", script)

    def test_a_module_that_imports_itself_is_refused(self) -> None:
        with self.assertRaises(Refused):
            self.joined(
                {
                    "main.js": 'import { b } from "./b.js";\n',
                    "b.js": 'import { a } from "./main.js";\nexport const b = 1;\n',
                }
            )


class Octets(unittest.TestCase):
    def test_what_is_spelled_ends_no_block_and_is_read_again(self) -> None:
        octets = random.Random(1).randbytes(20_000)
        self.assertNotRegex(spell_octets(octets), "[<`]")
        self.assertEqual(read_octets(spell_octets(octets)), octets)

    @unittest.skipUnless(NODE, absence("Node"))
    def test_the_page_reads_what_is_spelled(self) -> None:
        rows = [random.Random(size).randbytes(size) for size in [*range(12), 3000]] + [b"\xff" * 7, bytes(7)]
        texts = json.dumps([spell_octets(it) for it in rows])
        script = f"""import {{ unpacked }} from {json.dumps(f"{ROOT}/web/run/packed.js")};
            for (const text of {texts}) console.log(Buffer.from(await unpacked(text)).toString("hex"));"""
        ran = subprocess.run([NODE or "", "--input-type=module", "-"], input=script, capture_output=True, text=True)
        self.assertEqual((ran.stdout.split("\n"), ran.stderr), ([*(it.hex() for it in rows), ""], ""))


class Page(unittest.TestCase):
    def test_a_style_has_no_comments_and_only_the_spaces_that_part_words(self) -> None:
        self.assertEqual(
            bare_style("/* one\n * two */\na {\n    b: c d; /* e */\n}\n\nf g { h: i; }\n"), "a{b:c d;}f g{h:i;}"
        )

    def test_a_hash_is_the_one_that_browsers_name(self) -> None:
        # of the text "alert('Hello, world.');", as the standard of Content Security Policy has it
        self.assertEqual(hash_of("alert('Hello, world.');"), "'sha256-qznLcsROx4GACP2dm0UCKCzCG+HiZ1guq6ZZDob/Tng='")

    def test_a_page_opens_with_the_inputs_that_it_is_given(self) -> None:
        text = opened(page(f"{ROOT}/web/workbench", b"module"), [{"name": "a", "title": "A", "text": "# <a>\n%\n"}])
        self.assertIn('id="opened">[{"name": "a", "title": "A", "text": "# \\u003ca>\\n%\\n"}]</script>', text)
        with self.assertRaises(ValueError):
            opened(text, [])

    def test_a_page_runs_what_its_policy_names_and_nothing_else(self) -> None:
        text = page(f"{ROOT}/web/page", b"module")
        style, script = (re.findall(f"<{it}>(.*?)</", text, re.DOTALL) for it in ("style", 'script type="module"'))
        hashes = re.findall("'sha256-[^']*'", text)
        self.assertEqual(hashes, [hash_of(it) for it in [*script, block_in(text, "code").decode(), *style]])
        self.assertEqual(len(hashes), 3)

    def test_a_title_has_the_capitals_of_its_comments(self) -> None:
        self.assertEqual(title_of("an-rfnm-is-lost", "# The RFNM is lost.\nout 0/1\n"), "An RFNM is lost")
        self.assertEqual(
            title_of("a-dead-is-lost", "# Nothing is lost. Lost is the Dead that says so.\n"), "A Dead is lost"
        )


if __name__ == "__main__":
    unittest.main()
