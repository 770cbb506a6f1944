"""Types that are declared in Rust, as Agda: the fields or variants of each, or the value of its model."""

from __future__ import annotations

import re
from pathlib import Path

from workshop.parts import ROOT, text_of

KEYWORDS = {
    *"field open where data record module let in to renaming using hiding import with abstract rewrite".split(),
    *"do quote syntax tactic macro instance private public forall constructor pattern variable".split(),
}
PLAIN = {**dict.fromkeys(("u8", "u16", "u32", "u64", "u128", "usize"), "ℕ"), "bool": "Bool"}
VALUES = {**{it: it for it in ("ℕ", "List Bool", "List ℕ")}, "Host": "Host-of-interface-Host"}  # of models, in Agda
MODEL = re.compile(r"impl(?:<[^>]*>)? Model for (\w+)[^{]*\{[\s\S]*?ghost Value = \{ (.*?) \};")
DECLARED = r"pub (struct|enum) {name}(?:<[^>]*>)?\s*(\{{|\(|;)"


def mangled(name: str) -> str:
    """A name as Agda may have it."""
    found = name.replace("_", "-")
    return f"{found}′" if found in KEYWORDS else found


def parts_of(text: str, at: int) -> list[str]:
    """What commas separate, from a place after a bracket to where that is closed."""
    found, depth = [""], 1
    for letter in text[at:]:
        depth += (letter in "{([<") - (letter in "})]>")
        if not depth:
            break
        if letter == "," and depth == 1:
            found.append("")
        else:
            found[-1] += letter
    return [it.strip() for it in found if it.strip()]


class Rust:
    """The types, written when they are asked for. One whose value no file of definitions says plainly is a parameter of
    the module, of which nothing is known."""

    def __init__(self) -> None:
        self.texts: dict[str, list[tuple[str, str]]] = {}  # by a type's name: its crates and files
        self.values: dict[str, str] = {}
        self.written: dict[str, list[str]] = {}
        self.opaque: list[str] = []
        for path in sorted(Path(f"{ROOT}/crates").glob("*/src/**/*.rt")):
            text = re.sub(r"#\[[^\]]*\]|//[^\n]*", "", text_of(str(path)))
            self.values |= dict(MODEL.findall(text))
            for name in re.findall(r"pub (?:struct|enum) (\w+)", text):
                self.texts.setdefault(name, []).append((path.relative_to(f"{ROOT}/crates").parts[0], text))

    def file_of(self, name: str, crate: str, user: str) -> tuple[str, str]:
        """The crate and the file of a type: of this crate, or of one from which a file takes it."""
        named = re.findall(rf"use (\w+)::[^;]*\b{name}\b", user)
        return min(self.texts.get(name, [("", "")]), key=lambda it: (it[0] != crate, it[0] not in named))

    def type(self, text: str, crate: str = "", user: str = "") -> str:
        """A type of Rust, in Agda, as a file of a crate names it."""
        text = text.strip()
        if text in PLAIN:
            return PLAIN[text]
        if found := re.fullmatch(r"\[(.*);[^;]*\]|(?:Vec|VecDeque)<(.*)>", text):
            return f"(List {self.type(found[1] or found[2], crate, user)})"
        if found := re.fullmatch(r"Option<(.*)>", text):
            return f"(Option {self.type(found[1], crate, user)})"
        if (value := self.values.get(text, "")) in VALUES:
            return f"({VALUES[value]})"
        self.write(text, crate, user)
        return f"{text}°"

    def write(self, name: str, crate: str = "", user: str = "") -> None:
        """Writes a type by its fields or variants."""
        if name in self.written or name in self.opaque:
            return
        home, text = self.file_of(name, crate, user)
        found = re.search(DECLARED.format(name=name), text)
        if name in self.values or not found:
            self.opaque.append(name)
            return
        parts = parts_of(text, found.end()) if found[2] != ";" else []
        if found[1] == "struct":
            pairs = [it.split(":", 1) if found[2] == "{" else [str(at), it] for at, it in enumerate(parts)]
            fields = [
                f"    #{mangled(it.split()[-1])} : {self.type(of.replace('pub ', ''), home, text)}" for it, of in pairs
            ]
            self.written[name] = [f"record {name}° : Set where", "  field", *fields, f"open {name}° public"]
            return
        variants = [it for part in parts if (it := re.match(r"(\w+)\s*[({]?", part))]
        types = [
            [self.type(of.split(":", 1)[-1], home, text) for of in parts_of(it.string, it.end())] for it in variants
        ]
        lines = [f"  {it[1]} : {' → '.join([*of, f'{name}°'])}" for it, of in zip(variants, types)]
        self.written[name] = [f"data {name}° : Set where", *lines]
