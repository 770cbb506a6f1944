"""What sources say of inlining, for a module of LLVM that doesn't have it: `#[inline]`, `#[inline(always)]` and `#[inline(never)]`.

A module names a function by its crate, the modules down to it or to its type, the type, and its own name. A method of a trait has the
trait's name after that of the type (`EndsDisplay::fmt`), but for `Drop`; the kit's libraries give these names with `as`.
"""

from __future__ import annotations

import glob
import os
import re
from collections.abc import Iterable, Iterator

Hints = dict[tuple[str, str], str]  # by crate, and by the modules or the type and the function's name: the attribute

ATTRIBUTES = {None: "inlinehint", "always": "alwaysinline", "never": "noinline"}
INLINE = re.compile(r"#\s*\[\s*inline\s*(?:\(\s*(always|never)\s*\)\s*)?\]")
FUNCTION = re.compile(r"\bfn\s+(\w+)")
BLOCK = re.compile(r"^(?:#\s*\[[^\]]*\]\s*)*(?:pub\s+)?(?:unsafe\s+)?(?:impl|trait)\b([^{;]*)\{.*?^\}", re.MULTILINE | re.DOTALL)  # they begin and end at the margin
DEFINED = re.compile(r'define [^@]*@"([^"]+)"')


def owner_of(head: str) -> str:
    """The name of what has the functions of a block, by the words between `impl` or `trait` and its brace."""
    if given := re.search(r"\bas (\w+)\s*$", head):
        return given[1]
    shorter, head = head.replace("->", "").split(" where ")[0], ""
    while shorter != head:
        shorter, head = re.sub(r"<[^<>]*>", "", shorter), shorter
    names: list[str] = [re.findall(r"\w+", it)[-1] for it in re.split(r"\bfor\b", re.sub(r"\w+\s*::\s*", "", head).split(":")[0])]
    return names[-1] + ("" if len(names) == 1 or names[0] == "Drop" else names[0])


def hints_in(text: str, crate: str, module: str) -> Iterator[tuple[tuple[str, str], str]]:
    """The hints of a file."""
    blocks = [(*it.span(), owner_of(it[1])) for it in BLOCK.finditer(text)]
    for hint in INLINE.finditer(text):
        if function := FUNCTION.search(text, hint.end()):
            owner = next((owner for begin, end, owner in blocks if begin < hint.start() < end), module)
            yield (crate, f"{owner}::{function[1]}" if owner else function[1]), ATTRIBUTES[hint[1]]


def hints_of(kit: str, crates: str) -> Hints:
    """The hints of all crates in a folder, and of the kit's libraries."""
    libraries = {os.path.basename(it).split(".")[0]: f"{it}/lang/src" for it in glob.glob(f"{kit}/rlibs/*.rlib")}
    own = {it.split("/")[-2]: it for it in glob.glob(f"{crates}/*/src")}
    found: Hints = {}
    for crate, folder in (libraries | own).items():
        for path in glob.glob(f"{folder}/**/*.rt", recursive=True):
            module = os.path.relpath(path, folder).removesuffix(".rt").replace("/", "::")
            with open(path, encoding="utf-8") as file:
                found.update(hints_in(file.read(), crate, "" if module in ("lib", "main") else module))
    return found


def hint_for(name: str, hints: Hints) -> str | None:
    """The hint on a function of a module, if there is one: by the modules to it, or by its type."""
    crate, *path = name.split("::<")[0].split("::")
    return hints.get((crate, "::".join(path))) or hints.get((crate, "::".join(path[-2:])))


def hinted(module: Iterable[str], hints: Hints) -> Iterator[str]:
    """The lines of a module with the hints on its functions."""
    for line in module:
        found = DEFINED.match(line)
        hint = hint_for(found[1], hints) if found else None
        at = line.rfind(") #")
        yield f"{line[: at + 1]} {hint}{line[at + 1 :]}" if hint and at >= 0 else line
