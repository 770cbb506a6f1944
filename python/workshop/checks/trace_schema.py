"""Lines of traces have the form of dorydate/trace.schema.json, and lines that are changed don't (seconds): ./check trace_schema

The traces are those of all examples and of each network among the cases, up to MOST lines of each. Debian's package
python3-jsonschema judges them, by the system's Python.
"""

from __future__ import annotations

import json
import subprocess
import sys
from collections.abc import Iterator
from typing import Any

from dorydate.program import NoProgram
from dorydate.where import found
from workshop.checks.cases import cases_below
from workshop.parts import ROOT
from workshop.tools import lacking, python_with

SCHEMA = f"{ROOT}/python/dorydate/trace.schema.json"
MOST = 15  # lines of a trace
# judges each line of standard input: the kind of line that it has to be, and the line; prints the numbers of those that are wrong
JUDGE = """
import json, sys
from jsonschema import Draft202012Validator as Validator
schema = json.load(open(sys.argv[1]))
Validator.check_schema(schema)
kinds = {it: Validator({**schema, "oneOf": [{"$ref": f"#/$defs/{it}"}]}) for it in ("first", "other")}
lines = (it.split(" ", 1) for it in sys.stdin)
print(*(number for number, (kind, line) in enumerate(lines) if not kinds[kind].is_valid(json.loads(line))))
"""


def traced() -> Iterator[tuple[str, str]]:
    """The first lines of traces, each with its kind."""
    program = found()
    for case in cases_below(f"{ROOT}/examples"):
        ran = program.run(case.octets, "--trace")
        for number, line in enumerate(ran.output.splitlines()[:MOST]):
            yield "other" if number else "first", line


def changed(lines: list[tuple[str, str]]) -> Iterator[tuple[str, str]]:
    """Lines with a key too many, without one, or with a value of another kind: none has the form."""
    for kind, line in lines[:: max(1, len(lines) // 50)]:
        value: dict[str, Any] = json.loads(line)
        yield kind, json.dumps({**value, "extra": 1})
        yield kind, json.dumps({key: it for key, it in value.items() if key != "parts"})
        yield kind, json.dumps({**value, "parts": {**value["parts"], "imp": None}})
        yield ("first" if kind == "other" else "other"), line


def wrong_ones(python: str, lines: list[tuple[str, str]]) -> set[int]:
    """The places of the lines that haven't the form."""
    given = "".join(f"{kind} {line}\n" for kind, line in lines)
    ran = subprocess.run([python, "-c", JUDGE, SCHEMA], input=given, capture_output=True, text=True, check=True)
    return {*map(int, ran.stdout.split())}


def main() -> int:
    python = python_with("jsonschema")
    if python is None:
        lacking("trace_schema", "the form of traces", "jsonschema")
        return 0
    try:
        lines = [*traced()]
    except NoProgram as why:
        print(f"check trace_schema: {why}", file=sys.stderr)
        return 1
    bad = [*changed(lines)]
    wrong = wrong_ones(python, lines)
    passed = {*range(len(bad))} - wrong_ones(python, bad)
    for place in sorted(wrong)[:3]:
        print(f"check trace_schema: this line hasn't the form: {lines[place][1][:200]}")
    for place in sorted(passed)[:3]:
        print(f"check trace_schema: this line was changed, and has the form: {bad[place][1][:200]}")
    print(f"check trace_schema: {len(lines)} lines have the form, and {len(bad)} changed ones don't; {len(wrong) + len(passed)} wrong")
    return 1 if wrong or passed else 0
