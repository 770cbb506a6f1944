"""What a shell completes of the commands: `dorydate completion bash`, `zsh` or `fish` prints it for that shell.

The options are those of the commands themselves: of their parsers, and of what `arpasim --help` prints.
"""

from __future__ import annotations

import argparse
import re
from collections.abc import Iterator, Sequence
from dataclasses import dataclass

from dorydate.conformance.command import parser as conformance
from dorydate.contract.command import parser as keeps
from dorydate.explain.command import parser as explain
from dorydate.explore.command import parser as explore
from dorydate.export.command import parser as export
from dorydate.live.command import parser as live

SHELLS = ("bash", "zsh", "fish")
OPTION = re.compile(r"^  (--[a-z-]+) +(.*)$", re.MULTILINE)
PARSERS = {
    "explain": explain,
    "explore": explore,
    "export": export,
    "conformance": conformance,
    "keeps": keeps,
    "live": live,
}


@dataclass(frozen=True)
class Command:
    """A command: how it is called, its options, each with what it does, and words that may follow it."""

    called: tuple[str, ...]
    options: tuple[tuple[str, str], ...]
    words: tuple[str, ...] = ()

    @property
    def name(self) -> str:
        return " ".join(self.called)


def options_of(parser: argparse.ArgumentParser) -> Iterator[tuple[str, str]]:
    """The options of a parser, each with the first sentence of its help."""
    for action in parser._actions:  # noqa: SLF001 (argparse has no other list of them)
        for option in action.option_strings:
            if option.startswith("--"):
                yield option, re.split(r"[:;,(]", action.help or "")[0].strip()


def commands(program_help: str, short: Sequence[str], examples: Sequence[str]) -> list[Command]:
    """All commands: of the program by what it says of itself, and those of the package."""
    own = tuple((option, meaning) for option, meaning in OPTION.findall(program_help))
    made = [Command(("arpasim",), own), Command(("dorydate",), (("--help", "how it is called"),), (*PARSERS, *short))]
    made += [Command(("dorydate", name), tuple(options_of(parser()))) for name, parser in PARSERS.items()]
    made.append(Command(("dorydate", "examples"), (), tuple(examples)))
    return [*made, Command(("dorydate", "completion"), (), SHELLS)]


def of_bash(known: Sequence[Command]) -> str:
    """A function for bash: it looks at the first word after `dorydate`, and completes options, words and files."""

    def case(it: Command) -> str:
        return f'        "{it.name}") words="{" ".join([*dict(it.options), *it.words])}" ;;\n'

    return f"""# eval "$(dorydate completion bash)"
_dorydate() {{
    local words="" called=${{1##*/}} word=${{COMP_WORDS[COMP_CWORD]}}
    [ "$called" != dorydate ] || [ "$COMP_CWORD" -eq 1 ] || called="$called ${{COMP_WORDS[1]}}"
    case $called in
{"".join(map(case, known))}    esac
    COMPREPLY=($(compgen -W "$words" -- "$word"))
}}
complete -o bashdefault -o default -F _dorydate arpasim dorydate
"""


def quoted(text: str) -> str:
    """A text between single quotation marks, for zsh and fish."""
    return "'" + text.replace("'", "") + "'"


def of_zsh(known: Sequence[Command]) -> str:
    """A function for zsh: the same, with what each option does."""

    def case(it: Command) -> str:
        described = " ".join(quoted(f"{option}:{meaning.replace(':', ' ')}") for option, meaning in it.options)
        return f'        "{it.name}") offered=({described}) others=({" ".join(it.words)}) ;;\n'

    return f"""#compdef arpasim dorydate
_dorydate() {{
    local -a offered others
    local called=$service
    [[ $called != dorydate || $CURRENT -eq 2 ]] || called="$called ${{words[2]}}"
    case $called in
{"".join(map(case, known))}    esac
    _describe option offered
    compadd -a others
    _files
}}
if [ "$funcstack[1]" = _dorydate ]; then _dorydate "$@"; else compdef _dorydate arpasim dorydate; fi
"""


def of_fish(known: Sequence[Command]) -> str:
    """Lines for fish."""
    lines = ["# dorydate completion fish | source"]
    for it in known:
        when = " -n __fish_use_subcommand" if it.words else ""
        if it.called[1:]:
            when = f" -n '__fish_seen_subcommand_from {it.called[1]}'"
        begins = f"complete -c {it.called[0]}{when}"
        lines += [f"{begins} -l {option[2:]} -d {quoted(meaning)}" for option, meaning in it.options]
        lines += [f"{begins} -a {quoted(' '.join(it.words))}"] if it.words else []
    return "\n".join(lines) + "\n"


def script(shell: str, known: Sequence[Command]) -> str:
    """What a shell reads."""
    return {"bash": of_bash, "zsh": of_zsh, "fish": of_fish}[shell](known)
