"""Completion for bash, made from the parser."""
from __future__ import annotations

import argparse
from typing import Any

# What an argument's word is completed by, where its action has no choices: words, or files.
FILES = "FILES"
HEAD = """# bash completion of pmhost, made by `pmhost --completion`
_pmhost() {
    local word=${COMP_WORDS[COMP_CWORD]} before=${COMP_WORDS[COMP_CWORD-1]} command= at
    for ((at = 1; at < COMP_CWORD; at++)); do
        case ${COMP_WORDS[at]} in
            +) command= ;;
"""


def completed_by(action: Any, words: Any) -> None:
    """Says what the word of an argument is completed by."""
    setattr(action, "completed_by", words)


def words_of(action: argparse.Action) -> str:
    found = getattr(action, "completed_by", None) or action.choices or ()
    return FILES if found == FILES else " ".join(str(each) for each in found)


def flags_of(parser: argparse.ArgumentParser) -> list[str]:
    """The options of a parser, and those of the kinds of a command."""
    found = [flag for action in parser._actions for flag in action.option_strings]
    for action in parser._actions:
        if isinstance(action, argparse._SubParsersAction) and action.dest != "command":
            found += [flag for kind in action.choices.values() for flag in flags_of(kind)]
    return [*dict.fromkeys(found)]


def reply(words: str) -> str:
    """The line that completes by words, or by files."""
    return 'COMPREPLY=($(compgen -f -- "$word"))' if words == FILES else f'COMPREPLY=($(compgen -W "{words}" -- "$word"))'


def bash(parser: argparse.ArgumentParser, commands: dict[str, argparse.ArgumentParser]) -> str:
    """The script."""
    lines = [HEAD + f"            {'|'.join(commands)}) command=${{COMP_WORDS[at]}} ;;\n        esac\n    done",
             "    case $command:$before in"]
    seen: set[str] = set()
    # What has a value in one command and none in another is told by its command.
    alone = {flag for each in commands.values() for action in each._actions if action.nargs == 0 for flag in action.option_strings}
    for name, found in (("*", parser), *commands.items()):
        for action in found._actions:
            fresh = [f"{name if flag in alone else '*'}:{flag}" for flag in action.option_strings]
            fresh = [it for it in fresh if it not in seen]
            if fresh and action.nargs != 0:
                seen.update(fresh)
                lines.append(f"        {'|'.join(fresh)}) {reply(words_of(action))}; return ;;")
    lines += ["    esac", "    case $command in", f"        '') {reply(' '.join([*commands, *flags_of(parser)]))} ;;"]
    for name, each in commands.items():
        words = [words_of(action) for action in each._actions if not action.option_strings]
        files = '; COMPREPLY+=($(compgen -f -- "$word"))' if FILES in words else ""
        listed = " ".join([*(it for it in words if it and it != FILES), *flags_of(each), "+"])
        lines.append(f"        {name}) {reply(listed)}{files} ;;")
    return "\n".join([*lines, "    esac", "}", "complete -F _pmhost pmhost", ""])
