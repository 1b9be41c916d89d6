"""What the help of each command says: each option once, then what stands above them, without empty lines. data/help.txt is the whole of it;
after a change `python3 -m tests.test_help` prints it anew, to be read before it is kept."""
import argparse
import unittest

from pmhost import cli

from .running import DATA, stored


def option(action: argparse.Action) -> str:
    """An option or a word with its value, those that it takes, and its help."""
    value = action.metavar if isinstance(action.metavar, str) else " ".join(action.metavar or ())
    some = "{" + ",".join(map(str, action.choices)) + "}" if action.choices and not isinstance(action, argparse._SubParsersAction) else ""
    return " ".join(filter(None, (" ".join(action.option_strings) or action.dest, value, some, action.help)))


def helped() -> str:
    """All helps, without what argparse makes of them."""
    whole, commands = cli.parser()
    options = dict.fromkeys(option(each) for parser in (whole, *commands.values()) for each in parser._actions)
    texts = [f"== {name or 'pmhost'}\n{parser.description or ''}" for name, parser in {"": whole, **commands}.items()]
    return "".join(f"{line}\n" for text in [*options, *texts] for line in text.splitlines() if line)


class Help(unittest.TestCase):
    maxDiff = None

    def test_each_help_is_the_kept_one(self):
        self.assertEqual(stored(DATA, "help.txt"), helped())


if __name__ == "__main__":
    print(helped(), end="")
