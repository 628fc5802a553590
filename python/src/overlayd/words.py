"""The words that a subcommand is called with, by click.

    @subcommand(__doc__, argument("store", FILE), option("--factor", "default 1", NUMBER), PROGRAM)
    def command(words: Words) -> int:
        ...

The function is given all words by their names, and gives the status. A combination of words that is none it refuses by
`click.UsageError`, which ends the command with status 2."""

import inspect
import pathlib
import re
from collections.abc import Callable, Sequence
from fractions import Fraction
from types import SimpleNamespace
from typing import Any

import click

from .grid import scale as scales
from .program_files import LIVE, PROGRAM_HELP

NEGATIVE = re.compile(r"-\.?[0-9]")  # how a word begins that is a number, and no option


class Words(SimpleNamespace):
    """The words of a call by their names."""


class Command(click.Command):
    """A subcommand. Its help has its text as it stands, a negative number is no option, and an option of one value is
    given once."""

    def format_help_text(self, context: click.Context, formatter: click.HelpFormatter) -> None:
        formatter.write(f"\n{inspect.cleandoc(self.help or '')}\n")

    def parse_args(self, context: click.Context, args: list[str]) -> list[str]:
        if context.resilient_parsing:  # of a line that is not yet whole
            return super().parse_args(context, args)
        options = {name: one for one in self.params if isinstance(one, click.Option) for name in one.opts}
        named, plain, given, left = list[str](), list[str](), set[str | None](), list(args)
        while left:
            word = left.pop(0)
            name, has_value, _ = word.partition("=")
            if word == "--":
                plain, left = plain + left, []
            elif not is_option(word):
                plain.append(word)
            else:
                named.append(word)
                option = options.get(name)
                if option and not option.is_flag:
                    if option.name in given and not option.multiple:
                        raise click.BadOptionUsage(name, f"Option {name!r} is given twice.", context)
                    given.add(option.name)
                    named += [] if has_value else values(option, left, context)
        return super().parse_args(context, [*named, "--", *plain])


def is_option(word: str) -> bool:
    return word.startswith("-") and word != "-" and not NEGATIVE.match(word)


def values(option: click.Option, left: list[str], context: click.Context) -> list[str]:
    """The values of an option, taken from the words that are left. None of them looks like an option."""
    found = left[: option.nargs]
    if len(found) < option.nargs or any(map(is_option, found)):
        if isinstance(option.flag_value, str):  # that of the option without a value
            return []
        name, count = option.opts[0], "an argument" if option.nargs == 1 else f"{option.nargs} arguments"
        raise click.BadOptionUsage(name, f"Option {name!r} requires {count}.", context)
    del left[: option.nargs]
    return found


class Typed(click.ParamType):
    """What a function makes of a word; its ValueError says why it makes nothing of it."""

    def __init__(self, name: str, of: Callable[[str], Any]) -> None:
        self.name, self.of = name, of

    def convert(self, value: Any, param: click.Parameter | None, context: click.Context | None) -> Any:
        try:
            return self.of(value) if isinstance(value, str) else value
        except ValueError as fault:
            self.fail(str(fault), param, context)


class Group(click.Group):
    """Subcommands of a subcommand."""

    command_class = Command
    group_class = type


class File(click.Path):
    """A name of a file, of one letter at least."""

    def convert(self, value: Any, param: click.Parameter | None, context: click.Context | None) -> Any:
        return super().convert(value, param, context) if value else self.fail("no name of a file", param, context)


def above_zero(text: str) -> Fraction:
    """The number that a word spells, above 0."""
    found = scales.number(text)
    if found <= 0:
        raise ValueError(f"{text} is not above 0")
    return found


FILE = File(path_type=pathlib.Path, readable=False)
NUMBER = Typed("number", scales.number)
ABOVE_ZERO = Typed("number", above_zero)
CRS = Typed("name", scales.crs)


def option(name: str, text: str, of: Any = None, **more: Any) -> click.Option:
    """An option with a value. Several names of it are apart by blanks, and so is what the function calls it."""
    return click.Option(name.split(), type=of, help=text, **more)


def flag(name: str, text: str) -> click.Option:
    return click.Option(name.split(), is_flag=True, help=text)


def argument(name: str, of: Any = None, **more: Any) -> click.Argument:
    return click.Argument([name], type=of, **more)


def program(name: str) -> click.Option:
    """Where a program is that a subcommand asks."""
    return option("--program", PROGRAM_HELP.format(name), metavar="PATH")


PROGRAM = program(LIVE)


def subcommand(text: str | None, *params: click.Parameter) -> Callable[[Callable[[Words], int]], Command]:
    """Makes a subcommand of a function."""
    return lambda run: Command(None, callback=lambda **given: run(Words(**given)), params=[*params], help=text)


def words_of(command: click.Command, words: Sequence[str]) -> Words:
    """What a subcommand would be given by these words."""
    return Words(**command.make_context(command.name, [*words]).params)
