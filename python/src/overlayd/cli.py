"""The command `overlay`: its subcommands, each of a module of overlayd.commands that is loaded when it is asked for."""

import importlib
import os
import sys
from collections.abc import Sequence
from typing import NoReturn

import click

from . import __version__, ending

PURPOSES = {
    "show": "Make a store of a map, start its front, and print the address.",
    "serve": "Serve a register or a store on the web: OGC API - Features, and a page with a map.",
    "import": "Write a map as a script for a store, in whole numbers.",
    "export": "Write the layers or the features of a store as a map.",
    "which": "Say which layers or features have a point.",
    "rings": "Write the rings of a layer with exact corners, or their areas.",
    "svg": "Draw a layer.",
    "dump": "Write a store as a script that makes its layers again.",
    "pairs": "List which features of two maps overlap or touch, and by how much.",
    "pieces": "Write all pieces of two maps, common ones and those of one map alone.",
    "check": "List where features of one map overlap, and the gaps between them.",
    "derive": "Write what an expression over maps is, as (flood | slide) - parks.",
    "register": "Keep what the features of a land register overlap, and follow each edit.",
    "task": "Do tasks of a --work folder: for xargs, GNU parallel, Slurm.",
}
# Subcommands whose module has another name.
MODULES = {"import": "import_"}


class Commands(click.Group):
    """All subcommands, of which none is loaded to list them."""

    def list_commands(self, context: click.Context) -> list[str]:
        return list(PURPOSES)

    def get_command(self, context: click.Context, name: str) -> click.Command | None:
        """The `command` of the subcommand's module."""
        if name not in PURPOSES:
            return None
        module = importlib.import_module(f"overlayd.commands.{MODULES.get(name, name)}")
        found: click.Command = module.command
        return found

    def format_commands(self, context: click.Context, formatter: click.HelpFormatter) -> None:
        with formatter.section("Subcommands"):
            formatter.write_dl(list(PURPOSES.items()))


@click.group(cls=Commands, subcommand_metavar="SUBCOMMAND ...",
             context_settings={"help_option_names": ["-h", "--help"], "max_content_width": 100})
@click.version_option(__version__)
def group() -> None:
    """Exact overlays of polygon layers, kept in one durable file. `overlay SUBCOMMAND --help` says more of each."""


def run(command: click.Command, words: Sequence[str], name: str = "overlay") -> int:
    """The status of a command that is called with these words. Wrong ones are reported, and it is 2."""
    try:
        with command.make_context(name, list(words)) as context:
            return int(command.invoke(context) or 0)
    except click.exceptions.Exit as ended:
        return ended.exit_code
    except click.ClickException as fault:
        fault.show()
        return fault.exit_code


def main(args: Sequence[str] | None = None) -> NoReturn:
    """Runs the command by the words that it is called with."""
    if "_OVERLAY_COMPLETE" in os.environ:  # a shell asks how words can go on
        group.main(prog_name="overlay")
    words = sys.argv[1:] if args is None else args
    sys.argv[0] = " ".join(["overlay", *(word for word in words[:1] if word in PURPOSES)])  # faults are told of it
    ending.run(lambda _: run(group, words))
