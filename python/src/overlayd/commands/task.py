"""Does tasks of a --work folder: for xargs, GNU parallel, Slurm."""

import pathlib

from ..maps import asking
from ..words import FILE, argument
from . import map_words
from .map_words import PROGRAM, Question, program_of


@map_words.question("task", argument("folder", FILE, metavar="FOLDER"),
                    argument("numbers", int, nargs=-1, required=True, metavar="N.."), PROGRAM)
def command(question: Question) -> None:
    """Do tasks of a --work folder: for xargs, GNU parallel, Slurm.

        overlay pairs a.gpkg b.gpkg --grid 0.001 --work W --processes 0
        seq 0 89 | xargs -P 8 -n 4 overlay task W/1
        overlay pairs a.gpkg b.gpkg --grid 0.001 --work W

    FOLDER is that of a stage within --work; tasks have numbers from 0."""
    given = question.words
    folder: pathlib.Path = given["folder"]
    asking.do_tasks(program_of(given), folder, given["numbers"])
