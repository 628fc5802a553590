"""The words that questions over maps have in common, and what is done with them: maps are read, faults reported."""

import collections
import os
import pathlib
import sys
from collections.abc import Callable, Sequence
from dataclasses import dataclass, field
from typing import Any

import click

from .. import ending
from ..api.asking import NotInMetres, need_metres
from ..ending import Unusable
from ..files import coordinate_systems, gdal_files, map_columns, text_columns, writing
from ..files.arrow_reading import ReadingFault
from ..files.map_columns import MapColumn
from ..files.rounding import longer_text
from ..grid_pass.default_grid import Unit
from ..grid_pass.onto_grid import Noding
from ..kernel import Ask, Grid, MapFault, Wants
from ..kernel.colouring import TooManyColours
from ..kernel.laying import Laid, What
from ..kernel.layered import NoAnswer
from ..kernel.rows import BlockRefused
from ..kernel.running import ProgramEnded
from ..maps.asking import AskFault, Doing, Shown
from ..maps.engines import TasksLeft
from ..maps.tasks import stamp
from ..program_files import FEATURES, found_program
from ..store.keeping import is_same
from ..store.opening import is_store
from ..words import ABOVE_ZERO, FILE, Command, Words, flag, option, program, subcommand

NAMED_MAX = 10  # so many features are named where something is reported of them
UNITS = {"degree": Unit.DEGREE, None: Unit.UNKNOWN}
TO_METRES = "ogr2ogr -t_srs EPSG:6933"
PROGRAM = program(FEATURES)


def words(sides: str) -> list[click.Parameter]:
    """The words of a question over maps that are called by these letters."""
    found: list[click.Parameter] = [
        option("--grid", "the grid's unit, as 0.001 for millimetres of a map in metres (default: the coordinates' own "
               "digits, else 1e-8 degrees or 0.001 metres or feet)", ABOVE_ZERO),
        option("--factor", "the same as so many units in one of the maps': 1000 is --grid 0.001", ABOVE_ZERO),
        click.Option(["--bend"], is_flag=True, hidden=True),  # long edges are bent without it, too
        flag("--square-metres", "refuses maps whose areas would be in another unit (2)"),
        flag("--node", "takes corners into borders that they lie on, also where nothing is rounded")]
    for side in sides:
        up = side.upper()
        found += [
            option(f"--{side}-id", f"what calls the features of {up} (default: their numbers in the file, from 1 in "
                   "GeoJSON, else as GDAL and QGIS count: from 0 in a Shapefile, FlatGeobuf or GML)",
                   metavar="PROPERTY"),
            option(f"--{side}-layer", f"the layer of {up}, where its file has several", metavar="NAME"),
            option(f"--{side}-where" + (" --where" if side == "a" else ""), f"which features of {up} are taken, as "
                   "OGR's SQL says it: \"kind = 'meadow'\"", metavar="CONDITION")]
    return [
        *found,
        option("--processes --jobs", "programs at once (default: one for each processor); 0: tasks are only written",
               click.IntRange(0, 9999), default=lambda: os.cpu_count() or 1, metavar="N"),
        option("--dask", "workers of Dask: of the scheduler there, or of this machine where none is named",
               is_flag=False, flag_value="", metavar="ADDRESS"),
        option("--work", "keeps tasks and results there; the same call goes on with them", FILE, metavar="FOLDER"),
        option("--at-once", "pairs of features in one block (default: 20000)", click.IntRange(1), default=20_000,
               metavar="N"),
        PROGRAM]


def table_words() -> list[click.Parameter]:
    """The words of a table of pairs."""
    return [
        option("--out", "the table: .csv, .npy (numbers of features alone) or .gpkg (default: standard output)", FILE,
               metavar="FILE"),
        flag("--exact", "a column with the area as a fraction more"),
        flag("--width", "a column with the width more: area by perimeter, about half of a strip's width"),
        flag("--outlines", "what two features have, as shapes of a .gpkg")]


@dataclass
class Question:
    """A question as its words ask it: its name, all words, and what is not answered."""

    name: str
    words: dict[str, Any]
    status: int = 0
    shown: Shown | None = None
    maps: list[MapColumn] = field(default_factory=list)

    def say(self, text: str) -> None:
        """A line on standard error."""
        print(text, file=sys.stderr)

    def read(self, paths: Sequence[str], sides: Sequence[str]) -> list[MapColumn]:
        """The maps, of one system of coordinates."""
        self.maps = [read(path, *(self.words[f"{side}_{name}"] for name in ("id", "layer", "where")))
                     for path, side in zip(paths, sides)]
        for one, side in zip(self.maps, sides):
            self.tell_map(one, self.words[f"{side}_id"])
        check_systems(self.maps)
        unit = coordinate_systems.unit_of(self.system())
        if self.words["square_metres"]:
            need_metres(unit, TO_METRES)
        if unit:
            several = unit.replace("foot", "feet") if "foot" in unit else f"{unit}s"
            self.say(f"areas are in square {several}, widths in {several}")
            if unit == "degree":
                self.say(f"for square metres bring the map to a system in metres first, as by {TO_METRES}")
        return self.maps

    def tell_map(self, read_map: MapColumn, name_by: str | None) -> None:
        """What reading did to it."""
        path = read_map.path
        if not len(read_map):
            left_out = f"; left out, {len(read_map.left_out)}: {some(read_map.left_out)}" if read_map.left_out else ""
            raise ReadingFault(f"{path}: no polygon in it{left_out}")
        self.say(f"{path}: {len(read_map)} features{longer_text(read_map.longer)}")
        if read_map.left_out:
            self.say(f"left out, {len(read_map.left_out)}: {some(read_map.left_out)}")
        if read_map.system is None and form_of(path):
            self.say(f"{path}: its coordinate system is unknown, as the file does not say it")
        names = read_map.names.tolist() if name_by is not None else []
        counts = collections.Counter(names if len({*names}) < len(names) else [])
        if alike := [f"{name} ({count} times)" for name, count in counts.items() if count > 1]:
            self.say(f"{path}: the same {name_by} several times, {len(alike)}: {some(alike)}")

    def system(self) -> str | None:
        """What the system of the maps is called."""
        return next(iter(coordinate_systems.distinct(one.system for one in self.maps)), None)

    def ask(self, wants: Wants) -> Ask:
        """How the kernel is to ask."""
        given = self.words
        if given["grid"] is not None and given["factor"] is not None:
            raise click.UsageError("--grid and --factor say the same; leave one of them out")
        factor = given["factor"] if given["grid"] is None else 1 / given["grid"]
        unit = UNITS.get(coordinate_systems.unit_of(self.system()), Unit.LENGTH)
        self.shown = Shown(self.name, self.say)
        asked = {"question": self.name, "maps": [stamp(one.path) for one in self.maps], "wants": int(wants),
                 **{name: None if given.get(name) is None else str(given[name]) for name in sorted(given)
                    if name not in ELSEWHERE}}
        doing = Doing(self.name, asked, self.say, given["processes"], given["dask"], given["work"])
        grid = Grid(factor, unit, Noding.ASKED if given["node"] else Noding.WHERE_MOVED)
        program = program_of(given)
        return Ask(program, wants, grid, self.shown, given["at_once"], doing.runs)

    def tell_grid(self, laid: Laid) -> None:
        """The one line of what the grid did, and which features have nothing left."""
        self.say(laid.line)
        for one, gone in zip(self.maps, laid.collapsed):
            if len(gone):
                self.say(f"nothing is left on the grid of {len(gone)}: {some([*map(one.label, gone.tolist())])}")

    def tell_unanswered(self, lines: Sequence[str]) -> None:
        """Of what there is no answer; the status is 1 where there is any."""
        for line in lines[:NAMED_MAX]:
            self.say(line)
        if len(lines) > NAMED_MAX:
            self.say(f"and {len(lines) - NAMED_MAX} more that are left out so")
        self.status = max(self.status, int(bool(lines)))

    def refused(self, text: str, status: int) -> int:
        """Says why it ends with a status."""
        self.say(text)
        return status

    def end(self) -> None:
        """Progress is no longer shown."""
        if self.shown is not None:
            self.shown.end()


# Words that no task knows of.
ELSEWHERE = ("processes", "dask", "work", "program", "out", "exact", "width", "outlines", "pieces", "gaps", "a_id",
             "b_id", "square_metres",
             "first", "second", "names", "no_audit", "bend")
FAULTS = {78: "a border near it is too long for one pass", 79: "too many borders in one place",
          80: "an area that 128 bits do not hold", 82: "a ring that is not closed, or of fewer than three corners"}


def why(fault: int) -> str:
    """Why the program has no answer, and what would do."""
    return f"{FAULTS.get(fault, f'fault {fault} of the program')}; say a coarser --grid, or mend it there"


def read(path: str, name_by: str | None, layer: str | None, where: str | None) -> MapColumn:
    """A map: GeoJSON and Well-Known Text as texts, all else by GDAL, and GeoJSON too where features are chosen."""
    if form_of(path) or where is not None:
        return map_columns.read(path, name_by, layer, where)
    if layer is not None:
        raise ReadingFault(f"{path}: GeoJSON and Well-Known Text have no layers; leave layer {layer} out")
    return text_columns.read(path, name_by)


def form_of(path: str) -> str | None:
    """What GDAL is to read, by its content; None of GeoJSON and Well-Known Text."""
    if not path:
        raise ReadingFault("a map is named by a word without a letter; say a file")
    try:
        return gdal_files.form_of(pathlib.Path(path), gdal_files.begin_of(pathlib.Path(path)))
    except (OSError, gdal_files.GdalFault) as fault:
        raise ReadingFault(ending.fault_text(path, fault)) from fault


def check_systems(maps: Sequence[MapColumn]) -> None:
    """Refuses maps that name different systems of coordinates."""
    first = maps[0]
    for other in maps[1:]:
        if len(coordinate_systems.distinct((first.system, other.system))) > 1:
            names = [coordinate_systems.shown(one.system) for one in (first, other)]
            raise ReadingFault(f"{first.path} has coordinates of {names[0]}, {other.path} of {names[1]}: bring one to "
                               "those of the other, as by ogr2ogr -t_srs")


def some(names: Sequence[str]) -> str:
    """The first names, and how many more there are."""
    more = f"; and {len(names) - NAMED_MAX} more" if len(names) > NAMED_MAX else ""
    return "; ".join(names[:NAMED_MAX]) + more


def map_fault_text(fault: MapFault, maps: Sequence[MapColumn]) -> str:
    """A map that is not taken: its file, its feature, and what to do."""
    label = maps[fault.map].label(fault.feature)
    if fault.what is not What.RANGE:
        return f"{label}: {fault.why}; mend it there"
    grid = "mend it there" if fault.grid is None else f"say --grid {float(fault.grid):g}, or mend it there"
    return f"{label}: {fault.why}; {grid}"


def check_outputs(outputs: dict[str, pathlib.Path | None], maps: Sequence[str]) -> None:
    """Refuses files that cannot be written, or that would take the place of a map, a store or one another, before there
    is anything to write."""
    taken = {f"the map {path}": pathlib.Path(path) for path in maps if path}
    for name, path in outputs.items():
        if path is None:
            continue
        try:
            reason = not_writable(path) or next((f"this is {other}; take another name" for other, one in taken.items()
                                                 if is_one(path, one)), None)
        except OSError as fault:
            raise ReadingFault(ending.fault_text(f"{name} {path}", fault)) from fault
        if reason:
            raise ReadingFault(f"{name} {path}: {reason}")
        taken[f"{name} too"] = path


def not_writable(path: pathlib.Path) -> str | None:
    """Why a file cannot be written, or should not be."""
    if path.is_dir():
        return "a folder; say a file in it"
    if is_store(path):
        return "a store of layers; take another name"
    if path.exists() and not path.is_file():
        return None  # a pipe, or a device
    if reason := writing.in_hand(path):
        return reason
    folder = path.resolve().parent
    if not folder.is_dir():
        return f"{folder} is no folder" if folder.exists() else f"no folder {folder}"
    return None if os.access(folder, os.W_OK | os.X_OK) else f"nothing can be written in {folder}"


def is_one(path: pathlib.Path, other: pathlib.Path) -> bool:
    """Whether two names are of one file, which need not be there yet. All may write to one pipe or device."""
    if path.exists() and not path.is_file():
        return False
    return is_same(path, other)


def program_of(given: dict[str, Any]) -> str:
    """The program that is asked."""
    return os.path.abspath(given["program"] or found_program(FEATURES))


Asked = Callable[[Question], None]


def status_of(question: Question, asked: Asked) -> int:
    """Asks: 0 where all is answered, 1 where something is not or cannot be written, 2 where a word or a map is refused,
    and nothing is written."""
    try:
        asked(question)
    except TasksLeft as left:
        question.say(str(left))
    except (ReadingFault, AskFault, NotInMetres) as fault:
        return question.refused(str(fault), 2)
    except MapFault as fault:
        return question.refused(map_fault_text(fault, question.maps), 2)
    except (Unusable, BlockRefused, ProgramEnded, NoAnswer, TooManyColours) as fault:
        return question.refused(str(fault), 1)
    except OSError as fault:
        if isinstance(fault, BrokenPipeError) or fault.filename is None:
            raise
        return question.refused(ending.fault_text(fault.filename, fault), 1)
    finally:
        question.end()
    return question.status


def question(name: str, *params: click.Parameter) -> Callable[[Asked], Command]:
    """A question as the subcommand of a name, with these words; the text of what asks it is its help."""

    def made(asked: Asked) -> Command:
        def ask(given: Words) -> int:
            return status_of(Question(name, vars(given)), asked)

        return subcommand(asked.__doc__, *params)(ask)

    return made
