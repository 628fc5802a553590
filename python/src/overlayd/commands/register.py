"""Keeps what the features of a land register overlap: a GeoPackage whose layers are edited as ever, by any program, and
in it tables of pairs, overlaps and derived areas that follow each edit.
"""

from __future__ import annotations

import functools
import signal
import tempfile
from fractions import Fraction
from pathlib import Path

import click

from ..ending import Unusable
from ..files.gdal_writing import modules
from ..kernel import Ask
from ..program_files import FEATURES, LIVE, PROGRAM_HELP, found_program
from ..register import sources
from ..register.answers import Program
from ..register.auditing import audit as audited
from ..register.beginning import begun, engine_of, idents_of, opened, standing
from ..register.filling import keep as begin_to_keep
from ..register.lasting import lasting
from ..register.model import Kept, Kind, Must, Refused, factor_of
from ..register.package import GeoPackage
from ..register.past import Past, moment, purge as purged
from ..register.postgis import PREFIX, PostGis, faults
from ..register.postgis_texts import RIGHTS
from ..register.refreshing import refresh as refreshed
from ..register.registers import Register
from ..register.ruling import accept as accepted, add_rule, drop_rule
from ..register.watching import Watching
from ..words import FILE as STORE, Group, argument, flag, option, program
from .store_sources import files_of, grid_of

FILE = argument("file", metavar="FILE")
PROGRAM = program(FEATURES)
GRID = option("--grid", "the grid, as 0.001 (default: by the layers' own digits)", metavar="UNIT")
IDENT = option("--id idents", "what users call features: it stands in results beside the key", multiple=True,
               metavar="[LAYER=]COLUMN")


def say(text: str) -> None:
    """Tells something on standard error."""
    click.echo(text, err=True)


class Reporting(Group):
    """The subcommands of a register, which end with status 2 where something is refused, and 1 where it cannot be
    done."""

    def invoke(self, context: click.Context) -> int:
        modules()
        ends: tuple[type[Exception], ...] = (Unusable, *faults())
        try:
            return int(super().invoke(context) or 0)
        except Refused as fault:
            say(f"overlay register: {fault}")
            return 2
        except ends as fault:
            say(f"overlay register: {str(fault).strip()}")
            return 1


@click.group("register", cls=Reporting)
def command() -> None:
    """Keeps what the features of a GeoPackage overlap, and follows each edit of any program.

    FILE is a GeoPackage, or a database of PostGIS as GDAL names it: PG:service=land, or "PG:dbname=land host=db". A
    password is not taken here: PGPASSFILE or the service file names it.

    Layers stay ordinary layers, which QGIS, ogr2ogr and SQL edit. Tables of results (overlay_result_NAME) stand beside
    them in the same file: pairs of two layers with relation and common area, overlaps within one layer, areas of an
    expression over layers. `refresh` brings them up to date once, `watch` for as long as it runs; only what is near a
    change is worked out again.
    """


def program_asked(path: str | None, factor: Fraction) -> Program:
    """How the program is asked."""
    return Program(Ask(path or found_program(FEATURES)), factor)


def ready(file: str, program: str | None) -> tuple[Register, Program]:
    """A register and its program."""
    register = opened(file)
    return register, program_asked(program, register.state().factor)


@command.command(params=[
    FILE, argument("files", metavar="SOURCE...", nargs=-1), GRID, IDENT,
    option("--from-store store", "the layers of a store, and its features", STORE, metavar="STORE"),
    option("--live", PROGRAM_HELP.format(LIVE), metavar="PATH")])
def init(file: str, files: tuple[str, ...], grid: str | None, idents: tuple[str, ...], store: Path | None,
         live: str | None) -> None:
    """Makes a GeoPackage of maps in other files, and a register in it."""
    if file.startswith(PREFIX):
        raise Refused("layers come into PostGIS by ogr2ogr or shp2pgsql; then `overlay register adopt` takes them")
    if Path(file).exists():
        raise Refused(f"{file} is there already: `overlay register adopt` makes a register in it")
    if grid:
        factor_of(grid)
    if not files and store is None:
        raise Refused("of which maps is it to be made? Name files, or --from-store")
    names = [name for source in files for name in sources.copy(source, file)]
    if store is not None:
        with tempfile.TemporaryDirectory() as folder:
            for called, source in files_of(store, Path(folder), live).items():
                names += sources.copy(str(source), file, called=called)
        grid = grid or grid_of(store)
    begun(file, names, grid, idents_of(idents, names), True, say)


@command.command(params=[
    FILE, argument("source"), IDENT,
    option("--layer layers", "of several layers in the source these alone", metavar="NAME", multiple=True)])
def add(file: str, source: str, layers: tuple[str, ...], idents: tuple[str, ...]) -> None:
    """Copies layers of another file into a register."""
    if file.startswith(PREFIX):
        raise Refused("layers come into PostGIS by ogr2ogr or shp2pgsql; then `overlay register adopt` takes them")
    opened(file).engine.close()  # GDAL that opens a file as well takes SQLite's locks away from this process
    names = sources.copy(source, file, [*layers] or None)
    begun(file, names, None, idents_of(idents, names), True, say)


@command.command(params=[
    FILE, argument("layers", metavar="LAYER...", nargs=-1, required=True), GRID, IDENT,
    flag("--snap snaps", "bring their shapes onto the grid, all in one pass")])
def adopt(file: str, layers: tuple[str, ...], grid: str | None, idents: tuple[str, ...], snaps: bool) -> None:
    """Takes layers that are in the file into its register, which is made where none is there. Their shapes are not
    changed, but by --snap."""
    begun(file, [*layers], grid, idents_of(idents, [*layers]), snaps, say)


@command.command(params=[FILE, argument("layer")])
def remove(file: str, layer: str) -> None:
    """Takes a layer out of the register, with its triggers and its index; the layer itself stays."""
    opened(file).remove(layer)


@command.group()
def keep() -> None:
    """Keeps a table of results, overlay_result_NAME."""


def kept(file: str, program: str | None, one: Kept) -> None:
    """Begins to keep a table."""
    register, own = ready(file, program)
    click.echo(f"{one.table()}: {begin_to_keep(register, one, own, say)} rows")


@keep.command(params=[FILE, argument("name"), argument("a", metavar="LAYER"), argument("b", metavar="OTHER"), PROGRAM])
def pairs(file: str, name: str, a: str, b: str, program: str | None) -> None:
    """Which features of two layers touch or overlap, how, and by how much."""
    kept(file, program, Kept(name, Kind.PAIRS, a, b))


@keep.command(params=[FILE, argument("name"), argument("layer"), PROGRAM])
def check(file: str, name: str, layer: str, program: str | None) -> None:
    """Which features of one layer overlap, and by how much."""
    kept(file, program, Kept(name, Kind.CHECK, layer, layer))


@keep.command(params=[
    FILE, argument("name"), argument("expression"), PROGRAM,
    option("--cell", "how many units of the grid a cell is wide (default: about a mean feature)", int, metavar="UNITS",
           default=0)])
def derive(file: str, name: str, expression: str, cell: int, program: str | None) -> None:
    """The area of an expression over layers, cell by cell: '(flood | slide) - parks'. A gap is what a district has and
    no parcel: 'district - parcels'."""
    kept(file, program, Kept(name, Kind.DERIVE, expression=expression, cell=cell))


@command.command(params=[FILE, argument("name")])
def unkeep(file: str, name: str) -> None:
    """Keeps a table of results no longer."""
    opened(file).unkeep(name)


@command.command(params=[
    FILE, argument("layer"), argument("must", click.Choice([one.value for one in Must]), metavar="RULE"),
    argument("other", required=False),
    option("--least", "violations that are no wider are listed, and refuse no change (default: one unit of the grid)",
           float, metavar="WIDTH"),
    option("--reach", "a gap is no wider and no higher (default: 8 mean features)", float, metavar="WIDTH"), PROGRAM])
def rule(file: str, layer: str, must: str, other: str | None, least: float | None, reach: float | None,
         program: str | None) -> None:
    """Adds a rule to a layer: "must not overlap", "must not overlap with" OTHER, "must not have gaps", or "must be
    covered by" OTHER. What breaks it is in the table overlay_violation from then on, and a change through the front
    that would break it is refused."""
    register, own = ready(file, program)
    units = None if reach is None else round(reach * float(register.state().factor))
    made = add_rule(register, Must(must), layer, other, lasting(own), least, units, say)
    click.echo(f"rule {made.number}: {made}")


@command.command(params=[FILE, argument("number", int)])
def unrule(file: str, number: int) -> None:
    """Takes the rule of a number away, and its violations."""
    drop_rule(opened(file), number)


@command.command(params=[
    FILE, argument("number", int), option("--who", "who accepts it", required=True),
    option("--why", "the reason", required=True)])
def accept(file: str, number: int, who: str, why: str) -> None:
    """Accepts the violation of a number, with who and why; it stays listed."""
    accepted(opened(file), number, who, why)


@command.command(params=[FILE, PROGRAM])
def refresh(file: str, program: str | None) -> None:
    """Brings all tables of results up to date, once."""
    register, own = ready(file, program)
    count = refreshed(register, lasting(own), say)
    click.echo(f"{count} changes, version {register.state().version}")


@command.command(params=[FILE, PROGRAM])
def watch(file: str, program: str | None) -> None:
    """Keeps all tables of results up to date, until it is stopped (Ctrl+C, or a signal to end)."""
    register, own = ready(file, program)
    register.engine.close()
    own = lasting(own)
    stopped: list[int] = []
    for number in (signal.SIGINT, signal.SIGTERM):
        signal.signal(number, lambda own, _: stopped.append(own))
    Watching(functools.partial(engine_of, file), own, say).run(lambda: not stopped)


@command.command(params=[FILE])
def status(file: str) -> None:
    """Says of which state results are, what is pending, and what is wrong with features."""
    click.echo("\n".join(standing(opened(file))))


@command.command(params=[
    FILE, PROGRAM, option("--part", "only one of N features", click.IntRange(1), metavar="N", default=1)])
@click.pass_context
def audit(context: click.Context, file: str, part: int, program: str | None) -> None:
    """Works all results out anew and compares. Status 1: a table is not what it should be."""
    register, own = ready(file, program)
    found = audited(register, own, part)
    for one in found:
        click.echo(str(one))
    if found and found[0].pending:
        say(f"{found[0].pending} changes are pending: `overlay register refresh` first")
    context.exit(0 if all(one.is_right() for one in found) else 1)


@command.command(params=[
    FILE, argument("date"), argument("target"), argument("layers", metavar="[LAYER...]", nargs=-1)])
def past(file: str, date: str, target: str, layers: tuple[str, ...]) -> None:
    """Writes layers as they were at a time (2026-12-01, or 2026-12-01T10:00:00+01:00) into a new GeoPackage."""
    if Path(target).exists():
        raise Refused(f"{target} is there already")
    register = opened(file)
    names = [*(layers or register.layers())]
    for name in names:
        Past(register.engine, register.layer(name), moment(date))  # or refused
    register.engine.close()  # as GDAL opens the file
    for name in names:
        sources.copy(file, target, [name], is_empty=True)
    register = opened(file)
    with register.engine.reading():
        for name in names:
            items = Past(register.engine, register.layer(name), moment(date)).all()
            click.echo(f"{name}: {sources.write(target, name, items)} features")


@command.command("delete-column", params=[FILE, argument("layer"), argument("column")])
def delete_column(file: str, layer: str, column: str) -> None:
    """Deletes a column of a layer; what it had in former states goes on to be in the log."""
    opened(file).delete_column(layer, column)


@command.command(params=[FILE, argument("date")])
def purge(file: str, date: str) -> None:
    """Takes away what the log has from before a time: neither the state as of it nor undo goes back there."""
    click.echo(f"{purged(opened(file), moment(date))} rows")


@command.command(params=[FILE, argument("target")])
def backup(file: str, target: str) -> None:
    """Copies a GeoPackage as it is now into another file, while others edit it."""
    register = opened(file)
    if not isinstance(register.engine, GeoPackage):
        raise Refused(f"pg_dump -Fc -f {target} copies a database: layers and register are one state in it")
    register.engine.backup(target)


@command.command(params=[FILE, argument("role"), argument("what", click.Choice([*RIGHTS]))])
def grant(file: str, role: str, what: str) -> None:
    """Gives a role of a database of PostGIS what a reader, an editor or a refresher needs, of the layers that there
    are: again after `adopt`."""
    register = opened(file)
    if not isinstance(register.engine, PostGis):
        raise Refused("whose a file is, its system says: roles are for PostGIS")
    register.engine.grant(role, what, register.layers().values())


@command.command(params=[FILE])
def upgrade(file: str) -> None:
    """Brings the tables of an earlier version of this command over."""
    register = Register(engine_of(file))
    click.echo("brought over" if register.upgrade() else "the tables are of this version")
