"""Begins a register in a database, and says how one stands: for the command, and for the plugin of QGIS."""

from fractions import Fraction

from . import statements
from .engines import Engine, filled
from .gridding import grid_for
from .model import Layer, Refused, Rule, factor_of
from .package import PATIENCE, GeoPackage
from .postgis import PREFIX, PostGis
from .registers import Register, Say
from .snapping import snap
from .violation_rows import listed

SHOWN = 10  # violations of a rule


def engine_of(file: str, writes_layers: bool = False, patience: float = PATIENCE) -> Engine:
    """The database that is named: a GeoPackage, or PostGIS by the words of libpq after PG:."""
    if file.startswith(PREFIX):
        return PostGis(file)
    return GeoPackage(file, writes_layers, patience)


def opened(file: str) -> Register:
    """The register of a file."""
    register = Register(engine_of(file))
    register.need()
    return register


def begun(file: str, names: list[str], grid: str | None, idents: dict[str, str], snaps: bool, say: Say) -> None:
    """Makes a register where none is there, and takes layers in, on its grid where that is wanted."""
    register = Register(engine_of(file))
    if not register.engine.is_register():
        factor = factor_of(grid) if grid else grid_for(register.engine, names)
        register.begin(factor)
        say(f"the grid is {float(1 / factor):g}")
    elif grid and factor_of(grid) != register.need().factor:
        raise Refused(f"the register has a grid of {float(1 / register.need().factor):g} already")
    for name in names:
        register.engine.layer(name, idents.get(name))
    if snaps:
        snapped_onto(file, names, register.need().factor, say)
    for name in names:
        register.adopt(name, idents.get(name))
        layer = register.layer(name)
        ((count,),) = register.engine.ask(filled(register.engine, statements.FEATURES, layer=layer))
        say(f"{name}: {count} features{others(register.engine, layer)}")


def others(engine: Engine, layer: Layer) -> str:
    """Names triggers that somebody else has made: they may change what the register does not look at."""
    found = engine.others(layer)
    return f"; it has other triggers: {', '.join(found)}" if found else ""


def snapped_onto(file: str, names: list[str], factor: Fraction, say: Say) -> None:
    """Takes layers onto a grid."""
    engine = engine_of(file, writes_layers=True)
    for name, count in snap(engine, [engine.layer(name, None) for name in names], factor).items():
        if count:
            say(f"{name}: {count} features are on the grid now, corners on borders of others taken into these")
    engine.close()


def idents_of(words: tuple[str, ...], names: list[str]) -> dict[str, str]:
    """What calls the features of layers: LAYER=COLUMN, or COLUMN for all."""
    found: dict[str, str] = {}
    for word in words:
        name, is_of_one, column = word.rpartition("=")
        if is_of_one and name not in names:
            raise Refused(f"--id {word}: no layer {name} among {', '.join(names)}")
        found |= {name: column} if is_of_one else dict.fromkeys(names, column)
    return found


def standing(register: Register) -> list[str]:
    """Lines of which state results are, what is pending, and what is wrong with features."""
    state, engine = register.state(), register.engine
    found = [f"grid {float(1 / state.factor):g}, version {state.version}" + (f" of {state.at}" if state.at else "")]
    pending = {name: count for name, count in engine.ask(statements.PENDING_OF)}
    for layer in register.layers().values():
        armed = "" if engine.is_armed(layer) else "; its triggers are not as they were made: refresh makes them again"
        found.append(f"layer {layer.name}: {pending.get(layer.name, 0)} changes pending{armed}{others(engine, layer)}")
    for one in register.kept():
        rows, unanswered = register.count(one)
        of = one.expression or " ".join(one.layers())
        found.append(f"{one.table()}: {one.kind.value} {of}, {rows} rows"
                     + (f", {unanswered} without an answer" if unanswered else ""))
    found += [line for rule in register.rules() for line in ruled(register, rule)]
    return found + [f"problem: {count} features: {what}" for what, count in engine.ask(statements.PROBLEMS_OF)]


def ruled(register: Register, rule: Rule) -> list[str]:
    """Lines of how a rule stands, with the largest violations that nobody has accepted."""
    found = listed(register.engine, " WHERE rule = ?", rule.number)
    left = [one for one in found if one.accepted is None and one.violation.is_wider(rule.least)]
    line = (f"rule {rule.number}: {rule}: {len(left)} violations wider than {rule.least:g}, "
            f"{sum(one.accepted is not None for one in found)} accepted, {len(found)} in all")
    largest = sorted(left, key=lambda one: -(one.violation.area or 0))[:SHOWN]
    return [line, *(f"  violation {one.number}: {one.violation}" for one in largest)]
