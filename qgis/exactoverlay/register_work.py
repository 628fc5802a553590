"""What the algorithms of registers do, in a process of its own: OGR, where it opens and closes a file, takes away the
locks that sqlite3 has of it in the same process, and QGIS does so at any time.

It reads words in JSON, and writes lines of JSON: what is `said`, how much is `done`, and last what is `found`, or the
`fault`."""

from __future__ import annotations

import json
import sqlite3
import sys
from typing import Any

from .ext.overlayd.api.asking import NoAnswer, refusals_told
from .ext.overlayd.kernel import Ask
from .ext.overlayd.kernel.running import ProgramEnded
from .ext.overlayd.register.answers import Program
from .ext.overlayd.register.beginning import begun, idents_of, opened, standing
from .ext.overlayd.register.filling import keep
from .ext.overlayd.register.model import Kept, Kind, Refused
from .ext.overlayd.register.postgis import faults
from .ext.overlayd.register.refreshing import refresh

FAULTS = (Refused, NoAnswer, ProgramEnded, sqlite3.Error, OSError, ValueError, RuntimeError, *faults())


def tell(what: str, value: object) -> None:
    """Writes a line at once, as another thread tells how much is done."""
    sys.stdout.write(json.dumps({what: value}) + "\n")
    sys.stdout.flush()


def goes_on(part: float) -> bool:
    """Tells how much is done; who cancels ends this process."""
    tell("done", part)
    return True


def found(file: str, program: str, work: str, words: list[Any]) -> object:
    """Does a work with a register, and gives what is asked for."""

    def say(text: str) -> None:
        tell("said", text)

    if work == "begin":
        names, grid, idents, snaps = words
        begun(file, names, grid, idents_of(tuple(idents), names), snaps, say)
    register = opened(file)
    asked = Program(Ask(program, goes_on=goes_on), register.state().factor)
    if work == "keep":
        name, kind, *of = words
        return keep(register, Kept(name, Kind(kind), *of), asked, say)
    return refresh(register, asked, say) if work == "refresh" else "\n".join(standing(register))


def main() -> None:
    try:
        with refusals_told("the register"):
            tell("found", found(*json.load(sys.stdin)))
    except FAULTS as fault:
        tell("fault", str(fault))
