"""Keeps a register current for as long as it runs: a refresh after each change, and an audit of a sample as it goes."""

from __future__ import annotations

import contextlib
import random
import time
from collections.abc import Callable
from dataclasses import dataclass

from ..kernel.running import ProgramEnded
from . import statements
from .answers import Program
from .auditing import Audit, audit
from .engines import Engine
from .model import Refused
from .postgis import faults
from .refreshing import refresh
from .registers import Register, Say, in_silence

SAMPLE_EACH = 600.0  # seconds between two audits of a sample
SAMPLE_PART = 100  # of so many features one is audited
LOST: tuple[type[Exception], ...] = (Refused, ProgramEnded, OSError, *faults())
IDLE = 1.0  # seconds after which it looks again, whatever the database says


@dataclass(frozen=True)
class Watching:
    """How a register is watched: how its database is opened, the program, and what is told."""

    opened: Callable[[], Engine]
    program: Program
    say: Say = in_silence
    sample_each: float = SAMPLE_EACH
    sample_part: int = SAMPLE_PART

    def run(self, goes_on: Callable[[], bool]) -> None:
        """Goes on until it is told not to. The database is held open all the time, so that its journal stays as it is;
        where its file is replaced by another, or the database or the program is lost, or a layer is gone, that is told
        once, and all is begun anew until it is there again."""
        told = ""
        while goes_on():
            try:
                with contextlib.closing(self.opened()) as engine:
                    self._one(engine, goes_on)
            except LOST as fault:
                if str(fault) != told:
                    told = str(fault)
                    self.say(f"not refreshed: {told.strip()}; the changes wait")
                time.sleep(IDLE)

    def _one(self, engine: Engine, goes_on: Callable[[], bool]) -> None:
        """Watches one file."""
        register, seen, looked = Register(engine), object(), 0.0
        sampled = time.monotonic()
        register.need()
        engine.hold()
        while goes_on() and not engine.is_replaced():
            now, token = time.monotonic(), engine.token()
            if token != seen or now - looked > IDLE:
                seen, looked = token, now
                self._refresh(register)
            if now - sampled > self.sample_each:
                sampled = now
                self._sample(register)
            engine.wait(IDLE)

    def _refresh(self, register: Register) -> None:
        """One refresh, if something is pending; where the database is locked, the next look does it."""
        try:
            began = time.process_time()
            count = refresh(register, self.program, self.say)
            if count:
                register.engine.settle()
                self.say(f"{count} changes in {1000 * (time.process_time() - began):.0f} ms, version "
                         f"{register.state().version}")
        except register.engine.busy as fault:
            self.say(f"not refreshed: {fault}; the changes wait")

    def _sample(self, register: Register) -> None:
        """Audits some of the features; what is not right is told, and worked out again."""
        if register.engine.ask(statements.PENDING_OF):
            return
        for one in audit(register, self.program, self.sample_part, random.Random()):
            if not one.is_right():
                self.say(f"AUDIT: {one}: worked out again")
                again(register, one)


def again(register: Register, found: Audit) -> None:
    """Puts the features of rows that are not right into the list of pending changes, as never seen."""
    (kept,) = [one for one in register.kept() if one.name == found.name]
    engine = register.engine
    for name in kept.layers()[:1]:
        layer = register.layer(name)
        if kept.expression is None:
            fids = sorted({row[0] for row in (*found.missing, *found.wrong)})
        else:
            fids = [fid for fid, in engine.ask(f"SELECT id FROM {engine.named(layer.index())}")]
        with engine.writing():
            index = engine.named(layer.index())
            engine.many(f"UPDATE {index} SET digest = ? WHERE id = ?", [(b"", fid) for fid in fids])
            engine.many(statements.ADD_PENDING, [(name, fid) for fid in fids])
