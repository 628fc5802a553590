"""A register as the threads of the front have it: each its own connection, all one process of the program."""

from __future__ import annotations

import contextlib
import threading
from collections.abc import Iterator

from ..kernel import Ask
from ..register.answers import Program
from ..register.beginning import engine_of
from ..register.engines import Engine
from ..register.lasting import lasting
from ..register.postgis import faults
from ..register.registers import Register
from .views import Busy

PATIENCE = 20.0  # seconds for which a change waits for others
FAULTS: tuple[type[Exception], ...] = faults()


class Lost(Exception):
    """A database that does not answer, and why."""


class OpenedRegisters:
    """A register by its name, and the program that is asked about it."""

    def __init__(self, name: str, program: str) -> None:
        self.name, self._local, self._turn = name, threading.local(), threading.Lock()
        with self.reading() as register:
            self.program = lasting(Program(Ask(program), register.need().factor))

    @contextlib.contextmanager
    def reading(self) -> Iterator[Register]:
        """The register, of one state as far as the thread asks."""
        with self._opened(False) as register, register.engine.reading():
            yield register

    @contextlib.contextmanager
    def changing(self) -> Iterator[tuple[Register, Program]]:
        """The register for a change, of which one is made at a time, and the program."""
        if not self._turn.acquire(timeout=PATIENCE):
            raise Busy("other changes have taken too long: ask again")
        try:
            with self._opened(True) as register:
                yield register, self.program
        finally:
            self._turn.release()

    @contextlib.contextmanager
    def _opened(self, writes: bool) -> Iterator[Register]:
        """This thread's connection, begun anew where another file has the name or the database has been lost."""
        known: dict[bool, Engine] = self._local.__dict__.setdefault("engines", {})
        engine = known.pop(writes, None)
        try:
            if engine is not None and engine.is_replaced():
                engine.close()
                engine = None
            engine = engine or engine_of(self.name, writes, PATIENCE)
            yield Register(engine)
        except FAULTS as fault:
            if engine is not None:
                with contextlib.suppress(*FAULTS):
                    engine.close()
            raise Lost(str(fault).strip()) from fault
        except BaseException:
            if engine is not None:
                known[writes] = engine
            raise
        known[writes] = engine
