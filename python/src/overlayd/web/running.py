"""Runs a front as the words of its command say: what it opens, what ends it, and with which status."""

import contextlib
import os
import shutil
import signal
import subprocess
import sys
import threading
import time
from collections.abc import Iterable, Iterator
from pathlib import Path

from .. import ending as endings
from ..ending import Unusable
from ..grid import scale as scales
from ..program import MOST_SESSIONS, Ended, Refused, Server
from ..program_files import FEATURES, OVERLAY, found_program
from ..register.model import Refused as RegisterRefused
from ..words import Words
from .by_waitress import serve
from .front import of_register, of_store
from .layer_store import LayerStore, number_in_file
from .map_scale import MapScale
from .opened_registers import Lost, OpenedRegisters
from .register_api import RegisterApi, scale_of as scale_of_register
from .rescue import Rescue
from .serving import Unheard
from .systems import Systems, Unprojected, by_pyproj
from .usual import LEAFLET, LOOPBACK

WITH_PARENT = ("setpriv", "--pdeathsig", "TERM")
"""Has the system end a process as soon as the one that has begun it is gone, even by a kill. No Python may run in a
copy of a process with threads: another thread may have held a lock when it was made."""
ENDING = 10.0  # seconds in which a refresh under way may come to its end
AGAIN = 5.0  # seconds after which one that has ended is begun anew
PATIENCE = 300.0
"""How many seconds a session waits for a reply before it is late."""


def scale_of(words: Words) -> MapScale:
    """The scale of the words, or of the sidecar, or that of whole numbers."""
    beside = scales.beside(words.store) if words.store else None
    path = words.scale or (beside if beside and beside.is_file() else None)
    return MapScale(scales.read(path) if path else scales.Scale())


def systems_of(scale: MapScale, as_stored: bool) -> Systems:
    """The systems that a store is served in: a projected one as CRS84 too."""
    projected = scale.crs is not None and not scale.is_geographic() and not as_stored
    return Systems(scale, by_pyproj(str(scale.crs)) if projected else None)


class Ending:
    """Why the front ends where no signal ends it: the first reason counts, and telling it ends the front."""

    def __init__(self) -> None:
        self.reason: str | None = None

    def end(self, reason: str) -> None:
        self.reason = self.reason or reason
        os.kill(os.getpid(), signal.SIGTERM)

    def on_signal(self, *_: object) -> None:
        """Ends what the main thread does. Where Python drops that, as amid a clearing up, it is done again."""
        signal.setitimer(signal.ITIMER_REAL, 1)
        sys.exit(0 if self.reason is None else 1)


@contextlib.contextmanager
def opened(words: Words, ending: Ending) -> Iterator[tuple[Server, LayerStore]]:
    """The running process over the store, and its layers; where one of them is lost the front ends."""
    scale, reads = scale_of(words), not words.writable
    with contextlib.ExitStack() as open_ones:
        server = open_ones.enter_context(
            Server(words.store, create=words.create, read_only=reads, sessions=MOST_SESSIONS, workers=words.workers,
                   program=words.program, timeout=PATIENCE)
        )
        version = 0
        if reads:
            version = number_in_file(words.store, words.program)
        elif words.store:
            with server.session(slow=True) as one:
                version = one.sync()
        rescue = Rescue(words.store, words.program, ending.end) if words.store and not reads else None
        store = LayerStore(server, found_program(FEATURES), scale, version=version, kept=bool(words.store),
                           writable=words.writable, rescue=rescue, end=ending.end)
        open_ones.callback(store.close)
        for watch in (watch_server, watch_sessions):
            threading.Thread(target=watch, args=(server, store, ending), daemon=True).start()
        yield server, store


def watch_server(server: Server, _: LayerStore, ending: Ending) -> None:
    """Ends the front where overlay_live has ended, so that who keeps it running starts both anew."""
    ending.end(f"overlay_live has ended with status {server.process.wait()}")


def watch_sessions(_: Server, store: LayerStore, ending: Ending) -> None:
    """Ends the front where it could answer no question of a kind, or make no change, ever again."""
    while not store.has_lost_all():
        time.sleep(1)
    ending.end(f"overlay_live does not answer: {', '.join(store.lost())}")


def run(words: Words, hosts: set[str]) -> int:
    """Serves what the words of the command say, under the names of hosts, and gives the status at its end."""
    if words.register:
        return run_register(words.register, words.program, hosts, words.writable, words.who, words.as_stored,
                            words.host, words.port, words.base, words.leaflet)
    return run_store(words, hosts)


def run_register(register: str, program: str | None = None, hosts: Iterable[str] = LOOPBACK, writable: bool = False,
                 who: str | None = None, as_stored: bool = False, host: str = "127.0.0.1", port: int = 8080,
                 base: str | None = None, leaflet: Path = LEAFLET) -> int:
    """Serves a register with its page until a signal comes, and gives the status; its tables another process keeps
    current. The address is a line of standard output."""
    try:
        registers = OpenedRegisters(register, program or found_program(FEATURES))
        scale = scale_of_register(registers)
        pages = RegisterApi(registers, systems_of(scale, as_stored), writable, who)
        with contextlib.suppress(SystemExit, KeyboardInterrupt), refreshing(register, program):
            signal.signal(signal.SIGTERM, lambda *_: sys.exit(0))
            serve(of_register(pages, hosts, base, leaflet), host, port)
    except (Unheard, Unusable, Unprojected, RegisterRefused, Lost) as fault:
        print(f"{register}: {fault}", file=sys.stderr)
        return 1
    return 0


@contextlib.contextmanager
def refreshing(register: str, program: str | None) -> Iterator[None]:
    """A process that keeps a register current: begun anew where it ends, and ended with this one."""
    words = [*OVERLAY, "register", "watch", register, *(["--program", program] if program else [])]
    words = [*(WITH_PARENT if shutil.which(WITH_PARENT[0]) else ()), *words]
    ends, running = threading.Event(), list[subprocess.Popen[bytes]]()

    def keep() -> None:
        while not ends.is_set():
            running[:] = [subprocess.Popen(words, stdout=subprocess.DEVNULL)]
            running[0].wait()
            ends.wait(AGAIN)

    thread = threading.Thread(target=keep, daemon=True)
    thread.start()
    try:
        yield
    finally:
        ends.set()
        for end in ("terminate", "kill"):  # what it has not written is pending again
            for one in running:
                getattr(one, end)()
            thread.join(ENDING)


def run_store(words: Words, hosts: set[str]) -> int:
    """Serves a store."""
    ending = Ending()
    for number in (signal.SIGTERM, signal.SIGALRM):
        signal.signal(number, ending.on_signal)
    try:
        words.program = words.program or found_program()
        with opened(words, ending) as (server, store):
            try:
                with contextlib.suppress(SystemExit, KeyboardInterrupt):
                    systems = systems_of(store.scale, words.as_stored)
                    front = of_store(store, hosts, words.base, words.leaflet, systems)
                    serve(front, words.host, words.port)
            finally:  # a fault goes on, and what ends because of it does not end the front
                for number in (signal.SIGTERM, signal.SIGALRM):
                    signal.signal(number, signal.SIG_IGN)
            reason = ending.reason
            status, text = server.close()
    except (Unheard, Unusable) as fault:
        print(fault, file=sys.stderr)
        return 1
    except (Refused, Ended, scales.ScaleFault, Unprojected) as fault:
        print(f"{words.store or 'the front'}: {fault}", file=sys.stderr)
        return 1
    except OSError as fault:  # of the program, or of a file that it names
        print(endings.fault_text(fault.filename or words.store or "the front", fault), file=sys.stderr)
        return 1
    if status and not reason:
        reason = f"overlay_live has ended with status {status}"
    if reason:
        print("; ".join([reason, *text.splitlines()]), file=sys.stderr)
    return 1 if reason else 0
