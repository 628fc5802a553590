"""Opens stores by the program, which only reads them, and layers in memory."""

import contextlib
import os
import pathlib
from collections.abc import Iterator

from .. import ending
from ..ending import Unusable
from ..grid import limits
from ..program import Ended, Refused, Server, Session
from .layers import Layers

MAGIC, SLOTS_END = b"OVLSTORE", 8192
MAGIC_AT = (16, 4112)  # of the two slots: docs/FORMAT.md
IN_USE = "device: it is in use"
UNREADY = "it has no version yet, or its last commit was cut off; this opens it to write: overlay_live --store"


def begins_as_store(data: bytes) -> bool:
    """Whether one of the two slots at the begin of some bytes has a store's magic."""
    return any(data[at : at + len(MAGIC)] == MAGIC for at in MAGIC_AT)


def is_store(path: pathlib.Path) -> bool:
    """Whether a file begins as a store does; what is no file, as a pipe, is not read."""
    if not path.is_file():
        return False
    with path.open("rb") as file:
        return begins_as_store(file.read(SLOTS_END))


@contextlib.contextmanager
def opened(program: str, store: pathlib.Path | None = None) -> Iterator[Session]:
    """A session over a store, which stays as it is, or over layers in memory. What the program refuses is Unusable."""
    if store and not store.is_file():
        kind = "a folder, and no store" if store.is_dir() else "no file" if store.exists() else "no such file"
        raise Unusable(f"{store}: {kind}")
    try:
        server = Server(store, read_only=store is not None, max_blocks=limits.BLOCKS_MAX if store else None,
                        program=program)
    except Refused as fault:
        raise Unusable(f"{store or program}: {refusal_text(fault, store)}") from fault
    except Ended as fault:
        raise Unusable(f"{program}: {fault}") from fault
    except OSError as fault:
        raise Unusable(ending.fault_text(program, fault)) from fault
    try:
        yield server.sessions[0]
    except (Refused, Ended) as fault:
        raise Unusable(f"{store or program}: {fault}") from fault
    finally:
        server.close()


def refusal_text(fault: Refused, store: pathlib.Path | None) -> str:
    """Why a store is not opened. The program names it in the second line of its fault, and says there why."""
    name = os.fspath(store or "")
    text = fault.text.removesuffix(f": {name}").replace(f": {name}: ", ": ")
    if text == IN_USE:
        return "another program holds it, and may write"
    return f"{UNREADY} {name} </dev/null" if text == "device" else f"error {fault.number} {text}"


def layers_of(session: Session) -> Layers:
    """The layers of an opened store, and its version."""
    return Layers.of(session.layers(), session.sync())
