"""Writes files whole or not at all: each is written beside its place, and takes it when all of it, or all of them, is
written."""

import contextlib
import hashlib
import os
import pathlib
import re
import shutil
import socket
import threading
import uuid
from collections.abc import Iterator, Mapping
from typing import TextIO


def machine() -> str:
    """What tells processes of one number apart: this machine, and where its processes are numbered."""
    with contextlib.suppress(OSError):
        return hashlib.sha256(f"{socket.gethostname()} {os.readlink('/proc/self/ns/pid')}".encode()).hexdigest()[:16]
    return uuid.uuid4().hex[:16]


MACHINE = machine()
OWN = MACHINE + uuid.uuid4().hex[:16]  # of this process, among those of all machines that write in a folder
LEFT = re.compile(rf"\..+\.{MACHINE}[0-9a-f]{{16}}\.([0-9]+)\.[0-9]+\.new[^/]*")
looked_in = set[pathlib.Path]()


def beside(path: pathlib.Path, end: str = "") -> pathlib.Path:
    """Where a file is written first: the same name each time that this thread asks, and nobody else's. The first one of
    a folder takes away what processes that are gone have left so there."""
    if path.parent not in looked_in:
        looked_in.add(path.parent)
        take_away_left(path.parent)
    return path.with_name(f".{path.name}.{OWN}.{os.getpid()}.{threading.get_ident()}.new{end}")


def take_away_left(folder: pathlib.Path) -> None:
    """Takes away what processes of this machine were writing in a folder when they were killed."""
    with contextlib.suppress(OSError):
        for file in folder.iterdir():
            if (found := LEFT.fullmatch(file.name)) and is_gone(int(found[1])):
                file.unlink(missing_ok=True)


def is_gone(process: int) -> bool:
    """Whether no process of this machine has a number."""
    try:
        os.kill(process, 0)
    except ProcessLookupError:
        return True
    except (OSError, OverflowError):
        pass
    return False


def in_hand(path: pathlib.Path) -> str | None:
    """Why a store of SQLite, as a GeoPackage, must not be replaced: a program that has it open, or was cut off in it,
    keeps changes beside it, which would be made in another file of this name as well."""
    target = path.resolve()
    for kept in (target.with_name(target.name + end) for end in ("-wal", "-journal")):
        if kept.is_file() and kept.stat().st_size:
            return f"{kept.name} has changes of it that a program has in hand; end that one, or take another name"
    return None


def take_places(written: Mapping[pathlib.Path, pathlib.Path]) -> None:
    """Has files take the places of others, each with the rights of the one that stood there."""
    for new, target in written.items():
        if target.exists():
            shutil.copymode(target, new)
    for new, target in written.items():
        new.replace(target)


def write_all(texts: dict[pathlib.Path, bytes]) -> None:
    """Writes files, each whole, or none of them. What is there and is no file, as a pipe, is written to as it is."""
    targets = {path: path.resolve() for path in texts}
    plain = [path for path, target in targets.items() if not target.exists() or target.is_file()]
    try:
        for path in plain:
            write_new(beside(targets[path]), texts[path])
        for path in texts.keys() - set(plain):
            path.write_bytes(texts[path])
        for path in plain:
            take_places({beside(targets[path]): targets[path]})
    except OSError as fault:
        raise OSError(fault.errno, fault.strerror, str(path)) from fault
    finally:
        for path in plain:
            beside(targets[path]).unlink(missing_ok=True)


def write_new(new: pathlib.Path, data: bytes) -> None:
    """Writes a file, and has it on the disk."""
    with new.open("wb") as file:
        file.write(data)
        file.flush()
        os.fsync(file.fileno())


@contextlib.contextmanager
def whole(path: pathlib.Path) -> Iterator[TextIO]:
    """A file for a text that is long: whole, or not at all where its writing is broken off. What stands and is no file,
    as a pipe, is written to as it is; a link stays, and what it leads to is written."""
    if path.exists() and not path.is_file():
        with path.open("w", encoding="utf-8", newline="") as file:
            yield file
        return
    target = path.resolve()
    new = beside(target)
    try:
        with new.open("w", encoding="utf-8", newline="") as file:
            yield file
            file.flush()
            os.fsync(file.fileno())
        take_places({new: target})
    finally:
        new.unlink(missing_ok=True)
