"""What becomes of a store that is not written any more, as after a full disk: a copy takes its place.

A write that failed may leave bytes that the system shows and the disk has not, so the program writes such a file no
more (docs/COMMANDS.md, "A write or a sync failed"). The copy is written whole and opened once before it is put there.
"""

import contextlib
import errno
import os
import pathlib
import shutil
import tempfile
import threading
import time
from collections.abc import Callable

from ..program import Ended, Refused, Server

NOT_WRITTEN = (30, 35)
"""The refusals of SYNC after which a store is not written any more."""
AGAIN = 5.0
"""How many seconds pass between two tries."""


class NotWritten(Exception):
    """A change that is not tried, as the store is not written any more."""


class Rescue:
    """Over a store and the program that has it. end: called with the reason once a copy is in the store's place."""

    def __init__(self, store: pathlib.Path, program: str, end: Callable[[str], None]) -> None:
        self.reason: str | None = None
        self._store, self._program, self._end = store, program, end
        self._beginning = threading.Lock()

    def begin(self, fault: Refused) -> None:
        """Begins to try, where it has not begun, upon what a SYNC was refused by."""
        if fault.number in NOT_WRITTEN and self._beginning.acquire(blocking=False):
            self.reason = f"the store is not written any more: {fault}"
            threading.Thread(target=self._try, args=(self.reason,), daemon=True).start()

    def _try(self, why: str) -> None:
        while True:
            try:
                put_copy(self._store, self._program)
                break
            except (OSError, Refused, Ended) as fault:
                self.reason = f"{why}; a copy takes its place as soon as it can: {fault}"
                time.sleep(AGAIN)
        self._end(f"{self._store}: {why}; a copy is in its place, to be opened anew")


def put_copy(store: pathlib.Path, program: str) -> None:
    """Puts a copy in the place of a store that nobody writes, where there is room. Where that fails, only the store is
    left, as it was."""
    place = store.resolve()
    size, free = place.stat().st_size, shutil.disk_usage(place.parent).free
    if free < size:
        raise OSError(errno.ENOSPC, f"{size} bytes are wanted, {free} are free")
    descriptor, name = tempfile.mkstemp(prefix=f"{place.name}.", suffix=".copy", dir=place.parent)
    try:
        with open(descriptor, "wb") as copy, place.open("rb") as source:
            shutil.copyfileobj(source, copy)
            copy.flush()
            os.fsync(copy.fileno())
        open_once(name, program)
        keep_owner(place, name)
        os.replace(name, place)
    except BaseException:
        with contextlib.suppress(OSError):
            os.unlink(name)
        raise
    sync_folder(place.parent)


def open_once(store: str, program: str) -> None:
    """Has the program open a store and end: what it cannot open takes no other's place."""
    with Server(store, workers=1, program=program) as server:
        status, text = server.close()
    if status:
        raise Ended(f"the copy could not be opened: {text}")


def keep_owner(place: pathlib.Path, name: str) -> None:
    """Gives a file the mode and, where that is allowed, the owner of another."""
    shutil.copymode(place, name)
    with contextlib.suppress(PermissionError):
        os.chown(name, place.stat().st_uid, place.stat().st_gid)


def sync_folder(folder: pathlib.Path) -> None:
    descriptor = os.open(folder, os.O_RDONLY)
    try:
        os.fsync(descriptor)
    finally:
        os.close(descriptor)
