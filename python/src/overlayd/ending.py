"""Ends a tool: with one line where something went wrong that it does not foresee, or standard output cannot be written;
quietly where the reader of it went away, or who called it has stopped it."""

import contextlib
import errno
import io
import os
import pathlib
import sys
import traceback
from collections.abc import Callable
from typing import NoReturn, TextIO


INTERRUPTED = 130  # as shells tell it of a program that was stopped from the keyboard
TEXT_MAX = 200


# Modules that the tools stand on, and Debian's packages of them.
PACKAGES = {"cachetools": "python3-cachetools", "flask": "python3-flask", "numpy": "python3-numpy",
            "osgeo": "python3-gdal", "pyproj": "python3-pyproj", "tqdm": "python3-tqdm", "waitress": "python3-waitress"}
UTF8 = "iconv -f ISO-8859-1 -t UTF-8 makes it of Latin-1"


class Unusable(Exception):
    """A script, a reply or an answer that a tool can do nothing with."""


def fault_text(of: object, fault: Exception) -> str:
    """What a fault says of a file, or of whatever it is of: of the system's the words without number and name."""
    if isinstance(fault, UnicodeDecodeError):
        return f"{of}: no UTF-8, by its byte {fault.object[fault.start]:#x}; {UTF8}"
    return f"{of}: {fault.strerror or fault}" if isinstance(fault, OSError) else f"{of}: {fault}"


def buffered(stream: TextIO) -> TextIO:
    """The stream through a buffer: where it has none (PYTHONUNBUFFERED), what a write leaves over is lost unsaid."""
    if not isinstance(stream.buffer, io.RawIOBase):
        return stream
    return open(stream.fileno(), "w", encoding=stream.encoding, errors=stream.errors, closefd=False)


def unforeseen(fault: Exception) -> str:
    """One line on what a tool does not foresee, with its place; of a package that is missing, how to get it."""
    if isinstance(fault, ModuleNotFoundError) and fault.name in PACKAGES:
        package = PACKAGES[fault.name]
        return f"{package} is missing: apt-get install {package}, and run this by /usr/bin/python3"
    place = traceback.extract_tb(fault.__traceback__)[-1]
    text = " ".join(str(fault).split())[:TEXT_MAX]
    at = f"{pathlib.Path(place.filename).name}, line {place.lineno}"
    return f"{type(fault).__name__}: {text} ({at}): a defect of this tool; python3 -X dev shows more"


def status_of(main: Callable[[list[str]], int]) -> int | str | None:
    """The status of a tool: 1 where it raises what it does not foresee, which is reported."""
    try:
        return main(sys.argv[1:])
    except SystemExit as ended:
        return ended.code
    except KeyboardInterrupt:
        return INTERRUPTED
    except OSError:
        raise
    except Exception as fault:
        if sys.flags.dev_mode:
            raise
        print(f"{pathlib.Path(sys.argv[0]).name}: {unforeseen(fault)}", file=sys.stderr)
        return 1


def flushed(main: Callable[[list[str]], int]) -> int | str | None:
    """The status of a tool, all of whose output is written."""
    if sys.stdout is None:
        raise OSError(errno.EBADF, os.strerror(errno.EBADF))
    sys.stdout = buffered(sys.stdout)
    status = status_of(main)
    sys.stdout.flush()
    return status


def report(fault: OSError) -> None:
    """Reports, where that can be reported, what could not be written. A reader that went away knows it."""
    if not isinstance(fault, BrokenPipeError):
        of = "standard output" if fault.filename is None else fault.filename
        with contextlib.suppress(OSError):
            print(f"{pathlib.Path(sys.argv[0]).name}: {fault_text(of, fault)}", file=sys.stderr)


def drop_rest() -> None:
    """What is left in the buffers goes nowhere, so that the interpreter says nothing of it at its end."""
    nowhere = os.open(os.devnull, os.O_WRONLY)
    for stream in (1, 2):
        os.dup2(nowhere, stream)


def run(main: Callable[[list[str]], int]) -> NoReturn:
    """Runs a tool by the words that it is called with, and ends with its status: 1 where output cannot be written."""
    if sys.stderr is None:
        # Closed by who calls: `print` would write what is reported into the output.
        sys.stderr = open(os.devnull, "w", encoding="utf-8")
    try:
        status = flushed(main)
    except OSError as fault:
        # What was printed before a note could not be reported is output all the same.
        with contextlib.suppress(OSError, AttributeError):
            sys.stdout.flush()
        report(fault)
        drop_rest()
        status = 1
    sys.exit(status)
