"""Keeps what lies beside a store: the files that say what its numbers mean are not written anew under it."""

import json
import pathlib
import re
from collections.abc import Iterable, Mapping
from dataclasses import replace
from decimal import Decimal

from ..grid import scale as scales
from .opening import is_store


SCRIPTS_BEGIN = b"PUT "
ENDS = (".scale.json", ".features.json")  # the second lies beside stores of earlier versions


class StoreStands(Exception):
    """Why nothing is written."""


def meaning_of(path: pathlib.Path, data: bytes) -> object:
    """What a file says; of a scale all but its title and the layers that it was written for."""
    if path.name.endswith(".scale.json"):
        try:
            return replace(scales.of_value(json.loads(data, parse_float=Decimal)), title="", layers=())
        except (ValueError, RecursionError, scales.ScaleFault):
            return data
    return data


def stores_of(output: pathlib.Path) -> list[pathlib.Path]:
    """The stores that lie beside a script under its name."""
    name = re.escape(output.with_suffix("").name)
    folder = output.parent.iterdir() if output.parent.is_dir() else ()
    return sorted(path for path in folder if re.fullmatch(rf"{name}(\.[0-9]+)?\.[^.]+", path.name)
                  and path != output and is_store(path))


def scripts_of_name(output: pathlib.Path) -> list[pathlib.Path]:
    """The files that lie where a script NAME.txt, or NAME.1.txt and so on where several stores are
    needed, would lie."""
    named = re.compile(rf"{re.escape(output.with_suffix('').name)}(\.[0-9]+)?{re.escape(output.suffix)}")
    folder = output.parent.iterdir() if output.parent.is_dir() else ()
    return [path for path in folder if named.fullmatch(path.name) and path.is_file()]


def is_same(path: pathlib.Path, other: pathlib.Path) -> bool:
    """Whether two paths lead to one file, by whatever name or link; also to one that is not there yet."""
    if path.exists() and other.exists():
        return path.samefile(other)
    return path.resolve() == other.resolve()


def check_apart(output: pathlib.Path, given: Iterable[pathlib.Path] = ()) -> None:
    """Refuses an output that by its name says what a store's numbers mean, or those of what is read."""
    named = output.resolve()
    of = [named.name.removesuffix(end) for end in ENDS if named.name.endswith(end)]
    for store in [store for name in of for store in stores_of(named.with_name(name + ".txt"))]:
        raise StoreStands(f"{output} says what the numbers of the store {store.name} mean, and is not written over")
    for path in given:
        for stem in (path.stem, re.sub(r"\.[0-9]+$", "", path.stem)):
            if any(is_same(output, path.with_name(stem + end)) for end in ENDS):
                raise StoreStands(f"{output} says what the numbers of {path} mean, and is not written over")


def is_own(path: pathlib.Path) -> bool:
    """Whether a file beside a script is of the form that the tools write there."""
    try:
        if path.name.endswith(".scale.json"):
            return bool(scales.read(path)) and b'"factor"' in path.read_bytes()
        return path.read_bytes().startswith(SCRIPTS_BEGIN)
    except scales.ScaleFault:
        return False


def check_unnamed(output: pathlib.Path, beside: Mapping[pathlib.Path, bytes], scripts: Iterable[pathlib.Path],
                  named: Iterable[pathlib.Path]) -> None:
    """Refuses to write over files that were not named: those of another form than the tools', and, where no script of
    the output is there to which they belong, those that would be written otherwise."""
    for path in (*beside, *(script for script in scripts if script != output)):
        if path.is_file() and not is_own(path):
            raise StoreStands(
                f"{path} stands, and is no file of this tool's: it was not named, and is not written over; take "
                "another name, or move it away")
    if any(map(is_own, scripts_of_name(output))):
        return
    for path, data in beside.items():
        if path.is_file() and path.read_bytes() != data and not any(is_same(path, other) for other in named):
            raise StoreStands(
                f"{path} stands, would be written otherwise, and belongs to no script, as {output} is not there "
                "as one: it was not named, and is not written over; take another name, or move it away")


def check(output: pathlib.Path, beside: Mapping[pathlib.Path, bytes], scripts: Iterable[pathlib.Path] = (),
          named: Iterable[pathlib.Path] = ()) -> None:
    """Refuses to write over files beside an output that were not named, or that would say something else of a store
    that is there under its name. scripts: those of an output that needs several stores; named: files that other words
    name."""
    check_unnamed(output, beside, list(scripts), list(named))
    stores = stores_of(output)
    for path, data in beside.items() if stores else ():
        stands = path.read_bytes() if path.is_file() else b""
        if meaning_of(path, stands) != meaning_of(path, data):
            raise StoreStands(f"{stores[0]} is a store, and {path} says what its numbers mean: it would say something "
                              "else; take another name, or move the store away")
