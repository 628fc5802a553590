"""Writes what overlay import has laid out: the scripts of stores, and what their numbers mean."""

import pathlib
from collections.abc import Callable
from dataclasses import replace

from .. import ending
from ..files import writing
from ..grid import limits, scale as scales
from ..grid.scale import Scale
from ..store import keeping
from ..store.layering import Store
from ..store.layers import digests
from ..store.opening import is_store
from ..words import Words
from .import_reading import Stopped


def one_store(stores: list[Store], refuse: Callable[[str, str], None]) -> list[Store]:
    """The first store: where no --output names further ones, what does not fit it is refused."""
    for store in stores[1:]:
        for layout in store.layouts:
            refuse(layout.name, f"a layer more than {limits.LAYERS_MAX}; --output NAME.txt writes several stores")
    return stores[:1]


def lines_of(store: Store) -> list[str]:
    return [line for layout in store.layouts for line in layout.lines()]


def read_by(words: Words) -> list[pathlib.Path]:
    """The files that were read, standard input by a path of its own."""
    return [pathlib.Path("/dev/stdin" if name == "-" else name) for name in words.files]


def check_targets(paths: list[pathlib.Path], inputs: list[pathlib.Path]) -> None:
    """Refuses to write over a store, or over what was read, by whatever path or link."""
    for path in paths:
        if is_store(path):
            raise Stopped(f"--output: {path} is a store, which a script is not written over")
        for given in inputs:
            if keeping.is_same(path, given):
                raise Stopped(f"--output: {path} is the input {given}, which is not written over")


def scripts_of(output: pathlib.Path, stores: list[Store]) -> list[pathlib.Path]:
    """The script of each store."""
    if len(stores) == 1:
        return [output]
    base = output.with_suffix("")
    return [pathlib.Path(f"{base}.{place}{output.suffix}") for place in range(1, len(stores) + 1)]


def scale_text(words: Words, stores: list[Store], scale: Scale) -> bytes:
    """The scale, with digests of the layers that it is written for."""
    layers = tuple(digests({name: [ring for polygon in polygons for ring in polygon]
                            for layout in store.layouts for name, polygons in layout.base})
                   for store in stores)
    try:
        return replace(scale, title=words.title or scale.title, layers=layers).text().encode()
    except scales.ScaleFault as fault:
        raise Stopped(f"--output: {fault}") from fault


def check_output(words: Words, scripts: list[pathlib.Path], sidecar: pathlib.Path, text: bytes, scale: Scale) -> None:
    """Refuses to write over a store, over what was read, and over what a store needs."""
    check_targets([*scripts, sidecar], read_by(words))
    check_targets(scripts, [words.scale] if words.scale else [])
    if words.scale and (words.title or scale.title) != scale.title:
        check_targets([sidecar], [words.scale])  # under the same title it says the same scale again
    try:
        for script in scripts:
            keeping.check_apart(script)
        keeping.check(words.output, {sidecar: text}, scripts, [words.scale] if words.scale else [])
    except keeping.StoreStands as fault:
        raise Stopped(f"--output: {fault}") from fault


def counted(count: int, what: str) -> str:
    """So many of something, in words: `1 layer`, `2 layers`."""
    return f"{count} {what}{'' if count == 1 else 's'}"


def write_files(words: Words, stores: list[Store], scale: Scale) -> list[str]:
    """Writes the scripts and their scale, whole or not at all, and says how to make stores of them."""
    scripts, sidecar = scripts_of(words.output, stores), words.output.with_suffix(".scale.json")
    text, notes = scale_text(words, stores, scale), [f"factor and origin in {sidecar}"]
    texts = dict[pathlib.Path, bytes]()
    for script, store in zip(scripts, stores):
        texts[script] = "".join(line + "\n" for line in lines_of(store)).encode()
        made = script.with_suffix(".store" if script.suffix == ".db" else ".db")
        notes.append(f"{script}: {counted(store.count(), 'layer')}; overlayd --store {made} --create {script}")
    try:
        check_output(words, scripts, sidecar, text, scale)
        writing.write_all({**texts, sidecar: text})
    except OSError as fault:
        raise Stopped(ending.fault_text(fault.filename or words.output, fault)) from fault
    return notes
