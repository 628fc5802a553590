"""Writes a store as a script that makes it again: a line PUT or DEFINE for each layer, in their order.

    overlay dump map.db > map.txt
    overlayd --store again.db --create map.txt
    overlay dump map.db --output again.txt

The store is read and not changed. The script has the layers and definitions, as LAYERS writes them: a text anew, an
expression with the fewest brackets. It has no version numbers, and no tiles: they are built again.

--output NAME.txt writes the script there, and beside it NAME.scale.json, which says what its numbers mean, where one
lies beside the store. It writes over no store and none of what it reads, nor over a scale that would be written
otherwise where NAME.txt is not there as a script, to which it belongs.

Status 0: all layers are written; 1: the store cannot be read, or the output cannot be written."""

import pathlib
import sys
from dataclasses import replace

from .. import ending
from ..ending import Unusable
from ..files import writing
from ..grid import scale as scales
from ..program import Layer
from ..program_files import found_program
from ..store import keeping
from ..store.layers import Layers, command_of, digests
from ..store.opening import is_store, opened
from ..words import FILE, PROGRAM, Words, argument, option, subcommand


def script_of(layers: list[Layer]) -> str:
    return "".join(command_of(layer) + "\n" for layer in layers)


def write(layers: list[Layer], store: pathlib.Path, output: pathlib.Path) -> None:
    """Writes the script of a store, and beside it its scale, where one lies beside the store."""
    scale = scales.beside(store)
    texts = {output: script_of(layers).encode()}
    try:
        if scale.is_file():
            of_layers = replace(scales.read(scale), layers=(digests(Layers.of(layers).base),))
            texts[output.with_name(output.stem + ".scale.json")] = of_layers.text().encode()
        kept = [path for path in texts if path != output and keeping.is_same(path, scale)]
        for path in texts:
            if is_store(path) or (path not in kept and any(keeping.is_same(path, one) for one in (store, scale))):
                raise Unusable(f"--output: {path} is a store, or is read here, and is not written over")
        keeping.check_apart(output, [store])
        keeping.check(output, {path: text for path, text in texts.items() if path != output and path not in kept})
        writing.write_all({path: text for path, text in texts.items() if path not in kept})
    except keeping.StoreStands as fault:
        raise Unusable(f"--output: {fault}") from fault
    except scales.ScaleFault as fault:
        raise Unusable(str(fault)) from fault
    except OSError as fault:
        raise Unusable(ending.fault_text(fault.filename or output, fault)) from fault


@subcommand(__doc__, argument("store", FILE), PROGRAM,
            option("--output", "in the place of standard output, with the scale beside it", FILE, metavar="NAME.txt"))
def command(words: Words) -> int:
    try:
        with opened(words.program or found_program(), words.store) as session:
            layers = session.layers()
        if words.output:
            write(layers, words.store, words.output)
        else:
            sys.stdout.write(script_of(layers))
    except Unusable as fault:
        print(fault, file=sys.stderr)
        return 1
    return 0
