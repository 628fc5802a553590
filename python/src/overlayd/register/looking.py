"""Looks a register through after a change of the schema by somebody: layers that are gone are named, triggers that were
lost are made again, and what was changed meanwhile is found by digests.
"""

from . import statements
from .engines import filled
from .model import Layer, Refused
from .registers import Register, Say, in_silence


def look_through(register: Register, say: Say = in_silence) -> int:
    """Arms all layers, and puts into the list of pending changes what is not as it was seen; how many that are."""
    engine, count = register.engine, 0
    with engine.writing():
        for own in register.layers().values():
            layer = engine.layer(own.name, own.ident)
            if layer != own:
                engine.ask(statements.SET_LAYER, layer.geom, layer.key, layer.name)
            if not engine.is_armed(layer):
                engine.arm(layer)
                say(f"{layer.name}: its triggers were not as the register made them, and are again")
            count += mark(register, layer, say)
        engine.ask(statements.SCHEMA_IS, engine.schema())
    return count


def mark(register: Register, layer: Layer, say: Say) -> int:
    """Puts into the list of pending changes what differs from what was seen of a layer."""
    engine = register.engine
    seen = {fid: bytes(own) for fid, own in engine.ask(filled(engine, statements.DIGESTS, layer=layer))}
    found = engine.features(layer)
    now = dict(zip(found.fids, found.digests))
    told = {fid for name, fid, _, kept in register.problems() if name == layer.name and kept is None}
    waits = {fid for _, name, fid in engine.ask(statements.PENDING) if name == layer.name}
    changed = [fid for fid in sorted(seen.keys() | now.keys()) if seen.get(fid) != now.get(fid) and fid not in waits]
    missed = [fid for fid in changed if fid not in told]
    if missed:
        say(f"{layer.name}: {len(missed)} features had changed unseen")
    engine.many(statements.ADD_PENDING, [(layer.name, fid) for fid in changed])
    return len(changed)


def need_layers(register: Register) -> None:
    """Refuses to go on where a layer is gone."""
    for own in register.layers().values():
        layer = register.engine.layer(own.name, own.ident)
        if (layer.geom, layer.key) != (own.geom, own.key):
            raise Refused(f"{own.name}: its geometry or its key is another column now")
