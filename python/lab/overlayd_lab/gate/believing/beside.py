"""What a text prints besides, and does not count, as it is proved: laws, and what each value of a
type with a model keeps to."""

import dataclasses
import re
import textwrap

from overlayd_lab.gate.believing.house import Call, Cut, House, Key
from overlayd_lab.gate.believing.page import Law, Reading, reached_by, sentence_of
from overlayd_lab.gate.believing.sources import imports

# Words of laws and of types that a row does not have are printed up to so many lines.
MOST = 45


@dataclasses.dataclass(frozen=True)
class Beside:
    """Something that is proved: the lines that say it, and the definitions and types of which it speaks."""

    lines: tuple[str, ...]
    keys: frozenset[Key]


def besides(reading: Reading, keys: set[Key], cut: Cut) -> list[Beside]:
    """What is proved of the definitions of a text, and what values of its types keep to."""
    house = reading.house
    listed = set().union(*(reach.keys for reach in reading.reach.values()))
    kinds = sorted((key for key in keys if not key[0] and house.model(key[1], key[2])),
                   key=lambda key: (house.crates[key[1]], key[2]))
    found = [keeps_to(house, key, keys) for key in kinds]
    for law in reading.tables.laws:
        reach = house.of_call(Call(law.name, law.file, law.name, ""), cut).keys
        mine = house.mine(reach)
        is_near = law.name in reading.tables.shown and mine & keys and house.lines(mine - keys) <= MOST
        if reached_by(house, law) & listed <= keys or is_near:
            found.append(Beside(tuple(said(law, house)), frozenset(reach)))
    return found


def said(law: Law, house: House) -> list[str]:
    """What a law says, in the words of its own comment; its statement comes after it."""
    return textwrap.wrap(f"{law.name} (crates/{law.file}): {sentence_of(house, law)}", 118, break_on_hyphens=False)


def keeps_to(house: House, key: Key, keys: set[Key]) -> Beside:
    """What values of a type with a model are seen as and keep to."""
    _, crate, name = key
    seen = re.sub(r"\s+", " ", house.model(crate, name))
    lines = [f"`{name}`, a type of {crate}: each value is seen as `{seen}`"]
    rests = house.reached({key}).keys
    kept = re.sub(r"\s+", " ", house.invariant(crate, name))
    if not kept:
        return Beside((lines[0] + ".",), frozenset(rests))
    lines = [f"{lines[0]}, and keeps to", f"    {kept}"]
    words = house.reached(house.named(kept, None, *imports(house.types[crate, name].read_text()))).keys
    if house.lines(house.mine(words) - keys) > MOST:
        return Beside((*lines, "whose words are not all here."), frozenset(rests))
    return Beside(tuple(lines), frozenset(rests | words))
