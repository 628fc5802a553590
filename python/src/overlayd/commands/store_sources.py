"""The layers of a store, and the features that versions before registers kept beside it, as files to make one of."""

import hashlib
import json
import subprocess
from pathlib import Path
from typing import Any

from ..ending import Unusable
from ..files import coordinate_systems
from ..files.rounding import Ring
from ..grid import scale as scales
from ..program_files import OVERLAY, found_program
from ..store.layers import Layers
from ..store.opening import layers_of, opened
from .store_layers import scale_beside

Rings = dict[str, Ring]  # those of a store by their digests


def files_of(store: Path, folder: Path, program: str | None) -> dict[str, Path]:
    """By the names of layers the files of their polygons, and that of the features of NAME.features.json."""
    live, table = program or found_program(), store.with_name(f"{store.stem}.features.json")
    with opened(live, store) as session:
        layers = layers_of(session)
    found, hidden = dict[str, Path](), set[str]()
    if table.is_file():
        name, text, hidden = features_in(table, layers, scale_beside(store, None)[0])
        found[name] = folder / "features.geojson"
        found[name].write_text(text, encoding="utf-8")
    for name in layers.order:
        if name not in hidden:
            found[name] = exported(store, folder / f"{name}.geojson", live, "--layer", name, "--parts")
    return found


def exported(store: Path, target: Path, program: str, *words: str) -> Path:
    """What `overlay export` writes."""
    given = map(str, ("export", "--store", store, "--program", program, *words, "--output", target))
    done = subprocess.run([*OVERLAY, *given], capture_output=True, text=True)
    if done.returncode:
        raise Unusable(done.stderr.strip())
    return target


def grid_of(store: Path) -> str | None:
    """The grid of a store, where its scale says one."""
    path = scales.beside(store)
    return str(1 / scales.read(path).factor) if path.is_file() else None


def features_in(path: Path, layers: Layers, scale: scales.Scale) -> tuple[str, str, set[str]]:
    """What a file of features calls them, they as GeoJSON, and the layers that are parts of them alone. The file has
    of each feature the digests of its rings, which the store holds; one whose ring is not there is not of the store."""
    rings = {digest(ring): ring for held in layers.base.values() for ring in held}
    try:
        table = json.loads(path.read_text(encoding="utf-8-sig"))
        texts = [json.dumps(feature_of(one, rings, scale)) for one in standing(table, rings)]
        parts = {part for own in table["layers"].values() for part in own}
        hidden = {*table["layers"], *parts} if table["coded"] else parts - {*table["layers"]}
        name = str(table["collection"])
    except OSError as fault:
        raise Unusable(f"{path}: {fault.strerror}") from fault
    except (ValueError, RecursionError, TypeError, AttributeError, LookupError) as fault:
        raise Unusable(f"{path}: no features of this store: {fault}; where it is taken away, layers alone are brought "
                       "over") from fault
    body, crs = ",\n".join(texts), coordinate_systems.member(scale.crs)
    return name, f'{{"type": "FeatureCollection", {crs}"features": [\n{body}\n]}}', hidden


def standing(table: Any, rings: Rings) -> list[Any]:
    """The features that are in the store: with the change that was begun last where the store has its rings."""
    before, change = table["features"], table.get("pending")
    if not change:
        return list(before)
    left = [one for one in before if one["id"] != change["of"]]
    if change["feature"] is None:
        return list(before) if all(is_there(one, rings) for one in before) else left
    return [*left, change["feature"]] if is_there(change["feature"], rings) else list(before)


def is_there(feature: Any, rings: Rings) -> bool:
    return all(run in rings for polygon in feature["rings"] for ring in polygon for run in ring.split("+"))


def digest(ring: Ring) -> str:
    """That of a ring as a store writes it."""
    text = ", ".join(f"{x} {y}" for x, y in ring)
    return hashlib.blake2b(text.encode(), digest_size=12).hexdigest()


def feature_of(given: Any, rings: Rings, scale: scales.Scale) -> dict[str, Any]:
    """A feature of the file as GeoJSON has it."""
    def position(x: int, y: int) -> list[float]:
        return [float(round(number, scale.digits)) for number in scale.world((x, y, 1))]

    shape = [[[position(*point) for point in whole([rings[run] for run in ring.split("+")])] for ring in polygon]
             for polygon in given["rings"]]
    return {"type": "Feature", "id": given["id"], "properties": given["properties"],
            "geometry": {"type": "MultiPolygon", "coordinates": shape}}


def whole(runs: list[Ring]) -> Ring:
    """The ring of which layers hold runs, each closed through its first point."""
    ring = runs[0][:-1] + [point for run in runs[1:] for point in run[2:-1]]
    return [*ring, ring[0]]
