"""Tests of a store in coordinates of the world, by the client, also where pip installs it."""

from pathlib import Path
from typing import Any

import pytest

from overlayd.grid import scale as scales
from overlayd.program import Refused, Server
from overlayd.store.world import World, rings

from . import testing

pytestmark = pytest.mark.live


class Geometry:
    """What shapely and others give: coordinates in tuples."""

    def __init__(self, *rings: list[list[float]]) -> None:
        coordinates = tuple(tuple(tuple(map(float, point)) for point in ring) for ring in rings)
        self.__geo_interface__ = {"type": "Polygon", "coordinates": coordinates}


def test_layers_are_put_and_given_in_coordinates_of_the_world(tmp_path: Path) -> None:
    store = testing.square_store(tmp_path)
    scales.beside(store).write_text('{"factor": 10, "origin": [100, 200], "digits": 3}')
    ring = [[100, 200], [101, 200], [101, 201], [100, 200]]
    with Server(store, program=testing.PROGRAM, timeout=60) as server, server.session() as session:
        world = World(server)
        session.put("plot", world.text_of(Geometry(ring)))
        assert {one.name: one.text for one in session.layers()}["plot"] == "MULTIPOLYGON (((0 0, 10 0, 10 10, 0 0)))"
        session.define("all", "plot")
        found = world.shape_of(rings(session, "all")).__geo_interface__
        assert found == {"type": "MultiPolygon", "coordinates": [[ring]]}
        with pytest.raises(Refused):
            session.put("flat", world.text_of(Geometry([[100, 200], [10**7, 200], [102, 201], [100, 200]])))


@pytest.mark.parametrize("given", [{"type": "Point", "coordinates": [1, 2]}, "POLYGON", Geometry([[0, 0], [1]]),
                                   {"type": "Polygon", "coordinates": [[["x", 1], [2, 3], [4, 5], ["x", 1]]]}])
def test_what_is_no_polygon_is_told(given: Any) -> None:
    with Server(program=testing.PROGRAM, timeout=60) as server, pytest.raises(ValueError):
        World(server).text_of(given)
