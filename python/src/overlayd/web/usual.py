"""What a front is given where nothing else is said: the names in the Host of good questions, and where Leaflet is."""

import pathlib

LOOPBACK = frozenset(["127.0.0.1", "localhost", "[::1]"])
LEAFLET = pathlib.Path("/usr/share/javascript/leaflet")
