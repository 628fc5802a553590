"""Tests of what the front refuses, and by which status, and of what it does where its helpers fail."""

import contextlib
import functools
import io
import json
import os
import pathlib
import threading
import time
import unittest
import unittest.mock
from collections.abc import Callable

import pytest

from overlayd.program import Ended, Refused, Server
from overlayd.program_files import FEATURES, found_program
from overlayd.web import front, layer_store
from overlayd.web.layer_store import LayerStore
from overlayd.web.pages import BODY_MOST
from overlayd.web.views import View
from . import testing
from .testing import SHIFTED, SQUARE, Client, FrontCase, Told

pytestmark = pytest.mark.live

GEOMETRY = {"type": "Polygon", "coordinates": [[[0, 0], [9, 0], [9, 9], [0, 0]]]}


class RefusalCase(FrontCase):
    lines = (f"PUT A {SQUARE}", f"PUT B {SHIFTED}", "DEFINE I = A & B")

    def refused(self, status: int, path: str, method: str = "GET", body: object = None, **headers: str) -> Told:
        found = self.client.ask(path, method, body, headers)
        assert found.status == status, (method, path, found.value)
        assert {"code", "description"} <= set(found.value)
        return found


class Refusals(RefusalCase):
    def tearDown(self) -> None:
        """Nothing that was refused has changed a layer."""
        assert self.client.get("/status")["version"] == 1
        assert list(self.store.layers()) == ["A", "B", "I"]

    def test_names_that_are_not_served(self) -> None:
        for host in ("map.example.org", "evil.example:8080", "127.0.0.1.example", "", "127.0.0.1:80:80", "a b", "[::2]",
                     "localhost@x"):
            self.refused(403, "/status", HTTP_HOST=host)
            self.refused(403, "/collections/A", "DELETE", HTTP_HOST=host)
        for host in ("127.0.0.1", "localhost:9", "LOCALHOST", "[::1]:8080"):
            assert self.client.ask("/status", headers={"HTTP_HOST": host}).status == 200, host

    def test_how_many_numbers_are_wanted_is_told(self) -> None:
        told = self.refused(400, "/locate?x=a&y=1").value
        assert told["description"] == "x: a number is wanted"
        told = self.refused(400, "/collections/A/items?bbox=1,2,3").value
        assert told["description"] == "bbox: 4 or 6 numbers are wanted"

    def test_pages_of_other_sites_change_nothing(self) -> None:
        for origin in ("https://evil.example", "null", "http://localhost:8080", "https://127.0.0.1:8080",
                       "http://127.0.0.1:8081"):
            self.refused(403, "/collections/I", "DELETE", HTTP_ORIGIN=origin)
            self.refused(403, "/collections/N", "PUT", {"definition": "A"}, HTTP_ORIGIN=origin)
            self.refused(403, "/batch", "POST", {"commands": [{"drop": "I"}]}, HTTP_ORIGIN=origin)
        for site in ("cross-site", "same-site"):
            self.refused(403, "/collections/I", "DELETE", HTTP_SEC_FETCH_SITE=site)

    def test_pages_of_other_sites_ask_nothing_but_for_the_page(self) -> None:
        asked = unittest.mock.patch.object(self.store, "_server", None)  # who asks the program fails
        for path in ("/collections", "/collections/I", "/collections/I/items", "/collections/I/items/1",
                     "/collections/I/locate?x=1&y=1", "/collections/I/tiles", "/locate?x=1&y=1", "/status", "/api",
                     "/conformance", "/map.css"):
            for method in ("GET", "HEAD"):
                with asked:
                    found = self.client.ask(path, method, headers={"HTTP_SEC_FETCH_SITE": "cross-site"})
                assert found.status == 403, (method, path)
            for site in ("same-origin", "none", "same-site", ""):
                found = self.client.ask(path, headers={"HTTP_SEC_FETCH_SITE": site})
                assert found.status == 200, (site, path)
        for accepted in ("text/html", "application/json"):
            headers = {"HTTP_SEC_FETCH_SITE": "cross-site", "HTTP_ACCEPT": accepted}
            assert self.client.ask("/", headers=headers).status == 200

    def test_bodies_of_another_kind_or_size(self) -> None:
        for kind in ("text/plain", "application/x-www-form-urlencoded", "", "application/jsonp"):
            self.refused(415, "/collections/N", "PUT", {"definition": "A"}, CONTENT_TYPE=kind)
        self.refused(413, "/collections/N", "PUT", b" " * 3_000_000)
        self.refused(413, "/collections/N", "PUT", {}, CONTENT_LENGTH=str(BODY_MOST + 1))
        for length in ("", "-1", "x", "1e3", "9" * 19):
            self.refused(411, "/collections/N", "PUT", {"definition": "A"}, CONTENT_LENGTH=length)
        for body in (b"", b"{", b"[]", b"1", b"null", b"true", b"\xff\xfe", b'{"a":' * 20_000, b"1" * 5000):
            self.refused(400, "/collections/N", "PUT", body)
            self.refused(400, "/batch", "POST", body)

    def test_bodies_that_are_nested_deep(self) -> None:
        for depth in (10, 970, 990, 100_000):
            lists = b"[" * depth + b"]" * depth
            places = b"[[[%b, 1], [9, 0], [9, 9], [0, 0]]]" % lists
            objects = b'{"a":' * depth + b"1" + b"}" * depth
            for value in (lists, objects, b'{"definition": %b}' % lists, b'{"geometry": %b}' % lists):
                self.refused(400, "/collections/N", "PUT", value)
                self.refused(400, "/batch", "POST", b'{"commands": [%b]}' % value)
            for coordinates in (lists, places, places.replace(lists, objects)):
                geometry = b'{"type": "Polygon", "coordinates": %b}' % coordinates
                self.refused(400, "/collections/N", "PUT", geometry)
                self.refused(400, "/batch", "POST", b'{"commands": [{"put": "N", "geometry": %b}]}' % geometry)

    def test_a_fault_of_the_front_is_told_as_a_refusal(self) -> None:
        told = io.StringIO()
        with unittest.mock.patch.object(self.store, "view", side_effect=KeyError("x")):
            with contextlib.redirect_stderr(told):
                assert self.refused(500, "/status").value["code"] == "500"
        assert "KeyError" in told.getvalue()

    def test_geometries(self) -> None:
        for number in (b"1e99999999", b"1e999", b"NaN", b"Infinity", b"-1e-999", b'"x"', b"null", b"true", b"1" * 400):
            body = json.dumps(GEOMETRY).encode().replace(b"9", number)
            self.refused(400, "/collections/N", "PUT", body)
        bad: tuple[object, ...] = ({}, {"geometry": None}, {"type": "Point", "coordinates": [1, 1]},
                                   GEOMETRY | {"coordinates": [[[0]]]}, {"type": "FeatureCollection", "features": []},
                                   {"type": "Polygon"})
        for given in bad:
            self.refused(400, "/collections/N", "PUT", given)
        for kind, empty in (("Polygon", [[]]), ("MultiPolygon", [[]]), ("MultiPolygon", [[[]]])):
            told = self.refused(400, "/collections/N", "PUT", {"type": kind, "coordinates": empty})
            assert "lists of rings" in told.value["description"]
        told = self.refused(400, "/collections/N", "PUT", GEOMETRY | {"coordinates": [[[0, 0], [9, 0], [0, 0]]]})
        assert told.value["code"] == "5"
        self.assertEqual(
            self.refused(400, "/collections/N", "PUT",
                         GEOMETRY | {"coordinates": [[[0, 0], [9, 0], [9, 9], [2, 2]]]}).value["description"],
            "error 4 ring 0 open",
        )
        far = GEOMETRY | {"coordinates": [[[0, 0], [2_000_000, 0], [9, 9], [0, 0]]]}
        assert self.refused(400, "/collections/N", "PUT", far).value["code"] == "3"
        many = GEOMETRY | {"coordinates": [[[i % 7, i] for i in range(2049)] + [[0, 0]]]}
        assert self.refused(400, "/collections/N", "PUT", many).value["code"] == "6"

    def test_definitions(self) -> None:
        for text in ("A\nDROP I", "A\r", "A\x00", "", "A & \u00e9", "A" * 2001, 7, None, ["A"]):
            self.refused(400, "/collections/N", "PUT", {"definition": text})
        assert self.refused(400, "/collections/N", "PUT", {"definition": "A &"}).value["code"] == "7"
        assert self.refused(400, "/collections/N", "PUT", {"definition": "A &" * 40}).value["code"] == "8"
        assert self.refused(404, "/collections/N", "PUT", {"definition": "A & Z"}).value["code"] == "10"
        assert self.refused(409, "/collections/A", "PUT", {"definition": "B"}).value["code"] == "12"
        assert self.refused(409, "/collections/I", "PUT", GEOMETRY).value["code"] == "11"
        assert self.refused(409, "/collections/I", "PUT", {"definition": "I"}).value["code"] == "13"
        assert self.refused(409, "/collections/A", "DELETE").value["code"] == "14"

    def test_batches(self) -> None:
        for body in (
            {}, {"commands": []}, {"commands": {}}, {"commands": [{"drop": "I"}] * 65}, {"commands": [["drop", "I"]]},
            {"commands": [{"drop": "I", "put": "I"}]}, {"commands": [{"drop": "I\nDROP A"}]},
            {"commands": [{"drop": 7}]}, {"commands": [{"put": None, "geometry": GEOMETRY}]},
            {"commands": [{"put": True, "geometry": GEOMETRY}]}, {"commands": [{"define": False, "definition": "A"}]},
            {"commands": [{"drop": ["I"]}]}, {"commands": [{"define": "N"}]},
            {"commands": [{"put": "N", "definition": "A"}]}, {"commands": [None]},
            {"commands": [{"define": "N", "definition": "A\nDROP I"}]}, {"commands": [{"put": "N", "geometry": {}}]},
        ):
            self.refused(400, "/batch", "POST", body)
        told = self.refused(409, "/batch", "POST", {"commands": [{"drop": "I"}, {"define": "A", "definition": "B"}]})
        assert (told.value["code"], told.value["command"]) == ("12", 1)

    def test_paths_and_methods(self) -> None:
        for path in ("/nowhere", "/leaflet/../../../etc/passwd", "/leaflet/..%2f..%2fx",
                     "/leaflet/images/../leaflet.js", "/map.html.bak", "/tests.py", "/../overlay_web.py",
                     "/collections/", "/collections/9x", "/collections/" + "a" * 33, "/collections/A%0A",
                     "/collections/A/items/0x1", "/collections/A/items/9999999999", "/collections/I/items/0",
                     "/collections/I/items/2", "/collections/Z", "/collections/Z/items",
                     "/collections/Z/locate?x=1&y=1", "/collections/Z/tiles"):
            self.refused(404, path)
        for name, told in (("fl%C3%A4che", True), ("b" * 33, True), ("9x", True), ("Z/nowhere", False)):
            refused = self.refused(404, f"/collections/{name}", "PUT", {"definition": "A"})
            assert ("a name is 1 to 32 bytes" in refused.value["description"]) == told, name
        for path, method, allowed in (
            ("/status", "POST", "GET, HEAD, OPTIONS"), ("/collections", "DELETE", "GET, HEAD, OPTIONS"),
            ("/batch", "GET", "OPTIONS, POST"), ("/collections/A", "PATCH", "GET, HEAD, OPTIONS, PUT, DELETE"),
            ("/status", "get", "GET, HEAD, OPTIONS"), ("/collections/A/items", "POST", "GET, HEAD, OPTIONS"),
        ):
            assert self.refused(405, path, method).headers["Allow"] == allowed
            found = self.client.ask(path, "OPTIONS")
            assert (found.status, found.value, found.headers["Allow"]) == (200, b"", allowed)
        self.refused(404, "/nowhere", "OPTIONS")
        self.refused(403, "/status", "OPTIONS", HTTP_SEC_FETCH_SITE="cross-site")
        self.refused(403, "/status", "OPTIONS", HTTP_HOST="map.example.org")

    def test_words(self) -> None:
        items = "/collections/I/items"
        for words in ("limit=0", "limit=-1", "limit=x", "limit=", "limit=1.5", "limit=" + "9" * 19, "offset=-1",
                      "bbox=1,2,3", "bbox=", "bbox=1,2,3,x", "bbox=1,2,3,4,5", "bbox=9,0,0,9", "bbox=0,9,9,0",
                      "bbox=1e999999999,0,1,1", "bbox=0,0,1/0,1", "crs=EPSG:3857", "bbox-crs=x", "datetime=yesterday",
                      "datetime=2020-1-1", "datetime=..", "f=html", "f=xml", "colour=red", "limit=1&limit=2",
                      "limit=1&limit=1", "&".join(f"a{i}=1" for i in range(40))):
            self.refused(400, f"{items}?{words}")
        for words in ("limit=1", "limit=99999999", "offset=5", "datetime=2020-01-01T00:00:00Z/..",
                      "datetime=2020-01-01/", "f=json"):
            self.client.get(f"{items}?{words}")
        assert self.client.get(f"{items}?limit=99999999")["numberReturned"] == 1
        self.refused(409, f"{items}?revision=nothing")
        for path in ("/status?x=1", "/?x=1", "/collections?limit=3", "/map.css?v=1", "/api?limit=1",
                     "/locate?x=1&y=1&z=1"):
            self.refused(400, path)

    def test_points(self) -> None:
        for words in ("", "x=1", "y=1", "x=1&y=", "x=1,2&y=3", "x=1e999999999&y=1", "x=nan&y=1", "x=1e999&y=1",
                      "x=1&y=1/0", "x=0x1&y=1"):
            self.refused(400, f"/locate?{words}")
            self.refused(400, f"/collections/A/locate?{words}")
        for words in ("x=1048577&y=0", "x=0&y=-1048577", "x=1048576.5&y=0", "x=1e30&y=0", "x=0&y=-1e99"):
            for path in ("/locate", "/collections/A/locate"):
                told = self.refused(400, f"{path}?{words}").value
                assert told["code"] == "20"
                assert told["description"].endswith("out of the plane"), told["description"]
        assert self.client.get("/locate?x=1048576&y=-1048576")["places"]["A"] == "out"

    def test_systems_of_layers_that_have_none(self) -> None:
        for word in ("crs", "bbox-crs"):
            told = self.refused(400, f"/collections/I/items?{word}=x").value["description"]
            assert told == f"{word}: nothing is transformed, and the layers are in a plane without a name: leave it out"

    def test_tiles(self) -> None:
        assert self.refused(409, "/collections/A/tiles").value["code"] == "12"
        assert self.refused(404, "/collections/I/tiles?columns=99").value["code"] == "23"
        for columns in ("", "x", "1,", "-1", "1,,2", "100", ",".join(["1"] * 101)):
            self.refused(400, f"/collections/I/tiles?columns={columns}")


class ReadOnly(RefusalCase):
    writable = False

    def test_it_changes_nothing(self) -> None:
        for path, method, body in (("/collections/N", "PUT", {"definition": "A"}), ("/collections/I", "DELETE", None),
                                   ("/batch", "POST", {"commands": [{"drop": "I"}]})):
            assert "--writable" in self.refused(403, path, method, body).value["description"]
        assert not self.client.get("/status")["writable"]
        assert "/batch" not in self.client.get("/api")["paths"]


class Bases(RefusalCase):
    """A front behind a server that is asked under a name of its own."""

    def setUp(self) -> None:
        self.behind = Client(front.of_store(self.store, base="https://map.example.org/parcels/"))

    def test_links_begin_with_the_base(self) -> None:
        host = {"HTTP_HOST": "map.example.org"}
        links = self.behind.ask("/?f=json", headers=host).value["links"]
        assert links[0]["href"] == "https://map.example.org/parcels/?f=json"
        assert self.behind.get("/")["links"][0]["href"] == f"http://{testing.HOST}/?f=json"
        assert self.behind.ask("/status", headers={"HTTP_HOST": "other.example.org"}).status == 403

    def test_the_origin_is_that_of_the_base(self) -> None:
        own = {"HTTP_HOST": "map.example.org", "HTTP_ORIGIN": "https://map.example.org"}
        assert self.behind.ask("/collections/N", "PUT", {"definition": "A"}, own).status == 200
        foreign = own | {"HTTP_ORIGIN": "http://map.example.org"}
        assert self.behind.ask("/collections/N", "DELETE", headers=foreign).status == 403
        assert self.behind.ask("/collections/N", "DELETE", headers=own).status == 200


def reply_lost(ask: Callable[[str], list[str]], line: str) -> list[str]:
    """Asks, and gives a reply to a question alone: that to a change does not come."""
    reply = ask(line)
    if line.startswith("DEFINE"):
        raise TimeoutError("no reply")
    return reply


class Failures(unittest.TestCase):
    """Each test has a process of its own, as it harms it."""

    def setUp(self) -> None:
        self.server = self.enterContext(Server(sessions=4, program=testing.PROGRAM, timeout=60))
        self.features = found_program(FEATURES)
        self.store = LayerStore(self.server, self.features, testing.map_scale(), version=0, kept=False, writable=True)
        self.addCleanup(self.store.close)
        self.client = Client(front.of_store(self.store))
        self.client.change("/collections/A", "PUT", GEOMETRY)
        self.client.change("/collections/I", "PUT", {"definition": "A"})

    def lost(self) -> list[str]:
        return [text.partition(":")[0] for text in self.client.get("/status")["lost"]]

    def test_a_session_whose_reply_is_late_comes_back_and_the_front_goes_on(self) -> None:
        late = [self.server.sessions[0], self.server.sessions[2]]
        for one in late:
            one._wire.timeout = 0.2
            self.assertRaises(TimeoutError, one._exchange, b"no line")
            one._wire.timeout = 60
        for _ in range(5):
            assert self.client.get("/locate?x=5&y=2")["places"]["I"] == "in"
            assert self.client.get("/collections/I/items")["numberMatched"] == 1
            self.client.change("/collections/N", "PUT", {"definition": "A & I"})
        assert self.lost() == ["1 of 2 sessions for questions", "1 of 2 sessions for changes"]
        self.enterContext(unittest.mock.patch.object(layer_store, "TURN", 0.1))
        self.server.sessions[1].close()
        assert self.client.ask("/locate?x=5&y=2").status == 503
        for one in late:
            one._wire.files[0].write(b"\n")
            testing.wait_until(lambda: one.lost_since is None)
        assert self.client.get("/locate?x=5&y=2")["places"]["I"] == "in"
        assert self.lost() == ["1 of 2 sessions for questions"]

    def test_a_layer_that_is_being_built_has_its_items(self) -> None:
        """They wait for no reply of WAIT, which holds a session for as long as the layer takes."""
        built = threading.Event()
        for one in self.server.sessions:
            self.enterContext(unittest.mock.patch.object(one, "wait", side_effect=lambda name: built.wait(60)))
        self.addCleanup(built.set)
        with unittest.mock.patch.object(View, "columns", side_effect=lambda name, columns: [[], *[None] * 32]):
            for _ in range(4):
                assert self.client.get("/collections/I/tiles")["tiles"][1]["lines"] is None
                assert self.client.get("/collections/I/items")["numberMatched"] == 1
                self.client.change("/collections/N", "PUT", {"definition": "A"})
        assert not built.is_set()

    def test_a_change_whose_reply_is_late_ends_the_front(self) -> None:
        ended = self.enterContext(unittest.mock.patch.object(self.store, "_end"))
        for one in self.server.sessions[2:]:
            self.enterContext(unittest.mock.patch.object(one._wire, "reply", side_effect=TimeoutError))
        assert self.client.ask("/collections/N", "PUT", {"definition": "A"}).status == 503
        assert ended.call_count == 1
        assert self.client.ask("/locate?x=5&y=2").status == 503

    def test_all_sessions_of_a_kind_are_lost_after_a_while(self) -> None:
        self.server.sessions[2].close()
        assert not self.store.has_lost_all()
        self.server.sessions[3].lost_since = time.monotonic()
        assert not self.store.has_lost_all()
        with unittest.mock.patch.object(layer_store, "LOST", -1):
            assert self.store.has_lost_all()
        assert "2 of 2 sessions for changes: no reply for 0 seconds" in self.client.get("/status")["lost"]

    def test_a_program_that_has_ended_is_told(self) -> None:
        self.server.process.kill()
        self.server.process.wait()
        for _ in range(6):
            found = self.client.ask("/locate?x=1&y=1")
            assert (found.status, found.value["code"]) == (503, "503")
        assert self.client.ask("/collections/N", "PUT", {"definition": "A"}).status == 503

    def joins_by(self, text: str) -> None:
        """Has a script join in the place of the program."""
        self.store._features = str(self.enterContext(testing.folder()) / "joining")
        pathlib.Path(self.store._features).write_text(f"#!/bin/sh\n{text}\n")
        os.chmod(self.store._features, 0o700)

    def test_a_joining_process_that_is_killed_is_begun_anew(self) -> None:
        self.joins_by("kill -9 $$")
        found = self.client.ask("/collections/I/items")
        assert (found.status, found.headers["Retry-After"]) == (503, "1")
        assert "has been killed" in found.value["description"]
        self.store._features = self.features
        assert self.client.get("/collections/I/items")["numberMatched"] == 1

    def test_a_layer_of_too_many_pieces_is_refused(self) -> None:
        self.enterContext(unittest.mock.patch.object(layer_store, "PIECES_MOST", 2))
        found = self.client.ask("/collections/I/items")
        assert found.status == 413
        assert "3 pieces" in found.value["description"]
        assert len(self.client.get("/collections/I/tiles?columns=16")["tiles"][0]["lines"]) == 3

    def test_more_waiting_questions_than_there_are_places_are_refused(self) -> None:
        slow = self.client.front._slow
        for _ in range(front.SLOW_MOST):
            slow.acquire()
        found = self.client.ask("/collections/I/items")
        assert (found.status, found.headers["Retry-After"]) == (503, "1")
        assert self.client.get("/locate?x=5&y=2")["places"]["I"] == "in"
        self.client.change("/collections/N", "PUT", {"definition": "A"})  # changes have places of their own
        slow.release()
        self.client.get("/collections/I/items")
        changes = self.client.front._changes
        for _ in range(front.CHANGES_MOST):
            changes.acquire()
        found = self.client.ask("/collections/N", "DELETE")
        assert (found.status, found.headers["Retry-After"]) == (503, "1")
        self.client.get("/collections/I/items")

    def test_a_change_that_the_store_cannot_keep_is_told(self) -> None:
        self.store.kept = True  # in memory a SYNC is refused, as it is by a store that is full
        found = self.client.ask("/collections/N", "PUT", {"definition": "A"})
        assert (found.status, found.value["version"]) == (503, 3)
        assert "accepted as version 3, but not durable: error 46" in found.value["description"]
        status = self.client.get("/status")
        assert (status["version"], status["durable"]) == (3, 0)
        assert self.client.get("/collections/N")["definition"] == "A"

    def test_what_was_answered_is_in_the_file(self) -> None:
        """The program is killed as soon as a change is answered; each time it is there again."""
        store = self.enterContext(testing.folder()) / "map.db"
        for number in range(6):
            with Server(store, create=number == 0, sessions=2, program=testing.PROGRAM, timeout=60) as server:
                kept = LayerStore(server, self.features, testing.map_scale(), version=number, kept=True,
                                  writable=True)
                assert list(kept.layers()) == [f"L{n}" for n in range(number)]
                assert (kept.change([f"PUT L{number} {SQUARE}"]), kept.durable) == (number + 1, number + 1)
                server.process.kill()

    def test_a_change_without_a_reply_may_have_been_made(self) -> None:
        assert len(self.client.get("/collections")["collections"]) == 2
        for one in self.server.sessions:
            lost = functools.partial(reply_lost, one.ask)
            self.enterContext(unittest.mock.patch.object(one, "ask", side_effect=lost))
        assert self.client.ask("/collections/N", "PUT", {"definition": "A"}).status == 503
        assert len(self.client.get("/collections")["collections"]) == 3

    def test_one_thread_joins_for_all_that_ask(self) -> None:
        real = self.store._joined_now
        counted = self.enterContext(unittest.mock.patch.object(self.store, "_joined_now", side_effect=real))
        threads = [threading.Thread(target=self.client.get, args=("/collections/I/items",)) for _ in range(8)]
        for one in threads:
            one.start()
        for one in threads:
            one.join()
        assert counted.call_count == 1

    def test_work_that_takes_too_long_is_killed_and_others_go_on(self) -> None:
        self.joins_by("echo $$ > $0.pid; exec sleep 600")
        with unittest.mock.patch.object(layer_store, "JOINING", 0.3):
            found = self.client.ask("/collections/I/items")
        assert found.status == 413
        told = "I takes longer, and up to 200000 pieces are joined, within 0.3 seconds: ask for its tiles"
        assert found.value["description"] == told
        pid = pathlib.Path(f"{self.store._features}.pid").read_text().strip()
        assert not pathlib.Path(f"/proc/{pid}").exists()
        self.store._features = self.features
        assert self.client.ask("/collections/I/items").status == 413
        self.client.change("/collections/B", "PUT", GEOMETRY | {"coordinates": []})
        assert self.client.get("/collections/B/items")["numberMatched"] == 0
        with unittest.mock.patch.object(layer_store, "FORGOTTEN", 0):
            assert self.client.get("/collections/I/items")["numberMatched"] == 1

    def test_work_ends_with_the_front(self) -> None:
        self.joins_by("exec sleep 600")
        asked = threading.Thread(target=self.client.ask, args=("/collections/I/items",))
        asked.start()
        testing.wait_until(lambda: self.store._joining._value < layer_store.JOINED_AT_ONCE)
        self.store.close()
        asked.join(60)
        assert not asked.is_alive()

    def test_a_definition_that_is_too_long_is_told(self) -> None:
        self.client.change("/collections/B", "PUT", GEOMETRY | {"coordinates": []})
        for number in range(6):
            name = f"L{number - 1}" if number else "B"
            self.client.change(f"/collections/L{number}", "PUT", {"definition": f"({name} & A) | ({name} - A)"})
        found = self.client.ask("/collections/L5/items")
        assert found.status == 413
        assert "more than 64 names and signs" in found.value["description"]

    def test_statuses_of_refusals(self) -> None:
        for number, status in ((10, 404), (11, 409), (21, 409), (7, 400), (20, 400), (31, 503), (40, 503)):
            assert front.status_of(Refused(number, "")) == status
        assert issubclass(Ended, Exception)
