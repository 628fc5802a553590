"""Tests of what becomes of a store that is not written any more."""

import errno
import resource
import threading
import unittest
import unittest.mock

import pytest

from overlayd.program import Refused, Server, Session
from overlayd.web import rescue
from overlayd.web.front import of_store
from overlayd.web.layer_store import LayerStore
from overlayd.web.rescue import Rescue, put_copy
from . import testing
from .testing import SQUARE, Client

pytestmark = pytest.mark.live


class Copies(unittest.TestCase):
    def setUp(self) -> None:
        self.folder = self.enterContext(testing.folder())
        self.store = testing.square_store(self.folder)
        self.store.chmod(0o640)
        self.before, self.file = self.store.read_bytes(), self.store.stat().st_ino

    def is_left(self) -> None:
        assert (self.store.read_bytes(), self.store.stat().st_ino) == (self.before, self.file)
        assert [path.name for path in self.folder.iterdir()] == ["map.db"]

    def test_a_copy_is_another_file_with_the_same_layers(self) -> None:
        put_copy(self.store, testing.PROGRAM)
        assert self.store.stat().st_ino != self.file
        assert self.store.stat().st_mode & 0o777 == 0o640
        assert [path.name for path in self.folder.iterdir()] == ["map.db"]
        with Server(self.store, program=testing.PROGRAM) as server:
            assert [layer.name for layer in server.sessions[0].layers()] == ["A", "I"]

    def test_a_link_to_a_store_stays_one(self) -> None:
        link = self.folder / "link.db"
        link.symlink_to(self.store)
        put_copy(link, testing.PROGRAM)
        assert link.is_symlink()
        assert self.store.stat().st_ino != self.file

    def test_without_room_nothing_is_copied(self) -> None:
        with unittest.mock.patch("shutil.disk_usage", return_value=unittest.mock.Mock(free=1)):
            self.assertRaises(OSError, put_copy, self.store, testing.PROGRAM)
        self.is_left()
        with unittest.mock.patch("shutil.copyfileobj", side_effect=OSError(errno.ENOSPC, "no room")):
            self.assertRaises(OSError, put_copy, self.store, testing.PROGRAM)
        self.is_left()

    def test_a_copy_that_cannot_be_opened_takes_no_place(self) -> None:
        self.store.write_text("no store")
        self.before = self.store.read_bytes()
        self.assertRaises(Refused, put_copy, self.store, testing.PROGRAM)
        self.is_left()


class Rescues(unittest.TestCase):
    """A front over a store whose writes fail."""

    def setUp(self) -> None:
        folder = self.enterContext(testing.folder())
        self.path = folder / "map.db"
        program = str(testing.program_that_ignores_a_full_file(folder))
        self.server = self.enterContext(Server(self.path, create=True, sessions=4, program=program, timeout=60))
        self.ended, self.reasons = threading.Event(), list[str]()
        self.store = LayerStore(self.server, "overlay_features", testing.map_scale(), version=0, kept=True,
                                writable=True, rescue=Rescue(self.path, program, self.end))
        self.addCleanup(self.store.close)
        self.client = Client(of_store(self.store))
        self.store.change([f"PUT A {SQUARE}"])

    def end(self, reason: str) -> None:
        self.reasons.append(reason)
        self.ended.set()

    def test_changes_are_refused_until_there_is_room_and_then_a_copy_stands_there(self) -> None:
        room = threading.Event()

        def usage(_: object) -> unittest.mock.Mock:
            return unittest.mock.Mock(free=2**40 if room.is_set() else 0)

        self.enterContext(unittest.mock.patch("shutil.disk_usage", side_effect=usage))
        self.enterContext(unittest.mock.patch.object(rescue, "AGAIN", 0.01))
        resource.prlimit(self.server.process.pid, resource.RLIMIT_FSIZE, (0, resource.RLIM_INFINITY))
        found = self.client.ask("/collections/D", "PUT", {"definition": "A"})
        assert (found.status, found.value["version"]) == (503, 2)
        for _ in range(3):
            found = self.client.ask("/collections/E", "PUT", {"definition": "A"})
            assert (found.status, found.headers["Retry-After"]) == (503, "5")
            assert "nothing is changed: the store is not written any more" in found.value["description"]
        testing.wait_until(lambda: "are free" in self.client.get("/status")["lost"][0])
        assert self.client.get("/locate?x=5&y=5")["places"] == {"A": "in", "D": "in"}
        assert not self.ended.is_set()
        room.set()
        assert self.ended.wait(60)
        assert len(self.reasons) == 1
        self.server.close()
        with Server(self.path, program=testing.PROGRAM) as server:
            assert [layer.name for layer in server.sessions[0].layers()] == ["A"]
            assert server.sessions[0].sync() == 1
            server.sessions[0].put("B", SQUARE)
            assert server.sessions[0].sync() == 2

    def test_what_is_durable_never_becomes_less(self) -> None:
        """The reply to the first of two changes comes last: it says less than what is known by then."""
        second, sync = threading.Event(), Session.sync

        def late(one: Session) -> int:
            durable = sync(one)
            if durable == 2:
                second.wait(60)
            return durable

        self.enterContext(unittest.mock.patch.object(Session, "sync", late))
        first = threading.Thread(target=self.client.change, args=("/collections/D", "PUT", {"definition": "A"}))
        first.start()
        testing.wait_until(lambda: bool(self.client.get("/status")["version"] == 2))
        assert self.client.change("/collections/E", "PUT", {"definition": "A"})["durable"] == 3
        second.set()
        first.join(60)
        assert self.client.get("/status")["durable"] == 3

    def test_a_store_that_is_written_again_with_the_next_command_is_left(self) -> None:
        for number in (31, 36, 40, 46):
            self.store._rescue.begin(Refused(number, "text"))  # type: ignore[union-attr]
        assert self.client.get("/status")["lost"] == []
        self.client.change("/collections/D", "PUT", {"definition": "A"})
