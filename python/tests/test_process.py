"""Tests of the front as a process: its words, its end, and what it reads of a store."""

import contextlib
import os
import pathlib
import resource
import signal
import socket
import subprocess
import sys
import unittest
import urllib.parse
import urllib.request
from collections.abc import Iterator, Sequence

import pytest

from overlayd.commands import serve as overlay_web
from overlayd.program import Server
from overlayd.words import words_of

from . import testing
from .common import SOURCES, TOP, children
from .stressing import asked

pytestmark = pytest.mark.live


def started(*words: str | pathlib.Path, lacking: str = "os.no_module", by: Sequence[str] = ()) -> subprocess.Popen[str]:
    """A front, with a free port unless words name one, in a Python that lacks a module, run by other words. An
    interrupt reaches it as from a terminal, also where the tests run in a shell that ignores interrupts."""
    code = (
        "import signal, sys; signal.signal(signal.SIGINT, signal.default_int_handler); "
        f"sys.modules['{lacking}'] = None; "
        "from overlayd import cli; cli.main(['serve', *sys.argv[1:]])"
    )
    usual = {"--program": testing.PROGRAM, "--port": "0"}
    missing = [word for option, value in usual.items() if option not in words for word in (option, value)]
    given = [*by, sys.executable, "-c", code, *missing, *map(str, words)]
    return subprocess.Popen(given, cwd=TOP, env=SOURCES, stdout=subprocess.PIPE, stderr=subprocess.PIPE, text=True,
                            start_new_session=True)


@contextlib.contextmanager
def running(*words: str | pathlib.Path, by: Sequence[str] = ()) -> Iterator[tuple[subprocess.Popen[str], str]]:
    """A front and its address; it is killed where the test has not ended it."""
    run = started(*words, by=by)
    assert run.stdout
    try:
        yield run, run.stdout.readline().strip()
    finally:
        run.kill()
        run.communicate()


class Processes(unittest.TestCase):
    def setUp(self) -> None:
        self.folder = self.enterContext(testing.folder())
        self.store = testing.square_store(self.folder)
        (self.folder / "map.scale.json").write_text('{"title": "T", "factor": 10, "unit": "m"}')

    def ended(self, run: subprocess.Popen[str]) -> tuple[int, str]:
        _, told = run.communicate(timeout=120)
        return run.returncode, told

    def test_it_changes_a_store_durably_and_ends_by_a_signal(self) -> None:
        with running("--store", self.store, "--writable") as (run, address):
            assert asked(address, "GET", "/status")[1]["durable"] == 1
            assert asked(address, "PUT", "/collections/N", b'{"definition": "I"}')[1] == \
                {"version": 2, "durable": 2, "moved": 0.0}
            assert asked(address, "GET", "/collections/N/items")[1]["features"][0]["properties"]["area"] == 1
            assert asked(address, "GET", "/locate?x=0.5&y=0.5")[1]["asked"] == [5, 5, 1]
            run.send_signal(signal.SIGTERM)
            assert self.ended(run) == (0, "")
        with Server(self.store, program=testing.PROGRAM) as server:
            assert server.sessions[0].sync() == 2

    def test_an_interrupt_of_the_terminal_ends_it_in_order(self) -> None:
        with running("--store", self.store, "--writable") as (run, address):
            asked(address, "GET", "/collections/I/items")
            os.killpg(run.pid, signal.SIGINT)  # a terminal sends it to all that the front began
            assert self.ended(run) == (0, "")

    def test_several_fronts_read_one_store(self) -> None:
        before = self.store.read_bytes()
        with running("--store", self.store) as (_, first), running("--store", self.store) as (_, second):
            for address in (first, second):
                status = asked(address, "GET", "/status")[1]
                assert (status["version"], status["durable"], status["writable"], status["title"]) == (1, 1, False, "T")
                assert asked(address, "GET", "/collections/I/items")[1]["numberMatched"] == 1
                assert asked(address, "DELETE", "/collections/I")[0] == 403
            with running("--store", self.store, "--writable") as (run, address):
                status, text = self.ended(run)
                assert (address, status, text.count("\n")) == ("", 1, 1)
                assert text.startswith(f"{self.store}: error 30 device"), text
        assert self.store.read_bytes() == before

    def test_it_ends_where_the_program_has_ended(self) -> None:
        with running("--store", self.store, "--writable") as (run, address):
            asked(address, "GET", "/status")
            found = [
                pid for pid in children(run.pid)
                if f"--store\0{self.store}" in pathlib.Path(f"/proc/{pid}/cmdline").read_text()
            ]
            assert len(found) == 1
            os.kill(found[0], signal.SIGKILL)
            assert self.ended(run) == (1, "overlay_live has ended with status -9\n")

    def test_a_copy_takes_the_place_of_a_store_that_is_not_written_any_more(self) -> None:
        program = testing.program_that_ignores_a_full_file(self.folder)
        with running("--store", self.store, "--writable", "--program", program) as (run, address):
            assert asked(address, "PUT", "/collections/N", b'{"definition": "I"}')[1]["durable"] == 2
            (pid,) = [
                pid for pid in children(run.pid)
                if f"--store\0{self.store}" in pathlib.Path(f"/proc/{pid}/cmdline").read_text()
            ]
            resource.prlimit(pid, resource.RLIMIT_FSIZE, (0, resource.RLIM_INFINITY))
            status, value = asked(address, "PUT", "/collections/M", b'{"definition": "I"}')
            assert (status, value["version"]) == (503, 3)
            status, told = self.ended(run)
            assert status == 1
            assert "the store is not written any more: error 30 device; a copy is in its place" in told
        with running("--store", self.store, "--writable") as (run, address):
            status = asked(address, "GET", "/status")[1]
            assert (status["version"], status["durable"], status["layers"], status["lost"]) == (2, 2, 3, [])
            assert asked(address, "PUT", "/collections/M", b'{"definition": "I"}')[1]["durable"] == 3
        assert sorted(path.name for path in self.folder.glob("map.db*")) == ["map.db"]

    def test_with_fewer_files_it_has_fewer_places_and_says_how_many(self) -> None:
        for files, told in (
                ("1024", "the system lets the front have 1024 open files: it takes 274 connections at once; with 3200 "
                 "(ulimit -Hn, or LimitNOFILE of systemd) it takes 1000\n"), ("4000", "")):
            with running("--store", self.store, by=("prlimit", f"--nofile={files}:{files}")) as (run, address):
                host, _, port = urllib.parse.urlsplit(address).netloc.partition(":")
                with contextlib.ExitStack() as links:
                    for _ in range(270):
                        links.enter_context(socket.create_connection((host, int(port)), 60)).sendall(
                            b"GET /status HTTP/1.1\r\n")
                    assert asked(address, "GET", "/status")[0] == 200
                run.terminate()
                assert self.ended(run) == (0, told)

    def test_it_begins_a_store(self) -> None:
        with running("--store", self.folder / "new.db", "--create", "--writable") as (_, address):
            assert asked(address, "GET", "/status")[1]["version"] == 0
            assert asked(address, "GET", "/collections")[1]["collections"] == []
        with running("--writable") as (_, address):
            assert asked(address, "GET", "/status")[1]["durable"] is None

    def test_stores_and_scales_that_cannot_be_opened(self) -> None:
        tries: list[tuple[list[str | pathlib.Path], str]] = [
            (["--store", self.folder / "none.db"], "error 30 device"),
            (["--store", self.store, "--scale", self.folder / "none.json"], "none.json"),
            (["--store", self.folder / "map.scale.json"], "error 32 not a store"),
            (["--store", self.store, "--create", "--writable"], "error 34 not empty"),
        ]
        for words, told in tries:
            with running(*words) as (run, address):
                status, text = self.ended(run)
                assert (status, address) == (1, "")
                assert told in text
                assert text.count("\n") == 1, text

    def test_a_program_that_is_not_there_is_told_by_its_name(self) -> None:
        absent = self.folder / "nofile"
        for words in (["--store", self.store], ["--writable"]):
            with running(*words, "--program", absent) as (run, _):
                assert self.ended(run) == (1, f"{absent}: No such file or directory\n")

    def test_a_package_that_is_missing_is_named_with_the_line_to_type(self) -> None:
        scale = self.folder / "projected.json"
        scale.write_text('{"factor": 10, "crs": "EPSG:25832"}')
        for module in ("flask", "waitress", "cachetools", "pyproj"):
            told = f"python3-{module} is missing: apt-get install python3-{module}, and run this by /usr/bin/python3"
            run = started("--store", self.store, "--scale", scale, lacking=module)
            assert self.ended(run) == (1, f"overlay serve: {told}\n")

    def test_addresses_at_which_nobody_can_listen(self) -> None:
        with socket.create_server(("127.0.0.1", 0)) as other:
            taken = other.getsockname()[1]
            tries: list[tuple[list[str | pathlib.Path], str]] = [
                (["--writable", "--port", str(taken)],
                 f"127.0.0.1 port {taken}: another program listens there; say another --port"),
                (["--store", self.store, "--port", str(taken)],
                 f"127.0.0.1 port {taken}: another program listens there; say another --port"),
                (["--writable", "--port", "65536"], "127.0.0.1 port 65536: a port is 0 to 65535"),
                (["--store", self.store, "--host", "192.0.2.1"], "192.0.2.1 port 0: "),  # an address of documents
                (["--store", self.store, "--host", "a b"], "a b port 0: "),
            ]
            for words, told in tries:
                with running(*words) as (run, address):
                    status, text = self.ended(run)
                    assert (status, address) == (1, ""), words
                    assert (text[: len(told)], text.count("\n")) == (told, 1), text

    def test_words(self) -> None:
        for line in ("--store map.db --writable --host 0.0.0.0", "--writable --host ::", "", "--create",
                     "--store map.db --create", "--writable --host map.example.org", "--colour",
                     "--store map.db --base map.example.org", "--store map.db --base http://[",
                     "--store map.db --base http://", "--store map.db --base https://map.example.org:port",
                     "--store map.db --workers 9", "--store map.db --workers 0"):
            with running(*line.split()) as (run, _):
                status, text = self.ended(run)
                assert (status, "Traceback" in text) == (2, False), line
        words = words_of(overlay_web.command, ["--store", "map.db", "--host", "10.1.2.3", "--name", "Map.Example.Org"])
        assert overlay_web.hosts_of(words) == {"10.1.2.3", "map.example.org"}
        words = words_of(overlay_web.command, ["--store", "map.db", "--host", "127.0.0.2"])
        assert overlay_web.hosts_of(words) == {"127.0.0.2", "127.0.0.1", "localhost", "[::1]"}
        self.assertTrue(
            overlay_web.is_loopback("127.8.8.8") and overlay_web.is_loopback("::1")
            and overlay_web.is_loopback("localhost")
        )
        assert not (overlay_web.is_loopback("localhost.example") or overlay_web.is_loopback("0.0.0.0"))
