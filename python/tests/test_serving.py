"""Tests of the server: slow clients hold up no other and come to an end, and what a server refuses is an object."""

import contextlib
import functools
import json
import socket
import threading
import unittest.mock
from collections.abc import Iterable, Iterator
from typing import Any

import pytest

from overlayd.web import by_waitress, pages, serving
from overlayd.web.pages import BODY_MOST
from .testing import SQUARE, FrontCase, wait_until

pytestmark = pytest.mark.live

HEAD = b"GET /status HTTP/1.1\r\nHost: 127.0.0.1\r\n"


def read_all(link: socket.socket) -> bytes:
    """What comes until the other end closes, or breaks off."""
    found = b""
    with contextlib.suppress(ConnectionError):
        while more := link.recv(1 << 16):
            found += more
    return found


def parted(answer: bytes) -> tuple[int, dict[str, str], Any]:
    """The status, the headers and the object of an answer."""
    head, _, body = answer.partition(b"\r\n\r\n")
    lines = head.decode().split("\r\n")
    return int(lines[0].split()[1]), dict(line.split(": ", 1) for line in lines[1:]), json.loads(body)


class Serving(FrontCase):
    """The server of the front, in this process."""

    lines = (f"PUT A {SQUARE}", "DEFINE I = A")
    port: int

    def begin(self, request_seconds: float, answer_seconds: float) -> None:
        make_ends = functools.partial(by_waitress.Ends, seconds=(request_seconds, answer_seconds))
        server = by_waitress.server_of(self.front, "127.0.0.1", 0, make_ends)
        thread = threading.Thread(target=server.run, daemon=True)
        thread.start()
        self.port, self.channels = server.effective_port, server.active_channels
        self.addCleanup(server.close)
        self.addCleanup(thread.join, 60)
        self.addCleanup(setattr, server, "maintenance", unittest.mock.Mock(side_effect=SystemExit))

    def open_ones(self) -> int:
        return len(self.channels)

    def many(self, sent: bytes, count: int = serving.THREADS + 4) -> list[socket.socket]:
        """So many connections, more than there are threads, by each of which so much is sent."""
        links = [self.connected() for _ in range(count)]
        for link in links:
            link.sendall(sent)
        return links

    def connected(self) -> socket.socket:
        return self.enterContext(socket.create_connection(("127.0.0.1", self.port), timeout=60))

    def asked(self, sent: bytes) -> tuple[int, dict[str, str], Any]:
        link = self.connected()
        with contextlib.suppress(ConnectionError):  # of a long body that is not read to its end
            link.sendall(sent)
        return parted(read_all(link))

    def status(self) -> int:
        return self.asked(HEAD + b"Connection: close\r\n\r\n")[0]

    @contextlib.contextmanager
    def trickling(self, links: Iterable[socket.socket]) -> Iterator[None]:
        """Sends a byte by each connection again and again, so that none is still."""
        ended = threading.Event()

        def trickle() -> None:
            while not ended.wait(0.05):
                for link in links:
                    with contextlib.suppress(OSError):
                        link.send(b"a")

        thread = threading.Thread(target=trickle)
        thread.start()
        try:
            yield
        finally:
            ended.set()
            thread.join()

    def slow(self, begin: bytes) -> None:
        """Requests that begin so and go on byte by byte: others are answered meanwhile, and each comes to an end."""
        self.begin(600, 600)
        links = self.many(begin)
        with self.trickling(links):
            assert self.status() == 200
        self.begin(1, 600)
        with self.trickling(links := self.many(begin)[:2]):
            for link in links:
                read_all(link)
            assert self.status() == 200

    def test_slow_heads(self) -> None:
        self.slow(HEAD + b"X: ")

    def test_many_slow_clients(self) -> None:
        """Beside 250 who do not send their request to its end others are answered
        (trials/slow_clients.py has 900)."""
        self.begin(600, 600)
        with self.trickling(self.many(HEAD + b"X: ", 250)):
            assert [self.status() for _ in range(10)] == [200] * 10

    def test_slow_bodies(self) -> None:
        head = HEAD.replace(b"GET /status", b"PUT /collections/N")
        self.slow(head + b"Content-Type: application/json\r\nContent-Length: 100000\r\n\r\n{")

    def test_slow_readers(self) -> None:
        """Clients that take no answer, which is longer than what is on its way: others are answered, and each ends."""
        large = pages.sent({"a": "b" * 20_000_000})
        self.enterContext(unittest.mock.patch.object(self.front, "app", large))
        self.begin(600, 600)
        self.many(HEAD + b"\r\n")
        assert self.status() == 200
        self.begin(600, 1)
        links = self.many(HEAD + b"\r\n")
        for link in links:
            link.recv(1, socket.MSG_PEEK)
        wait_until(lambda: self.open_ones() == 0)
        for link in links:
            assert len(read_all(link)) < len(large.data)

    def test_own_refusals(self) -> None:
        self.begin(60, 60)
        put = HEAD.replace(b"GET /status", b"PUT /collections/N") + b"Content-Type: application/json\r\n"
        for sent, statuses in (
            (b"GET /" + b"a" * 200_000 + b" HTTP/1.1\r\n\r\n", {414, 431}),
            (HEAD + b"X: " + b"a" * 200_000 + b"\r\n\r\n", {431}), (HEAD + b"X: a\r\n" * 20_000 + b"\r\n", {431}),
            (b"GET /status HTTP/x\r\n\r\n", {400, 403}), (put + b"Content-Length: -1\r\n\r\n", {400, 411}),
            (put + b"Content-Length: 3000000\r\n\r\n" + b" " * 3_000_000, {413}),
            (put + b"Content-Length: %d\r\n\r\n" % (BODY_MOST + 1) + b" " * (BODY_MOST + 1), {413}),
            (put + b"Content-Length: 5\r\n\r\n{\"a\":", {400}),
        ):
            status, headers, value = self.asked(sent)
            assert status in statuses, sent[:60]
            assert (headers["Content-Type"], value["code"]) == ("application/json", str(status)), sent[:60]
            assert "description" in value
        assert self.status() == 200
