"""Are others answered while 900 clients of the front send their requests a line at a time, and does each of those come
to an end?

Each slow client sends a line of its head, or some bytes of its body, every 4 seconds, until the front closes it.
Meanwhile another one asks where a point lies, twice a second, and each answer has to come within 5 seconds. Not of the
gate, whose tests have 250 slow clients for some seconds.

    python3 -m overlayd_lab.trials.slow_clients [--program PATH] [--python PATH] [--clients 900]

Status 0 and a last line `N passed, 0 failed`, or what fell."""

import contextlib
import http.client
import pathlib
import socket
import subprocess
import sys
import tempfile
import time
import urllib.parse
from collections.abc import Iterator

from overlayd.program import Server

from overlayd_lab import TOP
from overlayd_lab.counting import Tries, Words

PROGRAM = TOP / "crates/overlay_live/out/overlay_live"
LAST, LINES, PAUSE = 80.0, 4.0, 0.5
"""How many seconds the slow ones are looked at, and how many pass between two lines of theirs, and two questions."""
ANSWER = 5.0
HEAD = b"GET /conformance HTTP/1.1\r\nHost: 127.0.0.1\r\n"
BODY = (b"PUT /collections/x HTTP/1.1\r\nHost: 127.0.0.1\r\nContent-Type: application/json\r\n"
        b"Content-Length: 900000\r\n\r\n{")


@contextlib.contextmanager
def front(program: str, python: str) -> Iterator[str]:
    """The address of a front over a store of one square, which has to end with 0."""
    with tempfile.TemporaryDirectory() as folder:
        store = pathlib.Path(folder, "map.db")
        with Server(store, create=True, program=program) as server:
            server.sessions[0].batch(["PUT A POLYGON ((0 0, 10 0, 10 10, 0 10, 0 0))", "DEFINE both = A"])
        words = [python, str(TOP / "overlay"), "serve", "--store", str(store), "--writable", "--port", "0", "--program",
                 program]
        with subprocess.Popen(words, stdout=subprocess.PIPE, text=True) as run:
            assert run.stdout
            yield run.stdout.readline().strip()
            run.terminate()
        if run.returncode:
            sys.exit(f"the front ended with status {run.returncode}")


class Slow:
    """Clients that send a little now and then, each until the front closes it."""

    def __init__(self, where: tuple[str, int], count: int, begin: bytes, more: bytes) -> None:
        self.open_ones, self._more = [socket.create_connection(where, timeout=60) for _ in range(count)], more
        for link in self.open_ones:
            link.sendall(begin)
            link.setblocking(False)

    def go_on(self) -> None:
        """Sends more by each, and forgets those that are closed."""
        self.open_ones = [link for link in self.open_ones if not self._is_closed(link)]

    def _is_closed(self, link: socket.socket) -> bool:
        with contextlib.suppress(BlockingIOError):
            try:
                link.send(self._more)
                link.recv(1 << 16)
            except ConnectionError:
                pass
            link.close()
            return True
        return False


def waited(where: tuple[str, int]) -> float | None:
    """How many seconds a question takes; None where it has no answer in time."""
    begin = time.monotonic()
    link = http.client.HTTPConnection(*where, timeout=ANSWER)
    try:
        link.request("GET", "/collections/both/locate?x=1&y=1")
        return time.monotonic() - begin if link.getresponse().status == 200 else None
    except OSError:
        return None
    finally:
        link.close()


def tried(tries: Tries, address: str, what: str, count: int, begin: bytes, more: bytes) -> None:
    parts = urllib.parse.urlsplit(address)
    where = parts.hostname or "", parts.port or 80
    began, sent, waits = time.monotonic(), 0.0, list[float | None]()
    slow = Slow(where, count, begin, more)
    while slow.open_ones and time.monotonic() - began < LAST:
        if time.monotonic() - sent > LINES:
            sent = time.monotonic()
            slow.go_on()
        waits.append(waited(where))
        time.sleep(PAUSE)
    took = sorted(one for one in waits if one is not None)
    tries.that(len(took) == len(waits) and took,
               f"{count} slow {what}: {len(took)} of {len(waits)} others answered, half within "
               f"{1000 * took[len(took) // 2]:.0f} ms, all within {1000 * took[-1]:.0f} ms" if took
               else f"{what}: no answer")
    tries.that(not slow.open_ones,
               f"{count - len(slow.open_ones)} of {count} closed after {time.monotonic() - began:.0f} s")


def main() -> int:
    parser = Words(__doc__)
    parser.add_argument("--program", default=str(PROGRAM), metavar="PATH")
    parser.add_argument("--python", default=sys.executable, metavar="PATH", help="the Python that runs the front")
    parser.add_argument("--clients", type=int, default=900, metavar="N", help="how many are slow (default 900)")
    words, tries = parser.parse_args(), Tries()
    with front(words.program, words.python) as address:
        tried(tries, address, "heads", words.clients, HEAD, b"X-A: b\r\n")
        tried(tries, address, "bodies", words.clients, BODY, b"        ")
    return tries.end()


if __name__ == "__main__":
    sys.exit(main())
