"""What the server of the front is given: how many it may answer at once and for how long, and where it listens."""

import errno
import resource
import sys

from .front import CHANGES_MOST, SLOW_MOST

THREADS = SLOW_MOST + CHANGES_MOST + 4
CONNECTIONS_MOST = 1000
"""How many connections are open at once; the next one waits until one of them ends."""
FILES_MOST, FILES_OWN = 3 * CONNECTIONS_MOST + 200, 200
"""How many files the front may need: of each connection a body and an answer may be files too, and some are its own."""
REQUEST_SECONDS, ANSWER_SECONDS = 60.0, 300.0
"""How long a request may take to come, and an answer to go."""
QUIET_SECONDS = 30
"""How long a connection to waitress may be open and still."""
LINE_MOST = 1 << 16
PORT_MOST = 65535


class Unheard(Exception):
    """Why nobody can listen at an address."""

    def __init__(self, host: str, port: int, reason: object) -> None:
        super().__init__(f"{host} port {port}: {reason_text(reason)}")


def reason_text(reason: object) -> str:
    """A reason in words; where another program listens, with what to do."""
    if isinstance(reason, OSError) and reason.errno == errno.EADDRINUSE:
        return "another program listens there; say another --port, or 0 for a free one"
    return str(isinstance(reason, OSError) and reason.strerror or reason)


def print_address(host: str, port: int) -> None:
    print(f"http://{f'[{host}]' if ':' in host else host}:{port}/", flush=True)


def connections_most() -> int:
    """How many connections the system has files for. It is asked for as many as all of them may need."""
    allowed, most = resource.getrlimit(resource.RLIMIT_NOFILE)
    if allowed != resource.RLIM_INFINITY and allowed < FILES_MOST:
        allowed = FILES_MOST if most == resource.RLIM_INFINITY else min(FILES_MOST, most)
        resource.setrlimit(resource.RLIMIT_NOFILE, (allowed, most))
    return CONNECTIONS_MOST if allowed >= FILES_MOST or allowed < 0 else max(1, (allowed - FILES_OWN) // 3)


def tell_fewer(connections: int) -> None:
    """Says on standard error that there are files for fewer connections than usual, and how there are more."""
    if connections < CONNECTIONS_MOST:
        allowed = resource.getrlimit(resource.RLIMIT_NOFILE)[0]
        print(f"the system lets the front have {allowed} open files: it takes {connections} connections at once; with "
              f"{FILES_MOST} (ulimit -Hn, or LimitNOFILE of systemd) it takes {CONNECTIONS_MOST}", file=sys.stderr,
              flush=True)
