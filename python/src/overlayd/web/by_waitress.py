"""The server of the front: waitress.

Of waitress alone a connection lives as long as something comes or goes now and then, and its own refusals are plain
text. Here a request and an answer have an end, and what waitress refuses is reported as the front says it."""

import contextlib
import logging
import socket
from collections.abc import Callable
from typing import Any

import waitress
from waitress.channel import HTTPChannel
from waitress.task import ErrorTask

from .front import HEADERS, Front, refusal
from .pages import BODY_READ
from .serving import (ANSWER_SECONDS, LINE_MOST, PORT_MOST, QUIET_SECONDS, REQUEST_SECONDS, THREADS, Unheard,
                      connections_most, tell_fewer, print_address)


class Refusal(ErrorTask):
    """What waitress refuses, as a header that is too large, a body as well, or a request that cannot be read."""

    def execute(self) -> None:
        fault = self.request.error
        answer = refusal(fault.code, fault.code, f"{fault.reason}: {fault.body}")
        self.status = f"{fault.code} {fault.reason}"
        self.response_headers += [*HEADERS.items(), ("Content-Type", answer.content_type), ("Connection", "close")]
        self.close_on_finish = True
        self.content_length = len(answer.data)
        self.write(answer.data)


class Channel(HTTPChannel):
    error_task_class = Refusal


class Ends:
    """Ends a connection whose request does not come, or whose answer is not taken, in time. It looks each second."""

    def __init__(self, server: Any, seconds: tuple[float, float] = (REQUEST_SECONDS, ANSWER_SECONDS)) -> None:
        self._server, self._usual = server, server.maintenance
        self._request_seconds, self._answer_seconds = seconds
        self._since: dict[Any, tuple[object, float]] = {}

    def __call__(self, now: float) -> None:
        self._usual(now)
        since = {}
        for channel in list(self._server.active_channels.values()):
            comes = channel.request  # one of which a part has come
            what = comes or ("answer" if channel.total_outbufs_len else None)
            if what is not None:
                known, began = self._since.get(channel, (None, now))
                since[channel] = (what, began if known is what else now)
                most = self._request_seconds if comes else self._answer_seconds
                if now - since[channel][1] > most:
                    end(channel)
        self._since = since


def end(channel: HTTPChannel) -> None:
    """Has a channel closed: it is when it can be written next, which the other end would put off."""
    channel.will_close = True
    with contextlib.suppress(OSError):
        channel.socket.shutdown(socket.SHUT_RDWR)


def server_of(front: Front, host: str, port: int, make_ends: Callable[[Any], Ends] = Ends) -> Any:
    """A server that listens; its run answers questions."""
    server = waitress.create_server(
        front,
        host=host,
        port=port,
        threads=THREADS,
        connection_limit=connections_most(),
        asyncore_use_poll=True,  # select takes no file whose number is above 1023
        max_request_body_size=BODY_READ,
        max_request_header_size=LINE_MOST,
        channel_timeout=QUIET_SECONDS,
        cleanup_interval=1,
        outbuf_high_watermark=1 << 30,  # an answer goes to a file, and its thread on, where the client is slow
        ident=None,
    )
    logging.getLogger("waitress.queue").setLevel(logging.ERROR)  # that a question waits for a thread is no fault
    server.channel_class = Channel
    server.maintenance = make_ends(server)
    return server


def serve(front: Front, host: str, port: int) -> None:
    """Answers questions until it is ended by a signal. It prints its address on standard output when it listens; before
    that it says on standard error where it has fewer places than usual."""
    host = "127.0.0.1" if host == "localhost" else host
    if not 0 <= port <= PORT_MOST:
        raise Unheard(host, port, f"a port is 0 to {PORT_MOST}")
    try:
        server = server_of(front, host, port)
    except (OSError, ValueError) as fault:  # a ValueError for a name that nobody has
        raise Unheard(host, port, fault) from fault
    tell_fewer(connections_most())
    print_address(host, server.effective_port)
    server.run()
