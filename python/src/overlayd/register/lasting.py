"""The program as a process that stays: a refresh asks little, and to begin a process costs more than the answer."""

import dataclasses
import queue
from collections.abc import Generator, Iterable, Iterator
from typing import cast

from ..kernel.rows import Rows
from ..kernel.running import GoesOn, ProgramEnded, always, run
from .answers import Program


class Lasting:
    """A process that is asked a block at a time, as `runs` of how questions are asked. After it has refused a block, or
    has ended, the next one begins it anew."""

    def __init__(self) -> None:
        self.blocks: queue.SimpleQueue[bytes | None] = queue.SimpleQueue()
        self.replies: Generator[Rows, None, None] | None = None

    def __call__(self, program: str, blocks: Iterable[bytes], goes_on: GoesOn = always) -> Iterator[Rows]:
        """The rows of some blocks, one after the other."""
        for block in blocks:
            yield self.reply(program, block)

    def reply(self, program: str, block: bytes) -> Rows:
        """The rows of one block."""
        if self.replies is None:
            self.blocks = queue.SimpleQueue()
            own = cast("Iterator[bytes]", iter(self.blocks.get, None))
            self.replies = cast("Generator[Rows, None, None]", run(program, own))
        self.blocks.put(block)
        try:
            return next(self.replies)
        except StopIteration:
            self.close()
            raise ProgramEnded(0, "no reply") from None
        except BaseException:
            self.close()
            raise

    def close(self) -> None:
        """Ends the process."""
        self.blocks.put(None)
        if self.replies is not None:
            self.replies.close()
            self.replies = None


def lasting(program: Program) -> Program:
    """A program asked by one process that stays."""
    return dataclasses.replace(program, ask=dataclasses.replace(program.ask, runs=Lasting()))
