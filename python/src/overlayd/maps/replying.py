"""Does a task that comes as bytes: a block, to which a program replies."""

import contextlib
import subprocess
from dataclasses import dataclass

TRIES = 3  # of a block whose program ends each time
SAID = 400  # bytes of what a program says that are told


class ProgramEnded(Exception):
    """A program that ended without its reply."""


@dataclass(frozen=True)
class ByProgram:
    """What makes the reply of a block; it goes from process to process."""

    path: str

    def __call__(self, block: bytes) -> bytes:
        """The reply, by another program where one ended."""
        for _ in range(TRIES - 1):
            with contextlib.suppress(ProgramEnded):
                return self._reply(block)
        return self._reply(block)

    def _reply(self, block: bytes) -> bytes:
        done = subprocess.run([self.path], input=block, stdout=subprocess.PIPE, stderr=subprocess.PIPE, check=False)
        length = int.from_bytes(done.stdout[:8], "little")
        if len(done.stdout) < 8 or len(done.stdout) != length:
            told = done.stderr[-SAID:].decode(errors="replace").strip()
            raise ProgramEnded(f"{self.path}: status {done.returncode}, no reply {told}".strip())
        return done.stdout
