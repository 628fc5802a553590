"""Asks a question in a thread beside, so that the algorithm's own thread shows how far it is, and can be cancelled."""

from __future__ import annotations

import threading
from collections.abc import Callable
from typing import Any, TypeVar

from .ext.overlayd.kernel import Cancelled

PATIENCE = 0.1  # seconds between two looks
Answer = TypeVar("Answer")
GoesOn = Callable[[float], bool]


class State:
    """How much is done, from 0 to 1, and whether the question is to end."""

    def __init__(self) -> None:
        self.part, self.ends = 0.0, False

    def goes_on(self, part: float) -> bool:
        """What the kernel asks, in threads of its own, which may not touch QGIS."""
        self.part = part
        return not self.ends


def answered(question: Callable[[GoesOn], Answer], feedback: Any) -> Answer:
    """The answer to a question that is handed a way to ask whether it goes on; Cancelled where the user has cancelled:
    then the question ends soon, in its thread."""
    state, came, faults = State(), [], []

    def ask() -> None:
        try:
            came.append(question(state.goes_on))
        except BaseException as fault:  # raised in the algorithm's thread, below
            faults.append(fault)

    beside = threading.Thread(target=ask, daemon=True)
    beside.start()
    while beside.is_alive():
        beside.join(PATIENCE)
        feedback.setProgress(100 * state.part)
        if feedback.isCanceled():
            state.ends = True
            raise Cancelled
    if faults:
        raise faults[0]
    return came[0]
