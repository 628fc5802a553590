"""Values that take long to make, kept while there is room for them."""

import contextlib
import threading
from collections.abc import Callable, Hashable, MutableMapping
from concurrent.futures import Future
from contextlib import AbstractContextManager
from typing import Generic, TypeVar

from cachetools import LRUCache

K = TypeVar("K", bound=Hashable)
V = TypeVar("V")


class Kept(Generic[K, V]):
    """Values by key. Each is made once, also where several threads ask at once; those unused longest make room.

    weigh says how heavy a value is, most how much all together may weigh. The value asked for last always stays."""

    def __init__(self, most: int, weigh: Callable[[V], int]) -> None:
        self._lock = threading.Lock()
        # One that is heavier than most is kept alone.
        self._made: MutableMapping[K, V] = LRUCache(most, lambda value: min(weigh(value), most))
        self._coming: dict[K, Future[V]] = {}

    def get(self, key: K) -> V | None:
        """The value if it is there."""
        with self._lock:
            return self._made.get(key)

    def put(self, key: K, value: V) -> None:
        with self._lock:
            self._made[key] = value

    def made(self, key: K, make: Callable[[], V], timeout: float,
             places: AbstractContextManager[None] | None = None) -> V:
        """The value, by make where it is not there; another thread that makes it is waited for. places: where it is
        made or waited for."""
        found = self.get(key)
        if found is not None:
            return found
        with places or contextlib.nullcontext():
            return self._made_or_awaited(key, make, timeout)

    def _made_or_awaited(self, key: K, make: Callable[[], V], timeout: float) -> V:
        with self._lock:
            coming = self._coming.get(key)
            own = coming is None
            if coming is None:
                coming = self._coming[key] = Future()
        if not own:
            return coming.result(timeout)
        try:
            value = make()
            self.put(key, value)
            coming.set_result(value)
            return value
        except BaseException as fault:
            coming.set_exception(fault)
            raise
        finally:
            with self._lock:
                del self._coming[key]
