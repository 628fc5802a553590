"""Tests of values that are kept while there is room: who makes room, how often they are weighed, and who makes one."""

import threading
import unittest

from overlayd.web.kept_values import Kept


class KeptValues(unittest.TestCase):
    def test_the_one_unused_longest_makes_room(self) -> None:
        kept: Kept[str, int] = Kept(10, lambda weight: weight)
        for key, weight in (("a", 4), ("b", 4), ("c", 2)):
            kept.put(key, weight)
        assert kept.get("a") == 4
        kept.put("d", 3)
        assert [kept.get(key) for key in "abcd"] == [4, None, 2, 3]

    def test_one_that_is_heavier_than_all_may_be_stays_alone(self) -> None:
        kept: Kept[str, int] = Kept(10, lambda weight: weight)
        kept.put("a", 4)
        kept.put("b", 99)
        assert (kept.get("a"), kept.get("b")) == (None, 99)
        kept.put("c", 1)
        assert (kept.get("b"), kept.get("c")) == (None, 1)

    def test_each_is_weighed_once(self) -> None:
        weighed = []
        kept: Kept[int, int] = Kept(50, lambda value: weighed.append(value) or 1)  # type: ignore[func-returns-value]
        for number in range(100):
            kept.put(number, number)
        assert weighed == list(range(100))

    def test_one_makes_it_and_others_wait(self) -> None:
        kept: Kept[str, int] = Kept(10, lambda _: 1)
        begun, goes_on, made, found = threading.Event(), threading.Event(), [], []

        def make() -> int:
            made.append(1)
            begun.set()
            goes_on.wait(60)
            return 7

        threads = [threading.Thread(target=lambda: found.append(kept.made("a", make, 60))) for _ in range(4)]
        for one in threads:
            one.start()
        begun.wait(60)
        goes_on.set()
        for one in threads:
            one.join(60)
        assert (made, found) == ([1], [7] * 4)

    def test_what_could_not_be_made_is_made_again(self) -> None:
        kept: Kept[str, int] = Kept(10, lambda _: 1)
        with self.assertRaises(ZeroDivisionError):
            kept.made("a", lambda: 1 // 0, 1)
        assert kept.made("a", lambda: 5, 1) == 5
