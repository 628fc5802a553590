"""Ten clients of one front, two of which change layers: each answer is of one version that stood meanwhile."""

import threading
import unittest
import unittest.mock
from typing import Any

import pytest

from overlayd.web import layer_store
from overlayd.web.views import Busy, Hold
from .stressing import Ask, Stress
from .testing import SHIFTED, SQUARE, FrontCase

pytestmark = pytest.mark.live

SECONDS = 3.0


class Together(FrontCase):
    def new_ask(self) -> Ask:
        def ask(method: str, path: str, body: object) -> tuple[int, Any]:
            found = self.client.ask(path, method, body)
            return found.status, found.value

        return ask

    def test_each_answer_is_of_one_version(self) -> None:
        stress = Stress(self.new_ask, SECONDS)
        stress.run()
        assert stress.faults[:5] == [], stress.counted
        for kind in ("change", "locate", "items", "tiles", "collections"):
            assert stress.counted[kind] > 0, stress.counted


class Views(FrontCase):
    lines = (f"PUT A {SQUARE}", "DEFINE I = A")

    def test_a_change_waits_until_a_question_has_its_answer(self) -> None:
        change = threading.Thread(target=self.store.change, args=([f"PUT A {SHIFTED}"],))
        with self.store.view() as view:
            change.start()
            change.join(0.3)
            assert change.is_alive()
            assert view.locate(["A", "I"], (1, 1, 1)) == {"A": "in", "I": "in"}
        change.join(60)
        assert self.client.get("/locate?x=1&y=1")["places"] == {"A": "out", "I": "out"}

    def test_who_waits_too_long_is_told_to_ask_again(self) -> None:
        self.enterContext(unittest.mock.patch.object(layer_store, "TURN", 0.05))
        with self.store.view():
            found = self.client.ask("/collections/N", "PUT", {"definition": "A"})
        assert (found.status, found.headers["Retry-After"]) == (503, "1")
        assert self.client.ask("/collections/N").status == 404
        with self.store._hold.alone(1):
            assert self.client.ask("/locate?x=1&y=1").headers["Retry-After"] == "1"


class Holds(unittest.TestCase):
    def test_many_share_and_one_is_alone(self) -> None:
        hold = Hold()
        with hold.shared(0), hold.shared(0):
            self.assertRaises(Busy, hold.alone(0).__enter__)
        with hold.alone(0):
            self.assertRaises(Busy, hold.shared(0).__enter__)
            self.assertRaises(Busy, hold.alone(0).__enter__)
        with hold.alone(0), self.assertRaises(Busy):
            hold.shared(0).__enter__()

    def test_each_in_the_order_of_coming(self) -> None:
        hold, order = Hold(), list[str]()

        def come(name: str, alone: bool) -> None:
            with hold.alone(60) if alone else hold.shared(60):
                order.append(name)

        threads = []
        with hold.shared(0):
            for number, alone in enumerate((True, False, True, False)):
                threads.append(threading.Thread(target=come, args=(f"{number}", alone)))
                threads[-1].start()
                while len(hold._line) <= number:
                    threading.Event().wait(0.001)
        for one in threads:
            one.join()
        assert order == ["0", "1", "2", "3"]
