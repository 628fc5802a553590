"""Tests of the client against the built program. What it has to say is in docs/COMMANDS.md."""

import itertools
import os
import pathlib
import shutil
import signal
import socket
import subprocess
import sys
import threading
import time
import unittest
from collections.abc import Callable
from fractions import Fraction
from typing import Any, BinaryIO, cast

import pytest

from overlayd import program as overlay_client
from overlayd.grid import limits
from overlayd.program import Boundary, Ended, Layer, Refused, Reply, Server, Session, edges_lines
from overlayd.store.world import rings
from . import testing
from .testing import BAR, SHIFTED, SQUARE, TRIANGLE

pytestmark = pytest.mark.live


def running(**words: Any) -> Server:
    return Server(program=testing.PROGRAM, **words)


class ClientCase(unittest.TestCase):
    def refused(self, number: int, action: Callable[..., object], *words: object) -> Refused:
        with self.assertRaises(Refused) as caught:
            action(*words)
        assert caught.exception.number == number
        return caught.exception


class Commands(ClientCase):
    def setUp(self) -> None:
        self.server = self.enterContext(running())
        self.session = self.server.sessions[0]

    def test_each_change_is_a_version(self) -> None:
        one = self.session
        assert (one.put("A", SQUARE), one.put("B", SHIFTED), one.define("I", "A&B"), one.drop("I")) == (1, 2, 3, 4)
        one.define("I", "A - (B)")
        assert one.layers() == [Layer("A", "MULTIPOLYGON (((0 0, 10 0, 10 10, 0 10, 0 0)))", None),
                                Layer("B", "MULTIPOLYGON (((5 5, 15 5, 15 15, 5 15, 5 5)))", None),
                                Layer("I", None, "A - B")]

    def test_a_batch_is_one_version_or_none(self) -> None:
        one = self.session
        assert one.batch([one.put_line("A", SQUARE), one.put_line("B", SHIFTED), "DEFINE I = A & B"]) == 1
        fault = self.refused(10, one.batch, [one.put_line("C", SQUARE), "DROP Z"])
        assert (fault.text, fault.place) == ("unknown layer", 1)
        assert [layer.name for layer in one.layers()] == ["A", "B", "I"]
        assert one.batch(["DROP I"]) == 2

    def test_points(self) -> None:
        one = self.session
        one.batch([one.put_line("A", SQUARE), one.put_line("B", SHIFTED), "DEFINE I = A & B"])
        assert [one.locate("I", 7, 7), one.locate("I", 10, 2), one.locate("I", 14, 14, 2), one.locate("I", 2, 2)] == \
            ["in", "edge", "in", "out"]
        assert one.grid("I", 4, 4, 2, 4, 4) == ["...+", ".##+", ".##+", "++++"]
        self.refused(20, one.locate, "I", 0, 0, 1025)
        self.refused(45, one.grid, "I", 0, 0, 0, 1, 1)

    def test_edges_and_columns(self) -> None:
        one = self.session
        one.batch([one.put_line("A", SQUARE), one.put_line("B", SHIFTED), "DEFINE I = A & B"])
        assert one.wait("I") == 1
        right = [((5, 5, 1), (5, 10, 1)), ((5, 5, 1), (10, 5, 1)), ((5, 10, 1), (10, 10, 1)), ((10, 5, 1), (10, 10, 1))]
        assert one.edges("I", 16) == right
        columns = one.columns("I")
        assert len(columns) == limits.COLUMNS
        assert [number for number, pieces in enumerate(columns) if pieces] == [16]
        assert one.boundary("I") == Boundary(1, right, one.layers())
        assert one.verify("I", 16) == "same"
        self.refused(23, one.edges, "I", limits.COLUMNS)
        self.refused(12, one.columns, "A")

    def test_rings_have_exact_corners(self) -> None:
        one = self.session
        one.batch([one.put_line("T", TRIANGLE), one.put_line("S", BAR), "DEFINE I = T & S", "DEFINE O = S - T"])
        third = [(1, Fraction(1, 3)), (2, Fraction(2, 3)), (2, Fraction(4, 3)), (1, Fraction(5, 3))]
        assert rings(one, "I") == [[third]]
        assert rings(one, "O") == [[[(1, -1), (2, -1), (2, Fraction(2, 3)), (1, Fraction(1, 3))]],
                                   [[(1, Fraction(5, 3)), (2, Fraction(4, 3)), (2, 3), (1, 3)]]]

    def test_rings_have_holes(self) -> None:
        one = self.session
        one.batch(
            [one.put_line("A", SQUARE), one.put_line("B", "POLYGON ((2 2, 4 2, 4 4, 2 4, 2 2))"), "DEFINE D = A - B"]
        )
        assert rings(one, "D") == [[[(0, 0), (10, 0), (10, 10), (0, 10)], [(2, 2), (2, 4), (4, 4), (4, 2)]]]

    def test_refusals_have_number_and_text(self) -> None:
        fault = self.refused(10, self.session.locate, "Z", 1, 1)
        assert (fault.text, fault.place, str(fault)) == ("unknown layer", None, "error 10 unknown layer")
        self.refused(46, self.session.sync)
        self.refused(41, self.session.ask, "HELLO")
        self.refused(9, self.session.put, "9", SQUARE)

    def test_offsets_in_a_text_of_several_lines_stay(self) -> None:
        text = "POLYGON\n((0 0,\r\n\t10 0, 10 10.5,\n0 0))"
        fault = self.refused(2, self.session.put, "A", text)
        assert fault.text == f"not whole at {text.index('10.5')}"
        self.session.put("A", text.replace(".5", ""))

    def test_what_is_no_line_is_refused_before_it_is_sent(self) -> None:
        one = self.session
        one.put("A", SQUARE)
        for action in (lambda: one.ask("LAYERS\nDROP A"), lambda: one.ask("LAYERS\r"), lambda: one.ask(""),
                       lambda: one.ask(" \t"), lambda: one.ask("# nothing"), lambda: one.ask("BATCH 1"),
                       lambda: one.ask("  BATCH\t1"), lambda: one.batch([]), lambda: one.batch(["DROP A"] * 65),
                       lambda: one.batch(["DROP A", ""]), lambda: one.batch(["DROP A", "# no"]),
                       lambda: one.batch(["DROP A\nDROP A"]), lambda: one.define("I", "A\nDROP A"),
                       lambda: one.drop("A\nLAYERS"), lambda: one.put("B\nDROP A", SQUARE),
                       lambda: one.locate("A\n", 1, 1), lambda: one.define("I", "\udc00")):
            self.assertRaises(ValueError, action)
        assert [layer.name for layer in one.layers()] == ["A"]
        assert overlay_client.LARGEST_BATCH == limits.BATCH_MAX

    def test_replies_of_several_lines(self) -> None:
        for first, count in (("layers 3", 3), ("edges 0", 0), ("grid 4 2", 2), ("ok 7", 0), ("built 3", 0), ("in", 0),
                             ("same", 0), ("error 10 unknown layer", 0), ("refused 1 error 10 unknown layer", 0)):
            assert overlay_client.lines_after(first) == count, first

    def test_its_file_alone_needs_no_other(self) -> None:
        code = ("import own.overlay_client as c\n"
                "with c.Server(program=sys.argv[1]) as server, server.session() as one:\n"
                "    one.batch(['PUT A POLYGON ((0 0, 9 0, 9 9, 0 9, 0 0))', 'DEFINE I = A'])\n"
                "    print(len(one.boundary('I').pieces))")
        with testing.folder() as place:
            (place / "own").mkdir()
            shutil.copy(overlay_client.__file__, place / "own" / "overlay_client.py")
            words = [sys.executable, "-c", f"import sys\n{code}", testing.PROGRAM]
            done = subprocess.run(words, cwd=place, capture_output=True, text=True, check=False)
        assert (done.returncode, done.stdout, done.stderr) == (0, "4\n", "")

    def test_lines_up_to_the_limit_are_carried(self) -> None:
        one = self.session
        points = [(x % 997, 3 * x) for x in range(2048)]
        text = testing.ring_text(points)
        one.batch([one.put_line(f"L{i}", text) for i in range(32)])
        assert [layer.text for layer in one.layers()] == [f"MULTI{text.replace('((', '(((')})"] * 32
        self.refused(42, one.put, "A", " " * limits.LINE_MAX + SQUARE)
        assert one.locate("L31", -1, -1) == "out"


class Ahead(ClientCase):
    """Many lines ahead: a wait for ever would be a TimeoutError here."""

    def setUp(self) -> None:
        self.server = self.enterContext(running(timeout=60))
        self.session = self.server.sessions[0]

    def test_each_request_has_its_reply_in_order(self) -> None:
        one = self.session
        batch = [one.put_line("A", SQUARE), one.put_line("B", SHIFTED), "DEFINE I = A & B"]
        found = list(one.answers([batch, "WAIT I", *edges_lines("I", (15, 16)), "LOCATE I 7 7", "GRID A 0 0 5 3 2"]))
        assert [reply.first for reply in found] == ["ok 1", "built 1", "edges 0", "edges 4", "in", "grid 3 2"]
        assert found[3].pieces() == one.edges("I", 16)
        assert (found[0].number(), found[2].pieces(), found[5].lines()) == (1, [], ["+++", "+#+"])
        assert list(one.answers([])) == []
        assert one.layers()[2].definition == "A & B"

    def test_a_refusal_holds_up_no_other_line(self) -> None:
        one = self.session
        found = list(one.answers(["LOCATE Z 1 1", [f"PUT A {SQUARE}", "DROP Z"], f"PUT A {SQUARE}", "LOCATE A 1 1"]))
        assert [reply.first for reply in found[2:]] == ["ok 1", "in"]
        told = [(fault.number, fault.place) for reply in found if (fault := reply.refusal)]
        assert told == [(10, None), (10, 1)]
        for read in (found[0].number, found[0].lines, found[0].pieces):
            self.refused(10, read)

    def test_neither_pipe_is_waited_for_alone(self) -> None:
        """Lines and replies of some 10 MB each, far more than pipes hold; either alone would stop both sides."""
        long = testing.ring_text([(1000 * (i % 2) + i % 997, 450 * i) for i in range(2048)])
        asked = 0

        def lines() -> Any:
            nonlocal asked
            for asked in range(1, 301):
                yield [f"PUT A {long}"]
                yield "GRID A -100 -100 1 200 200"

        rows = [reply.rest for reply in self.session.answers(lines()) if reply.rest]
        assert (asked, len(rows), {len(row) for row in rows}) == (300, 300, {201 * 200})
        batch = [self.session.put_line(f"L{i}", long) for i in range(32)]
        whole = [f"LOCATE L31 {i} 1" for i in range(1000)]
        assert len(list(self.session.answers([*whole, batch, *whole, "LAYERS"] * 3, 1 << 16))) == 3 * 2002

    def test_lines_are_taken_while_few_bytes_have_no_reply(self) -> None:
        self.session.put("A", SQUARE)
        taken = 0

        def lines() -> Any:
            nonlocal taken
            for taken in itertools.count(1):
                yield "LOCATE A 1 1"

        answers = self.session.answers(lines(), 100 * len("LOCATE A 1 1\n"))
        for read in range(1, 5001):
            assert next(answers) == Reply("in")
            assert taken - read <= 100
        assert taken - read > 50
        answers.close()
        assert self.session.closed

    def test_nothing_else_is_asked_meanwhile_and_all_is_afterwards(self) -> None:
        one = self.session
        answers = one.answers([f"PUT A {SQUARE}", "LOCATE A 1 1"])
        next(answers)
        for action in (one.layers, lambda: one.put("B", SQUARE), lambda: next(one.answers(["LAYERS"]))):
            self.assertRaises(RuntimeError, action)
        assert (next(answers).first, list(answers)) == ("in", [])
        assert one.locate("A", 20, 20) == "out"

    def test_what_is_no_request_is_refused_before_it_is_sent(self) -> None:
        one = self.session
        for request in ("", "# nothing", "LAYERS\nLAYERS", "BATCH 1", [], ["DROP A"] * 65, ["DROP A", ""]):
            with self.subTest(request=request):
                self.assertRaises(ValueError, list, one.answers([request]))
        assert one.layers() == []
        self.assertRaises(ValueError, list, one.answers(["LAYERS", ""]))
        assert one.closed
        self.assertRaises(Ended, next, one.answers(["LAYERS"]))

    def test_an_end_amid_the_replies_is_told(self) -> None:
        answers = self.session.answers(itertools.repeat("LAYERS"))
        next(answers)
        os.kill(self.server.process.pid, signal.SIGKILL)
        self.assertRaises(Ended, lambda: [None for _ in answers])
        assert self.session.closed

    def test_lines_go_ahead_over_a_socket(self) -> None:
        ours, theirs = socket.socketpair()
        with ours, theirs, subprocess.Popen([testing.PROGRAM], stdin=theirs, stdout=theirs) as run:
            theirs.close()
            one = Session(ours.makefile("wb", 0), ours.makefile("rb", 0), 60)
            found = list(one.answers([f"PUT A {SQUARE}", *["GRID A 0 0 1 100 100"] * 300, *["LOCATE A 1 1"] * 5000]))
            assert (found[0].number(), found[-1].first, len(found)) == (1, "in", 5301)
            one.close()
            ours.close()
            assert run.wait(30) == 0

    def test_a_boundary_of_named_columns(self) -> None:
        one = self.session
        wide = "POLYGON ((-200000 0, 200000 0, 200000 9, -200000 9, -200000 0))"
        one.batch([one.put_line("A", wide), "DEFINE I = A"])
        whole = one.boundary("I")
        assert len(whole.pieces) == 4 + 2 * 7
        some = [piece for piece in whole.pieces if limits.column_begin(15) <= piece[0][0] < limits.column_begin(17)]
        assert one.boundary("I", (15, 16)) == whole._replace(pieces=some)
        self.refused(23, one.boundary, "I", (limits.COLUMNS,))
        assert overlay_client.COLUMNS == limits.COLUMNS


class Sessions(ClientCase):
    def test_a_boundary_is_of_one_version(self) -> None:
        """Another session changes the layer all the while; each answer is of one state or of the other."""
        states = [(SQUARE, 4), (TRIANGLE, 3)]
        with running(sessions=2) as server:
            reader, writer = server.sessions
            writer.batch([writer.put_line("A", SQUARE), "DEFINE I = A"])
            ending = threading.Event()

            def change() -> None:
                while not ending.is_set():
                    for text, _ in reversed(states):
                        writer.put("A", text)

            thread = threading.Thread(target=change)
            thread.start()
            try:
                found = [reader.boundary("I") for _ in range(60)]
            finally:
                ending.set()
                thread.join()
        texts = {text.replace("((", "(((").replace("POLYGON", "MULTIPOLYGON") + ")": count for text, count in states}
        for version, pieces, layers in found:
            assert len(pieces) == texts[layers[0].text or ""]
        assert [one.version for one in found] == sorted(one.version for one in found)

    def test_a_wait_holds_up_no_question(self) -> None:
        with running(sessions=2, workers=1) as server:
            with server.session() as one:
                one.batch(
                    [
                        one.put_line(name, testing.star(440, x, y))
                        for name, x, y in (("A", -150_000, 0), ("B", 170_000, 60_000), ("C", 0, -190_000))
                    ]
                )
                one.define("D", "(A ^ B) & C")
            began, ended, answered = threading.Event(), threading.Event(), 0

            def wait() -> None:
                with server.session(slow=True) as slow:
                    began.set()
                    slow.wait("D")
                    ended.set()

            thread = threading.Thread(target=wait)
            thread.start()
            began.wait(10)
            while not ended.is_set():
                with server.session() as one:
                    one.locate("D", answered, 7)
                answered += 1
            thread.join()
        assert answered > 2

    def test_a_session_whose_reply_is_late_is_lent_again_once_it_has_come(self) -> None:
        with running(sessions=3) as server:
            with self.assertRaises(TimeoutError), server.session() as late:
                late._wire.timeout = 0.2
                late._exchange(b"LAYERS")  # without its line feed no line yet, so it has no reply
            self.assertRaises(TimeoutError, late.layers)
            for _ in range(4):
                with server.session() as one:
                    assert one is not late
                    assert one.put("A", SQUARE) == server.sessions[2].put("A", SQUARE) - 1
            assert (late.closed, len(server.quick.lost()), server.slow.lost()) == (False, 1, [])
            late._wire.files[0].write(b"\n")
            testing.wait_until(lambda: not server.quick.lost())
            late._wire.timeout = 60
            assert [layer.name for layer in late.layers()] == ["A"]
            with server.session() as one, server.session() as other:
                assert late in (one, other)

    def test_a_reply_of_which_a_part_came_in_time_is_passed_over_whole(self) -> None:
        lines_in, lines = os.pipe()
        replies, replies_out = os.pipe()
        with open(replies_out, "wb", 0) as out, open(lines_in, "rb", 0):
            one = Session(open(lines, "wb", 0), open(replies, "rb", 0), 0.1)
            out.write(b"layers 2\nA = B\nB")
            self.assertRaises(TimeoutError, one.layers)
            self.assertRaises(TimeoutError, one.layers)
            out.write(b" = A\nok 7\n")
            one.settle()
            assert one.drop("A") == 7
            self.assertRaises(TimeoutError, list, one.answers(["LOCATE A 1 1", "DROP A", "LAYERS"]))
            out.write(b"in\nok 8\nlayers 1\nB = A\nok 9\n")
            one.settle()
            assert one.drop("A") == 9
            one.close()
            self.assertRaises(Ended, one.layers)

    def test_a_session_that_is_closed_is_lent_no_more(self) -> None:
        with running(sessions=3) as server:
            with self.assertRaises(RuntimeError), server.session() as one:
                raise RuntimeError("of a caller: the session is whole")
            for _ in range(2):
                with server.session() as one:
                    one.close()
            self.assertRaises(Ended, server.session().__enter__)
            assert len(server.quick.lost()) == len(server.quick)
            with server.session(slow=True) as one:
                assert one.layers() == []

    def test_all_sessions_lent_is_a_timeout(self) -> None:
        with running() as server, server.session():
            began = time.monotonic()
            self.assertRaises(TimeoutError, server.session(slow=True, timeout=0.2).__enter__)
            assert time.monotonic() - began < 5

    def test_a_session_goes_over_named_pipes_and_over_standard_input(self) -> None:
        with testing.folder() as folder:
            ends = [folder / "lines", folder / "replies"]
            for end in ends:
                os.mkfifo(end)
            run = subprocess.Popen([testing.PROGRAM, *ends])
            one = Session(ends[0].open("wb"), ends[1].open("rb"))
            assert one.put("A", SQUARE) == 1
            one.close()
            assert run.wait(30) == 0
        run = subprocess.Popen([testing.PROGRAM], stdin=subprocess.PIPE, stdout=subprocess.PIPE)
        assert run.stdin and run.stdout
        one = Session(cast(BinaryIO, run.stdin), cast(BinaryIO, run.stdout))
        assert (one.put("A", SQUARE), one.locate("A", 3, 3)) == (1, "in")
        one.close()
        assert run.wait(30) == 0


class Processes(ClientCase):
    def test_what_is_synced_is_there_again(self) -> None:
        with testing.folder() as folder:
            with running(store=folder / "map.db", create=True) as server:
                one = server.sessions[0]
                one.put("A", SQUARE)
                assert one.sync() == 1
                one.put("B", SHIFTED)
                assert server.close() == (0, "")
                assert server.close() == (0, "")
                self.assertRaises(Ended, one.layers)
            with running(store=folder / "map.db") as server:
                one = server.sessions[0]
                assert (one.sync(), [layer.name for layer in one.layers()]) == (2, ["A", "B"])

    def test_a_start_that_fails_tells_the_programs_own_fault(self) -> None:
        with testing.folder() as folder:
            fault = self.refused(30, lambda: running(store=folder / "none.db"))
            self.assertRegex(fault.text, r"\Adevice(: .*none.db: .*)?\Z")  # a program without the second line too
            (folder / "text.db").write_text("no store")
            self.refused(34, lambda: running(store=folder / "text.db", create=True))
            self.refused(50, lambda: running(workers=9))
            self.refused(50, lambda: running(create=True))
        self.assertRaises(FileNotFoundError, Server, program="/nowhere/overlay_live")
        self.assertRaises(ValueError, Server, sessions=5)
        with self.assertRaises(Ended):
            Server(program="/bin/true")

    def test_a_program_that_is_killed_is_told(self) -> None:
        with running(sessions=2) as server:
            one = server.sessions[0]
            os.kill(server.process.pid, signal.SIGKILL)
            self.assertRaises(Ended, one.put, "A", SQUARE)
            self.assertRaises(Ended, server.sessions[1].layers)
            self.assertRaises(Ended, server.session().__enter__)
            assert server.close() == (-signal.SIGKILL, "")

    def test_nothing_is_left_open(self) -> None:
        def open_ones() -> int:
            return len(list(pathlib.Path("/proc/self/fd").iterdir()))

        before = open_ones()
        for _ in range(3):
            with running(sessions=4):
                pass
            self.assertRaises(Refused, lambda: running(workers=9))
            self.assertRaises(FileNotFoundError, Server, program="/nowhere/overlay_live")
        assert open_ones() == before
