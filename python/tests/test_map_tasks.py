"""Tests of task folders and of what does their tasks, by Python alone: no map and no program is needed."""

import errno
import importlib.util
import io
import json
import os
import pathlib
import signal
import subprocess
import sys
import tempfile
import unittest
from unittest import mock

import pytest

from overlayd import progress
from overlayd.commands import pairs, task
from overlayd.maps import asking, dask_engine, engines, tasks
from overlayd.maps.tasks import FolderFault, TaskFolder
from .common import OVERLAY, SECONDS, SOURCES, TOP, InFolder, Programs, is_running, outcome, ran, wait_until
from .map_works import Refusing, Reversing

NAMES = [f"task {number}".encode() for number in range(12)]
ENDS = [name[::-1] for name in NAMES]
HAS_DASK = importlib.util.find_spec("distributed") is not None
WAIT = 240  # seconds, for what comes at once where the machine is not busy
DASK_WAIT = 300  # likewise, for what Dask does: its processes take some 6 seconds of processors to begin


def quiet() -> progress.OfTasks:
    return progress.OfTasks("names", lambda text: None)


class InTasks(InFolder):
    def setUp(self) -> None:
        super().setUp()
        self.work, self.marks = self.folder / "work", self.folder / "marks"
        self.marks.mkdir()

    def words(self, seconds: str, engine: str = "several", deaths: str = "0") -> list[str]:
        """The call of a run in a process of its own."""
        return [sys.executable, "-m", "tests.map_works", str(self.work), str(self.marks), seconds, engine, deaths]

    def begun(self, names: list[bytes] = NAMES, **run: object) -> TaskFolder:
        return tasks.begin(self.work, {"asks": "names", **run}, names)


class Folders(InTasks):
    def test_a_task_is_done_once_and_its_result_appears_whole(self) -> None:
        folder, calls = self.begun(), []

        def work(task: bytes) -> bytes:
            calls.append(task)
            assert sorted(self.work.glob("*.result")) == []
            return task[::-1]

        def renamed(new: pathlib.Path, target: pathlib.Path) -> None:
            assert not target.exists()
            assert tasks.unsealed(new, "").split(b"\n")[0] == b"3 ksat"
            os.replace(new, target)

        with mock.patch.object(pathlib.Path, "replace", autospec=True, side_effect=renamed) as renames:
            tasks.do(work, folder, 3)
            tasks.do(work, folder, 3)
        assert [call.args[1].name for call in renames.call_args_list] == ["000003.result"]
        assert (calls, folder.came_of(3)) == ([b"task 3"], b"3 ksat")
        assert folder.left() == [number for number in range(12) if number != 3]
        assert sorted(self.work.glob("*.new")) == []

    def test_what_fails_amid_a_file_leaves_none(self) -> None:
        folder = self.begun()
        self.assertRaises(TypeError, tasks.put, folder.result(0), "no bytes")
        assert (sorted(self.work.glob("*.new")), len(folder.left())) == ([], 12)

    def test_a_plan_that_was_broken_off_is_made_again(self) -> None:
        def broken() -> object:
            yield from NAMES[:5]
            raise KeyboardInterrupt

        self.assertRaises(KeyboardInterrupt, tasks.begin, self.work, {}, broken())
        with self.assertRaisesRegex(FolderFault, "no tasks of a run"):
            TaskFolder(self.work).count()
        folder = self.begun()
        assert [folder.given(number) for number in range(folder.count())] == NAMES

    def test_a_run_begun_again_takes_its_tasks_and_looks_at_no_new_ones(self) -> None:
        self.begun(factor="1000")

        def none() -> object:
            raise AssertionError("tasks are made again")
            yield b""

        folder = tasks.begin(self.work, {"factor": "1000", "asks": "names"}, none())
        assert (folder.count(), folder.run()) == (12, {"asks": "names", "factor": "1000"})

    def test_a_folder_of_other_files_is_refused_and_left_alone(self) -> None:
        self.work.mkdir()
        (self.work / "parcels.gpkg").touch()
        with self.assertRaisesRegex(FolderFault, "parcels.gpkg is no task"):
            self.begun()
        assert [one.name for one in self.work.iterdir()] == ["parcels.gpkg"]

    def test_what_stands_in_the_place_of_a_plan_is_told(self) -> None:
        for text, named in (("", "run.json: Expecting"), ("[]", "another release"), ('{"form": 0}', "another release")):
            self.work.mkdir(exist_ok=True)
            (self.work / "run.json").write_text(text)
            with self.subTest(text), self.assertRaisesRegex(FolderFault, named):
                self.begun()

    def test_what_stands_in_a_plan_is_looked_at(self) -> None:
        plans = ('{"form": 6}', '{"form": 6, "run": {}, "tasks": "7"}', '{"form": 6, "run": [], "tasks": 7}',
                 '{"form": 6, "run": {}, "tasks": -1}', '{"form": 6, "run": {}, "tasks": true}', "[" * 100_000, "\xff")
        for text in plans:
            self.work.mkdir(exist_ok=True)
            (self.work / "run.json").write_text(text, "latin-1")
            with self.subTest(text[:40]), self.assertRaisesRegex(FolderFault,
                                                                 "run.json: .*; remove the folder, and begin"):
                self.begun()

    def test_files_that_were_cut_or_altered_are_named_with_what_to_do(self) -> None:
        folder = self.begun()
        for number in range(12):
            tasks.do(Reversing(self.marks), folder, number)
        result = folder.result(4)
        whole = result.read_bytes()
        for wrong in (b"", whole[:-1], whole[: whole.index(b"\n") + 1], whole[1:], whole + b"\n", b"x" + whole[1:],
                      whole * 2):
            result.write_bytes(wrong)
            with self.subTest(wrong), self.assertRaisesRegex(FolderFault,
                                                             "000004.result: damaged, .*; remove it and say"):
                list(folder.results())
        result.unlink()
        result.mkdir()
        with self.assertRaisesRegex(FolderFault, "000004.result: Is a directory; remove it and say the same again"):
            list(folder.results())
        result.rmdir()
        folder.task(4).write_bytes(b"task 4")
        with self.assertRaisesRegex(FolderFault, "000004.task: damaged, .*; begin the run again in another folder"):
            tasks.do(Reversing(self.marks), folder, 4)
        with self.assertRaisesRegex(engines.TaskFault, "^task 4: .*000004.task: damaged"):
            engines.run(asking.by_threads(1), Reversing(self.marks), folder, quiet())

    def test_a_result_that_came_of_another_task_is_named_with_what_to_do(self) -> None:
        folder = self.begun()
        for number in range(12):
            tasks.do(Reversing(self.marks), folder, number)
        assert list(folder.results()) == ENDS
        folder.result(4).write_bytes(folder.result(5).read_bytes())
        with self.assertRaisesRegex(FolderFault,
                                    "000004.result: it came of another task; remove it and say the same again"):
            list(folder.results())
        folder.result(4).unlink()
        tasks.do(Reversing(self.marks), folder, 4)
        assert list(folder.results()) == ENDS

    def test_one_run_at_a_time_has_a_folder(self) -> None:
        words = self.words("60")
        with subprocess.Popen(words, cwd=TOP, env=SOURCES, stderr=subprocess.DEVNULL) as other:
            self.addCleanup(other.kill)
            wait_until(lambda: (self.work / "run.json").exists())
            with self.assertRaisesRegex(FolderFault, "another run is at work"), tasks.held(self.work):
                pass
            other.kill()
        with tasks.held(self.work):
            pass

    def test_without_locks_a_folder_is_not_told_to_be_another_run_s(self) -> None:
        fault = OSError(errno.ENOLCK, os.strerror(errno.ENOLCK))
        with mock.patch("fcntl.lockf", side_effect=fault), self.assertRaises(OSError) as raised, tasks.held(self.work):
            pass
        assert raised.exception is fault

    def test_results_without_a_plan_are_none_of_the_run_that_is_begun(self) -> None:
        folder = self.begun(factor="1000")
        for number in range(12):
            tasks.do(Reversing(self.marks), folder, number)
        folder.plan.unlink()
        again = self.begun([name.upper() for name in NAMES], factor="100")
        assert again.left() == list(range(12))

    def test_numbers_are_handed_out_by_others(self) -> None:
        folder = self.begun()
        work = Reversing(self.marks)
        tasks.do_numbers(work, self.work, [4, 2])
        assert len(folder.left()) == 10
        for number in (-1, 12):
            with self.assertRaisesRegex(FolderFault, "they are 0 to 11"):
                tasks.do_numbers(work, self.work, [number])
        self.assertRaises(FolderFault, tasks.do_numbers, work, self.folder / "none", [0])

    def test_an_input_that_changed_is_another(self) -> None:
        one = self.file("map.json", "{}")
        before = tasks.stamp(one)
        assert before == tasks.stamp(one)
        one.write_text("{ }")
        assert before != tasks.stamp(one)

    def test_a_part_of_an_input_that_changed_makes_it_another(self) -> None:
        (self.folder / "a.gdb").mkdir()
        for name, part in (("a.shp", "a.dbf"), ("A.SHP", "A.DBF"), ("a.gpkg", "a.gpkg-wal"),
                           ("a.gdb", "a.gdb/a1.gdbtable"), ("a.gml", "a.gfs"), ("a.mif", "a.mid"), ("a.tab", "a.dat")):
            with self.subTest(part):
                one = self.folder / name if name == "a.gdb" else self.file(name, "map")
                alone = tasks.stamp(one)
                self.file(part, "x")
                had = tasks.stamp(one)
                self.file(part, "xx")
                assert len({str(found) for found in (alone, had, tasks.stamp(one))}) == 3
                self.file("a.csv", "of somebody else")
                assert tasks.stamp(one) == tasks.stamp(one)


class WithProcesses(InTasks):
    def processes(self) -> set[int]:
        """The processes that did a task."""
        return {int(mark.name.split()[1]) for mark in self.marks.glob("process *")}


class Engines(WithProcesses):
    def ran(self, engine: engines.Engine, work: tasks.Work, names: list[bytes] = NAMES) -> list[bytes]:
        folder = self.begun(names)
        engines.run(engine, work, folder, quiet())
        return list(folder.results())

    def test_no_task_is_none_to_do(self) -> None:
        assert self.ran(asking.by_threads(2), Refusing(), []) == []

    def test_a_task_that_is_refused_is_named(self) -> None:
        for engine in (asking.by_threads(1), asking.by_threads(2)):
            with self.subTest(engine), self.assertRaisesRegex(engines.TaskFault, "task 1: Odd: no good"):
                self.ran(engine, Refusing(), [b"good", b"bad", b"good"])

    def test_a_run_that_was_killed_leaves_no_process_and_goes_on(self) -> None:
        with subprocess.Popen(self.words("0.3"), cwd=TOP, env=SOURCES, stderr=subprocess.DEVNULL) as run:
            self.addCleanup(run.kill)
            wait_until(lambda: len(list(self.work.glob("*.result"))) >= 3)
            os.kill(run.pid, signal.SIGKILL)
        wait_until(lambda: not any(map(is_running, self.processes())))
        done = 12 - len(TaskFolder(self.work).left())
        again = ran(*self.words("0"), cwd=TOP, env=SOURCES, timeout=WAIT)
        assert f"names: {done} of 12 tasks were done before\n" in again.stderr
        assert (again.returncode, list(TaskFolder(self.work).results())) == (0, ENDS)


@unittest.skipUnless(HAS_DASK, "python3-distributed is not installed")
class Dask(WithProcesses):
    def test_what_a_dead_worker_had_is_begun_again_and_no_process_is_left(self) -> None:
        words = self.words("0", "dask", "1")
        run = ran(*words, cwd=TOP, env=SOURCES, timeout=DASK_WAIT)
        assert run.returncode == 0, run.stderr
        assert list(TaskFolder(self.work).results()) == ENDS, run.stderr
        assert len(list(self.marks.glob("death *"))) == 1
        wait_until(lambda: not any(map(is_running, self.processes())))

    def test_workers_end_with_a_run_that_is_killed(self) -> None:
        with subprocess.Popen(self.words("0.3", "dask"), cwd=TOP, env=SOURCES, stderr=subprocess.DEVNULL) as run:
            self.addCleanup(run.kill)
            wait_until(lambda: len(list(self.work.glob("*.result"))) >= 3, DASK_WAIT)
            os.kill(run.pid, signal.SIGKILL)
        wait_until(lambda: not any(map(is_running, self.processes())))
        folder = TaskFolder(self.work)
        done = [number for number in range(12) if number not in folder.left()]
        assert [folder.came_of(number) for number in done] == [ENDS[number] for number in done]


@pytest.mark.features
class OverCommand(InTasks):
    """The command itself over the built program, by several engines: always the same bytes of table."""

    def setUp(self) -> None:
        super().setUp()
        for name, shift in (("a", 0), ("b", 4)):
            self.file(f"{name}.geojson", json.dumps({"type": "FeatureCollection", "features": [
                square(10 * x + shift, 10 * y + shift) for x in range(6) for y in range(6)]}))

    def table(self, *words: object, program: object = None) -> tuple[int, str, str]:
        maps = (self.folder / "a.geojson", self.folder / "b.geojson")
        return outcome(pairs, *maps, "--factor", 1, "--program", program or Programs.features, "--at-once", 9, *words)

    def test_all_engines_have_one_table(self) -> None:
        status, table, _ = self.table("--processes", 1)
        # Of each square with up to four, and with corners of others.
        assert (status, table.count("overlaps")) == (0, 36 + 2 * 30 + 25)
        assert self.table("--processes", 3)[:2] == (0, table)
        assert self.table("--processes", 2, "--work", self.work)[:2] == (0, table)
        status, again, told = self.table("--jobs", 2, "--work", self.work)
        assert (status, again) == (0, table)
        self.assertRegex(told, r"pairs 1: (\d+) of \1 tasks were done before")

    @unittest.skipUnless(HAS_DASK, "python3-distributed is not installed")
    def test_dask_has_the_same_table(self) -> None:
        words = [*OVERLAY, "pairs", self.folder / "a.geojson", self.folder / "b.geojson", "--factor", "1", "--program",
                 Programs.features, "--processes", "2", "--at-once", "9", "--dask"]
        run = ran(*words, timeout=DASK_WAIT)
        assert (run.returncode, run.stdout) == (0, self.table("--processes", 1)[1]), run.stderr

    def test_others_do_the_tasks(self) -> None:
        status, _, told = self.table("--processes", 0, "--work", self.work)
        count = TaskFolder(self.work / "1").count()
        assert status == 0
        assert f"{count} of {count} tasks are left" in told
        words = [*OVERLAY, "task", self.work / "1", "--program", Programs.features]
        numbers = "".join(f"{number}\n" for number in range(count))
        subprocess.run(["xargs", "-P", "2", "-n", "7", *words], input=numbers, text=True, check=True, timeout=SECONDS)
        assert self.table("--processes", 0, "--work", self.work)[1] == self.table("--processes", 1)[1]
        assert outcome(task, *words[3:], count)[0] == 2
        status, table, told = self.table("--processes", 0)
        assert (status, table, told.splitlines()[-1][:29]) == (2, "", "--processes 0 leaves the task")
        assert outcome(task, self.folder, 0, "--program", Programs.features)[0] == 2

    def test_a_program_that_ends_is_begun_again(self) -> None:
        dying = self.file("dying", f"#!/bin/sh\nmkdir '{self.marks}/ended' 2>&- && exit\n"
                          f"exec {Programs.features} \"$@\"\n", 0o700)
        never = self.file("never", "#!/bin/sh\nexit 3\n", 0o700)
        for words in (("--processes", 1), ("--processes", 2), ("--processes", 2, "--work", self.work)):
            assert self.table(*words, program=dying)[:2] == self.table("--processes", 1)[:2]
            (self.marks / "ended").rmdir()
            status, table, told = self.table(*words[:2], *(("--work", self.folder / "never-done") if words[2:] else ()),
                                             program=never)
            assert (status, table) == (1, "")
            self.assertRegex(told, "task [01]: ProgramEnded: .*status 3" if words[2:] else "ended with status 3")

    def test_a_damaged_folder_is_told_and_mended_by_what_is_told(self) -> None:
        status, table, _ = self.table("--processes", 1, "--work", self.work)
        result = self.work / "1" / "000002.result"
        result.write_bytes(result.read_bytes()[:300])
        told = (f"{result}: damaged, as it has not the digest of what was written; remove it and say the same again, "
                "which does")
        for words in ((), ("--out", self.folder / "out.csv")):
            status, again, errors = self.table("--processes", 1, "--work", self.work, *words)
            assert (status, again) == (2, "")
            assert told in errors
        assert not (self.folder / "out.csv").exists()
        result.unlink()
        assert self.table("--processes", 1, "--work", self.work)[:2] == (0, table)
        result.unlink()
        (self.work / "1" / "000002.task").write_bytes(b"{}")
        status, again, errors = self.table("--processes", 2, "--work", self.work)
        assert (status, again) == (1, "")
        assert "task 2: " in errors
        assert "000002.task: damaged, as it has not the digest of what was written; begin the run again" in errors

    def test_a_folder_of_another_run_is_refused(self) -> None:
        self.table("--work", self.work, "--processes", 1)
        status, table, told = self.table("--work", self.work, "--node")
        assert (status, table) == (2, "")
        assert "tasks of another run (node: 'False' there, 'True' here)" in told
        (self.folder / "b.geojson").write_text(json.dumps({"type": "FeatureCollection", "features": [square(0, 0)]}))
        assert "tasks of another run (maps: " in self.table("--work", self.work)[2]

    def test_a_run_that_is_killed_leaves_no_half_of_a_table(self) -> None:
        slow = self.file("slow", f"#!/bin/sh\nsleep 0.2\nexec {Programs.features}\n", 0o700)
        out = self.file("out.csv", "before")
        words = [*OVERLAY, "pairs", self.folder / "a.geojson", self.folder / "b.geojson", "--factor", "1", "--out", out,
                 "--at-once", "9", "--processes", "1", "--work", self.work, "--program"]
        with subprocess.Popen([*map(str, words), str(slow)], stderr=subprocess.DEVNULL) as run:
            self.addCleanup(run.kill)
            wait_until(lambda: len(list((self.work / "1").glob("*.result"))) >= 2)
            run.kill()
        assert out.read_text() == "before"
        done = ran(*words, Programs.features, timeout=2 * WAIT, check=True)
        self.assertRegex(done.stderr, r"pairs 1: \d+ of \d+ tasks were done before")
        assert out.read_text() == self.table("--processes", 1)[1]


def square(x: int, y: int) -> dict[str, object]:
    ring = [[x, y], [x + 10, y], [x + 10, y + 10], [x, y + 10], [x, y]]
    return {"type": "Feature", "properties": {}, "geometry": {"type": "Polygon", "coordinates": [ring]}}


class Addresses(unittest.TestCase):
    def test_what_is_beyond_the_loopback_without_tls_is_open_to_all(self) -> None:
        for address in ("tcp://127.0.0.1:8786", "localhost:8786", "tcp://[::1]:8786", "tls://10.0.0.5:8786"):
            assert not dask_engine.is_open_to_all(address), address
        for address in ("tcp://10.0.0.5:8786", "10.0.0.5:8786", "tcp://scheduler:8786", "ws://10.0.0.5:80"):
            assert dask_engine.is_open_to_all(address), address

    def test_a_folder_is_shared_where_it_can_be_read_and_written(self) -> None:
        with tempfile.TemporaryDirectory() as folder:
            mark = pathlib.Path(folder, "mark.new")
            mark.write_bytes(b"word")
            assert dask_engine.can_write_beside(str(mark), b"word")
            assert not dask_engine.can_write_beside(str(mark), b"other")
            assert not dask_engine.can_write_beside("/proc/version", b"word")
            assert not dask_engine.can_write_beside(f"{folder}/none/mark.new", b"word")
            assert [one.name for one in pathlib.Path(folder).iterdir()] == ["mark.new"]

    def test_what_is_sent_to_workers_can_be_imported_alone(self) -> None:
        with tempfile.TemporaryDirectory() as folder:
            sent = dask_engine.packed(pathlib.Path(folder))
            words = [sys.executable, "-c", "from overlayd.maps import replying; print(replying.__file__)"]
            done = ran(*words, cwd=folder, env={"PYTHONPATH": str(sent)}, check=True)
            assert ".zip" in done.stdout

    def test_without_dask_or_keys_the_refusal_has_the_line_to_type(self) -> None:
        engine = dask_engine.by_dask(None, 1)
        for module in ["distributed", *["cryptography"] * HAS_DASK]:
            with mock.patch.dict(sys.modules, {module: None}), self.assertRaisesRegex(
                    dask_engine.DaskFault, "apt-get install python3-distributed python3-cryptography"):
                list(engine(Refusing(), TaskFolder(pathlib.Path("none")), []))


class Telling(unittest.TestCase):
    def test_plain_lines_have_tasks_pace_and_seconds_left(self) -> None:
        now, lines = 0.0, list[str]()
        with mock.patch("sys.stderr", io.StringIO()):
            told = progress.OfTasks("pairs", lines.append, lambda: now)
            told.begin(90, 69)
            for now in range(1, 70):
                told.step()
            told.end()
        assert lines[0] == "pairs: 21 of 90 tasks were done before"
        assert lines[1] == "pairs: 31 of 90 tasks, 1 a second, 59 seconds left"
        assert (len(lines), lines[-1]) == (8, "pairs: 90 of 90 tasks, 1 a second, 0 seconds left")

    def test_nothing_to_do_is_told_once(self) -> None:
        lines: list[str] = []
        told = progress.OfTasks("pairs", lines.append)
        told.begin(4, 0)
        told.end()
        assert lines == ["pairs: 4 of 4 tasks were done before"]
