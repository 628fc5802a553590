"""What the words, files, scripts and faults of the built overlayd do.

An example is a script of examples/ with the replies that it is to have beside it. Its first line says by which words
it is run, as '# overlayd WORD..', and names the script again; without such a line it is standard input. The examples
run in the order of their names, in one folder, so that one can open a store that another has made. A script without
expected replies is run by another one's words."""

import os
import pathlib
import re
import resource
import shutil
import signal
import struct
import subprocess
import time
from typing import Any

import pytest

from overlayd_lab import TOP
from overlayd_lab.trials import old_files

EXAMPLES = TOP / "examples"
SECONDS = 110
A = "PUT A POLYGON ((0 0, 10 0, 10 10, 0 10, 0 0))\n"
D = "PUT D POLYGON ((-10 -10, 10 -10, 10 10, -10 10, -10 -10))\nDEFINE E = D\nWAIT E\nSYNC\n"
BLOCK = 4096
LIMIT = 2**62
# Root slots, as docs/FORMAT.md has them.
OPEN = 0xA7
BODY = ">8sIQQQI8x"
# What is printed for four scripts of one change each: its reply, or none.
FOUR_REPLIES = re.compile("".join(rf"# script {number}\n(ok \d+\n|error 40 out of memory\n|)"
                                  for number in range(1, 5)))
Ran = tuple[int, str, str]  # the status, and what was written on standard output and standard error


class Program:
    """The program in a folder of its own."""

    def __init__(self, path: str, folder: str | pathlib.Path) -> None:
        self.path, self.folder = path, pathlib.Path(folder)

    def run(self, *words: str | bytes, script: str = "", stdout: Any = subprocess.PIPE, **how: Any) -> Ran:
        """Its status, and what it wrote on standard output and standard error."""
        ran = subprocess.run([self.path, *words], input=script.encode(), stdout=stdout, stderr=subprocess.PIPE,
                             cwd=self.folder, timeout=SECONDS, **how)
        return ran.returncode, (ran.stdout or b"").decode(), ran.stderr.decode()

    def file(self, name: str) -> pathlib.Path:
        return self.folder / name


@pytest.fixture
def program(overlayd: str, tmp_path: pathlib.Path) -> Program:
    return Program(overlayd, tmp_path)


@pytest.fixture(scope="module")
def examples(overlayd: str, tmp_path_factory: pytest.TempPathFactory) -> Program:
    """The program in a folder with all scripts."""
    folder = tmp_path_factory.mktemp("examples")
    for script in EXAMPLES.glob("*.txt"):
        shutil.copy(script, folder)
    return Program(overlayd, folder)


@pytest.mark.parametrize("expected", sorted(EXAMPLES.glob("*.expected")), ids=lambda one: one.stem)
def test_an_example(examples: Program, expected: pathlib.Path) -> None:
    """By the words in its first line."""
    program, script = examples, expected.with_suffix(".txt")
    first = script.read_text(errors="replace").split("\n", 1)[0]
    text = expected.read_bytes()
    words = first.removeprefix("# overlayd ").split() if first.startswith("# overlayd ") else []
    with open(script, "rb") as source:
        ran = subprocess.run([program.path, *words], stdin=source, stdout=subprocess.PIPE, stderr=subprocess.PIPE,
                             cwd=program.folder, timeout=SECONDS)
    assert (ran.returncode, ran.stdout, ran.stderr) == (0, text, b"")


# ---- words

def test_wrong_words(program: Program) -> None:
    for words in (
        ["--help"], ["-h"], ["--version"], ["--"], ["-x"], ["--store"], ["--store", "a", "--store", "b"], ["--store=a"],
        ["--create"], ["--create", "a"], ["--store", "a", "--create", "--create"], ["--store", "--create"],
        ["--workers"], ["--workers", "0"], ["--workers", "9"], ["--workers", "+3"], ["--workers", "x"],
        ["--workers", "00000001"], ["--max-blocks", "0"], ["--max-blocks", "1048577"], ["--max-blocks", "1.5"],
        ["a", "b", "c", "d", "e"],
    ):
        assert (words, *program.run(*words)) == (words, 2, "", "error 50 words\n")
    assert program.run(b"\xff") == (2, "", "error 50 words\n")


def test_right_words(program: Program) -> None:
    program.file("one").write_text("HELLO\n")
    hello = "error 41 command syntax\n"
    assert program.run("one") == (0, hello, "")
    assert program.run("one", "--workers", "0000008") == (0, hello, "")
    assert program.run("--workers", "1", "one", "--max-blocks", "1048576") == (0, hello, "")
    assert program.run("--create", "one", "--store", "words.db") == (0, hello, "")
    program.file("-").write_text("LOCATE Z 1 1\n")
    assert program.run("-") == (0, "error 10 unknown layer\n", "")
    assert program.run(script=A) == (0, "ok 1\n", "")


# ---- scripts

def test_scripts_in_their_order(program: Program) -> None:
    names = ["first", "second", "third", "fourth"]
    for number, name in enumerate(names):
        program.file(name).write_text("HELLO\n" * number)
    wanted = "".join(f"# script {n + 1}\n" + "error 41 command syntax\n" * n for n in range(4))
    assert program.run(*names) == (0, wanted, "")


def test_scripts_that_cannot_be_read(program: Program) -> None:
    program.file("there").write_text(A)
    # All scripts are opened before a store is made.
    assert program.run("there", "absent", "--store", "none.db", "--create") == (1, "", "error 48 read\n")
    assert not program.file("none.db").exists()
    program.file("folder").mkdir()
    assert program.run("folder", "there") == (1, "# script 1\nerror 48 read\n# script 2\nok 1\n", "")


def test_sessions_side_by_side(program: Program) -> None:
    """Four sessions over one map: the numbers are shared, each once and rising in a session, the rest is each one's."""
    names = ["a", "b", "c", "d"]
    for name in names:
        side = 10 + names.index(name)
        lines = "".join(
            f"PUT {name}{k} POLYGON ((0 0, {side} 0, {side} {k + 1}, 0 {k + 1}, 0 0))\nDEFINE {name}x{k} = {name}{k}\n"
            f"WAIT {name}x{k}\nEDGES {name}x{k} 16\nLOCATE {name}x{k} 1 1 2\n"
            for k in range(4)
        )
        program.file(name).write_text(lines + f"SYNC\nLOCATE {name}0 99 99\n")
    status, text, errors = program.run("--store", "four.db", "--create", "--workers", "8", *names)
    assert (status, errors) == (0, "")
    parts = re.split(r"# script \d\n", text)
    assert parts[0] == ""
    numbers = []
    for name, part in zip(names, parts[1:], strict=True):
        side = 10 + names.index(name)
        own = [int(number) for number in re.findall(r"^ok (\d+)$", part, re.M)]
        assert own == sorted(own)
        numbers += own
        wanted = "".join(
            f"ok N\nok N\nbuilt N\nedges 4\n0 0 1 0 {k + 1} 1\n0 0 1 {side} 0 1\n0 {k + 1} 1 {side} {k + 1} 1\n"
            f"{side} 0 1 {side} {k + 1} 1\nin\n"
            for k in range(4)
        )
        assert re.sub(r"^(ok|built|durable) \d+$", r"\1 N", part, flags=re.M) == wanted + "durable N\nout\n"
    assert sorted(numbers) == list(range(1, 33))
    assert program.run("--store", "four.db", script="SYNC\n") == (0, "durable 32\n", "")


def test_too_long_a_script(program: Program) -> None:
    program.file("long").write_bytes(b"\n" * 16777217)
    assert program.run("long") == (1, "error 47 read limit\n", "")
    program.file("just").write_bytes(b"\n" * 16777211 + b"HELLO")
    assert program.run("just") == (0, "error 41 command syntax\n", "")
    assert program.run("long", "just") == \
        (1, "# script 1\nerror 47 read limit\n# script 2\nerror 41 command syntax\n", "")


def test_the_longest_reply_to_layers(program: Program) -> None:
    """Of 32 layers with the longest names, each of as many rings as 2,048 steps make and of corners with the most
    digits: it has as many bytes as docs/COMMANDS.md says."""
    corners = ["-1048576 -1048576", "-1000000 -1048576", "-1000000 -1000000"]
    ring, last = corners + corners[:1], corners * 2
    rings = [ring] * (2048 // 3 - 1) + [last[:5] + corners[:1]]
    assert sum(len(one) - 1 for one in rings) == 2048
    text = "MULTIPOLYGON (" + ", ".join("((" + ", ".join(one) + "))" for one in rings) + ")"
    script = "".join(f"PUT {'N' * 30}{number} {text}\n" for number in range(10, 42)) + "LAYERS\n"
    status, output, errors = program.run(script=script)
    longest = "layers 32\n" + "".join(line.removeprefix("PUT ") + "\n" for line in script.splitlines()[:-1])
    assert (status, errors, output == "".join(f"ok {number}\n" for number in range(1, 33)) + longest) == (0, "", True)
    page = (EXAMPLES.parent / "docs" / "COMMANDS.md").read_text(encoding="utf-8")
    assert re.findall(r"one LAYERS line, 7 bytes, for up to ([0-9,]+) bytes", page) == [f"{len(longest):,}"]


def test_output_that_is_refused(program: Program) -> None:
    with open("/dev/full", "w") as full:
        assert program.run(script="HELLO\n", stdout=full) == (1, "", "error 49 write\n")


# ---- stores

def test_a_layer_outlives_the_program(program: Program) -> None:
    assert program.run("--store", "map", "--create", script=A) == (0, "ok 1\n", "")
    assert program.run("--store", "map", script="LOCATE A 2 2\nSYNC\n") == (0, "in\ndurable 1\n", "")
    assert program.run("--store", "map", "--create") == (1, "", "error 34 not empty\n")
    assert program.run("--store", "map", script="LOCATE A 2 2\n") == (0, "in\n", "")
    assert program.run(script=A + "SYNC\n") == (0, "ok 1\nerror 46 no store\n", "")


def test_bytes_of_a_store(program: Program) -> None:
    """The vectors of the format: a new store, and one layer in a store of five blocks."""
    assert program.run("--store", "new", "--create") == (0, "", "")
    new = program.file("new").read_bytes()
    body = "4f564c53544f5245 00000002 0000000000000000 0000000000000000 0000000000000002 00000002 0000000000000000"
    assert (len(new), new[0], new[BLOCK], new[16:64].hex()) == (3 * BLOCK, OPEN, 0, body.replace(" ", ""))
    assert program.run("--store", "five", "--create", "--max-blocks", "5", script=A + "SYNC\n") == \
        (0, "ok 1\ndurable 1\n", "")
    five = program.file("five").read_bytes()
    body = "4f564c53544f5245 00000002 0000000000000001 0000000000000001 0000000000000004 00000011 0000000000000000"
    record = struct.pack(">HH10i", 1, 5, 0, 0, 10, 0, 10, 10, 0, 10, 0, 0)
    catalog = bytes.fromhex("0001 01 41 00 0000000000000003 0000002c")
    assert five[3 * BLOCK :] == record.ljust(BLOCK, b"\0") + catalog.ljust(BLOCK, b"\0")
    assert (len(five), five[BLOCK], five[BLOCK + 16 : BLOCK + 64].hex()) == (5 * BLOCK, OPEN, body.replace(" ", ""))


def test_a_full_store(program: Program) -> None:
    assert program.run("--store", "two", "--create", "--max-blocks", "2") == (1, "", "error 31 full\n")
    assert program.run("--store", "four", "--create", "--max-blocks", "4", script=A + "SYNC\nLOCATE A 2 2\n") == \
        (1, "ok 1\nerror 31 full\nin\n", "error 31 full\n")
    # What was not stored is not there; in more blocks it is.
    assert program.run("--store", "four", "--max-blocks", "5", script="LAYERS\n" + A + "SYNC\n") == \
        (0, "layers 0\nok 1\ndurable 1\n", "")


def test_a_limit_of_file_size(program: Program) -> None:
    """A file that may not grow: the signal ends the program, or the write is refused where the signal is ignored."""
    def limit() -> None:
        resource.setrlimit(resource.RLIMIT_FSIZE, (3 * BLOCK, 3 * BLOCK))

    assert program.run("--store", "ended", "--create", script=A, preexec_fn=limit) == (-signal.SIGXFSZ, "", "")
    # The interpreter ignores the signal, and so does what it starts and does not restore it.
    assert program.run("--store", "told", "--create", script=A + "SYNC\n", preexec_fn=limit, restore_signals=False) == \
        (1, "ok 1\nerror 30 device\n", "error 30 device\n")
    # Without the limit both open as they were made.
    for store in ("ended", "told"):
        assert program.run("--store", store, script="LAYERS\n" + A + "SYNC\n") == (0, "layers 0\nok 1\ndurable 1\n", "")


def test_closed_streams(program: Program) -> None:
    """Streams that are closed when the program begins: the store gets none of their numbers, and what cannot be read or
    printed is the status."""
    program.file("asking").write_text("LOCATE A 2 2\n" * 3000)
    for closed in ([0], [1], [2], [0, 1], [0, 2], [1, 2], [0, 1, 2]):
        program.file("m").unlink(missing_ok=True)
        print_fault = "" if 2 in closed else "error 49 write\n"
        # With standard input, the script is read, or not.
        read = 0 not in closed
        made = (1, "", print_fault) if 1 in closed else \
            (0, "ok 1\ndurable 1\n", "") if read else (1, "error 48 read\n", "")
        assert run_without(program, closed, "--store", "m", "--create", script=A + "SYNC\n") == made
        assert program.run("--store", "m", script="LAYERS\n")[1].split("\n")[0] == ("layers 1" if read else "layers 0")
        assert program.run("--store", "m", script=A + "SYNC\n")[0] == 0
        before = program.file("m").read_bytes()
        asked = (1, "", print_fault) if 1 in closed else (0, "in\n" * 3000, "")
        assert run_without(program, closed, "--store", "m", "asking") == asked
        assert program.file("m").read_bytes() == before
        # A fault of the program's own.
        faults = run_without(program, closed, "--store", "m", "--max-blocks", "3", "new")
        assert (faults[0], faults[2]) == (1, "" if 2 in closed else "error 48 read\n")
        assert program.file("m").read_bytes() == before


def run_without(program: Program, closed: list[int], *words: str, script: str = "") -> Ran:
    """Runs the program with these of the numbers 0 to 2 closed."""
    def close() -> None:
        for number in closed:
            os.close(number)

    return program.run(*words, script=script, preexec_fn=close)


def test_lengths_that_no_record_has(program: Program) -> None:
    """A small file whose root names records of 4 GB: what they are not is reported, and no memory
    of that length is asked for."""
    extent = struct.Struct(">QI")
    far = extent.pack(3, 0xFFFFFFFF)
    catalogs = [(far, b"", 4), (extent.pack(2, 17), b"\0\1\1A\0" + far, 6),
                (extent.pack(2, 50), b"\0\1\1A\1" + far + bytes(33), 6)]
    for catalog, records, code in catalogs:
        with open(program.file("m"), "wb") as file:
            file.truncate(4096 * (2**20 + 4))
            file.write(b"\xa7" + bytes(15) + b"OVLSTORE" + struct.pack(">IQQ", 2, 2, 1) + catalog + bytes(8))
            file.seek(8192)
            file.write(records)
        ran = program.run("--store", "m", script="LAYERS\n",
                          preexec_fn=lambda: resource.setrlimit(resource.RLIMIT_AS, (2**29, 2**29)))
        assert (code, ran) == (code, (1, "", f"error 33 damaged {code}\n"))
        program.file("m").unlink()


def test_threads_that_are_refused(program: Program) -> None:
    """Where the address space has room for some of the threads alone, 40 is reported; where it has room for all of
    them, but not for all that they ask for, the replies or the program's end say so; the store has all that it had, and
    more by the scripts alone."""
    assert program.run("--store", "m", "--create", script=A + "SYNC\n") == (0, "ok 1\ndurable 1\n", "")
    names = ["P", "Q", "R", "S"]
    for name in names:
        program.file(name).write_text(f"PUT {name} POLYGON ((0 0, 1 0, 1 1, 0 1, 0 0))\n")
    refused = 0
    for size in range(8 * 2**20, 96 * 2**20, 4 * 2**20):
        ran = program.run("--store", "m", *names,
                          preexec_fn=lambda: resource.setrlimit(resource.RLIMIT_AS, (size, size)))
        began = ran != (1, "", "error 40 out of memory\n")
        if began:
            assert (size, ran, say_what_was_refused(ran)) == (size, ran, True)
        refused += not began
        layers = [line.split()[0] for line in program.run("--store", "m", script="LAYERS\n")[1].splitlines()[1:]]
        assert (size, "A" in layers, set(layers) <= {"A", *names}) == (size, True, True)
    assert refused > 0


def say_what_was_refused(ran: Ran) -> bool:
    """Whether sessions that began say all: each has its change or 40; where one has neither, as it had no memory for
    its lines or its reply could not be kept, or where the store had none for the last commit, the program ends with 1,
    by 40 or 49."""
    status, printed, faults = ran
    found = FOUR_REPLIES.fullmatch(printed)
    if not found:
        return False
    if all(found.groups()):
        return (status, faults) in ((0, ""), (1, "error 40 out of memory\n"))
    return (status, faults) in ((1, "error 40 out of memory\n"), (1, "error 49 write\n"))


def test_files_that_are_no_store(program: Program) -> None:
    program.file("empty").write_bytes(b"")
    program.file("byte").write_bytes(b"x")
    for words, error in (
        (["--store", "empty"], "32 not a store"), (["--store", "byte"], "32 not a store"),
        (["--store", "byte", "--create"], "34 not empty"), (["--store", "absent"], "30 device"),
        (["--store", ".", "--create"], "30 device"), (["--store", "/dev/null", "--create"], "30 device"),
        (["--store", "/dev/full", "--create"], "30 device"), (["--store", "absent/map", "--create"], "30 device"),
        (["--store", "byte/map", "--create"], "30 device"), (["--store", "", "--create"], "30 device"),
    ):
        assert (words, *program.run(*words)) == (words, 1, "", f"error {error}\n")
    assert program.file("byte").read_bytes() == b"x"


def test_links_to_stores(program: Program) -> None:
    program.file("link").symlink_to("target")
    assert program.run("--store", "link") == (1, "", "error 30 device\n")
    assert program.run("--store", "link", "--create", script=A) == (0, "ok 1\n", "")
    assert program.run("--store", "target", script="LOCATE A 2 2\n") == (0, "in\n", "")
    program.file("nowhere").symlink_to("absent/target")
    assert program.run("--store", "nowhere", "--create") == (1, "", "error 30 device\n")


def test_a_second_program(program: Program) -> None:
    """Refused while another has the file, and changes nothing; let in when that has ended, however it ended."""
    refused = (1, "", "error 30 device\n")
    for number, (words, end) in enumerate(((["--create"], "input"), ([], "input"), ([], "kill")), 1):
        before = program.file("map").read_bytes() if program.file("map").exists() else b""
        with subprocess.Popen(
            [program.path, "--store", "map", *words], stdin=subprocess.PIPE, stdout=subprocess.PIPE, cwd=program.folder,
        ) as first:
            first.stdin.write((A + "SYNC\n").encode())
            first.stdin.flush()
            # It has the file once it has changed it.
            deadline = time.monotonic() + SECONDS
            while time.monotonic() < deadline and not is_changed(program.file("map"), before):
                time.sleep(0.01)
            assert is_changed(program.file("map"), before)
            held = program.file("map").read_bytes()
            for others in ([], ["--create"]):
                assert (end, others, *program.run("--store", "map", *others, script=A + "SYNC\n")) == \
                    (end, others, *refused)
            assert program.file("map").read_bytes() == held
            if end == "kill":
                first.kill()
            text = first.communicate(timeout=SECONDS)[0].decode()
            assert (end, text) == (end, f"ok {number}\ndurable {number}\n" if end == "input" else "")
        assert program.run("--store", "map", script="LOCATE A 2 2\n") == (0, "in\n", "")


def is_changed(file: pathlib.Path, before: bytes) -> bool:
    """Whether a commit has changed a file and is at its end: both slots are open."""
    data = file.read_bytes() if file.exists() else b""
    return data != before and len(data) > BLOCK and data[0] == data[BLOCK] == OPEN


def slot(sequence: int, version: int, catalog: int, length: int, written: int = 2) -> bytes:
    return bytes([OPEN]) + bytes(15) + struct.pack(BODY, b"OVLSTORE", written, sequence, version, catalog, length)


def test_damaged_stores(program: Program) -> None:
    assert program.run("--store", "good", "--create", "--max-blocks", "5", script=A) == (0, "ok 1\n", "")
    good = program.file("good").read_bytes()

    def changed(at: int, new: bytes, old: bytes = good) -> bytes:
        return old[:at] + new + old[at + len(new) :]

    one = BLOCK + 16
    # Two layers of the same rings: the second's record is said to lie where the first's is.
    assert program.run("--store", "pair", "--create", script=A + A.replace("A", "C") + "SYNC\n")[0] == 0
    pair = program.file("pair").read_bytes()
    catalog = pair.rindex(bytes.fromhex("0002 01 41 00"))
    for number, damage in (
        (1, changed(one + 8, b"\0\0\0\3")), (2, changed(one + 12, struct.pack(">Q", 2))),
        (2, changed(one + 20, struct.pack(">Q", LIMIT + 1))), (3, good[: 4 * BLOCK]),
        (3, changed(one + 28, struct.pack(">Q", 1))), (4, changed(4 * BLOCK + 4, b"\2")),
        (4, changed(one + 36, struct.pack(">I", 16))), (5, changed(4 * BLOCK + 5, struct.pack(">Q", 9))),
        (6, changed(4 * BLOCK + 13, struct.pack(">I", 43))), (7, changed(4 * BLOCK + 3, b"9")),
        (6, changed(4 * BLOCK + 5, struct.pack(">Q", 4))),
        (9, changed(catalog + 20, pair[catalog + 5 : catalog + 13], pair)),
    ):
        program.file("bad").write_bytes(damage)
        assert (number, *program.run("--store", "bad")) == (number, 1, "", f"error 33 damaged {number}\n")
    for damage in (good[:8191], changed(0, b"\0")[:BLOCK] + bytes(BLOCK), changed(one, b"X")):
        program.file("bad").write_bytes(damage)
        assert program.run("--store", "bad") == (1, "", "error 32 not a store\n")


def test_last_numbers(program: Program) -> None:
    catalog = bytes(2)
    for name, version in (("version", LIMIT), ("sequence", 0)):
        blocks = [slot(LIMIT, version, 2, len(catalog)), b"", catalog]
        program.file(name).write_bytes(b"".join(block.ljust(BLOCK, b"\0") for block in blocks))
    assert program.run("--store", "version", script=A + "SYNC\n") == \
        (0, f"error 16 version limit\ndurable {LIMIT}\n", "")
    assert program.run("--store", "sequence", script=A + "SYNC\nLOCATE A 2 2\n") == \
        (1, "ok 1\nerror 36 sequence limit\nin\n", "error 36 sequence limit\n")


def test_a_tile_of_other_pieces(program: Program) -> None:
    """A tile that is rewritten as one of no pieces: it opens, VERIFY finds it, and the tile beside it is as it was. One
    of another column is damage."""
    assert program.run("--store", "tiles", "--create", script=D)[0] == 0
    data = bytearray(program.file("tiles").read_bytes())
    roots = [(struct.unpack_from(BODY, data, at + 16), at) for at in (0, BLOCK) if data[at] == OPEN]
    (_, _, _, _, block, length), _ = max(roots, key=lambda root: root[0][2])
    at = block * BLOCK
    assert data[at : at + 2] == b"\0\2"
    at += 2 + 3 + 12  # the catalog's first layer: D
    at += 3 + 12  # the second: E, with its definition
    for column in range(33):
        state = data[at]
        assert state == 1
        if column == 16:
            place = struct.unpack_from(">Q", data, at + 1)[0] * BLOCK
            data[at + 9 : at + 13] = struct.pack(">I", 6)
            data[place : place + 6] = bytes([0, 16, 0, 0, 0, 0])
        at += 13
    program.file("tiles").write_bytes(data)
    assert program.run("--store", "tiles", script="VERIFY E 15\nVERIFY E 16\nEDGES E 16\n") == \
        (0, "same\ndifferent\nedges 0\n", "")
    data[place + 1] = 17
    program.file("tiles").write_bytes(data)
    assert program.run("--store", "tiles") == (1, "", "error 33 damaged 8\n")


def put(data: bytes, at: int, new: bytes) -> bytes:
    return data[:at] + new + data[at + len(new) :]


def newest(data: bytes) -> tuple[int, int]:
    """Format and version of the open slot with the greater sequence."""
    bodies = [struct.unpack_from(BODY, data, at + 16) for at in (0, BLOCK) if data[at] == OPEN]
    _, written, _, version, _, _ = max(bodies, key=lambda body: body[2])
    return written, version


def test_files_of_format_1(program: Program) -> None:
    """They open with their layers, whatever stands for their tiles; these are built anew, and what is committed then is
    of format 2. One is a store of the program that wrote format 1."""
    old, released = old_files.in_six_blocks(), old_files.released()
    entry = 5 * BLOCK + 48
    a, b = ("MULTIPOLYGON (((0 0, 10 0, 10 10, 0 10, 0 0)))", "MULTIPOLYGON (((5 5, 15 5, 15 15, 5 15, 5 5)))")
    one = f"layers 2\nA {a}\nI = A\n", "0 0 1 0 10 1\n0 0 1 10 0 1\n0 10 1 10 10 1\n10 0 1 10 10 1\n"
    two = f"layers 3\nA {a}\nB {b}\nI = A & B\n", "5 5 1 5 10 1\n5 5 1 10 5 1\n5 10 1 10 10 1\n10 5 1 10 10 1\n"
    for name, data, version, (layers, edges) in (
        ("old", old, 2, one), ("no_tile", put(old, 2 * BLOCK, b"no tile"), 2, one),
        ("beyond", put(old, entry, b"\x4d"), 2, one), ("in_a_slot", put(old, entry, b"\0"), 2, one),
        ("in_a_record", put(old, entry, b"\3"), 2, one), ("released", released, 3, two),
    ):
        program.file(name).write_bytes(data)
        assert (name, newest(data)) == (name, (1, version))
        assert (name, *program.run("--store", name, script="LAYERS\nWAIT I\nEDGES I 16\nVERIFY I 16\nSYNC\n")) == \
            (name, 0, f"{layers}built {version}\nedges 4\n{edges}same\ndurable {version}\n", "")
        assert (name, newest(program.file(name).read_bytes())) == (name, (2, version))
        assert (name, *program.run("--store", name, script="LAYERS\nVERIFY I 16\n")) == (name, 0, f"{layers}same\n", "")
    for number, damage in ((1, put(old, BLOCK + 27, b"\3")), (4, put(old, BLOCK + 27, b"\2")),
                           (4, put(old, 5 * BLOCK + 40, b"\2")), (4, put(old, BLOCK + 55, b"\x3e")),
                           (5, put(old, 5 * BLOCK + 12, b"\1")), (6, put(old, 4 * BLOCK, b"9"))):
        program.file("bad").write_bytes(damage)
        assert (number, *program.run("--store", "bad")) == (number, 1, "", f"error 33 damaged {number}\n")
