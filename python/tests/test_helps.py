"""The command overlay lists its subcommands, each of which says by --help what it does; python/README.md names all."""

import pathlib
import re
import sys
import tempfile
import unittest
from fractions import Fraction

import click

from overlayd.cli import PURPOSES
from overlayd.words import NUMBER, argument, flag, option, subcommand, words_of

from .common import OVERLAY, TOP, ran


class Helps(unittest.TestCase):
    def test_each_subcommand_says_what_it_does(self) -> None:
        assert len(PURPOSES) == 14
        for name in PURPOSES:
            done = ran(*OVERLAY, name, "--help")
            assert (done.returncode, done.stderr) == (0, ""), name
            assert done.stdout.lower().startswith(f"usage: overlay {name} "), name
            assert len(done.stdout.split()) > 20, name

    def test_the_list_of_subcommands_loads_none_of_them(self) -> None:
        code = ("import sys\nfrom overlayd import cli\n"
                "try: cli.main(args=['--help'])\n"
                "except SystemExit: print(sorted(name for name in sys.modules if name.startswith('overlayd')))\n")
        done = ran(sys.executable, "-c", code, cwd=TOP / "python/src", check=True)
        listed, _, modules = done.stdout.rstrip().rpartition("\n")
        assert re.findall(r"^  ([a-z]+)  ", listed.partition("Subcommands:")[2], re.M) == list(PURPOSES)
        assert modules == "['overlayd', 'overlayd.api', 'overlayd.cli', 'overlayd.ending']"

    def test_a_word_that_is_no_subcommand_is_refused(self) -> None:
        done = ran(*OVERLAY, "to_script")
        assert (done.returncode, done.stdout, "No such command 'to_script'" in done.stderr) == (2, "", True)

    def test_an_option_of_one_value_that_is_given_twice_is_refused(self) -> None:
        for words in (
            ("show", "m.json", "--output"), ("dump", "m.db", "--output"), ("export", "--store"), ("rings", "--scale"),
            ("import", "m.json", "--factor"), ("svg", "--store"), ("which", "--scale"), ("serve", "--store"),
            ("pairs", "a", "b", "--grid"), ("pieces", "a", "b", "--a-id"), ("check", "a", "--where"),
            ("derive", "a", "a=b", "--out"), ("task", "w", "1", "--program"), ("register", "refresh", "m", "--program"),
        ):
            done = ran(*OVERLAY, *words, "1", words[-1], "1")
            told = f"Error: Option '{words[-1]}' is given twice.\n"
            assert (done.returncode, done.stdout, done.stderr.endswith(told)) == (2, "", True), done.stderr

    def test_an_option_is_given_once_by_whichever_of_its_names(self) -> None:
        done = ran(*OVERLAY, "check", "a", "--where", "x", "--a-where=y")
        assert (done.returncode, done.stderr.splitlines()[-1:]) == (2, ["Error: Option '--a-where' is given twice."])

    def test_what_may_be_given_several_times_is_taken_so(self) -> None:
        given = "-5 --name b --name=-b --exact --exact --origin -1 -5/3 --dask -- -a".split()
        found = {"name": ("b", "-b"), "origin": (-1, Fraction(-5, 3)), "exact": True, "dask": "", "files": ("-5", "-a")}
        for _ in range(2):  # what is parsed anew is given anew
            assert vars(words_of(self.command(), given)) == found

    def command(self) -> click.Command:
        return subcommand(None, option("--name", "", multiple=True), option("--origin", "", NUMBER, nargs=2),
                          flag("--exact", ""), option("--dask", "", is_flag=False, flag_value=""),
                          argument("files", nargs=-1))(lambda words: 0)

    def test_a_word_that_looks_like_an_option_is_no_value(self) -> None:
        for given, told in ((["--name", "--exact"], "Option '--name' requires an argument."),
                            (["--origin", "1", "-x"], "Option '--origin' requires 2 arguments."),
                            (["--name"], "Option '--name' requires an argument."),
                            (["--origin", "1"], "Option '--origin' requires 2 arguments."),
                            (["--nam", "x"], "No such option: --nam"), (["--origin", "1", "x"], "no number")):
            with self.assertRaisesRegex(click.UsageError, re.escape(told)):
                words_of(self.command(), given)

    def test_each_subcommand_is_told_once(self) -> None:
        rows = re.findall(r"^\| `overlay ([a-z]+)` \|", (TOP / "python/README.md").read_text(), re.M)
        assert rows == list(PURPOSES)

    def test_each_module_is_told_once(self) -> None:
        _, _, table = (TOP / "python/README.md").read_text().partition("| Part | Modules |\n")
        sources = TOP / "python/src/overlayd"
        rows, _, _ = (sources / "maps/README.md").read_text().partition("\n\nWhat the programs")
        told = re.findall(r"`(\w+\.py)`", rows)
        self.assertEqual(sorted([*re.findall(r"`([\w/]+\.py)`", table), *(f"maps/{name}" for name in told)]),
                         sorted(path.relative_to(sources).as_posix() for path in sources.rglob("*.py")
                                if path.stem != "__init__" or path.parent.name == "grid"))

    def test_the_command_is_found_from_anywhere(self) -> None:
        with tempfile.TemporaryDirectory() as made:
            first, second, tree = (pathlib.Path(made, name) for name in ("first", "second", "tree"))
            second.symlink_to(TOP / "overlay")
            first.symlink_to("second")
            tree.symlink_to(TOP)
            for called in ([first], [tree / "overlay"], [sys.executable, "-P", first],
                           [sys.executable, TOP / "python/src/overlayd/__main__.py"]):
                done = ran(*called, "which", "--help", cwd=made, check=True)
                assert done.stdout.startswith("Usage: overlay which [OPTIONS] [X Y]"), done.stdout
