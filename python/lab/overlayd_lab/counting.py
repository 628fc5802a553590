"""A module for programs of the lab: their words, a folder for a run, what was tried, and the last
line, `N passed, M failed`."""

import argparse
import os
import pathlib
import shutil
import tempfile


def absolute(path: str) -> str:
    """A path that holds wherever a program is run."""
    return os.path.abspath(path)


class Words(argparse.ArgumentParser):
    """The words of a program, told with its page as it stands."""

    def __init__(self, page: str | None) -> None:
        super().__init__(description=page, formatter_class=argparse.RawDescriptionHelpFormatter)


def counted(passed: int, failed: int) -> int:
    """Prints the last line, and gives the exit status."""
    print(f"{passed} passed, {failed} failed")
    return 1 if failed else 0


class Tries:
    """What was tried and whether it held."""

    def __init__(self) -> None:
        self.passed = self.failed = 0

    def that(self, holds: object, text: str) -> None:
        """Counts and prints one thing that was tried."""
        self.passed += bool(holds)
        self.failed += not holds
        print(("ok      " if holds else "FAILED  ") + text, flush=True)

    def end(self) -> int:
        """Prints the last line, and gives the exit status."""
        return counted(self.passed, self.failed)


class Kept:
    """A folder for a run: the one that was named, or a new one that is taken away unless something was wrong."""

    def __init__(self, named: str | None, prefix: str) -> None:
        self.is_named, self.wrong = named is not None, 0
        self.folder = pathlib.Path(named or tempfile.mkdtemp(prefix=prefix))
        self.folder.mkdir(parents=True, exist_ok=True)
        (self.folder / "store.db").unlink(missing_ok=True)

    def end(self) -> None:
        """Takes the folder away or says where it is."""
        if self.wrong:
            print(f"kept in {self.folder}")
        elif not self.is_named:
            shutil.rmtree(self.folder)
