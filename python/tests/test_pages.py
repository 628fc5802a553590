"""The pages of examples/: each command of their console blocks writes what is below it."""

import os
import pathlib
import re

from .common import TOP, Programs, WithProgram, ran

PAGES = ("tasks.md", "beside-geos.md", "maps.md")


def commands_of(text: str) -> list[tuple[str, str]]:
    """The commands of a page's console blocks, each with the lines that it is to write."""
    found = []
    for block in re.findall(r"^```console\n(.*?)^```$", text, re.M | re.S):
        for part in block.split("$ ")[1:] if block.startswith("$ ") else []:
            command, _, wanted = part.partition("\n")
            found.append((command, wanted))
    return found


class Pages(WithProgram):
    def environment(self) -> dict[str, str]:
        """The folder has what the pages ask for, and the programs are on the path."""
        if Programs.batched is None:
            self.skipTest("no built overlayd: --program names it")
        programs = self.folder / "programs"
        programs.mkdir()
        if Programs.features is None:
            self.skipTest("no built overlay_features: --features names it")
        for program in (Programs.batched, self.program, Programs.features):
            (programs / pathlib.Path(program).name).symlink_to(program)
        for name in ("overlay", "tools", "examples", "docs"):
            (self.folder / name).symlink_to(TOP / name)
        return os.environ | {"PATH": f"{programs}:{os.environ['PATH']}"}

    def test_the_commands_write_what_the_pages_say(self) -> None:
        environment = self.environment()
        for page in PAGES:
            commands = commands_of(pathlib.Path(TOP, "examples", page).read_text())
            assert len(commands) > 2
            for command, wanted in commands:
                done = ran("bash", "-c", command, cwd=self.folder, env=environment)
                assert done.stdout == wanted, f"{page}: {command}\n{done.stderr}"

    def test_every_script_of_the_pages_is_there(self) -> None:
        table = pathlib.Path(TOP, "examples", "README.md").read_text()
        names = [name for row in re.findall(r"^\| .* \| ([a-z, -]*) \|$", table, re.M)
                 for name in re.split(r", | with ", row)]
        assert len(names) > 20
        assert [name for name in names if not (TOP / "examples" / f"{name}.txt").is_file()] == []
