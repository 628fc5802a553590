"""Tests of release/make: the same bytes twice, and files that work where they are unpacked or installed. The kit's
`rt`, debhelper and help2man are needed. release/try tries the package in a clean root."""

import gzip
import json
import os
import pathlib
import re
import shutil
import subprocess
import sys
import urllib.request
import zipfile
from collections.abc import Iterator
from dataclasses import dataclass

import pytest

from overlayd import __version__
from overlayd.cli import PURPOSES

from .common import TOP, Programs

SECONDS = 1_700_000_000  # 2023-11-14
MAP = TOP / "tools/data/north_carolina.geojson"
NAMES = ("overlay_features", "overlay_live", "overlayd")
DEBIANS_PYTHON = "/usr/bin/python3"
NEEDED = ("rt", "dh", "help2man", "dpkg-buildpackage")
Done = subprocess.CompletedProcess[str]


def made_by(out: pathlib.Path, *words: object, umask: int = 0o022, **environment: str) -> Done:
    """A run of make."""
    given = [str(word) for word in (TOP / "release/make", "--out", out, "--maintainer", "A B <a@b.example>", *words)]
    told = {**os.environ, "SOURCE_DATE_EPOCH": str(SECONDS), **environment}
    return subprocess.run(given, env=told, umask=umask, capture_output=True, text=True, check=False)


@dataclass(frozen=True)
class Built:
    """The programs, what was made of them, and where the archive and the package are unpacked."""

    programs: pathlib.Path
    out: pathlib.Path
    prefix: pathlib.Path
    package: pathlib.Path

    def file(self, pattern: str) -> pathlib.Path:
        (found,) = self.out.glob(pattern)
        return found

    def ran(self, *words: object, cwd: pathlib.Path | None = None) -> Done:
        """A command of the unpacked archive, whose folder is not on the path; Python is the one of these tests."""
        given = [str(word) for word in (self.prefix / "bin" / str(words[0]), *words[1:])]
        return subprocess.run(given, env=self.environment(), cwd=cwd, capture_output=True, text=True, check=False,
                              timeout=300)

    def environment(self) -> dict[str, str]:
        path = f"{pathlib.Path(sys.executable).parent}:/usr/bin:/bin"
        return {"PATH": path, "HOME": str(self.out), "LC_ALL": "C.UTF-8", "PYTHONDONTWRITEBYTECODE": "1"}


@pytest.fixture(scope="module")
def built(tmp_path_factory: pytest.TempPathFactory) -> Built:
    """The release that all tests look at."""
    given = Programs.features, Programs.live, Programs.batched
    if None in given or not all(map(shutil.which, NEEDED)):
        pytest.skip(f"a release is made of all three programs, by {', '.join(NEEDED)}")
    folder = tmp_path_factory.mktemp("release")
    for name in ("programs", "anywhere", "package"):
        (folder / name).mkdir()
    for path, name in zip(given, NAMES):
        shutil.copy(str(path), folder / "programs" / name)
    done = made_by(folder / "out", "--programs", folder / "programs")
    assert done.returncode == 0, done.stderr
    name = f"overlayd-{__version__}-linux-x86_64"
    subprocess.run(["tar", "-xf", folder / f"out/{name}.tar.gz", "-C", folder / "anywhere"], check=True)
    (package,) = (folder / "out").glob("*.deb")
    subprocess.run(["dpkg-deb", "-R", package, folder / "package"], check=True)
    return Built(folder / "programs", folder / "out", folder / "anywhere" / name, folder / "package")


def files(top: pathlib.Path) -> dict[str, bytes]:
    """All files below a folder by their paths; of a link where it leads."""
    return {path.relative_to(top).as_posix(): os.readlink(path).encode() if path.is_symlink() else path.read_bytes()
            for path in top.rglob("*") if path.is_symlink() or path.is_file()}


# ---- what is made


def test_the_same_bytes_come_twice(built: Built, tmp_path: pathlib.Path) -> None:
    done = made_by(tmp_path, "--programs", built.programs, umask=0o077, TZ="Asia/Tokyo", PYTHONHASHSEED="7", LC_ALL="C",
                   COLUMNS="40")
    assert done.returncode == 0, done.stderr
    assert files(tmp_path) == files(built.out) and len(files(tmp_path)) == 5


def test_the_archive_has_the_files_of_the_package_and_sums_are_right(built: Built) -> None:
    sums = files(built.prefix).pop("md5sums").decode()
    assert files(built.prefix) == files(built.package / "usr") | {"md5sums": sums.encode()}
    told = (built.package / "DEBIAN/md5sums").read_text()
    assert told == re.sub(r"(?m)^(\w+  )", r"\1usr/", sums)
    for folder, text in ((built.package, told), (built.prefix, sums)):
        subprocess.run(["md5sum", "--quiet", "-c"], input=text, cwd=folder, text=True, check=True)
    subprocess.run(["sha256sum", "--quiet", "-c", "SHA256SUMS"], cwd=built.out, check=True)


def parts(built: Built) -> Iterator[tuple[str, dict[str, bytes]]]:
    """The package overlayd and the programs, as each of the forms has them."""
    for top in (built.prefix, built.package / "usr"):
        yield "bin", files(top / "bin")
        yield "package", files(top / "lib/overlayd/python/src/overlayd")
    for pattern, folder, programs in (("*.whl", "overlayd/", "overlayd/bin/"),
                                      ("*.zip", "exactoverlay/ext/overlayd/", "exactoverlay/bin/linux-x86_64/")):
        with zipfile.ZipFile(built.file(pattern)) as file:
            found = {name: file.read(name) for name in file.namelist()}
        yield "bin", {name.removeprefix(programs): own for name, own in found.items() if name.startswith(programs)}
        yield "package", {name.removeprefix(folder): own for name, own in found.items()
                          if name.startswith(folder) and not name.startswith(programs)}


def test_all_is_byte_for_byte_what_is_tested(built: Built) -> None:
    sources = files(TOP / "python/src/overlayd")
    for kind, found in parts(built):
        wanted = {path.name: path.read_bytes() for path in built.programs.iterdir()} if kind == "bin" else sources
        assert found and {name: own for name, own in found.items() if name != "overlay"} == {
            name: wanted[name] for name in found if name != "overlay"}
        assert "overlay_features" in found or "kernel/running.py" in found


def test_no_link_leads_out_and_nothing_of_the_tests_is_in(built: Built) -> None:
    for prefix in (built.prefix, built.package / "usr"):
        for path in prefix.rglob("*"):
            assert path.resolve().is_relative_to(prefix.resolve()) and path.exists(), path
            assert not re.search(r"testing|stressing|test_\w+\.py|__pycache__", path.name), path


def test_the_version_is_told_alike_everywhere(built: Built) -> None:
    assert built.ran("overlay_live", "--version").stdout.startswith(f"overlay_live {__version__}, ")
    assert built.ran("overlay", "--version").stdout == f"overlay, version {__version__}\n"
    assert f'"version": "{__version__}"' in (TOP / "python/src/overlayd/web/openapi.py").read_text()
    assert f'"overlay_live {__version__}"' in (TOP / "docs/overlay_live.1").read_text()
    assert f"\nversion={__version__}\n" in (TOP / "qgis/exactoverlay/metadata.txt").read_text()
    assert {path.name for path in built.out.iterdir() if __version__ not in path.name} == {"SHA256SUMS"}


def test_what_cannot_be_made_is_told_and_nothing_is_written(tmp_path: pathlib.Path) -> None:
    (tmp_path / "programs").mkdir()
    for name in NAMES:
        program = tmp_path / "programs" / name
        program.write_text("#!/bin/sh\necho overlay_live 0.9, file format 2\n")
        program.chmod(0o755)
    if not shutil.which("rt"):
        pytest.skip("rt is not there")
    named = "--programs", tmp_path / "programs"
    for words, environment, status, told in (
        (named, {}, 1, "overlay_live prints `overlay_live 0.9, file format 2`"),
        (("--programs", tmp_path / "none"), {}, 1, "no such program; `bash .ci/run` proves and builds all three"),
        (named, {"SOURCE_DATE_EPOCH": "soon"}, 1, "release/make: SOURCE_DATE_EPOCH=soon: no number of seconds\n"),
        (named, {"PATH": "/usr/bin:/bin"}, 1, "release/make: rt is not on the path"),
        (("--programs",), {}, 2, "release/make: --programs: of which nothing is known, or without its value\n"),
    ):
        done = made_by(tmp_path / "out", *words, **environment)
        assert (done.returncode, done.stdout, done.stderr.count("\n")) == (status, "", 1) and told in done.stderr, told
    assert not (tmp_path / "out").exists()


def test_a_tree_that_differs_from_its_commit_is_refused(tmp_path: pathlib.Path) -> None:
    own = {name: value for name, value in os.environ.items() if not name.startswith(("GIT_", "SOURCE_DATE"))}
    (tmp_path / "release").mkdir()
    shutil.copy(TOP / "release/make", tmp_path / "release")
    page = tmp_path / "README.md"
    page.write_text("a page\n")
    git = ["git", "-C", tmp_path, "-c", "user.name=A", "-c", "user.email=a@b.example", "-c", "commit.gpgsign=false"]
    for words in (["init", "-q"], ["add", "."], ["commit", "-qm", "a page"]):
        subprocess.run([*git, *words], env=own, check=True)
    for text, told in (("a page\n", "no such program"), ("another page\n", "README.md: not as it was committed")):
        page.write_text(text)
        done = subprocess.run([tmp_path / "release/make"], env=own | {"PATH": f"{tmp_path}:{own['PATH']}"},
                              capture_output=True, text=True, check=False)
        assert done.returncode == 1 and told in done.stderr, done.stderr


# ---- what is read


def test_each_subcommand_tells_its_own_name_and_no_clone(built: Built) -> None:
    for name in PURPOSES:
        done = built.ran("overlay", name, "--help")
        assert (done.returncode, done.stderr) == (0, ""), name
        assert done.stdout.lower().startswith(f"usage: overlay {name} ") and "./overlay" not in done.stdout, name


def test_each_command_has_a_page_without_faults(built: Built) -> None:
    names = {"overlay", *(f"overlay-{one}" for one in PURPOSES), *NAMES}
    pages = {path.name.removesuffix(".1.gz"): gzip.decompress(path.read_bytes())
             for path in (built.prefix / "share/man/man1").iterdir()}
    assert {*pages} == names
    for name, text in pages.items():
        assert re.search(rf"\n\.SH NAME\n{name.replace('-', r'.?-')} \\- \S", text.decode()), name
        if shutil.which("groff"):
            done = subprocess.run(["groff", "-man", "-t", "-ww", "-z", "-K", "utf8"], input=text, capture_output=True,
                                  check=False)
            lines = [line for line in done.stderr.decode().splitlines() if "can't break line" not in line]
            assert (name, done.returncode, lines) == (name, 0, [])


def test_bash_completes_options_and_subcommands(built: Built) -> None:
    for words, wanted in (("overlay which --st", "--store"), ("overlay che", "check"),
                          ("overlay rings --ar", "--areas"), ("overlay export --ou", "--output"),
                          ("overlay --ver", "--version"), ("overlay serve --store nothing --wr", "--writable"),
                          ("overlay show --on", "--only-make")):
        text = (f"source {built.prefix}/share/bash-completion/completions/overlay; COMP_WORDS=({words}); "
                f"COMP_CWORD={len(words.split()) - 1}; _overlay_completion overlay; echo \"${{COMPREPLY[*]}}\"")
        done = subprocess.run(["bash", "-c", text], capture_output=True, text=True, check=True,
                              env={**os.environ, "PATH": f"{built.prefix / 'bin'}:{os.environ['PATH']}"})
        assert (words, done.stdout.strip(), done.stderr) == (words, wanted, "")


@pytest.mark.parametrize("unit", ["overlay-web@city.service", "overlay-register@land.service"])
def test_a_unit_is_one_and_leaves_little_open(built: Built, unit: str) -> None:
    if not shutil.which("systemd-analyze"):
        pytest.skip("systemd-analyze is not there")
    done = subprocess.run(["systemd-analyze", "security", "--offline=true", f"--root={built.package}", unit],
                          capture_output=True, text=True, check=False)
    level = re.search(rf"exposure level for {unit}: ([0-9.]+)", done.stdout)
    if level is None:
        pytest.skip("systemd-analyze takes no --root")
    assert float(level[1]) < 2 and not re.search("Unknown|Failed to parse|Invalid", done.stderr)


def test_pages_are_those_that_a_clone_prints_and_no_licence_is_given(built: Built, tmp_path: pathlib.Path) -> None:
    subprocess.run([TOP / ".ci/believe", "--texts", tmp_path / "believe"], check=True)
    (tmp_path / "ROOMS.md").write_bytes(subprocess.run([TOP / ".ci/rooms"], capture_output=True, check=True).stdout)
    docs = files(built.prefix / "share/doc/overlayd/docs")
    wanted = files(tmp_path)
    assert len(wanted) == 4 and {name: docs[name] for name in wanted} == wanted
    assert "No licence is given yet" in (built.prefix / "share/doc/overlayd/copyright").read_text()


def test_the_package_says_what_it_needs(built: Built) -> None:
    text = (built.package / "DEBIAN/control").read_text()
    fields = dict(line.split(": ", 1) for line in text.splitlines() if not line.startswith(" "))
    assert [fields[name] for name in ("Package", "Version", "Architecture", "Maintainer", "Recommends")] == [
        "overlayd", __version__, "amd64", "A B <a@b.example>", "libjs-leaflet, python3-geopandas"]
    assert re.fullmatch(
        r"libc6 \(>= 2\.[0-9]+\), python3:any, python3 \(>= 3\.11\), python3-cachetools, python3-click, python3-flask, "
        r"python3-gdal, python3-numpy, python3-pyproj, python3-tqdm, python3-waitress", fields["Depends"])
    command = built.package / "usr/lib/overlayd/overlay"
    assert command.read_bytes().startswith(b"#!/usr/bin/python3\n")


# ---- what is used


def test_a_store_is_made_and_asked(built: Built, tmp_path: pathlib.Path) -> None:
    shutil.copy(TOP / "tools/data/iceland_110m.geojson", tmp_path / "iceland.geojson")
    for words in (("overlay", "import", "iceland.geojson", "--fit", "--output", "map.txt"),
                  ("overlayd", "--store", "map.db", "--create", "map.txt")):
        done = built.ran(*words, cwd=tmp_path)
        assert done.returncode == 0, done.stderr
    assert built.ran("overlay", "which", "--store", "map.db", "-18", "65", cwd=tmp_path).stdout == "iceland\n"


def test_a_first_map_is_checked_and_served(built: Built, tmp_path: pathlib.Path) -> None:
    shutil.copy(MAP, tmp_path / "nc.geojson")
    done = built.ran("overlay", "show", "nc.geojson", "--only-make", "--output", "nc.gpkg", cwd=tmp_path)
    assert done.returncode == 0, done.stderr
    assert "layer nc: 0 changes pending\n" in built.ran("overlay", "register", "status", "nc.gpkg", cwd=tmp_path).stdout
    assert built.ran("overlay", "check", "nc.geojson", "--out", "o.csv", cwd=tmp_path).returncode == 0
    words = [str(built.prefix / "bin/overlay"), "serve", "nc.gpkg", "--port", "0"]
    with subprocess.Popen(words, cwd=tmp_path, stdout=subprocess.PIPE, text=True, env=built.environment()) as front:
        assert front.stdout
        address = front.stdout.readline().strip()
        try:
            with urllib.request.urlopen(f"{address}collections/nc/items?limit=1000", timeout=60) as answer:
                assert len(json.load(answer)["features"]) == 100
            with urllib.request.urlopen(f"{address}?f=html", timeout=60) as answer:
                assert b"<html" in answer.read()
        finally:
            front.terminate()
        assert front.wait(60) == 0


def test_the_programs_run_a_script_of_the_documents(built: Built, tmp_path: pathlib.Path) -> None:
    examples = built.prefix / "share/doc/overlayd/examples"
    done = built.ran("overlayd", examples / "first.txt", cwd=tmp_path)
    assert (done.returncode, done.stdout) == (0, (examples / "first.expected").read_text())


CLIENT = """
from overlayd import program
from overlayd.store.world import rings
with program.Server() as server, server.session() as one:
    one.batch(['PUT A POLYGON ((0 0, 9 0, 9 9, 0 9, 0 0))', 'DEFINE I = A'])
    print(len(rings(one, 'I')))
"""
KERNEL = """
import os, sys
from overlayd import program, program_files
from overlayd.api.pieces import pieces
from overlayd.kernel import Ask, Wants, derive
from overlayd.kernel.columns import of_bytes
def square(x, side):
    ring = np.array([[x, 0], [x + side, 0], [x + side, side], [x, side], [x, 0]], '<f8')
    return of_bytes([np.array([1], 'u1').tobytes() + np.array([3, 1, 5], '<u4').tobytes() + ring.tobytes()])
import numpy as np
ask = Ask(program_files.found_program('overlay_features'), Wants.OUTLINES)
found = pieces(square(0, 4), square(2, 4), 'union', ask)
print([one.area for one in found.rows()])
print(derive({'a': square(0, 4), 'b': square(2, 4)}, 'a ^ b', ask).area.exact(0))
with program.Server(program=program_files.found_program()) as server, server.session() as one:
    one.batch(['PUT A POLYGON ((0 0, 9 0, 9 9, 0 9, 0 0))'])
    print(one.locate('A', 3, 3))
others = ('click', 'geopandas', 'osgeo', 'pandas', 'shapely', 'tqdm')
print([name for name in others if name in sys.modules], os.path.dirname(ask.program))
"""


def test_the_client_is_one_that_python_imports(built: Built) -> None:
    done = subprocess.run([sys.executable, "-c", CLIENT], capture_output=True, text=True, check=False, env={
        **built.environment(), "PATH": f"{built.prefix / 'bin'}:/usr/bin:/bin",
        "PYTHONPATH": str(built.prefix / "lib/python3/dist-packages")})
    assert (done.returncode, done.stdout, done.stderr) == (0, "1\n", "")


def test_the_wheel_needs_numpy_alone(built: Built, tmp_path: pathlib.Path) -> None:
    """In an environment with numpy, which pip is not asked to get: the kernel, its pieces, and both programs."""
    import numpy

    subprocess.run([DEBIANS_PYTHON, "-m", "venv", "--without-pip", tmp_path], check=True)
    place, source = tmp_path / "lib/python3.11/site-packages", pathlib.Path(numpy.__file__).parents[1]
    for path in source.glob("numpy*"):
        (place / path.name).symlink_to(path)
    python, wheel = tmp_path / "bin/python", built.file("*-py3-none-linux_x86_64.whl")
    subprocess.run([DEBIANS_PYTHON, "-m", "pip", "-q", "--python", python, "install", "--no-index", wheel], check=True)
    done = subprocess.run([python, "-c", KERNEL], capture_output=True, text=True, check=False, cwd=tmp_path,
                          env={"PATH": "/none", "HOME": str(tmp_path)})
    wanted = f"[8.0, 8.0, 8.0]\n16\nin\n[] {place}/overlayd/bin\n"
    assert (done.returncode, done.stdout, done.stderr) == (0, wanted, "")
    with zipfile.ZipFile(wheel) as file:
        told = file.read(f"overlayd-{__version__}.dist-info/METADATA").decode()
    assert re.findall(r"(?m)^Requires-Dist: ([\w-]+)$", told) == ["numpy"]
    assert {"files", "frames", "register", "web"} <= {*re.findall(r"(?m)^Provides-Extra: (\w+)$", told)}
