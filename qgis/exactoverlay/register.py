"""Registers: GeoPackages whose layers are edited as ever, with tables of what they overlap that follow each edit."""

from __future__ import annotations

import json
import os
import pathlib
import subprocess
import sys
from typing import Any

from qgis.core import (QgsProcessing, QgsProcessingException, QgsProcessingOutputNumber, QgsProcessingOutputString,
                       QgsProcessingParameterBoolean, QgsProcessingParameterEnum, QgsProcessingParameterFile,
                       QgsProcessingParameterFileDestination, QgsProcessingParameterMultipleLayers,
                       QgsProcessingParameterString)

from .exact import Exact
from .ext.overlayd.kernel import Cancelled
from .ext.overlayd.kernel.running import Said, Watch
from .ext.overlayd.register.model import Kind
from .running import GoesOn

FILE, LAYERS, IDENT, SNAP = "FILE", "LAYERS", "ID", "SNAP"
KIND, TABLE, LAYER, OTHER, EXPRESSION = "KIND", "TABLE", "LAYER", "OTHER", "EXPRESSION"
KINDS = [one.value for one in Kind]
IDENT_TOLD = "Field that names features, or LAYER=FIELD, .. (optional)"
PLUGINS = str(pathlib.Path(__file__).parents[1])
WORK = "import sys; sys.path.insert(0, sys.argv[1]); from exactoverlay.register_work import main; main()"


class Refusal(Exception):
    """Why a work with a register is not done."""


def apart(words: list[Any], goes_on: GoesOn) -> tuple[list[str], Any]:
    """What a process of its own says and finds: register_work.py says why it is one."""
    process = subprocess.Popen([python(), "-c", WORK, PLUGINS], stdin=subprocess.PIPE, stdout=subprocess.PIPE,
                               stderr=subprocess.PIPE)
    said, watch, told = Said(process), Watch(process, goes_on), list[dict[str, Any]]()
    with process, process.stdin as given:
        given.write(json.dumps(words).encode())
        given.close()
        for line in process.stdout:
            told.append(json.loads(line))
            watch.done = told[-1].get("done", watch.done)
    watch.ended.set()
    if watch.is_cancelled:
        raise Cancelled
    if not told or "found" not in told[-1]:
        raise Refusal(told[-1]["fault"] if told and "fault" in told[-1] else said.text())
    return [one["said"] for one in told if "said" in one], told[-1]["found"]


def python() -> str:
    """Python itself: what QGIS calls so may be QGIS."""
    own = pathlib.Path(sys.executable or "")
    return str(own if own.name.startswith("python") else pathlib.Path(sys.exec_prefix, "bin", "python3"))


class OfRegister(Exact):
    """An algorithm over a register, which a file or a database has; it has one OUTPUT, of what is found."""

    FAULTS = (Refusal, OSError)
    CANCELLED = "cancelled; what was done before stays"
    OUTPUT: tuple[type[Any], str, str] = QgsProcessingOutputString, "STATUS", "How it stands"

    def group(self) -> str:
        return "Register"

    def groupId(self) -> str:
        return "register"

    def initAlgorithm(self, config: Any = None) -> None:
        self.add_words()
        kind, *told = self.OUTPUT
        self.addOutput(kind(*told))

    def add_words(self) -> None:
        """Parameters of what words has."""
        self.addParameter(QgsProcessingParameterFile(FILE, "GeoPackage, or PG:service=.."))

    def add_text(self, name: str, told: str, is_optional: bool = True) -> None:
        self.addParameter(QgsProcessingParameterString(name, told, optional=is_optional))

    def text(self, parameters: Any, name: str, context: Any) -> str:
        return str(self.parameterAsString(parameters, name, context)).strip()

    def texts(self, parameters: Any, name: str, context: Any) -> list[str]:
        """Words between commas."""
        return [one.strip() for one in self.text(parameters, name, context).split(",") if one.strip()]

    def file(self, parameters: Any, context: Any, feedback: Any) -> str:
        """Where the register is, or is to be."""
        return self.text(parameters, FILE, context)

    def work(self, parameters: Any, context: Any) -> tuple[str, list[Any]]:
        """What is to be done."""
        return "status", []

    def beginning(self, parameters: Any, context: Any, names: list[str], snaps: bool) -> tuple[str, list[Any]]:
        """Layers are taken into a register."""
        grid = self.text(parameters, self.GRID, context) or None
        return "begin", [names, grid, self.texts(parameters, IDENT, context), snaps]

    def answer(self, parameters: Any, context: Any, feedback: Any) -> dict[str, Any]:
        file = self.file(parameters, context, feedback)
        work = self.work(parameters, context)
        said, found = self.done(feedback, lambda path, goes_on: apart([file, path, *work], goes_on))
        _, name, told = self.OUTPUT
        feedback.pushInfo("\n".join([*said, f"{told}: {found}"]))
        return {FILE: file, name: found}


class Init(OfRegister):
    """exactoverlay:registerinit."""

    NAME, TITLE = "registerinit", "Make a register of layers"
    HELP = ("Packs layers into a new GeoPackage, brings them onto one grid, corners on a neighbour's border taken into "
            "it, and makes a register of them: tables of what they overlap can be kept there (Keep a table of "
            "results), and follow each edit of any program.")

    def add_words(self) -> None:
        self.addParameter(QgsProcessingParameterMultipleLayers(LAYERS, "Layers", QgsProcessing.TypeVectorPolygon))
        self.add_grid()
        self.add_text(IDENT, IDENT_TOLD)
        self.addParameter(QgsProcessingParameterFileDestination(FILE, "Register", "GeoPackage (*.gpkg)"))

    def file(self, parameters: Any, context: Any, feedback: Any) -> str:
        import processing

        file = str(self.parameterAsFileOutput(parameters, FILE, context))
        if os.path.exists(file):
            raise QgsProcessingException(f"{file} is there already: Take layers into a register makes one in it")
        words = {"LAYERS": self.parameterAsLayerList(parameters, LAYERS, context), "OUTPUT": file, "SAVE_STYLES": False}
        processing.run("native:package", words, context=context, feedback=feedback, is_child_algorithm=True)
        return file

    def work(self, parameters: Any, context: Any) -> tuple[str, list[Any]]:
        names = [layer.name() for layer in self.parameterAsLayerList(parameters, LAYERS, context)]
        return self.beginning(parameters, context, names, True)


class Adopt(OfRegister):
    """exactoverlay:registeradopt."""

    NAME, TITLE = "registeradopt", "Take layers into a register"
    HELP = ("Takes layers that are in a GeoPackage, or in a database of PostGIS, into its register, which is made "
            "where none is there. Their shapes are not changed, but where they are to be brought onto the grid.")

    def add_words(self) -> None:
        super().add_words()
        self.add_text(LAYERS, "Names of layers, with commas", False)
        self.add_grid()
        self.add_text(IDENT, IDENT_TOLD)
        self.addParameter(QgsProcessingParameterBoolean(SNAP, "Bring shapes onto the grid", defaultValue=False))

    def work(self, parameters: Any, context: Any) -> tuple[str, list[Any]]:
        snaps = self.parameterAsBool(parameters, SNAP, context)
        return self.beginning(parameters, context, self.texts(parameters, LAYERS, context), snaps)


class Keep(OfRegister):
    """exactoverlay:registerkeep."""

    NAME, TITLE = "registerkeep", "Keep a table of results"
    HELP = ("Keeps the table overlay_result_NAME in a register: which features of two layers touch or overlap (pairs), "
            "which of one layer overlap (check), or the area of an expression over layers, cell by cell, as "
            "(flood | slide) - parks (derive).")
    OUTPUT = QgsProcessingOutputNumber, "ROWS", "Number of rows"

    def add_words(self) -> None:
        super().add_words()
        self.addParameter(QgsProcessingParameterEnum(KIND, "What is kept", KINDS, defaultValue=0))
        self.add_text(TABLE, "Name of the table", False)
        self.add_text(LAYER, "Layer (pairs, check)")
        self.add_text(OTHER, "Other layer (pairs)")
        self.add_text(EXPRESSION, "Expression (derive)")

    def work(self, parameters: Any, context: Any) -> tuple[str, list[Any]]:
        name, layer, other, expression = (self.text(parameters, one, context)
                                          for one in (TABLE, LAYER, OTHER, EXPRESSION))
        kind = KINDS[self.parameterAsEnum(parameters, KIND, context)]
        of = {"pairs": [layer, other], "check": [layer, layer], "derive": [None, None, expression]}
        return "keep", [name, kind, *of[kind]]


class Refresh(OfRegister):
    """exactoverlay:registerrefresh."""

    NAME, TITLE = "registerrefresh", "Refresh a register"
    HELP = "Brings all tables of results of a register up to date: what is near each change since is worked out again."
    OUTPUT = QgsProcessingOutputNumber, "CHANGES", "Number of changes"

    def work(self, parameters: Any, context: Any) -> tuple[str, list[Any]]:
        return "refresh", []


class Status(OfRegister):
    """exactoverlay:registerstatus."""

    NAME, TITLE = "registerstatus", "How a register stands"
    HELP = "Of which state the tables of results of a register are, what is pending, and what is wrong with features."


REGISTER = Init, Adopt, Keep, Refresh, Status
