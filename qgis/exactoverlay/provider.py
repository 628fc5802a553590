"""The provider: its algorithms, and the setting that names the program."""

from __future__ import annotations

import pathlib
from typing import Any

from qgis.core import QgsProcessingProvider
from qgis.PyQt.QtGui import QIcon

from .check import Check
from .derive import Derive
from .finding import SETTING
from .pairs import Pairs
from .pieces import Pieces
from .register import REGISTER

ICON = str(pathlib.Path(__file__).with_name("icon.svg"))


class Provider(QgsProcessingProvider):
    """Exact overlay, exactoverlay."""

    def id(self) -> str:
        return "exactoverlay"

    def name(self) -> str:
        return "Exact overlay"

    def icon(self) -> Any:
        return QIcon(ICON)

    def load(self) -> bool:
        from processing.core.ProcessingConfig import ProcessingConfig, Setting

        ProcessingConfig.settingIcons[self.name()] = self.icon()
        told = "Path of the program overlay_features (empty: it is looked for)"
        ProcessingConfig.addSetting(Setting(self.name(), SETTING, told, "", valuetype=Setting.FILE))
        ProcessingConfig.readSettings()
        self.refreshAlgorithms()
        return True

    def loadAlgorithms(self) -> None:
        for algorithm in (Pairs, Pieces, Check, Derive, *REGISTER):
            self.addAlgorithm(algorithm())
