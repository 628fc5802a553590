"""What QGIS loads: it adds the provider, in the desktop and in qgis_process."""

from __future__ import annotations

from typing import Any

from qgis.core import QgsApplication

from .provider import Provider


class Plugin:
    """The plugin; qgis_process, which has no desktop, calls initProcessing alone."""

    def __init__(self, iface: Any) -> None:
        self.iface, self.provider = iface, None

    def initProcessing(self) -> None:
        self.provider = Provider()
        QgsApplication.processingRegistry().addProvider(self.provider)

    def initGui(self) -> None:
        self.initProcessing()

    def unload(self) -> None:
        QgsApplication.processingRegistry().removeProvider(self.provider)
