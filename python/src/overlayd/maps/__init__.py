"""Overlay of maps of any size: the modules of overlay pairs, pieces and check."""
