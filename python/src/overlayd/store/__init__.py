"""Stores: their layers, the features that these hold, and the files that lie beside them."""
