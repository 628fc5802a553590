"""A register: the features of layers in a GeoPackage or in PostGIS, and tables of what they overlap, kept current."""
