"""The front: a store for browsers and GIS programs, by OGC API - Features."""
