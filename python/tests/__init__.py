"""The tests of the package, by what they are of: `python3 -m pytest python/tests`."""
