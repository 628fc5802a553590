"""The tests of the programs, and of what judges, tries and measures them."""
