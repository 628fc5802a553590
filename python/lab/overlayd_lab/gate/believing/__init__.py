"""What the contracts of calls reach: reads definitions and types, and writes docs/BELIEVE.md and
the texts of its rows."""
