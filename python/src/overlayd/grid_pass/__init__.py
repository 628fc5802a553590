"""Maps of doubles onto a grid of whole points, so that what met before meets exactly."""
