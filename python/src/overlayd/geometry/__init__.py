"""Whole points and what is reckoned of them: boundaries, rings, areas, boxes, Well-Known Text."""
