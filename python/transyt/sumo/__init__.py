"""A plan in Eclipse SUMO: looked at, and driven with the same cars as another."""
