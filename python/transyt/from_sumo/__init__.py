"""A network of SUMO into the sheets of `./plan deck`: junctions with signals, their arms, stages, ways and counts."""
