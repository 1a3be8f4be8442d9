"""The club's papers, made from its closed months and its world file: the chronicle, the map, the handout, and the
world of the players' page."""
