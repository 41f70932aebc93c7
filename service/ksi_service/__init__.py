"""A running service of proved nodes: processes, the lines between them, a clock, a record that can be checked, and a door."""
