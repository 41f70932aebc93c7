"""A service while everything goes wrong, and the judgement of the run: see `service/chaos`."""
