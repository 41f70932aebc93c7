"""How many connections the door may have open, by what the system allows and by what nodes need."""
import resource
import unittest
from unittest import mock

from ksi_service import opening
from ksi_service.door import MOST_ACCEPTED, MOST_CONNECTIONS


class LimitsTest(unittest.TestCase):
    def opened(self, nodes, hard):
        """The limit that is set, and how many connections may be open under it."""
        limits = []
        with mock.patch.object(resource, "getrlimit", lambda _: (1024, hard)), mock.patch.object(resource, "setrlimit", lambda _, both: limits.append(both[0])):
            most = opening.open_files(MOST_CONNECTIONS, nodes)
        return limits[-1] if limits else 1024, most

    def test_nodes_have_their_files_beside_all_connections(self):
        """Two pipes and a number of its process each, beside connections that are accepted at once; and a record and a start want some."""
        for nodes, hard in ((5, 16_384), (503, 16_384), (4105, 16_384), (4105, 1 << 20), (503, resource.RLIM_INFINITY)):
            limit, most = self.opened(nodes, hard)
            self.assertGreaterEqual(limit - most - MOST_ACCEPTED, 3 * nodes + 64, (nodes, hard))

    def test_as_many_connections_as_may_be(self):
        self.assertEqual(self.opened(5, 16_384)[1], MOST_CONNECTIONS)
        self.assertEqual(self.opened(503, 1 << 20)[1], MOST_CONNECTIONS)
        self.assertEqual(self.opened(5, 1024), (1024, 128))


if __name__ == "__main__":
    unittest.main()
