"""deploy/three-machines: three machines in network namespaces, each lost once while clients sign."""
import unittest

import stands

ALONE = "clients leave a door after some seconds"


class ThreeMachinesTest(unittest.TestCase):
    def test_the_events_of_the_table(self):
        printed = stands.run_script(self, "deploy/three-machines", "--rate", "8", "--seconds", "4")
        rows = [row.split(" | ")[0].strip("| ") for row in printed.splitlines() if row.startswith("| ")]
        self.assertEqual(rows, ["Event", "all are up", "machine A loses its power", "A is back", "B is cut off the network", "B is on it again",
                                "the host of B is killed", "it is started", "the host of C is killed", "it is started"])
        asked, signed = (int(word) for word in printed.split("\n\n")[-1].split(" signed")[0].split(" requests, "))
        self.assertEqual(asked, signed)
        self.assertGreater(asked, 100)
        self.assertRegex(printed, r"one signature was extended to second \d+: the same bytes at each door|# not extended, not built")


if __name__ == "__main__":
    unittest.main()
