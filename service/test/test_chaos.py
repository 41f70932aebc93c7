"""A short run of chaos: lost, repeated, late and cut lines, kills, torn files and a full disk."""
import unittest

import stands

MISSING = stands.missing("ksi", "ksi_retrace", stands.NODE)


@unittest.skipIf(MISSING, MISSING)
class ChaosTest(unittest.TestCase):
    def test_a_short_chaos(self):
        said = stands.run_script(self, "chaos", "--seconds", "20", "--rate", "10", "--audits", "50", "--seed", "5")
        self.assertIn("ksi_retrace agrees", said)
        rows = dict(row[2:-2].split(" | ") for row in said.splitlines() if row.startswith("| "))
        for name, least in (("signatures that clients got, all on the record", 10), ("messages lost", 5), ("processes killed by SIGKILL", 3),
                            ("times that an aggregator forgot rounds", 1), ("signatures extended, and accepted by `ksi verify`", 10), ("of these found in the cores' mirrors by `ksi audit`", 10)):
            self.assertGreaterEqual(int(rows[name]), least, said)


if __name__ == "__main__":
    unittest.main()
