"""The demo, with the proved programs."""
import unittest

import stands

MISSING = stands.missing("ksi", "ksi_retrace", stands.NODE)


@unittest.skipIf(MISSING, MISSING)
class DemoTest(unittest.TestCase):
    def test_the_demo(self):
        said = stands.run_script(self, "demo")
        self.assertEqual(sum(line.startswith("accepted ") for line in said.splitlines()), 2, said)
        self.assertIn("ksi_retrace agrees", said)


if __name__ == "__main__":
    unittest.main()
