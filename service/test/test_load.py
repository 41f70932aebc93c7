"""A service under clients that are not its own: wrk, which loads HTTP servers, curl over one connection, and one that means no good."""
import hashlib
import json
import os
import random
import re
import shutil
import socket
import subprocess
import unittest

from hostile import hostile_request
from served import Served, imprint

SCRIPT = """
local count = 0
request = function()
  count = count + 1
  return wrk.format("POST", "/v1/signatures", {["Content-Type"] = "text/plain"}, string.format("%%032x%%032x", %d, count))
end
"""


class LoadTest(Served):
    def setUp(self):
        super().setUp()
        self.start()

    def is_well(self):
        """Whether a hash is signed."""
        status, content = self.ask("/v1/signatures", imprint(1))
        self.assertEqual((status, json.loads(content)[0]["hash"]), (200, imprint(1)))

    @unittest.skipUnless(shutil.which("wrk"), "wrk is not here")
    def test_wrk(self):
        path = self.file("post.lua", SCRIPT % random.getrandbits(60))
        told = subprocess.run(["wrk", "-t1", "-c40", "-d6s", "--timeout", "60s", "-s", path, f"http://{self.door()[0]}"], capture_output=True, text=True, check=True, timeout=300).stdout
        answered = int(re.search(r"(\d+) requests in", told)[1])
        refused = int((re.search(r"Non-2xx or 3xx responses: (\d+)", told) or [0, 0])[1])
        self.assertGreater(answered - refused, 0, told)
        self.assertNotIn("Socket errors", told)
        self.assertGreaterEqual(self.status()["signed"], answered - refused)
        self.is_well()

    @unittest.skipUnless(shutil.which("curl"), "curl is not here")
    def test_curl_over_one_connection(self):
        hashes = "next\n".join(f'silent\nverbose\nurl = "http://{self.door()[0]}/v1/signatures"\ndata = "{imprint(number)}"\n' for number in range(5))
        told = subprocess.run(["curl", "--config", self.file("config", hashes)], capture_output=True, text=True, check=True, timeout=300)
        rows = [row for text in told.stdout.splitlines() for row in json.loads(text)]
        self.assertEqual([it["hash"] for it in rows], [imprint(number) for number in range(5)])
        self.assertEqual(told.stderr.count("* Connected to"), 1, told.stderr)

    def test_a_client_that_means_no_good(self):
        dice = random.Random(9)
        host, port = self.door()[0].rsplit(":", 1)
        document = hashlib.sha256(b"meanwhile").hexdigest()
        for number in range(200):
            with socket.create_connection((host, int(port)), timeout=60) as client:
                try:
                    client.sendall(hostile_request(dice))
                    client.shutdown(socket.SHUT_WR)
                    while client.recv(65536):
                        pass
                except ConnectionError:
                    pass
        self.assertEqual(self.ask("/sign", document)[0], 200)
        self.is_well()
        self.assertEqual(os.path.exists(f"/proc/{self.process}"), True)
        self.command("stop")
        self.checked()


if __name__ == "__main__":
    unittest.main()
