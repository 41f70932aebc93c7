"""The door of a service as its operator sets it up: who gets in, by the command."""
import json
import os
import shutil
import subprocess
import time
import unittest

from served import Served


class ServedDoorTest(Served):
    def test_a_door_for_others_is_refused_unless_somebody_says_who_may_use_it(self):
        for address in ("0.0.0.0:0", "[::]:0"):
            told = self.command("start", self.folder, "--door", address, "--clock-unchecked", status=1)
            self.assertIn("--open-door", told)
            self.assertFalse(os.path.exists(os.path.join(self.folder, "plan")))
        self.assertIn("go together", self.command("start", self.folder, "--door-key", "x", status=1))

    @unittest.skipUnless(shutil.which("openssl"), "openssl is not here")
    def test_keys_and_https(self):
        certificate, key = os.path.join(self.room.name, "crt"), os.path.join(self.room.name, "key")
        subprocess.run(["openssl", "req", "-x509", "-newkey", "ec", "-pkeyopt", "ec_paramgen_curve:prime256v1", "-nodes", "-subj", "/CN=localhost", "-addext", "subjectAltName=DNS:localhost",
                        "-out", certificate, "-keyout", key], check=True, capture_output=True)
        log = os.path.join(self.room.name, "access")
        told = self.command("start", self.folder, "--door", "127.0.0.1:0", "--clock-unchecked", "--door-certificate", certificate, "--door-key", key, "--access-log", log)
        with open(os.path.join(self.folder, "door"), encoding="ascii") as file:
            address, self.process, scheme = file.read().split()
        self.process = int(self.process)
        self.addCleanup(self.end)
        self.assertEqual((scheme, f"https://{address}" in told), ("https", True))
        name = self.file("deed", "I owe you one.")
        self.assertIn("signed", self.command("sign", name))
        secret = self.command("client", "add", "registrar").splitlines()[0]
        name = self.file("other", "I owe you two.")
        # the door looks at the file once a second
        time.sleep(1.2)
        self.assertIn("Bearer KEY", self.command("sign", name, status=1))
        self.outside.update(KSI_KEY=secret, SSL_CERT_FILE=certificate)
        self.assertIn("signed", self.command("sign", name, "--door", f"https://localhost:{address.rsplit(':', 1)[1]}"))
        self.assertIn("signed", self.command("sign", name, "-o", f"{name}.2"))
        self.assertIn("processes", self.command("status"))
        self.command("stop")
        with open(log, encoding="utf-8") as file:
            rows = [json.loads(row) for row in file]
        signed = [(it["client"], it["hashes"]) for it in rows if it["path"] == "/sign" and it["status"] == 200]
        self.assertEqual(signed, [(None, 1), ("registrar", 1), ("registrar", 1)])
        self.assertIn(401, {it["status"] for it in rows})


if __name__ == "__main__":
    unittest.main()
