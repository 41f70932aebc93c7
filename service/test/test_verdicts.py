"""The commands over one file: verdicts with both times, pending signatures, prints, lists of mirrors, and reports."""
import contextlib
import http.server
import io
import json
import os
import threading
import unittest
from unittest import mock

import printed
import signing
import stands
from ksi_service import command, command_asking, command_trees, printing
from ksi_service.elements import publications_file

DATE = "2023-11-14 22:13:2"


class VerdictTest(signing.Signed):
    def setUp(self):
        super().setUp()
        self.deed = os.fsdecode(self.file("deed.txt"))
        self.sign()

    def command(self, *words, status=0):
        told, before = io.StringIO(), os.getcwd()
        os.chdir(self.room)
        try:
            with contextlib.redirect_stdout(told), contextlib.redirect_stderr(told), mock.patch.dict(os.environ, KSI_SERVICE=self.at("none")):
                self.assertEqual(command.main([*words]), status, told.getvalue())
        finally:
            os.chdir(before)
        return told.getvalue()

    def sign(self):
        self.command("sign", self.deed, "--door", self.url)

    def publish(self, name="publications"):
        content = self.house.publish()
        with open(self.at(name), "wb") as file:
            file.write(content)
        return self.house.listed[-1]

    def extend(self):
        self.command("extend", f"{self.deed}.ksig", "--door", self.url)

    def test_both_times_and_the_publication(self):
        second, root = self.publish()
        self.extend()
        said = self.command("verify", self.deed)
        self.assertEqual(said.splitlines(), ["accepted 1700000000", "recorded in second 1700000000 (2023-11-14 22:13:20 UTC)", f"existed before 2023-11-14 22:13:21 UTC, by the publication of root {root}",
                                             "publication not compared with any outside copy", "by the publications of publications"])
        self.assertEqual(self.command("verify", self.deed, f"{self.deed}.ksig", "publications"), said)
        os.rename(self.at("publications"), self.at("tree", "publications"))
        self.assertIn("by the publications of tree/publications", self.command("verify", "tree/deed.txt"))
        self.file("deed.txt", b"I owe you two.")
        self.assertIn("refused V1: changed: its signature, of second 1700000000 (2023-11-14 22:13:20 UTC), is of other bytes", self.command("verify", self.deed, status=1))

    def test_pending_in_place_of_v13(self):
        with open(self.at("publications"), "wb") as file:
            file.write(publications_file([(signing.START - 9, "ab" * 32)]))
        self.assertIn("pending: of second 1700000000 (2023-11-14 22:13:20 UTC), of this document, not yet published\n", self.command("verify", self.deed, status=1))
        with mock.patch.object(command_trees.files, "is_held", lambda _: True), mock.patch.object(command_asking, "ask", lambda *_: b'{"next_publication": 1700002799}'):
            self.assertIn("not yet published (next publication 23:00:00 UTC)", self.command("verify", self.deed, status=1))
        second, _ = self.publish()
        self.assertIn(f"not extended to the publication of second {second}", self.command("verify", self.deed, status=1))
        self.extend()
        with open(self.at("publications"), "wb") as file:
            file.write(publications_file([(second + 9, "ab" * 32)]))
        self.assertIn(f"refused V13: the signature is extended to the publication of second {second}", self.command("verify", self.deed, status=1))

    def test_by_the_print_alone(self):
        second, root = self.publish()
        self.extend()
        os.remove(self.at("publications"))
        for text in (f"second {second}, root {root}", f"{second} {root.upper()}"):
            said = self.command("verify", self.deed, "--print", text)
            self.assertIn("accepted 1700000000", said)
            self.assertIn("the print has the same publication", said)
        self.assertIn("refused V14", self.command("verify", self.deed, "--print", f"{second} {'ab' * 32}", status=1))
        self.assertIn("refused V13", self.command("verify", "-r", self.tree, "--print", f"{second + 1} {root}", status=1))
        self.assertIn("give one of them", self.command("verify", self.deed, "--publications", "x", "--print", f"{second} {root}", status=1))

    def test_the_text_of_a_newspaper(self):
        second, root = self.publish()
        self.extend()
        text = printed.printed(second, root)
        typed = os.fsdecode(self.file("typed", text.encode()))
        if stands.missing("ksi_print"):
            self.assertIn("ksi_print is not built", self.command("verify", self.deed, "--print", "KSI PUBLICATION", status=1))
            reading = mock.patch.object(printing, "read", printed_in)
        else:
            reading = contextlib.nullcontext()
            self.assertIn("the print cannot be read: group", self.command("verify", self.deed, "--print", text.replace("00170", "00171"), status=1))
        with reading:
            for given in (text, text.lower().replace("\n", " "), typed):
                self.assertIn("the print has the same publication", self.command("verify", self.deed, "--print", given))

    def test_the_list_of_a_mirror(self):
        second, root = self.publish()
        self.extend()
        self.assertIn("publications has the same publication", self.command("verify", self.deed, "--mirror", "publications"))
        lists = {"older": [(second - 9, root)], "other": [(second, "ab" * 32)]}
        for name, rows in lists.items():
            with open(self.at(name), "wb") as file:
                file.write(publications_file(rows))
        self.assertIn(f"not compared with any outside copy: older has none for second {second}", self.command("verify", self.deed, "--mirror", "older"))
        for words in ((self.deed,), ("-r", self.tree)):
            self.assertIn(f"other has another root for second {second}", self.command("verify", *words, "--mirror", "other", status=1))
        with self.mirror(self.house.published) as url:
            self.assertIn(f"the mirror {url} has the same publication", self.command("verify", self.deed, "--mirror", url))
        self.assertIn("no such file", self.command("verify", self.deed, "--mirror", "absent", status=1))

    @contextlib.contextmanager
    def mirror(self, content):
        class Handler(http.server.BaseHTTPRequestHandler):
            def do_GET(self):
                self.send_response(200)
                self.end_headers()
                self.wfile.write(content)

            def log_message(self, *_):
                pass
        with http.server.HTTPServer(("127.0.0.1", 0), Handler) as server:
            threading.Thread(target=server.serve_forever, daemon=True).start()
            yield f"http://127.0.0.1:{server.server_address[1]}"
            server.shutdown()

    def test_reports_to_paste(self):
        second, root = self.publish()
        self.extend()
        self.command("verify", self.deed, "--report", "report.txt")
        with open(self.at("report.txt"), encoding="utf-8") as file:
            text = file.read()
        for part in ("Report of ksi-service 0.", "deed.txt", "14 bytes, SHA-256 ", "recorded in second 1700000000", f"existed before 2023-11-14 22:13:21 UTC, by the publication of root {root}", "Result: accepted",
                     "not compared with any outside copy", "Not shown: It does not show who wrote"):
            self.assertIn(part, text)
        self.command("verify", self.deed, "--report", "report.json")
        with open(self.at("report.json"), encoding="utf-8") as file:
            report = json.load(file)
        self.assertEqual((report["files"][0]["verdict"], report["files"][0]["root"], report["summary"], len(report["signature_sha256"])), ("accepted", root, "accepted", 64))
        self.file("deed.txt", b"")
        self.command("verify", self.deed, "--report", "report.txt", status=1)
        with open(self.at("report.txt"), encoding="utf-8") as file:
            self.assertIn("changed: its signature, of second 1700000000", file.read())

    def test_signing_one_file_again(self):
        name = f"{self.deed}.ksig"
        self.assertEqual(self.command("sign", self.deed, "--door", self.url), f"already signed: {name} is of these bytes: second 1700000000 (2023-11-14 22:13:20 UTC)\n")
        self.file("deed.txt", b"I owe you two.")
        self.assertIn("of second 1700000000 (2023-11-14 22:13:20 UTC), and is of OTHER bytes", self.command("sign", self.deed, "--door", self.url, status=1))
        self.assertEqual(self.house.requests, [1])
        empty = os.fsdecode(self.file("empty", b""))
        self.assertIn("the file is empty: did an upload fail?", self.command("sign", empty, "--door", self.url))
        os.mkfifo(self.at("pipe"))
        self.assertIn("pipe: it is a FIFO", self.command("sign", "pipe", "--door", self.url, status=1))
        self.assertIn("Is a directory", self.command("sign", "tree/", "--door", self.url, status=1))

    def test_names_of_any_bytes(self):
        path = os.fsdecode(self.file(b"latin \xe9 line\nfeed", b"I owe you one."))
        self.assertIn("latin \\xe9 line\nfeed.ksig: second 1700000001", self.run_command("sign", path, "--door", self.url))

    def test_signatures_that_are_missing_or_none(self):
        self.publish()
        os.rename(f"{self.deed}.ksig", self.at("kept"))
        self.assertIn("deed.txt.ksig: no such file; `ksi-service sign", self.command("verify", self.deed, status=1))
        self.file("deed.txt.ksig", b"x")
        self.assertIn("malformed 1 S1", self.command("verify", self.deed, status=1))
        self.assertIn("absent: no such file", self.command("verify", self.deed, "kept", "absent", status=1))


def printed_in(text):
    """As `ksi_print` reads a text, by plain Python."""
    found = printed.read(text)
    return found if isinstance(found, tuple) else (0, "")


if __name__ == "__main__":
    unittest.main()
