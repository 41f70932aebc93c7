"""A mirror, or the last print, knows later publications than an older copy of a folder: by itself, and by the command."""
import contextlib
import os
import shutil
import threading
import unittest
from http.server import BaseHTTPRequestHandler, HTTPServer

import stands
from ksi_service import files, identity
from ksi_service.elements import publications_file, published_in
from ksi_service.newest import Folder, NoAnswer, NotNewest, line_of, print_in, published_at
from served import Served, imprint

ROOTS = [(5, "1" * 64), (9, "2" * 64), (12, "3" * 64)]


class Mirror(HTTPServer):
    """A mirror that answers each request by its status and content."""

    def __init__(self, test):
        super().__init__(("127.0.0.1", 0), Answer)
        self.status = 200
        self.content = publications_file(ROOTS)
        self.paths = []
        thread = threading.Thread(target=self.serve_forever)
        thread.start()
        for work in (self.server_close, thread.join, self.shutdown):
            test.addCleanup(work)

    @property
    def url(self):
        return f"http://127.0.0.1:{self.server_address[1]}"


class Answer(BaseHTTPRequestHandler):
    def do_GET(self):
        self.server.paths.append(self.path)
        self.send_response(self.server.status)
        self.send_header("Content-Length", str(len(self.server.content)))
        self.end_headers()
        self.wfile.write(self.server.content)

    def log_message(self, *_):
        pass


class PrintTest(unittest.TestCase):
    def test_a_print_is_read_as_it_was_printed(self):
        for text in (line_of(9, "2" * 64), f"9 {'2' * 64}", f"  Second 9,\n root {'2' * 64} ", f"9, {'2' * 64}"):
            self.assertEqual(print_in(text), (9, "2" * 64))
        for text in ("", "9", "2" * 64, f"9 {'2' * 63}", f"9 {'2' * 65}", f"-9 {'2' * 64}", f"9 {'g' * 64}", f"{'9' * 13} {'2' * 64}"):
            self.assertRaisesRegex(NotNewest, "is no print", print_in, text)


class FolderTest(unittest.TestCase):
    def setUp(self):
        self.said = []

    def folder(self, count, is_alone=True):
        return Folder("DATA", ROOTS[:count], is_alone, self.said.append)

    def test_a_folder_that_has_all_is_taken(self):
        for count in range(4):
            self.folder(3).see(ROOTS[:count], "the mirror")

    def test_an_older_copy_is_refused(self):
        self.assertRaisesRegex(NotNewest, "DATA is an older copy: the mirror has a publication for second 12, and the folder's last one is for second 9", self.folder(2).see, ROOTS, "the mirror")
        self.assertRaisesRegex(NotNewest, "second 5, and the folder's last one is none", self.folder(0).see, ROOTS, "the mirror")

    def test_another_calendar_is_refused(self):
        for other in ([(9, "4" * 64)], [(8, "2" * 64)], [*ROOTS[:2], (12, "4" * 64)]):
            self.assertRaisesRegex(NotNewest, "has not the publication of the mirror for second", self.folder(3).see, other, "the mirror")

    def test_one_of_several_machines_may_have_been_away(self):
        self.folder(1, is_alone=False).see(ROOTS, "the mirror")
        self.assertRaises(NotNewest, self.folder(2, is_alone=False).see, [(9, "4" * 64)], "the mirror")

    def test_a_mirror_that_has_to_answer(self):
        mirror = Mirror(self)
        self.folder(3).ask(f"{mirror.url}/", True)
        self.assertEqual(mirror.paths, ["/publications"])
        self.assertRaisesRegex(NotNewest, "is an older copy: the mirror http://127", self.folder(2).ask, mirror.url, False)
        for status, content, reason in ((404, b"", "it answers 404"), (200, b"<html>", "its answer is not a publications file"), (500, b"", "it answers 500")):
            mirror.status, mirror.content = status, content
            self.assertRaisesRegex(NoAnswer, reason, published_at, mirror.url)
            self.assertRaisesRegex(NotNewest, f"does not confirm that DATA is the newest folder of its plan: {reason}", self.folder(3).ask, mirror.url, True)
            self.folder(3).ask(mirror.url, False)
            self.assertEqual(self.said.pop(), f"the mirror {mirror.url} was not compared: {reason}")

    def test_a_mirror_that_is_not_there(self):
        self.assertRaisesRegex(NotNewest, "does not confirm .*: .*refused", self.folder(3).ask, "http://127.0.0.1:9", True)
        self.folder(3).ask("http://127.0.0.1:9", False)
        self.assertIn("was not compared", self.said[0])


class StartTest(Served):
    """The folder of a service is carried to another machine."""

    def setUp(self):
        super().setUp()
        self.mirror = Mirror(self)
        self.start()
        self.assertEqual(self.ask("/sign", imprint(1))[0], 200)
        self.wait_for_publication(1)
        self.command("stop")

    def published(self):
        return published_in(files.content_of(os.path.join(self.folder, "publications")))

    def carry(self):
        """As if this were another machine."""
        with open(os.path.join(self.folder, "plan"), "rb") as file:
            path = identity.path_of(identity.digest_of(file.read()), "")
        with contextlib.suppress(FileNotFoundError):
            os.remove(path)

    def refused(self, words, *options):
        self.assertIn(words, self.command("run", self.folder, "--door", "127.0.0.1:0", "--clock-unchecked", *options, status=3))

    def test_moved_is_taken_only_if_somebody_confirms_it(self):
        self.carry()
        newest = self.published()
        for options, words in (([], "--moved needs --mirror URL or --print"), (["--mirror", "http://127.0.0.1:9"], "does not confirm that"), (["--print", "5"], "is no print"),
                               (["--print", line_of(newest[-1][0] + 1, "1" * 64)], "is an older copy: the print has a publication"),
                               (["--print", line_of(newest[-1][0], "1" * 64)], "has not the publication of the print")):
            self.refused(words, "--moved", *options)
        self.mirror.content = publications_file([*newest, (newest[-1][0] + 5, "1" * 64)])
        self.refused("is an older copy: the mirror", "--moved", "--mirror", self.mirror.url)
        self.mirror.content = publications_file(newest)
        self.start("--moved", "--mirror", self.mirror.url)
        self.command("stop")
        self.carry()
        self.start("--moved", "--print", self.printed())
        self.assertEqual(self.ask("/sign", imprint(2))[0], 200)

    def printed(self):
        """The print, as the command prints it."""
        said = self.command("publications", "-o", os.path.join(self.room.name, "publications"))
        return said.split("to be printed: ")[1].strip()

    def test_a_mirror_is_asked_at_each_start(self):
        """Also a whole disk that was restored, identity and all, is then refused if a publication was fetched since."""
        restored = stands.copied(self.folder, os.path.join(self.room.name, "restored"))
        self.mirror.content = publications_file(self.published())
        self.start("--mirror", self.mirror.url)
        self.assertEqual(self.ask("/sign", imprint(2))[0], 200)
        self.wait_for_publication(self.published()[-1][0] + 1)
        self.mirror.content = self.ask("/publications")[1]
        self.command("stop")
        shutil.rmtree(self.folder)
        shutil.move(restored, self.folder)
        self.carry()
        os.remove(os.path.join(self.folder, identity.MARK))
        self.refused("is an older copy: the mirror", "--mirror", self.mirror.url)
        # a mirror that is away keeps nobody from starting
        self.mirror.status = 500
        self.start("--mirror", self.mirror.url)
        with open(os.path.join(self.folder, "log"), encoding="utf-8") as file:
            self.assertIn(f"warning: the mirror {self.mirror.url} was not compared: it answers 500", file.read())


del Served


if __name__ == "__main__":
    unittest.main()
