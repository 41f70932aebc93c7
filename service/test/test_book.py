"""The book: signatures of plans that are over lead to the print of the newest plan, at a service, by a mirror, and in a bundle."""
import asyncio
import contextlib
import hashlib
import io
import json
import os
import time
import unittest
from unittest import mock

import stand_in_ksi
import stands
from calendar_tree import Tree
from ksi_service import bundles, command, files, plans, roots
from ksi_service.anchors import Anchors
from ksi_service.bundles import NotBundle, NotVerified
from ksi_service.calendar_files import PlanName
from ksi_service.earlier import earlier_plans
from ksi_service.elements import extended as put_together
from ksi_service.elements import Malformed, parts_of, publications_file, published_in
from ksi_service.evidence import date
from ksi_service.mirror import Mirror
from ksi_service.mirror_book import Books
from ksi_service.mirror_extending import extended
from ksi_service.mirror_service import MirrorHouse
from ksi_service.newest import line_of
from ksi_service.proved import Refused
from ksi_service.source import AGREES, FAULTY, FORK
from mirrored import Mirrored, Service, run_here
from served import Served
from stand_in import signature_of

PLANS = 5
SECONDS = 8
"""How long each plan of a service is: half of it is left for its end, on a busy machine too."""
START = 1_700_000_000


def imprint(number):
    return hashlib.sha256(b"document %d" % number).hexdigest()


def run(test, *words, status=0):
    """Runs a command in this process."""
    said = io.StringIO()
    with contextlib.redirect_stdout(said), contextlib.redirect_stderr(said):
        test.assertEqual(command.main(words), status, said.getvalue())
    return said.getvalue()


def verify_here(_, signature, imprint, publications):
    """As `proved.ksi` by the stand-in for `ksi verify`, without a process."""
    try:
        line = stand_in_ksi.verdict(files.content_of(signature), imprint, files.content_of(publications))
    except Malformed:
        line = "malformed 1 S3"
    if not line.startswith("accepted"):
        raise Refused(1, line)
    return line


class Quick(Mirrored):
    def setUp(self):
        super().setUp()
        for name in ("extension", "bundles"):
            quick = mock.patch(f"ksi_service.{name}.ksi", verify_here)
            quick.start()
            self.addCleanup(quick.stop)


class Plans(Service):
    """A service with one plan after the other, and a book."""

    def __init__(self, others=()):
        self.others = list(others)
        """The plans from before, each a service of its own."""
        self.book = 404
        super().__init__(PlanName(f"{len(self.others):064x}", self.others[-1].next if self.others else START))

    def sign(self, imprint):
        """Signs a hash that is alone in its second."""
        self.roots.append(b"\x01" + bytes.fromhex(imprint))
        return signature_of(imprint, self.next - 1)

    @property
    def plans(self):
        return [*self.others, self]

    def all_published(self):
        return [row for it in self.plans for row in it.publications]

    def rows(self):
        """The records of the book."""
        return [it.publications[-1] for it in self.others]

    def sign_book(self):
        """Signs the book, and publishes."""
        content = publications_file(self.rows())
        signature = self.sign(hashlib.sha256(content).hexdigest())
        self.grow(2).publish()
        self.book = bundles.packed({bundles.BOOK: content, bundles.BOOK_SIGNATURE: self.extension(signature)})
        return self

    def extension(self, signature):
        """A signature of this plan that is extended to its last publication."""
        parts = parts_of(signature)
        last = self.publications[-1][0]
        tree = Tree(self.plan.start, self.roots)
        links = [(side, beside[1:].hex()) for side, beside in tree.chain(parts.second, last)]
        return put_together(parts, last, tree.roots[parts.second - tree.start][1:].hex(), tree.root(last)[1:].hex(), links)

    def truth(self, path):
        if path == "/v1/calendar":
            return json.dumps({"calendars": [{"plan": it.plan.digest, "start": it.plan.start, "next": it.next} for it in self.plans]}).encode()
        if path == "/publications":
            return publications_file(self.all_published()) if self.all_published() else 404
        if path == "/v1/book":
            return self.book
        found = next((it for it in self.others if f"/{it.plan.digest}/" in path), None)
        return found.truth(path) if found else super().truth(path)


class MirrorTest(Quick):
    """A mirror goes through plans."""

    def next(self, service):
        """The service of the plan after."""
        return self.service(Plans(service.plans))

    def five(self):
        """Services of which each has one plan more, with a signature of each plan."""
        found, signatures = [], {}
        for number in range(PLANS):
            service = self.next(found[-1]) if found else self.service(Plans())
            signatures[imprint(number)] = service.grow(3).sign(imprint(number))
            service.grow(4).publish()
            if found:
                service.sign_book()
            found.append(service)
        return found, signatures

    def see(self, mirror, service, signatures):
        """What a mirror of all plans has."""
        self.assertEqual(mirror.published(), service.all_published())
        self.assertEqual([(it.calendar.plan, it.last) for it in mirror.earlier], [(it.plan, it.publications[-1][0]) for it in service.others])
        for name, signature in signatures.items():
            content = extended(mirror, signature)
            files.write(self.at("extended"), content)
            files.write(self.at("all"), publications_file(mirror.published()))
            self.assertEqual(bundles.accepted(self.room.name, "extended", name, self.at("all")), parts_of(signature).second)

    def test_through_five_plans_as_they_come(self):
        found, signatures = self.five()
        mirror = None
        for service in found:
            mirror = mirror or self.mirror(service)
            self.serve(mirror, service)
            books = Books(mirror)
            for _ in range(3):
                mirror.look()
                books.look()
                self.assertEqual(self.states(mirror), [AGREES])
        self.see(mirror, found[-1], signatures)
        self.assertEqual((books.content, mirror.cases, len(mirror.plans)), (found[-1].book, [], PLANS))
        # it is started again
        again = self.mirror(found[-1])
        again.look()
        self.see(again, found[-1], signatures)
        self.see_house(MirrorHouse(again, Anchors(self.room.name)), found[-1], signatures)

    def see_house(self, house, service, signatures):
        """What the mirror's door gives."""
        self.assertEqual((house.book(), published_in(house.publications()), house.counters()["plans"]), (service.book, service.all_published(), PLANS))
        self.assertEqual([it.plan for it in house.calendars().values()], [it.plan for it in service.plans])
        rows = asyncio.run(house.extend(list(signatures.values()), None))
        self.assertEqual([it.publication for it in rows], [it.publications[-1][0] for it in service.plans])
        to = service.plans[1].publications[0][0]
        self.assertEqual([getattr(it, "publication", None) or it.code for it in asyncio.run(house.extend(list(signatures.values())[:2], to))], ["other-calendar", to])
        self.assertIn(b"an earlier plan", house.page())

    def serve(self, mirror, service):
        """Has the mirror ask another server under the old URL, as if the service had gone on to its next plan."""
        for it in mirror.sources:
            it.server = type(it.server)(service.url)

    def test_a_new_mirror_has_all_plans(self):
        found, signatures = self.five()
        run(self, "mirror", found[-1].url, self.at("mirror"), "--once")
        mirror = self.mirror(found[-1])
        self.see(mirror, found[-1], signatures)
        self.assertEqual(files.content_of(self.at("mirror", "book.zip")), found[-1].book)
        # a machine that joined later has the plans before by that folder
        folder = self.at("data")
        os.makedirs(folder)
        files.write(os.path.join(folder, "plan"), f"ksi-schedule 1\ncores 1\nstart {found[-1].next + 5}\naggregator 0 parent c0\n".encode())
        os.rename(self.at("mirror"), os.path.join(folder, "earlier"))
        self.assertEqual([it.published for it in earlier_plans(folder)], [it.publications for it in found[-1].plans])

    def test_most_of_the_services_go_on(self):
        found, _ = self.five()
        mirror = self.mirror(found[0], self.alike(found[0]), self.alike(found[0]))
        mirror.look()
        self.serve_some(mirror, found[1], 1)
        self.assertEqual([mirror.look() for _ in range(2)], [False, False])
        self.serve_some(mirror, found[1], 2)
        self.assertEqual([mirror.look(), mirror.calendar.plan], [True, found[1].plan])
        mirror.look()
        self.assertEqual(mirror.published(), found[1].all_published())

    def alike(self, service):
        """Another server of the same plans."""
        other = self.service(Plans(service.others))
        other.roots, other.publications = list(service.roots), list(service.publications)
        return other

    def serve_some(self, mirror, service, count):
        for it in mirror.sources[:count]:
            it.server = type(it.server)(service.url)

    def test_a_fork_of_the_third_plan(self):
        found, _ = self.five()
        third = found[2]
        other = self.alike(third)
        mirror = self.mirror(third, other)
        while mirror.look():
            pass
        self.assertEqual(mirror.calendar.plan, third.plan)
        other.roots, other.publications = list(third.roots[:5]), []
        other.grow(9, "b").publish()
        mirror.look()
        self.assertEqual((self.states(mirror), mirror.is_frozen), ([AGREES, FORK], True))
        self.assertEqual(mirror.cases[0]["differ_from"], third.plan.start + 5)

    def test_a_book_with_another_root_is_a_fault(self):
        found, _ = self.five()
        mirror = self.mirror(found[-1])
        while mirror.look():
            pass
        rows = found[-1].rows()
        found[-1].others[2].publications[-1] = (rows[2][0], "77" * 32)
        wrong = found[-1].sign_book().book
        found[-1].others[2].publications[-1] = rows[2]
        mirror.look()
        books = Books(mirror)
        books.look()
        self.assertEqual((self.states(mirror), books.content), ([FAULTY], None))
        self.assertIn(f"for second {rows[2][0]}, which was published with the root {rows[2][1]}", mirror.sources[0].reason)
        for lie in (b"no zip", wrong[:-9], bundles.packed({"book": b""})):
            found[-1].book = lie
            mirror.look()
            books.look()
            self.assertEqual(self.states(mirror), [FAULTY])
        found[-1].sign_book()
        mirror.look()
        books.look()
        self.assertEqual((self.states(mirror), books.content), ([AGREES], found[-1].book))


class BundleTest(Quick):
    """What a bundle shows, and to whom."""

    def setUp(self):
        super().setUp()
        self.old = self.service(Plans())
        self.signature = self.old.grow(3).sign(imprint(1))
        self.old.grow(3).publish()
        self.new = self.service(Plans([self.old])).grow(20).sign_book()
        self.write("deed", b"document 1")

    def write(self, name, content):
        files.write(self.at(name), content)
        return self.at(name)

    def bundle(self, signature=None, book=None):
        parts = bundles.unpacked(book or self.new.book, (bundles.BOOK, bundles.BOOK_SIGNATURE))
        return self.write("deed.bundle", bundles.packed({bundles.SIGNATURE: signature or self.old.extension(self.signature), **parts}))

    def verify(self, *published, status=0):
        return run(self, "verify", self.at("deed"), self.at("deed.bundle"), self.write("print", publications_file(list(published))), status=status)

    def test_two_times(self):
        self.bundle()
        said = self.verify(self.new.publications[-1])
        second = self.old.plan.start + 3
        self.assertEqual(said.splitlines(), [f"recorded in second {second} ({date(second)}); existed before {date(self.new.publications[-1][0])}, the date of the print that you compared",
                                             f"to be compared with a print: {line_of(*self.new.publications[-1])}"])
        # whoever has the old plan's own print has the earlier date
        self.assertIn(f"existed before {date(self.old.publications[-1][0])},", self.verify(self.old.publications[-1]))
        # a list of all does not show that anybody printed the old one
        self.assertEqual(self.verify(*self.new.all_published()), said)

    def test_an_invented_plan_has_the_late_date(self):
        """An operator makes up a plan of 2001 today, and puts it into the book."""
        invented = self.service(Plans())
        invented.plan = PlanName("99" * 32, 1_000_000_000)
        signature = invented.grow(3).sign(imprint(1))
        invented.grow(3).publish()
        self.new.others.insert(0, invented)
        self.new.sign_book()
        self.bundle(invented.extension(signature))
        for printed in ([self.new.publications[-1]], self.new.all_published()):
            said = self.verify(*printed)
            self.assertIn("recorded in second 1000000003 (2001-09-09", said)
            self.assertIn(f"existed before {date(self.new.publications[-1][0])}, the date of the print", said)

    def test_what_is_refused(self):
        other = self.old.extension(signature_of(imprint(2), self.old.plan.start + 3))
        for signature, book, printed, reason in (
            (None, None, [(self.new.publications[-1][0], "12" * 32)], "the book: refused V14"),
            (None, None, [(5, "12" * 32)], "has neither the publication that leads to the book"),
            (other, None, [self.new.publications[-1]], "refused V1"),
            (self.signature, None, [self.new.publications[-1]], "refused V7"),
            (None, bundles.packed({**bundles.unpacked(self.new.book, ("book", "book.ksig")), "book": publications_file([(7, "34" * 32)])}), [self.new.publications[-1]], "the book: refused V1"),
        ):
            self.bundle(signature, book)
            self.assertIn(reason, self.verify(*printed, status=1))
        for content in (b"PK\3\4 cut off", bundles.packed({"book": b""}), bundles.packed({it: b"x" * (1 << 20) + b"x" for it in bundles.PARTS})):
            with self.assertRaises(NotBundle):
                bundles.unpacked(content, bundles.PARTS)
        with self.assertRaises(NotVerified):
            bundles.verified({it: b"" for it in bundles.PARTS}, imprint(1), b"")

    def test_the_same_files_give_the_same_bytes(self):
        self.assertEqual(files.content_of(self.bundle()), files.content_of(self.bundle()))


class FivePlansTest(Served):
    """A service goes through five plans of some seconds by itself."""

    def setUp(self):
        super().setUp()
        if stands.missing("ksi", "ksi_roots", stands.NODE):
            programs = stands.make(os.path.join(self.room.name, "bin"), "signs")
            for name, script in (("ksi_roots", "stand_in_roots.py"), ("ksi", "stand_in_ksi.py")):
                stands.make_program(programs, name, script)
            self.outside["KSI_BIN"] = programs
            # what this process asks them, it asks without a process for each
            quick = [mock.patch(f"ksi_service.{name}.ksi", verify_here) for name in ("extension", "bundles")]
            for it in (mock.patch.dict(os.environ, KSI_BIN=programs), mock.patch.object(roots, "run", run_here), *quick):
                it.start()
                self.addCleanup(it.stop)

    def signed(self, number):
        """Signs a file, and returns its name."""
        name = self.file(f"deed{number}", f"document {number}")
        run(self, "sign", name, "--folder", self.folder)
        return name

    def wait(self, holds, seconds=200):
        end = time.monotonic() + seconds
        while time.monotonic() < end:
            with contextlib.suppress(OSError):
                if holds():
                    return
            time.sleep(0.1)
        self.fail(files.content_of(os.path.join(self.folder, "log"))[-3000:].decode())

    def test_signatures_of_the_first_plan_lead_to_the_last_print(self):
        self.start("--cores", "1", "--aggregators", "1", "--publish-every", "4", "--succeed-after", str(SECONDS))
        names = [self.signed(number) for number in (1, 2)]
        self.wait(lambda: len(plans.chain_of(self.folder)) >= PLANS)
        # no further plan follows, but for the one to which the cores may have retired
        self.kill()
        self.start("--publish-every", "4", "--succeed-after", "0")
        self.wait(lambda: "retired" not in self.status() and self.ask("/v1/book")[0] == 200)
        self.see(names)
        self.see_mirror()
        self.command("stop")
        self.see(names[:1])

    def see_mirror(self):
        """A mirror has all plans and the book."""
        folder = os.path.join(self.room.name, "mirror")
        self.assertIn(" agrees\n", run(self, "mirror", f"http://{self.door()[0]}", folder, "--once"))
        published = published_in(self.ask("/publications")[1])
        mirror = Mirror(folder, ["http://127.0.0.1:1"])
        self.assertEqual(mirror.published(), [it for it in published if it[0] <= mirror.published()[-1][0]])
        self.assertEqual([it.start for it in mirror.plans], [plans.content_in(it).plan.start for it in plans.chain_of(self.folder)])
        self.assertIsNotNone(Books(mirror).content)

    def see(self, names):
        """The signatures of the first plan verify against the last print alone."""
        starts = [plans.content_in(it).plan.start for it in plans.chain_of(self.folder)]
        self.assertGreaterEqual(len(starts), PLANS)
        first = [it for it in names if parts_of(files.content_of(f"{it}.ksig")).second < starts[1]]
        self.assertTrue(first)
        for name in first:
            said = run(self, "extend", f"{name}.ksig", "--folder", self.folder)
            self.assertIn(f"saved {name}.ksig.bundle", said)
            content = files.content_of(f"{name}.ksig")
            self.assertEqual(bundles.publication_of(content) + 1, next(it for it in starts if it > parts_of(content).second))
            last = bundles.publication_of(bundles.unpacked(files.content_of(f"{name}.ksig.bundle"), ["book.ksig"])["book.ksig"])
            self.assertGreaterEqual(last, starts[-1])
            run(self, "publications", "--folder", self.folder, "-o", os.path.join(self.room.name, "all"))
            published = published_in(files.content_of(os.path.join(self.room.name, "all")))
            files.write(os.path.join(self.room.name, "print"), publications_file([it for it in published if it[0] == last]))
            said = run(self, "verify", name, f"{name}.ksig.bundle", os.path.join(self.room.name, "print"))
            self.assertIn(f"recorded in second {parts_of(content).second} ", said)
            self.assertIn(f"existed before {date(last)}, ", said)


if __name__ == "__main__":
    unittest.main()
