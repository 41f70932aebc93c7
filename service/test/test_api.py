"""The paths below /v1 of the HTTP server: many hashes at once, refusals with their codes, publications in three forms."""
import base64
import hashlib
import json
import os
import unittest
from unittest import mock

from doored import ONES, SECOND, Doored, House
from ksi_service.answers import PROBLEMS
from ksi_service.bodies import Transfers
from ksi_service.door_publications import FORMS, preferred
from ksi_service.elements import publications_file

JSON, BYTES, DIGESTS, PROBLEM = "application/json", "application/octet-stream", "application/vnd.ksi.digests", "application/problem+json"
TWOS, UNSIGNED = "2" * 64, "8" * 64
DATE = "2023-11-14T22:13:20Z"


def row(imprint):
    return {"hash": imprint, "second": SECOND, "date": DATE, "signature": base64.b64encode(bytes.fromhex(imprint)).decode()}


class ApiTest(Doored):
    def post(self, path, content, kind, **headers):
        """The status, the media type and the JSON of an answer."""
        status, told, answered = self.ask_whole("POST", path, content, {"Content-Type": kind, **headers})
        return status, answered.get("Content-Type"), json.loads(told)

    def refused(self, path, content, kind, code, **members):
        """Sees that a request is refused with a code and these members, as RFC 9457 has it."""
        status, answered, told = self.post(path, content, kind)
        self.assertEqual((status, answered, told["code"]), (PROBLEMS[code].status, PROBLEM, code), told)
        self.assertEqual((told["status"], told["type"], told["title"]), (status, f"/v1/problems#{code}", PROBLEMS[code].title))
        self.assertTrue(told["detail"])
        self.assertEqual({name: told.get(name) for name in members}, members)

    def test_hashes_are_signed_in_their_order(self):
        hashes = [hashlib.sha256(b"%d" % number).hexdigest() for number in range(1000)]
        for content, kind in ((json.dumps([it.upper() for it in hashes]), JSON), (bytes.fromhex("".join(hashes)), DIGESTS)):
            self.assertEqual(self.post("/v1/signatures", content, kind), (200, JSON, [row(it) for it in hashes]))
        self.assertEqual(self.post("/v1/signatures", f" {ONES}\n", "text/plain; charset=utf-8"), (200, JSON, [row(ONES)]))
        document = os.urandom(1000)
        self.assertEqual(self.post("/v1/signatures", document, BYTES), (200, JSON, [row(hashlib.sha256(document).hexdigest())]))

    def test_a_hash_that_was_not_signed_has_an_error_of_its_own(self):
        status, _, told = self.post("/v1/signatures", json.dumps([ONES, UNSIGNED, TWOS]), JSON)
        self.assertEqual((status, told[0], told[2], told[1]["hash"]), (200, row(ONES), row(TWOS), UNSIGNED))
        self.assertEqual({name: told[1]["error"][name] for name in ("code", "status", "retry_after")}, {"code": "not-signed", "status": 503, "retry_after": 10})

    def test_a_malformed_entry_refuses_the_body_with_its_index(self):
        for entry in ("1" * 63, "g" * 64, ONES + "\n", 7, None, [ONES]):
            self.refused("/v1/signatures", json.dumps([ONES, TWOS, entry]), JSON, "malformed-hash", index=2)
        self.refused("/v1/signatures", json.dumps([ONES, "0" * 64]), JSON, "zero-hash", index=1)
        self.refused("/v1/signatures", bytes.fromhex(ONES) + bytes(32), DIGESTS, "zero-hash", index=1)
        self.refused("/v1/signatures", bytes.fromhex(ONES) + b"more", DIGESTS, "malformed-hash", index=1)
        self.refused("/v1/signatures", b"", DIGESTS, "malformed-hash", index=0)
        for content in (b"", b"{", b"\xff", b"[" * 100_000, b"{}", b"[]", b'"' + ONES.encode() + b'"', b"7" * 100_000):
            self.refused("/v1/signatures", content, JSON, "malformed-json")

    def test_a_body_has_at_most_a_thousand_hashes(self):
        self.refused("/v1/signatures", json.dumps([ONES] * 1001), JSON, "too-many-hashes")
        self.refused("/v1/signatures", bytes.fromhex(ONES) * 1001, DIGESTS, "too-many-hashes")
        self.refused("/v1/signatures", b" " * (129 << 10), JSON, "body-too-large")
        self.refused("/v1/signatures", ONES, "image/png", "unsupported-media-type")

    def test_a_full_door_refuses_a_large_body_before_it_reads_it(self):
        with mock.patch.object(House, "full", True), mock.patch.object(Transfers, "one", side_effect=AssertionError("it is read")):
            self.refused("/v1/signatures", bytes.fromhex(ONES) * 1000, DIGESTS, "busy", retry_after=2)
            self.refused("/v1/signatures", b"x" * 100_000, BYTES, "busy", retry_after=2)

    def test_a_document_that_looks_like_a_digest_is_refused_unless_it_is_called_a_document(self):
        for content in (os.urandom(32), ONES.encode(), b" " + b"aB" * 32 + b"\r\n"):
            signed = row(hashlib.sha256(content).hexdigest())
            for path in ("/v1/signatures", "/v1/sign"):
                self.refused(path, content, BYTES, "looks-like-a-digest")
            status, told, _ = self.ask_whole("POST", "/sign", content, {"Content-Type": BYTES})
            self.assertEqual((status, told.startswith(b"the document has 32 bytes or 64 hex digits")), (422, True))
            self.assertEqual(self.post("/v1/signatures?document", content, BYTES), (200, JSON, [signed]))
            self.assertEqual(self.ask("POST", "/sign?document", content, Content_Type=BYTES), (200, bytes.fromhex(signed["hash"])))
        for content in (os.urandom(31), os.urandom(33), ONES.encode() + b"0", ONES.encode() + b" " * 300, b""):
            self.assertEqual(self.ask("POST", "/sign", content, Content_Type=BYTES), (200, hashlib.sha256(content).digest()), content)

    def test_the_paths_of_before_are_also_below_v1(self):
        self.assertEqual(self.ask("POST", "/v1/sign", ONES), (200, bytes.fromhex(ONES)))
        self.assertEqual(self.ask("GET", f"/v1/signature/{ONES}"), (200, b"kept"))
        self.assertEqual(self.ask("POST", "/v1/extend", b"s" * 32), (200, b"s" * 32))
        self.refused("/v1/extend", b"s" * 101, BYTES, "not-accepted")
        self.refused("/v1/sign", json.dumps([ONES]), JSON, "unsupported-media-type")
        self.refused("/v1/sign", "5" * 64, "text/plain", "busy", retry_after=2)

    def test_a_signature_is_found_by_its_hash(self):
        status, told, headers = self.ask_whole("GET", f"/v1/signatures/{ONES}")
        self.assertEqual((status, headers["Content-Type"], json.loads(told)), (200, JSON, {**row(ONES), "signature": base64.b64encode(b"kept").decode()}))
        status, told, headers = self.ask_whole("GET", f"/v1/signatures/{TWOS}")
        self.assertEqual((status, headers["Content-Type"], json.loads(told)["code"]), (404, PROBLEM, "signature-unknown"))

    def test_signatures_are_extended_together(self):
        entries = [b"a" * 32, b"x" * 200, b"b" * 40]
        status, _, told = self.post("/v1/extensions", json.dumps([base64.b64encode(it).decode() for it in entries]), JSON)
        self.assertEqual((status, told[1]["error"]["code"]), (200, "not-accepted"))
        for found, entry in ((told[0], entries[0]), (told[2], entries[2])):
            self.assertEqual(found, {"hash": entry[:32].hex(), "second": SECOND - 9, "date": "2023-11-14T22:13:11Z", "publication": SECOND,
                                     "signature": base64.b64encode(entry).decode()})
        self.assertEqual(self.post(f"/v1/extensions?to={SECOND}", entries[0], BYTES)[2], told[:1])
        self.refused(f"/v1/extensions?to={SECOND - 1}", entries[0], BYTES, "no-such-publication")
        for to in ("", "-1", "x", "1e3", "9" * 13):
            self.refused(f"/v1/extensions?to={to}", entries[0], BYTES, "malformed-query")
        for content in (b"{}", b"[]", b"[", json.dumps(["AA=="] * 101)):
            self.refused("/v1/extensions", content, JSON, "malformed-json")
        for entry in ("*", "AAA", 7, "\u00e4AAA"):
            self.refused("/v1/extensions", json.dumps(["AA==", entry]), JSON, "malformed-json", index=1)
        self.refused("/v1/extensions", "AA==", "text/plain", "unsupported-media-type")
        self.refused("/v1/extensions", b"x" * 65_540, BYTES, "body-too-large")

    def test_publications_come_in_three_forms_that_may_be_kept(self):
        status, told, headers = self.ask_whole("GET", "/v1/publications")
        self.assertEqual((status, headers["Content-Type"], json.loads(told)["code"]), (404, PROBLEM, "no-publication"))
        published = [(SECOND, "ab" * 32), (SECOND + 10, "cd" * 32)]
        content = publications_file(published)
        listed = {"publications": [{"second": SECOND, "date": DATE, "root": "ab" * 32}, {"second": SECOND + 10, "date": "2023-11-14T22:13:30Z", "root": "cd" * 32}]}
        printed = f"second {SECOND}, root {'ab' * 32}\nsecond {SECOND + 10}, root {'cd' * 32}\n".encode()
        tags = set()
        with mock.patch.object(House, "published", content):
            for accept, kind in (("*/*", BYTES), ("", BYTES), (JSON, JSON), ("text/plain, */*;q=0.1", "text/plain; charset=utf-8")):
                status, told, headers = self.ask_whole("GET", "/v1/publications", None, {"Accept": accept})
                self.assertEqual((status, headers["Content-Type"], headers["Cache-Control"], headers["Vary"]), (200, kind, "no-cache", "Accept"))
                self.assertEqual(json.loads(told) if kind == JSON else told, {BYTES: content, JSON: listed}.get(kind, printed))
                self.assertEqual(headers["ETag"], f'"{hashlib.sha256(told).hexdigest()}"')
                tags.add(headers["ETag"])
                status, told, _ = self.ask_whole("GET", "/v1/publications", None, {"Accept": accept, "If-None-Match": headers["ETag"]})
                self.assertEqual((status, told), (304, b""))
        self.assertEqual(len(tags), 3)

    def test_the_form_that_a_client_prefers(self):
        for accept, form in (("", 0), ("*/*", 0), ("application/json", 1), ("text/plain;q=0.5, application/json;q=0.4", 2), ("text/*", 2), ("image/png", 0), ("application/json;q=x, text/plain;q=0.1", 2)):
            self.assertEqual(preferred(accept, FORMS), FORMS[form], accept)

    def test_the_codes_of_refusals_are_listed(self):
        status, told, _ = self.ask_whole("GET", "/v1/problems")
        self.assertEqual((status, {it["code"]: it["status"] for it in json.loads(told)["problems"]}), (200, {code: it.status for code, it in PROBLEMS.items()}))

    def test_health_and_readiness(self):
        self.assertEqual([self.ask("GET", path) for path in ("/healthz", "/readyz")], [(200, b"ok\n"), (200, b"ready\n")])
        with mock.patch.object(House, "full", True):
            self.assertEqual([self.ask("GET", path) for path in ("/healthz", "/readyz")], [(200, b"ok\n"), (503, b"not yet\n")])

    def test_refusals_below_v1_are_problems_and_others_text(self):
        for path, kind in (("/v1/nothing", PROBLEM), ("/nothing", "text/plain; charset=utf-8")):
            self.assertEqual([self.ask_whole("GET", path)[it] for it in (0,)], [404])
            self.assertEqual(self.ask_whole("GET", path)[2]["Content-Type"], kind)
        status, told, headers = self.ask_whole("PUT", "/v1/signatures", b"")
        self.assertEqual((status, headers["Allow"], json.loads(told)["code"]), (405, "POST, OPTIONS", "method-not-allowed"))


if __name__ == "__main__":
    unittest.main()
