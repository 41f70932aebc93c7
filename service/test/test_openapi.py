"""The description of the API: it is well-formed, each operation answers as it says, and refuses with each code that it lists."""
import base64
import json
import re
import tempfile
import unittest
from unittest import mock

from doored import ONES, SECOND, Doored, House
from ksi_service import bodies
from ksi_service import clients as clients_file
from ksi_service.access import Access
from ksi_service.answers import PROBLEMS, Answer, Refusal, json_answer
from ksi_service.clients import Clients
from ksi_service.consistency import Consistency
from ksi_service.elements import publications_file
from ksi_service.openapi import document
from ksi_service.operations import OPERATIONS
from ksi_service.routes import Routes

try:
    import jsonschema
except ImportError:
    jsonschema = None

ALONE = "it waits until slow requests are ended"

JSON, BYTES = "application/json", "application/octet-stream"
UNDOCUMENTED = {
    # of paths that are no operation, of requests that nobody can take for one, and of a mirror
    "not-found", "method-not-allowed", "head-too-large", "too-many-connections", "page-not-built", "signs-nothing",
}


def refs_in(it):
    if isinstance(it, dict):
        yield from ([it["$ref"]] if "$ref" in it else [])
        it = list(it.values())
    for part in it if isinstance(it, list) else []:
        yield from refs_in(part)


class DocumentTest(unittest.TestCase):
    def setUp(self):
        self.document = document()

    def test_it_is_well_formed(self):
        it = self.document
        self.assertRegex(it["openapi"], r"^3\.1\.\d+$")
        self.assertEqual(set(it), {"openapi", "info", "paths", "components"})
        self.assertLessEqual({"title", "version"}, set(it["info"]))
        names = [operation["operationId"] for path in it["paths"].values() for operation in path.values()]
        self.assertEqual(sorted(names), sorted({it.name for it in OPERATIONS}))
        for path, operations in it["paths"].items():
            for operation in operations.values():
                stated = {row["name"] for row in operation.get("parameters", ()) if row["in"] == "path"}
                self.assertEqual(stated, set(re.findall(r"\{(\w+)\}", path)))
                self.assertTrue(all(row["required"] for row in operation.get("parameters", ()) if row["in"] == "path"))
                self.assertTrue(all(re.fullmatch(r"[2-5]\d\d", status) and row["description"] for status, row in operation["responses"].items()))
        for found in refs_in(it):
            self.assertIn(found.rsplit("/", 1)[1], it["components"]["schemas"])

    def test_all_codes_are_in_it(self):
        listed = {code for it in OPERATIONS for code in (*it.codes, *it.entry_codes)}
        self.assertEqual(listed | UNDOCUMENTED, set(PROBLEMS))
        self.assertFalse(listed & UNDOCUMENTED)

    @unittest.skipUnless(jsonschema, "python3-jsonschema is not here")
    def test_its_schemas_are_schemas(self):
        it = self.document
        found = list(it["components"]["schemas"].values())
        for path in it["paths"].values():
            for operation in path.values():
                found += [row["schema"] for row in operation.get("parameters", ())]
                found += [content["schema"] for content in operation.get("requestBody", {}).get("content", {}).values()]
                found += [content["schema"] for row in operation["responses"].values() for content in row.get("content", {}).values()]
        for schema in found:
            jsonschema.Draft202012Validator.check_schema(schema)

    def test_each_operation_has_a_route(self):
        routes = Routes(House(), bodies.Transfers(), str)
        for it in OPERATIONS:
            path = it.path.format(hash=ONES, plan="0" * 64, number=0)
            self.assertEqual(routes.of(path).method.lower(), it.method)
            self.assertEqual("key-required" in it.codes, not routes.of(path).is_public, it.path)


class Calls:
    """A request for each operation that succeeds, and how each code comes about."""

    BODIES = {"sign": (json.dumps([ONES, "8" * 64]), JSON), "extend": (json.dumps([base64.b64encode(it).decode() for it in (b"s" * 32, b"x" * 101)]), JSON)}
    WRONG = {
        ("sign", "malformed-hash"): ('["7"]', JSON), ("sign", "zero-hash"): (f'["{"0" * 64}"]', JSON), ("sign", "too-many-hashes"): (json.dumps([ONES] * 1001), JSON),
        ("sign", "looks-like-a-digest"): (b"d" * 32, BYTES), ("sign", "body-too-large"): (b" " * (1 << 18), JSON), ("extend", "body-too-large"): (b"x" * 65_540, BYTES),
        ("sign", "unsupported-media-type"): ("x", "image/png"), ("extend", "unsupported-media-type"): ("x", "image/png"),
        ("sign", "malformed-json"): ("[", JSON), ("extend", "malformed-json"): ("[", JSON),
    }
    """Bodies that are refused."""
    QUERIES = {"consistency": "?from=1&to=2"}
    """The query of an operation that needs one."""
    OF_HOUSE = {"busy": "sign", "no-majority": "sign", "stopping": "sign", "plan-over": "sign", "not-signed": "sign", "lookup-incomplete": "lookup", "no-book": "book", "nothing-published": "extend", "too-many-extensions": "extend", "program-missing": "extend"}
    """The codes that a service refuses with, and its call."""


@unittest.skipUnless(jsonschema, "python3-jsonschema is not here")
class OperationsTest(Doored, Calls):
    """Each operation against a running door, with each code that the document lists."""

    def setUp(self):
        room = tempfile.TemporaryDirectory(prefix="ksi-test-")
        self.addCleanup(room.cleanup)
        self.path = f"{room.name}/clients"
        self.words = {"access": Access(host_names=["x"])}
        self.document = document()
        super().setUp()

    def send(self, it, changed=(), body=None, kind=None, headers=(), query=""):
        """The answer to a request of an operation, as it is and as it is documented."""
        path = it.path.format(hash=ONES, plan="0" * 64, number=0) + (query or self.QUERIES.get(it.name, ""))
        content, usual = self.BODIES.get(it.name, (None, None))
        given = {"Content-Type": kind or usual} if content is not None else {}
        return self.ask_whole(it.method.upper(), path, content if body is None else body, {**given, **dict(headers)})

    def see(self, it, answer):
        """Sees that an answer is one that the document has, and returns its JSON, if it is that."""
        status, content, headers = answer
        responses = self.document["paths"][it.path][it.method]["responses"]
        self.assertIn(str(status), responses, (it.name, status, content))
        kind = headers["Content-Type"].split(";")[0]
        described = responses[str(status)]["content"]
        self.assertIn(kind, described, (it.name, status, content))
        if not kind.endswith("json"):
            return None
        told = json.loads(content)
        schema = {**described[kind]["schema"], "components": self.document["components"]}
        jsonschema.Draft202012Validator(schema).validate(told)
        return told

    def test_each_operation_succeeds_as_documented(self):
        published = publications_file([(SECOND, "ab" * 32)])
        with mock.patch.object(House, "published", published), mock.patch("ksi_service.routes.calendar_path", side_effect=self.calendar_path), \
                mock.patch.object(Consistency, "proof", self.proof):
            for it in OPERATIONS:
                for accept in it.answers:
                    answer = self.send(it, headers={"Accept": accept})
                    self.assertEqual((answer[0], answer[2]["Content-Type"].split(";")[0]), (200, accept), it.name)
                    self.see(it, answer)
                if it.is_cached and answer[2]["ETag"]:
                    self.assertEqual(self.send(it, headers={"Accept": accept, "If-None-Match": answer[2]["ETag"]})[0], 304)
            for query in (f"?to={SECOND}", ""):
                self.assertEqual(self.send(OPERATIONS[2], query=query)[0], 200)
            self.assertEqual(self.send(OPERATIONS[0], body=b"d" * 32, kind=BYTES, query="?document")[0], 200)

    @staticmethod
    async def proof(consistency, older, newer):
        """As if there were calendar files."""
        return b"proof"

    @staticmethod
    def calendar_path(path, calendars):
        """As if there were a calendar."""
        async def work(_):
            return json_answer({"calendars": [{}]}) if path == "/v1/calendar" else Answer(200, b"roots", BYTES)
        return work if path.startswith("/v1/calendar") else None

    def test_each_operation_refuses_with_each_code(self):
        for it in OPERATIONS:
            for code in it.codes:
                with self.subTest(operation=it.name, code=code):
                    told = self.see(it, self.refused(it, code))
                    self.assertEqual((told["code"], told["status"]), (code, PROBLEMS[code].status.value))
                    self.assertEqual("Retry-After" in self.last, "retry_after" in told)

    def refused(self, it, code):
        answer = self.provoke(it, code)
        self.last = answer[2]
        return answer

    def provoke(self, it, code):
        """Has an operation refuse with a code."""
        by_name = getattr(self, "by_" + code.replace("-", "_"), None)
        if by_name:
            return by_name(it)
        if (it.name, code) in self.WRONG:
            body, kind = self.WRONG[it.name, code]
            return self.send(it, body=body, kind=kind)
        refusal = Refusal(code, "it is so", Retry_After="3")
        patch = mock.patch.object(Consistency, "proof", side_effect=refusal) if it.name == "consistency" else mock.patch.object(House, self.OF_HOUSE[code], side_effect=refusal)
        with patch:
            return self.send(it)

    def raw_answer(self, it, *rows, body=b""):
        """The answer to a request whose headers are written by hand."""
        path = it.path.format(hash=ONES, plan="0" * 64, number=0)
        head = "".join(f"{row}\r\n" for row in (f"{it.method.upper()} {path} HTTP/1.1", "Host: x", *rows)) + "\r\n"
        told = self.raw(head.encode() + body, more="Content-Length: 5" in rows and not body)
        first, _, content = told.partition(b"\r\n\r\n")
        rows = first.decode().split("\r\n")
        return int(rows[0].split()[1]), content, dict(row.split(": ", 1) for row in rows[1:])

    def by_malformed_request(self, it):
        return self.raw_answer(it, "Content-Length: x") if it.method == "post" else self.raw_answer(it, "Content-Length: 1", body=b"x")

    def by_host_not_allowed(self, it):
        return self.send(it, headers={"Host": "evil.example"})

    def by_cross_site(self, it):
        return self.send(it, headers={"Sec-Fetch-Site": "cross-site"})

    def by_internal_error(self, it):
        with mock.patch.object(self.door.access, "caller", side_effect=OSError("a fault")), mock.patch("ksi_service.door.log"):
            return self.send(it)

    def with_access(self, it, access, **headers):
        with mock.patch.object(self.door, "access", access):
            return self.send(it, headers=headers)

    def keyed(self, rate=None):
        """An access by keys, and the key of a client."""
        if clients_file.rows_of(self.path):
            clients_file.remove(self.path, "one")
        key = clients_file.add(self.path, "one", rate)
        return Access(Clients(self.path)), f"Bearer {key}"

    def by_key_required(self, it):
        return self.with_access(it, self.keyed()[0])

    def by_key_unknown(self, it):
        return self.with_access(it, self.keyed()[0], Authorization="Bearer x")

    def by_client_not_allowed(self, it):
        # as if the client were on another machine
        with mock.patch("ksi_service.access.is_loopback", return_value=False):
            return self.send(it)

    def by_rate_exceeded(self, it):
        access, key = self.keyed(0.01)
        self.assertEqual(self.with_access(it, access, Authorization=key)[0], 200)
        return self.with_access(it, access, Authorization=key)

    def by_length_required(self, it):
        return self.raw_answer(it)

    def by_request_timeout(self, it):
        with mock.patch.object(bodies, "SECONDS_FOR_BODY", 0.2):
            return self.raw_answer(it, f"Content-Type: {JSON}", "Content-Length: 5")

    def by_expectation_failed(self, it):
        return self.raw_answer(it, "Content-Length: 2", "Expect: more", body=b"[]")

    def by_unsupported_transfer_coding(self, it):
        return self.raw_answer(it, "Transfer-Encoding: gzip")

    def by_too_many_transfers(self, it):
        with mock.patch.object(bodies, "MOST_BODIES", 0):
            return self.send(it)

    def by_signature_unknown(self, it):
        return self.ask_whole("GET", it.path.format(hash="2" * 64))

    def by_malformed_query(self, it):
        return self.send(it, query="?to=x")

    def by_no_such_publication(self, it):
        return self.send(it, query="?to=1")

    def by_no_publication(self, it):
        return self.send(it)

    def by_no_such_file(self, it):
        return self.send(it)


if __name__ == "__main__":
    unittest.main()
