"""HTTP/1.1 at the door, as RFC 9110 and RFC 9112 have it: chunked bodies, expectations, queries, OPTIONS and request ids."""
import hashlib
import os
import unittest

from doored import ONES, Doored

SIGN = b"POST /sign HTTP/1.1\r\nHost: x\r\n"
CHUNKED = SIGN + b"Content-Type: application/octet-stream\r\nTransfer-Encoding: chunked\r\nConnection: close\r\n\r\n"


def chunked(*pieces, extension=b""):
    return b"".join(b"%x%s\r\n%s\r\n" % (len(it), extension, it) for it in pieces)


class HttpTest(Doored):
    def test_a_body_may_come_in_chunks(self):
        document = os.urandom(200_000)
        pieces = [document[:1], document[1:70_000], document[70_000:]]
        for body in (chunked(*pieces) + b"0\r\n\r\n", chunked(*pieces, extension=b';a="b"') + b"000\r\n\r\n", chunked(*pieces, extension=b" ;x") + b"0;last\r\nA: b\r\nC: d\r\n\r\n"):
            told = self.raw(CHUNKED + body)
            self.assertTrue(told.startswith(b"HTTP/1.1 200"), told[:200])
            self.assertTrue(told.endswith(b"\r\n\r\n" + hashlib.sha256(document).digest()))

    def test_another_request_may_follow_a_chunked_one(self):
        one = SIGN + b"Transfer-Encoding: Chunked\r\n\r\n" + chunked(ONES[:30].encode(), ONES[30:].encode()) + b"0\r\n\r\n"
        told = self.raw(one + one + b"GET /healthz HTTP/1.1\r\nHost: x\r\nConnection: close\r\n\r\n")
        self.assertEqual((told.count(b"HTTP/1.1 200"), told.count(bytes.fromhex(ONES)), told.endswith(b"ok\n")), (3, 2, True))

    def test_malformed_chunks_are_refused_and_end_the_connection(self):
        rows = [(b"x\r\n", b"400"), (b"-1\r\n", b"400"), (b"0x5\r\nhello\r\n0\r\n\r\n", b"400"), (b"5\nhello\n0\n\n", b"400"), (b"5\r\nhello0\r\n\r\n", b"400"), (b" 5\r\nhello\r\n0\r\n\r\n", b"400"),
                (b"5;\0\r\nhello\r\n0\r\n\r\n", b"400"), (b"\r\n", b"400"), (b"f" * 13 + b"\r\n", b"400"), (b"5" + b" " * 9000 + b"\r\n", b"400"), (b"5\r\nhel", b"400"), (b"5\r\nhello\r\n", b"400"),
                (b"0\r\nA: b", b"400"), (b"0\r\n" + b"A: b\r\n" * 70 + b"\r\n", b"431"), (b"4000001\r\n", b"413"), (b"3ffffff\r\n", b"400"), (b"ffffffffffff\r\n", b"413")]
        for body, status in rows:
            told = self.raw(CHUNKED.replace(b"Connection: close\r\n", b"") + body, more=False)
            self.assertTrue(told.startswith(b"HTTP/1.1 " + status), (body[:40], told))
            self.assertIn(b"Connection: close", told)
        many = chunked(*[b"\0" * (1 << 20)] * 65)
        self.assertTrue(self.raw(CHUNKED + many + b"0\r\n\r\n").startswith(b"HTTP/1.1 413"))

    def test_a_length_in_two_forms_is_refused(self):
        rows = [(b"Transfer-Encoding: chunked\r\nContent-Length: 5\r\n", b"400"), (b"Content-Length: 5\r\nTransfer-Encoding: chunked\r\n", b"400"), (b"Transfer-Encoding: gzip, chunked\r\n", b"501"),
                (b"Transfer-Encoding: xchunked\r\n", b"501"), (b"Transfer-Encoding: identity\r\n", b"501"), (b"Transfer-Encoding: chunked\r\nTransfer-Encoding: chunked\r\n", b"400")]
        for headers, status in rows:
            told = self.raw(SIGN + headers + b"\r\n" + chunked(ONES.encode()) + b"0\r\n\r\n", more=False)
            self.assertTrue(told.startswith(b"HTTP/1.1 " + status), (headers, told))
            self.assertIn(b"Connection: close", told)
        self.assertTrue(self.raw(b"POST /sign HTTP/1.0\r\nTransfer-Encoding: chunked\r\n\r\n0\r\n\r\n", more=False).startswith(b"HTTP/1.1 400"))

    def test_a_chunked_body_waits_for_the_interim_answer(self):
        head = SIGN + b"Transfer-Encoding: chunked\r\nExpect: 100-continue\r\nConnection: close\r\n\r\n"
        told = self.raw(head + chunked(ONES.encode()) + b"0\r\n\r\n")
        self.assertTrue(told.startswith(b"HTTP/1.1 100 Continue\r\n\r\nHTTP/1.1 200 OK"), told)

    def test_other_expectations_are_not_met(self):
        told = self.raw(SIGN + b"Content-Length: 64\r\nExpect: 200-ok\r\n\r\n", more=False)
        self.assertTrue(told.startswith(b"HTTP/1.1 417"), told)
        told = self.raw(b"POST /v1/sign HTTP/1.1\r\nHost: x\r\nContent-Length: 64\r\nExpect: x\r\n\r\n", more=False)
        self.assertIn(b'"code":"expectation-failed"', told)
        # a request of the first version has no interim answer
        self.assertTrue(self.raw(b"POST /sign HTTP/1.0\r\nContent-Length: 64\r\nExpect: 100-continue\r\n\r\n" + ONES.encode()).startswith(b"HTTP/1.1 200"))

    def test_a_query_is_not_part_of_the_path(self):
        for target in ("/status?x=1", "/status?", "/status?a&b=%20&c=%ff"):
            self.assertEqual(self.ask("GET", target)[0], 200, target)
        self.assertEqual(self.ask("GET", "/nothing?status")[0], 404)

    def test_a_target_may_have_the_host(self):
        told = self.raw(b"GET http://x:8080/healthz HTTP/1.1\r\nHost: y\r\nConnection: close\r\n\r\n")
        self.assertTrue(told.endswith(b"ok\n"), told)
        for target in (b"ftp://x/healthz", b"http:///healthz", b"http://user@x/healthz", b"healthz", b"*"):
            told = self.raw(b"GET " + target + b" HTTP/1.1\r\nHost: x\r\n\r\n", more=False)
            self.assertTrue(told.startswith(b"HTTP/1.1 400"), (target, told))

    def test_options_and_methods(self):
        for target, allowed in (("*", "GET, HEAD, POST, OPTIONS"), ("/sign", "POST, OPTIONS"), ("/v1/signatures", "POST, OPTIONS"), ("/status", "GET, HEAD, OPTIONS"), (f"/v1/signatures/{ONES}", "GET, HEAD, OPTIONS")):
            told = self.raw(f"OPTIONS {target} HTTP/1.1\r\nHost: x\r\nConnection: close\r\n\r\n".encode())
            self.assertTrue(told.startswith(b"HTTP/1.1 204") and told.endswith(b"\r\n\r\n") and b"Content-Length" not in told, told)
            self.assertIn(f"Allow: {allowed}\r\n".encode(), told)
        self.assertEqual(self.ask("OPTIONS", "/nothing")[0], 404)
        status, _, headers = self.ask_whole("DELETE", "/status")
        self.assertEqual((status, headers["Allow"]), (405, "GET, HEAD, OPTIONS"))

    def test_a_request_without_a_length_is_refused_as_its_path_has_it(self):
        told = self.raw(b"POST /v1/signatures HTTP/1.1\r\nHost: x\r\n\r\n", more=False)
        self.assertTrue(told.startswith(b"HTTP/1.1 411") and b'"code":"length-required"' in told, told)

    def test_each_answer_has_the_id_of_its_request(self):
        self.assertEqual(self.ask_whole("GET", "/healthz", None, {"X-Request-Id": "mine-7"})[2]["X-Request-Id"], "mine-7")
        self.assertEqual(self.ask_whole("GET", "/v1/nothing", None, {"X-Request-Id": "mine-8"})[2]["X-Request-Id"], "mine-8")
        made = [self.ask_whole("GET", "/healthz", None, headers)[2]["X-Request-Id"] for headers in ({}, {"X-Request-Id": "x" * 65}, {"X-Request-Id": "a b"})]
        self.assertEqual((len(set(made)), [len(it) for it in made]), (3, [16] * 3))


if __name__ == "__main__":
    unittest.main()
