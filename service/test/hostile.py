"""Requests of a client that means no good."""
import os

PARTS = [b"GET ", b"POST ", b"/sign", b"/", b" HTTP/1.1\r\n", b"Host: x\r\n", b"Content-Length: ", b"64", b"18446744073709551616", b"\r\n\r\n", b"\r\n", b"\0" * 40, b"\xff" * 9,
         b"Transfer-Encoding: chunked\r\n", b"Expect: 100-continue\r\n", b"POST /v1/signatures HTTP/1.1\r\nHost: localhost\r\n", b"Content-Type: application/json\r\n", b"5;x\r\n[1,2]\r\n",
         b"0\r\n\r\n", b"A" * 70000, b"0" * 64, os.urandom(300)]


def hostile_request(dice):
    """Parts of requests, in any order."""
    return b"".join(dice.choices(PARTS, k=dice.randint(1, 12)))
