#!/usr/bin/env python3
"""verify.py SIGNATURE DOCUMENT PUBLICATIONS prints the time of an accepted signature, or the check that failed. Exit statuses are those
of `ksi verify`: the answer's status, 2 for wrong arguments, and 4 if a file cannot be read or the line cannot be written."""
import os
import sys
import ksi

if len(sys.argv) != 4:
    sys.exit(2)
signature, document, publications = sys.argv[1:]
try:
    with open(signature, "rb") as s, open(publications, "rb") as p:
        answer = ksi.verify(s.read(), ksi.file_digest(document), p.read())
    line = f"accepted {answer.time or answer.second}" if answer.accepted else answer.name
    # without a buffer, since flushing one may fail after the status is set
    os.write(1, f"{line}\n".encode())
except OSError as error:
    print(error, file=sys.stderr)
    sys.exit(4)
sys.exit(answer.status)
