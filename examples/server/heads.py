#!/usr/bin/env python3
"""Sends the server of this folder heads that are right, wrong, cut short or long, and compares what it answers and counts.

usage: heads.py PORT

Nobody else may ask it meanwhile. Each comparison prints a line, and the status is 1 where one differs.
"""

import http.client
import re
import socket
import sys
import time

from client import END, SCRAPE, exchange
from compare import SCRAPED, compare, samples_of, status

# The most bytes of a head.
LIMIT = 8192
# What is answered, and counted as what.
FINE = "200 with a body, counted as GET 200 /metrics"
MALFORMED = "400 without a body, counted as other 400 other"
MISSING = "404 without a body, counted as GET 404 other"


def long(size):
    """A head of so many bytes, whose lines end with LF alone."""
    begin = b"GET /metrics HTTP/1.1\nLong: "
    return begin + (size - len(begin) - 2) * b"x" + b"\n\n"


# What it is, what is sent, and what comes of it.
HEADS = [
    ("lines that end with LF alone", b"GET /metrics HTTP/1.1\nHost: localhost\n\n", FINE),
    ("HTTP/1.0", b"GET /metrics HTTP/1.0\r\n\r\n", FINE),
    ("HTTP/2.0", b"GET /metrics HTTP/2.0" + END, MALFORMED),
    ("no version", b"GET /metrics" + END, MALFORMED),
    ("two blanks in the first line", b"GET  /metrics HTTP/1.1" + END, MALFORMED),
    ("an empty first line", b"\r\nGET /metrics HTTP/1.1" + END, MALFORMED),
    ("a line that is no UTF-8", b"GET /metrics HTTP/1.1\r\nName: \xff" + END, MALFORMED),
    ("an unknown path", b"GET /missing HTTP/1.1" + END, MISSING),
    ("a path below a known one", b"GET /metrics/more HTTP/1.1" + END, MISSING),
    ("an unknown method", b"PUT /metrics HTTP/1.1" + END, "405 without a body, counted as other 405 /metrics"),
    ("a method in small letters", b"get /metrics HTTP/1.1" + END, "405 without a body, counted as other 405 /metrics"),
    ("an unknown method and path", b"PUT /missing HTTP/1.1" + END, "405 without a body, counted as other 405 other"),
    ("HEAD", b"HEAD /metrics HTTP/1.1" + END, "405 without a body, counted as HEAD 405 /metrics"),
    ("POST", b"POST /metrics HTTP/1.1" + END, "405 without a body, counted as POST 405 /metrics"),
    (f"a head of {LIMIT} bytes", long(LIMIT), FINE),
    (f"a head of {LIMIT + 1} bytes", long(LIMIT + 1), MALFORMED),
    (f"a head of {LIMIT + 1} bytes, whose lines end with CR LF", long(LIMIT - 1)[:-2] + END, MALFORMED),
    ("a head without end", long(8 * LIMIT)[:-2], MALFORMED),
]
# The same where all but so many bytes come a little later.
PIECES = [
    (f"a head of {LIMIT + 999} bytes in two pieces", long(LIMIT + 999), LIMIT - 1, MALFORMED),
    ("a head in two pieces", SCRAPE[0], 9, FINE),
]
# The same where the client ends its side then.
CUT = [
    ("cut short before its first byte", b"", "no answer, counted as nothing"),
    ("cut short in its first line", b"GET /met", MALFORMED),
    ("cut short after its first line", b"GET /metrics HTTP/1.1\r\n", MALFORMED),
    ("cut short before its empty line", b"GET /metrics HTTP/1.1\r\nHost: localhost\r\n", MALFORMED),
    ("cut short within its empty line", b"GET /metrics HTTP/1.1\r\n\r", MALFORMED),
    ("cut short after blanks", b"GET /metrics HTTP/1.1\r\n  ", MALFORMED),
]


def document(port):
    """The values of a document's samples."""
    _, body = exchange(port, SCRAPE[0], "GET")
    return samples_of(body.decode().splitlines())


def answered(connection):
    """What the server sends until it ends its side, in words."""
    received = b""
    while part := connection.recv(65536):
        received += part
    if not received:
        return "no answer"
    head, _, body = received.partition(b"\r\n\r\n")
    code, said = head.split()[1].decode(), re.search(rb"Content-Length: (\d+)", head)[1]
    if int(said) != len(body):
        return f"{code} with {len(body)} bytes in place of {int(said)}"
    return f"{code} with a body" if body else f"{code} without a body"


def counted(before, after):
    """The labels of the requests that were counted between two documents, without the scrape of the first."""
    words = []
    for key, value in after.items():
        name, labels = key[0], dict(key[1])
        if name in ("example_requests_total", "example_latency_seconds_count"):
            more = int(value - before.get(key, 0)) - (key in SCRAPED)
            words += more * [labels[it] for it in ("method", "code", "path") if it in labels]
    return " ".join(words) or "nothing"


def compare_head(port, what, sent, wanted, is_cut=False, first=0):
    """Sends a head, and compares what comes of it. It has to be counted while its connection is still open."""
    before = document(port)
    with socket.create_connection(("127.0.0.1", port), timeout=10) as connection:
        if first:
            connection.sendall(sent[:first])
            time.sleep(0.2)
        connection.sendall(sent[first:])
        if is_cut:
            connection.shutdown(socket.SHUT_WR)
        answer = answered(connection)
        after = document(port)
    compare(what, wanted, f"{answer}, counted as {counted(before, after)}")


def main():
    port = int(sys.argv[1])
    try:
        for what, sent, wanted in HEADS:
            compare_head(port, what, sent, wanted)
        for what, sent, first, wanted in PIECES:
            compare_head(port, what, sent, wanted, first=first)
        for what, sent, wanted in CUT:
            compare_head(port, what, sent, wanted, is_cut=True)
    except (OSError, http.client.HTTPException) as error:
        compare("what came in place of an answer", "nothing", repr(error))
    return status()


if __name__ == "__main__":
    sys.exit(main())
