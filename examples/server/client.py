#!/usr/bin/env python3
"""Sends requests to the server of this folder by four threads, and looks at each response.

usage: client.py PORT REQUESTS

It prints how many responses of each kind came, a line for each: method, status code, path, number, with the words that the server
has for them in its labels. Its status is 1 where a response isn't as it should be; standard error says which.
"""

import collections
import http.client
import socket
import sys
import threading

THREADS = 4
DOCUMENT_TYPE = "application/openmetrics-text; version=1.0.0; charset=utf-8"
END = b"\r\nHost: localhost\r\n\r\n"

# What is sent, and the labels of what is answered.
WORK = (b"GET /work HTTP/1.1" + END, "GET", "200", "/work")
SCRAPE = (b"GET /metrics HTTP/1.1" + END, "GET", "200", "/metrics")
MISSING = (b"GET /missing HTTP/1.1" + END, "GET", "404", "other")
POSTED = (b"POST /work HTTP/1.1\r\nContent-Length: 5" + END + b"hello", "POST", "405", "/work")
RARE = [
    (b"HEAD /metrics HTTP/1.1" + END, "HEAD", "405", "/metrics"),
    (b"GET /work?number=7 HTTP/1.1" + END, "GET", "200", "/work"),
    (b"hello\r\n\r\n", "other", "400", "other"),
    (b"GET /work HTTP/1.1\r\nLong: " + 9000 * b"x" + END, "other", "400", "other"),
]
TURN = 15 * [WORK] + 2 * [SCRAPE] + [MISSING, POSTED]


def request(number):
    """Of twenty requests fifteen are for work, two are scrapes, and three are answered otherwise, for the most part."""
    place = number % 20
    return TURN[place] if place < len(TURN) else RARE[number // 20 % len(RARE)]


def fault(response, body, code, path):
    """What is wrong with a response, or nothing."""
    if str(response.status) != code:
        return f"status {response.status}"
    if response.getheader("Connection") != "close":
        return "it doesn't say that the connection ends"
    if response.getheader("Content-Length") != str(len(body)):
        return f"{len(body)} bytes, said to be {response.getheader('Content-Length')}"
    if code == "405" and response.getheader("Allow") != "GET":
        return "it doesn't say what is allowed"
    if code == "200" and path == "/metrics":
        if response.getheader("Content-Type") != DOCUMENT_TYPE:
            return f"type {response.getheader('Content-Type')}"
        if not body.endswith(b"\n# EOF\n"):
            return "no whole document"
    return None


def exchange(port, sent, method):
    """Sends a request on a connection of its own, and returns the response and its body."""
    with socket.create_connection(("127.0.0.1", port), timeout=30) as connection:
        connection.sendall(sent)
        response = http.client.HTTPResponse(connection, method=method)
        response.begin()
        return response, response.read()


def send(port, numbers, counts, faults):
    """Sends the requests of these numbers."""
    for number in numbers:
        sent, method, code, path = request(number)
        try:
            response, body = exchange(port, sent, method)
            wrong = fault(response, body, code, path)
        except (OSError, http.client.HTTPException) as error:
            wrong = repr(error)
        if wrong:
            faults.append(f"request {number}, {method} {path}: {wrong}")
        else:
            counts[method, code, path] += 1


def main():
    port, requests = int(sys.argv[1]), int(sys.argv[2])
    counts = [collections.Counter() for _ in range(THREADS)]
    faults = []
    threads = []
    for at in range(THREADS):
        numbers = range(at, requests, THREADS)
        threads.append(threading.Thread(target=send, args=(port, numbers, counts[at], faults)))
        threads[-1].start()
    for thread in threads:
        thread.join()
    for labels, number in sorted(sum(counts, collections.Counter()).items()):
        print(*labels, number)
    for wrong in faults[:20]:
        print(wrong, file=sys.stderr)
    return 1 if faults else 0


if __name__ == "__main__":
    sys.exit(main())
