#!/usr/bin/env python3
"""Compares when the server of this folder ends clients that are too slow or too many, and scrapes it beside them.

usage: slow.py PORT SECONDS

First there are clients of four kinds, and it measures when the server ends them; if that differs, no more is compared. Then three
hundred clients, more than the server keeps, connect and send nothing, and it looks which of them are ended. Five more send a byte
of a request a second, and five send a request and read nothing of the response. Beside these it scrapes twice a second.
Each comparison prints a line, and the status is 1 where one differs.
"""

import select
import socket
import sys
import time
from concurrent.futures import ThreadPoolExecutor

from client import END, exchange
from compare import compare, compare_between, status

REQUEST = b"GET /metrics HTTP/1.1" + END
BYTES = [bytes([it]) for it in REQUEST]
# The most connections that the server keeps, by its two threads, and by one of them.
MOST, MOST_OF_THREAD = 200, 100
# Clients: what each does, what it sends in each second, which event shows that it was ended, and the least seconds until then.
# A response ends the server's side at once. After that, what the client sends shows whether the connection is there.
CLIENTS = [
    ("is silent", [], select.POLLRDHUP, 5),
    ("sends a byte of a head a second", BYTES, select.POLLRDHUP, 5),
    ("sends on and reads no response", [REQUEST, *BYTES], 0, 5),
    ("does so after two silent seconds", [b"", b"", REQUEST, *BYTES], 0, 7),
]


def connected(port):
    """A connection to the server."""
    return socket.create_connection(("127.0.0.1", port), timeout=30)


def send(connection, sent):
    """Sends what is to be sent; the server may have ended the connection."""
    try:
        connection.sendall(sent)
    except OSError:
        pass


def seconds_until_end(port, sends, event, least):
    """After how many seconds the server ends a client, or nothing if it doesn't within three of the least."""
    poll, start = select.poll(), time.monotonic()
    with connected(port) as connection:
        poll.register(connection, event)
        for second in range(least + 3):
            send(connection, b"".join(sends[second : second + 1]))
            if poll.poll(1000):
                return round(time.monotonic() - start, 1)
    return None


def compare_ends(port):
    """Compares when the server ends slow clients, all at the same time."""
    with ThreadPoolExecutor(len(CLIENTS)) as pool:
        found = list(pool.map(lambda it: seconds_until_end(port, *it[1:]), CLIENTS))
    for (what, _, _, least), seconds in zip(CLIENTS, found):
        compare_between(f"seconds until a client is ended that {what}", least, least + 3, seconds)


def connect_silent(port, number):
    """So many connections that send nothing, no faster than the server takes them."""
    found = []
    for _ in range(number):
        found.append(connected(port))
        time.sleep(0.002)
    return found


def are_kept(connections):
    """For each connection whether the server hasn't ended it."""
    poll = select.poll()
    for it in connections:
        poll.register(it, select.POLLRDHUP)
    ended = {number for number, _ in poll.poll(0)}
    return [it.fileno() not in ended for it in connections]


def compare_kept(port):
    """Compares which of three hundred silent connections are kept, long before their time is over, and returns them."""
    start = time.monotonic()
    others = connect_silent(port, 300)
    time.sleep(1)
    kept, seconds = are_kept(others), round(time.monotonic() - start, 1)
    compare_between("silent connections that are kept of 300", MOST_OF_THREAD, MOST, sum(kept))
    compare(f"those of the newest {MOST_OF_THREAD}", MOST_OF_THREAD, sum(kept[-MOST_OF_THREAD:]))
    compare_between("seconds since the first of them", 0, 4, seconds)
    return others


def compare_scrapes(port, seconds, others):
    """Compares how long scrapes take beside silent and slow connections."""
    slow = [connected(port) for _ in range(5)]
    for _ in range(5):
        others.append(connected(port))
        others[-1].sendall(REQUEST)
    times, whole = [], 0
    for second in range(seconds):
        for connection in slow:
            send(connection, BYTES[second])
        for _ in range(2):
            start = time.monotonic()
            response, body = exchange(port, REQUEST, "GET")
            times.append(time.monotonic() - start)
            whole += response.status == 200 and body.endswith(b"\n# EOF\n")
            time.sleep(0.5)
    compare("whole documents beside silent and slow clients", len(times), whole)
    compare_between("seconds of the longest scrape", 0, 1, round(max(times), 3))


def main():
    port, seconds = int(sys.argv[1]), int(sys.argv[2])
    compare_ends(port)
    if not status():
        compare_scrapes(port, seconds, compare_kept(port))
    return status()


if __name__ == "__main__":
    sys.exit(main())
