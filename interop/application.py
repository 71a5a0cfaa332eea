#!/usr/bin/env python3
"""An application of a node that runs: what it decided to send is sent once, and what came is taken once, although it is
killed at any moment. It needs Python's standard library alone.

    application.py send STORE SOCKET ADDRESS
    application.py take STORE SOCKET

STORE is its own data, a file of SQLite. For as long as it runs, `send` sends each payload of the table `outgoing`, in
order, and `take` puts each item that came into the table `taken`.

Once, on the way out: before it asks, it notes under which sequence and number its next payload goes. The node accepts it
under these alone. Where the answer was lost it asks the same again, and is told that another number comes next.
Once, on the way in: the number of an item is kept in one step with the work that the item asks for, and only then is
the item consumed. An item that comes again is known by its number.
"""
import http.client
import re
import socket
import sqlite3
import sys
import time
import urllib.parse

TABLES = """
CREATE TABLE IF NOT EXISTS outgoing (id INTEGER PRIMARY KEY, payload BLOB NOT NULL);
CREATE TABLE IF NOT EXISTS sent (id INTEGER PRIMARY KEY, seq INTEGER, number INTEGER);
CREATE TABLE IF NOT EXISTS next (address TEXT PRIMARY KEY, seq INTEGER, number INTEGER);
CREATE TABLE IF NOT EXISTS taken (id INTEGER PRIMARY KEY, seq INTEGER, number INTEGER, payload BLOB);
CREATE TABLE IF NOT EXISTS upto (seq INTEGER PRIMARY KEY, number INTEGER);
"""
# For how many seconds the node holds an answer back until there is something to say, and how long it may be gone.
WAIT, GONE = 5, 60


class Line(http.client.HTTPConnection):
    """HTTP over a Unix socket."""

    def __init__(self, path):
        super().__init__("localhost", timeout=30)
        self.path = path

    def connect(self):
        self.sock = socket.socket(socket.AF_UNIX)
        self.sock.settimeout(self.timeout)
        self.sock.connect(self.path)


class Node:
    """The node: each request is asked again until it is answered, so each must be one that may be asked twice."""

    def __init__(self, path):
        self.path, self.line = path, Line(path)

    def ask(self, method, path, body=None):
        """The status, the text, and the number of an item."""
        until = time.monotonic() + GONE
        while True:
            try:
                self.line.request(method, path, body)
                answer = self.line.getresponse()
                return answer.status, answer.read(), answer.headers.get("ETag", "")
            except (OSError, http.client.HTTPException):
                # The node was killed, or is being started.
                self.line.close()
                if time.monotonic() > until:
                    raise
                time.sleep(0.05)


def opened(path):
    store = sqlite3.connect(path)
    store.executescript(TABLES)
    return store


def send_all(store, node, address):
    """Sends what is to be sent, in order."""
    while True:
        waiting = store.execute(
            "SELECT id, payload FROM outgoing WHERE id > (SELECT ifnull(max(id), 0) FROM sent) ORDER BY id LIMIT 1"
        ).fetchone()
        if waiting:
            send_one(store, node, address, *waiting)
        else:
            time.sleep(0.05)


def send_one(store, node, address, identity, payload):
    """One question about a payload: where it was accepted that is noted, with the number that comes next."""
    noted = store.execute("SELECT seq, number FROM next WHERE address = ?", [address]).fetchone()
    # Sequence 0 is none, so that this only asks what comes next.
    seq, number = noted or (0, 0)
    query = urllib.parse.urlencode({"to": address, "seq": seq, "number": number}, quote_via=urllib.parse.quote)
    status, text, _ = node.ask("POST", f"/send?{query}", payload)
    words = text.split()
    if status == 200:
        was_sent(store, address, identity, seq, number)
    elif status == 412:
        other, there = int(words[1]), int(words[2])
        if seq and (other, there) == (seq, number + 1) or other != seq and is_accepted(node, seq, number):
            # It was accepted before, and the answer was lost.
            was_sent(store, address, identity, seq, number)
        else:
            with store:
                store.execute("REPLACE INTO next VALUES (?, ?, ?)", [address, other, there])
    elif status in (429, 503):
        # The sequence is being opened, or too much is under way.
        time.sleep(0.05)
    else:
        raise SystemExit(f"{status}: {text.decode()}")


def was_sent(store, address, identity, seq, number):
    with store:
        store.execute("INSERT INTO sent VALUES (?, ?, ?)", [identity, seq, number])
        store.execute("REPLACE INTO next VALUES (?, ?, ?)", [address, seq, number + 1])


def is_accepted(node, seq, number):
    """Whether a sequence that is no longer used has a message of that number."""
    shown = re.search(rb"^out %d .*accepted (\d+)" % seq, node.ask("GET", "/show")[1], re.M)
    return bool(shown) and int(shown[1]) >= number > 0


def take_all(store, node):
    """Takes what comes, of each sequence in order."""
    while True:
        sequences = re.findall(rb"^in (\d+) ", node.ask("GET", "/show")[1], re.M)
        # (with several sequences none may hold up the others)
        wait = WAIT if len(sequences) == 1 else 0
        came = [take_one(store, node, int(it), wait) for it in sequences]
        if not any(came):
            time.sleep(0.05)


def take_one(store, node, seq, wait):
    """Takes the item of a sequence that is next, and answers whether there was one."""
    status, payload, tag = node.ask("GET", f"/inbox/{seq}/next" + (f"?wait={wait}" if wait else ""))
    if status != 200:
        return False
    number = int(tag.strip('"'))
    row = store.execute("SELECT number FROM upto WHERE seq = ?", [seq]).fetchone()
    if number > (row[0] if row else 0):
        with store:
            # The work, and the number, in one step.
            store.execute("INSERT INTO taken (seq, number, payload) VALUES (?, ?, ?)", [seq, number, payload])
            store.execute("REPLACE INTO upto VALUES (?, ?)", [seq, number])
    node.ask("POST", f"/consume/{seq}?upto={number}")
    return True


def main(words):
    what, path, place, *rest = words
    store, node = opened(path), Node(place)
    if what == "send":
        send_all(store, node, *rest)
    else:
        take_all(store, node)


if __name__ == "__main__":
    main(sys.argv[1:])
