#!/usr/bin/python3
"""A bridge between a node that runs and PostgreSQL: each message once, whatever is killed, and whenever.

    bridge.py NODE SOCKET DSN

Items of the node's inboxes go into wsrm_inbox, and rows of wsrm_outbox go to the node (bridge.sql). NODE is its number,
SOCKET is wsrm.socket in its folder. A lock of the database keeps a second bridge of the node out. Status 3 says that
node and database do not fit each other: look before you start it again. It needs psycopg 3 (Debian's python3-psycopg).
"""
import http.client
import re
import socket
import sys
import time
from urllib.parse import quote

import psycopg

NODE, SOCKET, DSN = int(sys.argv[1]), sys.argv[2], sys.argv[3]
# Items of one transaction, seconds between two looks, and the statuses by which a node refuses a row for good.
MOST, PAUSE, FOR_GOOD = 64, 0.2, (400, 413, 422)
consumed, following = {}, {}


def ask(method, path, body=None):
    """The status and the text of the node's answer; 0 where it is down. All that is asked here may be asked again."""
    line = http.client.HTTPConnection("localhost")
    with socket.socket(socket.AF_UNIX) as line.sock:
        try:
            line.sock.settimeout(60)
            line.sock.connect(SOCKET)
            line.request(method, path, body)
            answer = line.getresponse()
            return answer.status, answer.read().decode()
        except (OSError, http.client.HTTPException):
            return 0, ""


def stop(text):
    print(f"node {NODE}: {text}: is this its journal, and its database?", file=sys.stderr)
    sys.exit(3)


def take(db, seq, have):
    """Takes items of an inbox, of which the database has so many; whether there were some."""
    status, text = ask("GET", f"/inbox/{seq}?from={have + 1}&max={MOST}")
    if status != 200:
        return False
    items = [it.split() for it in text.splitlines() if it.startswith("item ")]
    total = int(text.split()[-1])
    # Numbers come without a gap. Another start is a node that went back, or a database that did.
    if total < have or [int(it[2]) for it in items] != list(range(have + 1, min(total, have + MOST) + 1)):
        stop(f"sequence {seq}: the database has {have} items, and the node {total}")
    if items:
        with db.transaction():
            for _, _, number, payload in items:         # the application's own work may stand here
                db.execute("insert into wsrm_inbox values (%s, %s, %s, %s)",
                           (NODE, seq, int(number), bytes.fromhex(payload)))
            have += len(items)
            db.execute("insert into wsrm_cursor values (%s, %s, %s) on conflict (node, seq) do update "
                       "set number = excluded.number", (NODE, seq, have))
    # Only what is in the database is consumed. It is asked again after a crash, which does nothing twice.
    if have > consumed.get(seq, 0) and ask("POST", f"/consume/{seq}?upto={have}")[0] == 200:
        consumed[seq] = have
    return bool(items)


def take_all(db):
    """Takes from each inbox; whether there was something."""
    status, shown = ask("GET", "/show")
    have = dict(db.execute("select seq, number from wsrm_cursor where node = %s", (NODE,)).fetchall())
    there = [int(it) for it in re.findall(r"^in (\d+) ", shown, re.M)]
    if status == 200 and set(have) - set(there):
        stop(f"it has no sequence {min(set(have) - set(there))}, of which the database has items")
    return any([take(db, seq, have.get(seq, 0)) for seq in there])


def give(db, partner):
    """Gives the node the oldest row for a partner; whether something was done. The row notes its sequence and number
    before it is sent by them. 0 and 0 never come next: they send nothing, and the answer is what comes next."""
    row, payload, *noted, refused = db.execute(
        "select id, payload, coalesce(seq, 0), coalesce(number, 0), refused from wsrm_outbox where node = %s and "
        "partner = %s and not sent order by id limit 1", (NODE, partner)).fetchone()
    if noted == [0, 0] and partner in following:
        noted = following.pop(partner)
        db.execute("update wsrm_outbox set seq = %s, number = %s where id = %s", (*noted, row))
    seq, number = noted
    path = f"/send?to={quote(partner, safe='')}&seq={seq}&number={number}"
    status, text = (0, "") if refused else ask("POST", path, payload)
    comes = [int(it) for it in text.split()[1:3]] if status == 412 else None
    if status == 200 or comes == [seq, number + 1]:     # it is accepted now, or was before and the answer was lost
        following[partner] = [seq, number + 1]
        db.execute("update wsrm_outbox set sent = true where id = %s", (row,))
    elif comes and comes[0] != seq:                     # the first row of a bridge, or another sequence since
        last = db.execute("select seq, number from wsrm_outbox where node = %s and partner = %s and sent "
                          "order by id desc limit 1", (NODE, partner)).fetchone() or (0, 0)
        shown = ask("GET", "/show")[1]
        had = re.search(rf"^out {seq} .*accepted (\d+)", shown, re.M)
        if comes[0] <= last[0] and comes != [last[0], last[1] + 1] or shown and seq and not had:
            stop(f"{comes} comes next to {partner}, and the database sent up to {last}")
        there = bool(had) and int(had[1]) >= number
        if shown:
            db.execute("update wsrm_outbox set sent = %s, seq = %s, number = %s where id = %s",
                       (there, *(noted if there else comes), row))
    elif comes:
        stop(f"{comes} comes next to {partner}, and not {noted}")
    elif status in FOR_GOOD:
        db.execute("update wsrm_outbox set refused = %s where id = %s", (f"{status} {text}".strip(), row))
    return status in (200, 412, *FOR_GOOD)


with psycopg.connect(DSN, autocommit=True) as base:
    if not base.execute("select pg_try_advisory_lock(%s::bigint)", (NODE,)).fetchone()[0]:
        sys.exit(f"another bridge has node {NODE}")
    while True:
        busy = take_all(base)
        for (to,) in base.execute("select distinct partner from wsrm_outbox where node = %s and not sent", (NODE,)):
            busy = give(base, to) or busy
        if not busy:
            time.sleep(PAUSE)
