#!/usr/bin/env python3
"""Plays gSOAP's client of WS-ReliableMessaging, built for SOAP 1.1, against `wsrm serve11`.

    interop/gsoap11.py [PROGRAM [WORD ..]]

It wants Debian's packages gsoap, libgsoap-dev and gcc. PROGRAM is the program wsrm, by default the one that
`./wsrm --prove` has built. It prints a table in Markdown as `interop/run` does, which plays the same scenarios. Between
client and node stands a tap, which sees the status, the media type and the version of SOAP of what both say.
"""
import re
import shutil
import socket
import subprocess
import sys
import tempfile
import threading
import time
from pathlib import Path

from proxy import given, request_of
from soap11 import NODE, SOAP11, SOAP12, XML, Node

HERE = Path(__file__).resolve().parent
GSOAP = Path("/usr/share/gsoap")
PROXY, TAP = 18491, 18493
PLAYED = []


def built(room, version):
    """The client and server over gSOAP, for SOAP 1.1 where `version` is 1 and for SOAP 1.2 where it is 2."""
    if not shutil.which("soapcpp2"):
        sys.exit("interop: soapcpp2 is not installed: it is in Debian's package gsoap")
    made = Path(tempfile.mkdtemp(dir=room))
    subprocess.run(["soapcpp2", f"-{version}", "-c", "-a", "-L", "-x", f"-I{GSOAP}/import", f"-I{GSOAP}",
                    HERE / "note.h"], cwd=made, check=True, capture_output=True)
    sources = [HERE / "peer.c", "soapC.c", "soapClient.c", "soapServer.c", GSOAP / "plugin/wsaapi.c",
               GSOAP / "plugin/wsrmapi.c", GSOAP / "plugin/threads.c", GSOAP / "custom/duration.c"]
    subprocess.run(["gcc", "-O2", "-w", f"-DVERSION={version}", "-I.", f"-I{GSOAP}/plugin", f"-I{GSOAP}", "-o", "peer",
                    *sources, "-lgsoap", "-lpthread"], cwd=made, check=True)
    return made / "peer"


def listens(port):
    lines = [line for file in ("tcp", "tcp6") for line in Path(f"/proc/net/{file}").read_text().splitlines()[1:]]
    rows = [line.split() for line in lines]
    return any(row[1].endswith(f":{port:04X}") and row[3] == "0A" for row in rows)


def wait_for(port):
    for _ in range(6000):
        if listens(port):
            return
        time.sleep(0.01)
    sys.exit(f"interop: nobody listens at {port}")


def tell(what, seen, holds):
    PLAYED.append(holds)
    print("| gSOAP, SOAP 1.1 |", what, "|", seen, "|", "yes" if holds else "no", "|", flush=True)


class Tap:
    """Gives the node what comes, and keeps each request and its answer."""

    def __init__(self):
        self.said = []
        self.listener = socket.create_server(("", TAP), family=socket.AF_INET6, dualstack_ipv6=True)
        threading.Thread(target=self.take, daemon=True).start()

    def take(self):
        while True:
            try:
                conn, _ = self.listener.accept()
            except OSError:
                return
            with conn:
                request, answer = request_of(conn), b""
                try:
                    answer = given(request, NODE)
                    conn.sendall(answer)
                except OSError:
                    pass
                self.said.append((request.decode(), answer.decode()))

    def end(self):
        self.listener.shutdown(socket.SHUT_RDWR)
        self.listener.close()
        return self.said


def status(answer):
    return int((re.findall(r"^HTTP/1\.1 (\d+)", answer) or ["0"])[0])


def is_version_1(text):
    """Whether a request or an answer is an envelope of SOAP 1.1, by its media type."""
    head, _, body = text.partition("\r\n\r\n")
    return XML in head and f'"{SOAP11}"' in body and SOAP12 not in text


def play(program, room, peer, what, steps, count, wanted, status_wanted=200, rules=(), unanswered=()):
    """What came of a client's steps, of which so many connections reach the node."""
    node, tap, running = Node(program, room), Tap(), []
    serving = node.serve(count)
    try:
        wait_for(NODE)
        if rules:
            running.append(subprocess.Popen([HERE / "proxy.py", str(PROXY), str(TAP), *rules],
                                            stdout=subprocess.DEVNULL, stderr=subprocess.DEVNULL))
            wait_for(PROXY)
        to = f"http://localhost:{PROXY if rules else TAP}/"
        said = subprocess.run([peer, "client", to, *steps], capture_output=True, timeout=120).stdout.decode()
        served = serving.communicate(timeout=60)[0].decode().split()
    except subprocess.TimeoutExpired:
        said, served = "", ["still", "served"]
    finally:
        for process in [serving, *running]:
            process.kill()
            process.wait()
        came = tap.end()
    failed = [it for it in said.splitlines() if " failed " in it and it.split()[0] not in unanswered]
    left = (re.findall(r"^unacknowledged (.*)$", said, re.M) or ["nothing"])[0]
    inbox = [bytes.fromhex(it.split()[3]).decode() for it in node.wsrm("inbox", "1") if it.startswith("item")]
    texts = [re.sub(r"<[^>]*>", "", it).strip() for it in inbox]
    statuses = [status(answer) for _, answer in came]
    versions = all(is_version_1(it) for both in came for it in both)
    seen = f"{' '.join(map(str, statuses))}; inbox {' '.join(texts) or 'empty'}; {left} not acknowledged; "
    seen += " ".join(served) + "".join(f"; {it}" for it in failed) + ("" if versions else "; not SOAP 1.1 alone")
    holds = (versions and texts == wanted and statuses[-1:] == [status_wanted] and len(statuses) == count
             and set(statuses[:-1]) <= {200} and served == ["served", str(count), "dropped", "0"])
    return node, said, came, seen, holds and (status_wanted != 200 or not failed and left.startswith("0 of"))


def created(program, room, peer):
    """A CreateSequence alone, and what the node has then."""
    node, said, came, seen, holds = play(program, room, peer, "", ["create"], 1, [])
    ident = (re.findall(r"^sequence (.*)$", said, re.M) or ["none"])[0]
    answer = came[-1][1] if came else ""
    is_told = ident.startswith("urn:uuid:") and f"Identifier>{ident}<" in answer and "CreateSequenceResponse" in answer
    tell("CreateSequence", f"{seen}; the client has {ident}", holds and is_told)
    counts = node.wsrm("compact")
    tell("how many entries the journal has then", " ".join(counts), counts[:1] != [] and
         counts[0].startswith("compacted 2 "))


def scenarios(program, room):
    peer = built(room, 1)
    created(program, room, peer)
    notes = ["note=a", "note=b", "note=c"]

    def plays(what, *words, **more):
        *_, seen, holds = play(program, room, peer, what, *words, **more)
        tell(what, seen, holds)
    plays("in order", ["create", *notes, "close", "terminate"], 6, ["a", "b", "c"])
    plays("with an offer", ["offer", *notes, "close", "terminate"], 6, ["a", "b", "c"])
    plays("2 is lost, and sent again", ["create", *notes, "resend", "close", "terminate"], 6, ["a", "b", "c"],
          rules=["drop=2"], unanswered=["note=b"])
    plays("2 comes twice", ["create", *notes, "close", "terminate"], 7, ["a", "b", "c"], rules=["double=2"])
    plays("request and response: an acknowledgement answers", ["create", "ask=a", "ask=b", "close", "terminate"], 5,
          ["a", "b"])
    plays("a sequence that is not there", ["create", "as=urn:none", "note=a"], 2, [], status_wanted=500)
    return PLAYED


def main():
    program = sys.argv[1:] or [str(HERE.parent / "crates/rm_cli/out/rm_cli")]
    room = Path(tempfile.mkdtemp(prefix="wsrm-gsoap11-"))
    try:
        print("| Who | What | Seen | As it should be |\n|---|---|---|---|")
        scenarios(program, room)
    finally:
        shutil.rmtree(room)
    print(f"\n{sum(PLAYED)} of {len(PLAYED)} as they should be")
    return 0 if all(PLAYED) else 1


if __name__ == "__main__":
    sys.exit(main())
