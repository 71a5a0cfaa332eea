#!/usr/bin/env python3
"""Plays a peer that speaks SOAP 1.1 alone against `wsrm serve11`, over connections of the system.

    interop/soap11.py [PROGRAM [WORD ..]]

PROGRAM is the program wsrm, by default the one that `./wsrm --prove` has built. It prints a table in Markdown as
`interop/run` does, which plays the same scenarios.
"""
import http.client
import re
import shutil
import socket
import subprocess
import sys
import tempfile
import threading
import time
from pathlib import Path

HERE = Path(__file__).resolve().parent
NODE, OTHER = 18490, 18492
RM = "http://docs.oasis-open.org/ws-rx/wsrm/200702"
ANONYMOUS = "http://www.w3.org/2005/08/addressing/anonymous"
SOAP11, SOAP12 = "http://schemas.xmlsoap.org/soap/envelope/", "http://www.w3.org/2003/05/soap-envelope"
XML = "text/xml; charset=utf-8"
PLAYED = []


def tell(what, seen, holds):
    PLAYED.append(holds)
    print("| SOAP 1.1 |", what, "|", seen, "|", "yes" if holds else "no", "|", flush=True)


def envelope(action, header, body, soap=SOAP11):
    return (f'<s:Envelope xmlns:s="{soap}" xmlns:a="http://www.w3.org/2005/08/addressing" xmlns:r="{RM}"><s:Header>'
            f"<a:To>http://localhost:{NODE}/</a:To><a:Action>{action}</a:Action><a:MessageID>urn:x:1</a:MessageID>"
            f"{header}</s:Header><s:Body>{body}</s:Body></s:Envelope>").encode()


def create(acks_to=ANONYMOUS, soap=SOAP11):
    body = f"<r:CreateSequence><r:AcksTo><a:Address>{acks_to}</a:Address></r:AcksTo></r:CreateSequence>"
    return envelope(f"{RM}/CreateSequence", "", body, soap)


def message(number, ident):
    return envelope("urn:x", f'<r:Sequence s:mustUnderstand="1"><r:Identifier>{ident}</r:Identifier>'
                    f"<r:MessageNumber>{number}</r:MessageNumber></r:Sequence>", f"<p>{number}</p>")


def asked(kind, ident):
    return envelope(f"{RM}/{kind}", "", f"<r:{kind}><r:Identifier>{ident}</r:Identifier></r:{kind}>")


def ask(body, kind=XML):
    """The status, the media type and the body that a request is answered with."""
    for _ in range(1000):
        try:
            conn = http.client.HTTPConnection("localhost", NODE, timeout=60)
            conn.request("POST", "/", body, {"Content-Type": kind, "SOAPAction": '""'})
            came = conn.getresponse()
            return came.status, came.getheader("Content-Type") or "", came.read().decode()
        except ConnectionRefusedError:
            time.sleep(0.1)
    sys.exit(f"soap11.py: nobody listens at {NODE}")


class Node:
    """A node in a folder of its own, which serves so many connections."""

    def __init__(self, program, room):
        self.program, self.room = program, Path(tempfile.mkdtemp(dir=room))
        self.wsrm("make", "1", f"http://localhost:{NODE}/")

    def wsrm(self, *words):
        return subprocess.run([*self.program, *words], cwd=self.room, capture_output=True).stdout.decode().splitlines()

    def serve(self, count):
        return subprocess.Popen([*self.program, "serve11", str(NODE), str(count), "dfg"], cwd=self.room,
                                stdout=subprocess.PIPE, stderr=subprocess.DEVNULL)


def play(what, body, status, wanted, kind=XML):
    got, media, text = ask(body, kind)
    codes = re.findall(r"<faultcode[^>]*>([^<]*)<", text) + re.findall(r"<r:FaultCode>([^<]*)<", text)
    ranges = re.findall(r'Lower="(\d+)" Upper="(\d+)"', text)
    seen = f"{got}" + "".join(f" {it}" for it in codes) + "".join(f" acknowledged {a}-{b}" for a, b in ranges)
    is_ours = not text or (media == XML and f'"{SOAP11}"' in text and SOAP12 not in text)
    tell(what, seen, got == status and is_ours and all(it in text for it in wanted))
    return text


def granted(text):
    return (re.findall(r"Identifier>(urn:uuid:[^<]*)<", text) or ["urn:none"])[0]


def a_sequence(program, room):
    """What comes of each kind of message; how many of them the journal has."""
    node = Node(program, room)
    serving = node.serve(1)
    play("CreateSequence", create(), 200, ["CreateSequenceResponse"])
    served = serving.communicate()[0].decode().split()
    counts = node.wsrm("compact")
    tell("what the node has then", f"{' '.join(served)}; {' '.join(counts)}",
         served == ["served", "1", "dropped", "0"] and counts[0].startswith("compacted 2 "))
    serving = node.serve(10)
    ident = granted(play("the same CreateSequence again", create(), 200, ["CreateSequenceResponse"]))
    play("a message", message(1, ident), 200, ['Lower="1" Upper="1"'])
    play("a message again", message(1, ident), 200, ['Lower="1" Upper="1"'])
    play("a sequence that is not there", message(1, "urn:none"), 500, ["s:Client", "r:UnknownSequence", "urn:none"])
    play("an envelope of SOAP 1.2", create(soap=SOAP12), 500, ["s:VersionMismatch"])
    play("the media type of SOAP 1.2", create(), 415, [], "application/soap+xml")
    play("a body that is no XML", b"<a", 500, ["s:Client"])
    play("2097153 bytes", b" " * 2097153, 500, ["s:Client"])
    play("CloseSequence", asked("CloseSequence", ident), 200, ["CloseSequenceResponse", "Final"])
    play("TerminateSequence", asked("TerminateSequence", ident), 200, ["TerminateSequenceResponse"])
    served = serving.communicate()[0].decode().split()
    inbox = node.wsrm("inbox", "1")
    payloads = [bytes.fromhex(it.split()[3]).decode() for it in inbox if it.startswith("item")]
    tell("what is in the inbox then", f"{' '.join(payloads)}; {' '.join(served)}", payloads == ["<p>1</p>"])


def acks_elsewhere(program, room):
    """What the node posts to a peer of SOAP 1.1."""
    node, came = Node(program, room), []
    listener = socket.create_server(("", OTHER), family=socket.AF_INET6, dualstack_ipv6=True)

    def take():
        conn, _ = listener.accept()
        with conn:
            conn.settimeout(60)
            text = b""
            while b"</s:Envelope>" not in text and (more := conn.recv(65536)):
                text += more
            came.append(text.decode())
            conn.sendall(b"HTTP/1.1 202 Accepted\r\nContent-Length: 0\r\nConnection: close\r\n\r\n")
    taking = threading.Thread(target=take, daemon=True)
    taking.start()
    serving = node.serve(2)
    ident = granted(ask(create(f"http://localhost:{OTHER}/"))[2])
    status = ask(message(1, ident))[0]
    taking.join(60)
    serving.communicate()
    listener.close()
    head, _, body = (came or [""])[0].partition("\r\n\r\n")
    lines = head.split("\r\n")
    holds = (status == 202 and f"Content-Type: {XML}" in lines and 'SOAPAction: ""' in lines and SOAP11 in body
             and 'Lower="1"' in body)
    actions = [it for it in lines if it.startswith("SOAPAction")]
    tell("AcksTo elsewhere", f"{status}; there came {' '.join(actions) or 'nothing'}", holds)


def scenarios(program, room):
    a_sequence(program, room)
    acks_elsewhere(program, room)
    return PLAYED


def main():
    program = sys.argv[1:] or [str(HERE.parent / "crates/rm_cli/out/rm_cli")]
    room = Path(tempfile.mkdtemp(prefix="wsrm-soap11-"))
    try:
        print("| Who | What | Seen | As it should be |\n|---|---|---|---|")
        scenarios(program, room)
    finally:
        shutil.rmtree(room)
    print(f"\n{sum(PLAYED)} of {len(PLAYED)} as they should be")
    return 0 if all(PLAYED) else 1


if __name__ == "__main__":
    sys.exit(main())
