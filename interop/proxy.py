#!/usr/bin/env python3
"""A network that misbehaves, between two peers over HTTP.

    interop/proxy.py PORT TO_PORT [RULE ..]

Each request that comes to PORT is given to TO_PORT, and its answer given back. A rule befalls the message of a sequence
with that number, the first time that it comes: drop=N, it is lost; lose=N, its answer is; double=N, it is given twice;
hold=N, it is answered with 202 and given behind the next message, and the answer to it is lost.
"""
import re
import socket
import sys

NUMBER = re.compile(rb"MessageNumber[^<>]*>\s*(\d+)\s*<")
LENGTH = re.compile(rb"^content-length:\s*(\d+)", re.I | re.M)
CHUNKED = re.compile(rb"^transfer-encoding:\s*chunked", re.I | re.M)
ACCEPTED = b"HTTP/1.1 202 Accepted\r\nContent-Length: 0\r\nConnection: close\r\n\r\n"


def is_whole(text):
    head, end, body = text.partition(b"\r\n\r\n")
    length = LENGTH.search(head)
    if not end:
        return False
    if CHUNKED.search(head):
        return body.endswith(b"0\r\n\r\n")
    return len(body) >= (int(length[1]) if length else 0)


def request_of(conn):
    text = b""
    while not is_whole(text):
        piece = conn.recv(65536)
        if not piece:
            break
        text += piece
    return text


def given(text, port):
    """The answer to a request."""
    with socket.create_connection(("localhost", port), timeout=20) as conn:
        conn.sendall(text)
        answer = b""
        while piece := conn.recv(65536):
            answer += piece
            head, end, body = answer.partition(b"\r\n\r\n")
            length = LENGTH.search(head)
            if end and length and len(body) >= int(length[1]):
                break
    return answer


def main(port, to, rules):
    held = []
    listener = socket.create_server(("", port), family=socket.AF_INET6, dualstack_ipv6=True)
    print("ready", flush=True)
    while True:
        conn, _ = listener.accept()
        with conn:
            conn.settimeout(20)
            text = request_of(conn)
            found = NUMBER.search(text)
            number = int(found[1]) if found else 0
            rule = rules.pop(number, None)
            if rule == "drop" or not text:
                continue
            if rule == "hold":
                held.append(text)
                conn.sendall(ACCEPTED)
                continue
            try:
                if rule == "double":
                    given(text, to)
                answer = given(text, to)
            except OSError:
                continue
            if rule != "lose":
                conn.sendall(answer)
        if number:
            for late in held:
                given(late, to)
            held.clear()


if __name__ == "__main__":
    words = [it.split("=") for it in sys.argv[3:]]
    main(int(sys.argv[1]), int(sys.argv[2]), {int(number): kind for kind, number in words})
