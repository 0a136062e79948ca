#!/usr/bin/env python3
"""Stands in for `profhouse serve` in tests/web_server: it takes the same words, and tells what it was asked.

The text of the file behind --db says how it begins: `failed`, `odd`, `silent`, or `slow` and a number of seconds. Each
start and each request is a line of the file `log` beside it, and of a slow one that it opens. What a request gets depends on its path:

    /gone        nothing: the server ends at once      /gone_once   the same, but for the first time alone
    /fails       500                                   /slow        200 after a second
    /early       422, and the body is not read         /cut         a response that is shorter than it says
    others       200, with the method, the target and the length of the body
"""
import os
import socket
import sys
import time


def head_and_body(peer):
    data = b""
    while b"\r\n\r\n" not in data:
        piece = peer.recv(65536)
        if not piece:
            return None, b""
        data += piece
    head, _, body = data.partition(b"\r\n\r\n")
    return head.decode("latin-1").split("\r\n"), body


def length_of(head):
    found = [line.partition(":")[2] for line in head[1:] if line.lower().startswith("content-length:")]
    return int(found[0]) if found else 0


def whole(peer, body, length):
    while len(body) < length:
        piece = peer.recv(65536)
        if not piece:
            break
        body += piece
    return body


class Standin:
    def __init__(self, store, count):
        self.folder, self.count, self.store = os.path.dirname(store), count, store

    def note(self, text):
        with open(os.path.join(self.folder, "log"), "a", encoding="utf-8") as file:
            file.write(f"{os.getpid()} {text}\n")

    def first_time(self):
        path = os.path.join(self.folder, "was_gone")
        there = os.path.exists(path)
        with open(path, "w", encoding="utf-8"):
            return not there

    def answer(self, peer):
        head, body = head_and_body(peer)
        if head is None:
            return
        method, target, _ = head[0].split(" ")
        length = length_of(head)
        path = target.partition("?")[0]
        if path == "/early":
            self.note(f"{method} {target} early")
            self.respond(peer, "422 Unprocessable Entity", b"refused: line 1: F2 unknown line\n")
            peer.shutdown(socket.SHUT_WR)
            time.sleep(0.2)
            return
        body = whole(peer, body, length)
        self.note(f"{method} {target} {len(body)}")
        if path == "/gone" or path == "/gone_once" and self.first_time():
            os._exit(1)
        if path == "/cut":
            peer.sendall(b"HTTP/1.1 200 OK\r\nContent-Length: 9\r\n\r\nhalf")
            return
        time.sleep(path == "/slow")
        status = "500 Internal Server Error" if path == "/fails" else "200 OK"
        self.respond(peer, status, f"{method} {target} {len(body)}\n".encode())

    def respond(self, peer, status, body):
        peer.sendall(f"HTTP/1.1 {status}\r\nContent-Type: text/plain\r\nContent-Length: {len(body)}\r\n"
                     "Connection: close\r\n\r\n".encode() + body)

    def serve(self):
        self.note("starts")
        with socket.create_server(("127.0.0.1", 0), backlog=64) as server:
            print(f"listening 127.0.0.1:{server.getsockname()[1]}", flush=True)
            for _ in range(self.count):
                peer, _ = server.accept()
                with peer:
                    self.answer(peer)
        print(f"served {self.count}", flush=True)


def main():
    words = sys.argv[1:]
    given = {words[at]: words[at + 1] for at in range(1, len(words) - 1) if words[at].startswith("--")}
    with open(given["--db"], encoding="utf-8") as file:
        kind, _, number = file.read().strip().partition(" ")
    if kind in ("failed", "odd", "silent"):
        print({"failed": "store: failed", "odd": "store: odd", "silent": ""}[kind])
        return 1
    standin = Standin(given["--db"], int(given["--requests"]))
    if kind == "slow":
        standin.note("opens")
        time.sleep(float(number))
    standin.serve()
    return 0


sys.exit(main())
