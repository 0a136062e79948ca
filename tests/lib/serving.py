"""What tests of a server's connections use: servers, clients, and the parts of a test, tried side by side."""
import hashlib
import os
import re
import socket
import subprocess
import sys
import threading
from concurrent.futures import ThreadPoolExecutor

import tried as trying

PROGRAM = os.path.join(trying.TOP, "crates", "profhouse", "out", "profhouse")
# How long a server may run, and how long a client waits for a byte.
SECONDS = 120


def request(line, body=None):
    """The bytes of a request."""
    length = "" if body is None else f"Content-Length: {len(body)}\r\n"
    return f"{line} HTTP/1.1\r\n{length}\r\n".encode() + (body or b"")


def response(status, body):
    """The bytes of a response."""
    head = f"HTTP/1.1 {status}\r\nContent-Type: text/plain\r\nContent-Length: {len(body)}\r\nConnection: close\r\n\r\n"
    return head.encode() + body


def run_line(number, kind, data, label):
    """The line that `runs` has for a file of these bytes."""
    return f"{number} {kind} {hashlib.sha256(data).hexdigest()} {label}\n".encode()


def words_of(tried, requests, port, store="s.db"):
    """The command of a server."""
    return [tried.program, "serve", "--db", tried.path(store), "--port", str(port), "--requests", str(requests)]


class Server:
    """A running server of a store in the folder in which a part is tried."""

    def __init__(self, tried, requests=1000, port=0, environment=None, **more):
        self.process = subprocess.Popen(words_of(tried, requests, port, **more), stdin=subprocess.DEVNULL, env=environment,
                                        stdout=subprocess.PIPE, stderr=subprocess.PIPE, bufsize=0)
        self.late = threading.Timer(SECONDS, self.process.kill)
        self.late.start()

    def __enter__(self):
        self.first = self.process.stdout.readline()
        found = re.fullmatch(rb"listening 127\.0\.0\.1:(\d+)\n", self.first)
        if not found:
            raise AssertionError(f"it does not listen: {self.first}")
        self.port = int(found[1])
        return self

    def __exit__(self, *_):
        self.late.cancel()
        self.process.kill()
        self.process.wait()
        self.process.stdout.close()
        self.process.stderr.close()

    def end(self):
        """What it prints behind its first line, and on the standard error, and its status, once it has ended."""
        out, errors = self.process.communicate()
        return out, errors, self.process.returncode

    def client(self, room=None):
        """A connection. With ROOM about so many bytes of a response come before they are read."""
        ours = socket.socket()
        ours.settimeout(SECONDS)
        if room:
            # (before it is connected: else the server is told of more)
            ours.setsockopt(socket.SOL_SOCKET, socket.SO_RCVBUF, room)
        ours.connect(("127.0.0.1", self.port))
        ours.setsockopt(socket.IPPROTO_TCP, socket.TCP_NODELAY, 1)
        return ours

    def ask(self, asked):
        """What comes back for these bytes, and how that ends."""
        with self.client() as ours:
            ours.sendall(asked)
            return received(ours)


def received(ours):
    """All bytes that come, and whether the connection is `ended` behind them or `broken`."""
    data = bytearray()
    try:
        while piece := ours.recv(65536):
            data += piece
    except ConnectionResetError:
        return bytes(data), "broken"
    return bytes(data), "ended"


def differences_of(program, part):
    """Tries one part in a new folder: how many of its comparisons passed, and what differed."""
    with trying.new_folder(program) as tried:
        try:
            part(tried)
        except Exception as error:  # (the other parts are tried all the same)
            tried.wrong.append(f"it ends with {type(error).__name__}: {error}")
        return tried.passed, [f"{part.__name__}: {it}" for it in tried.wrong]


def try_parts(parts):
    """Tries the parts that the words of the command line name, or all, and ends with the status."""
    known = {part.__name__: part for part in parts}
    words = sys.argv[1:]
    program = words.pop(0) if words and words[0] not in known else PROGRAM
    if not os.access(program, os.X_OK) or set(words) - set(known):
        sys.exit(f"no program {program}, or no part of these: {', '.join(known)}")
    passed, wrong = 0, []
    with ThreadPoolExecutor(len(parts)) as pool:
        for count, differences in pool.map(lambda name: differences_of(program, known[name]), words or known):
            passed += count
            wrong += differences
    print("\n".join([*wrong, f"{passed} passed, {len(wrong)} failed"]))
    sys.exit(1 if wrong or not passed else 0)
