"""A listener that speaks the protocol of PostgreSQL as far as fleet_postgres needs it, and notes what comes: each statement with
its parameters, and what COPY sends. It answers by a list of texts and rows. For the tests of the gate, which have no server."""
import contextlib
import socket
import struct
import threading


class Peer:
    """One connection."""

    def __init__(self, link, base):
        self.link, self.base, self.file = link, base, link.makefile("rb")
        # (while rows are sent, the end of a message before them is passed over)
        self.statement, self.copying = "", False

    def exactly(self, count):
        data = self.file.read(count)
        if len(data) != count:
            raise EOFError
        return data

    def say(self, kind, data=b""):
        self.link.sendall(kind + struct.pack(">i", len(data) + 4) + data)

    def ready(self):
        self.say(b"Z", b"I")

    def begin(self):
        """The start of a connection; TLS is declined."""
        while True:
            size, code = struct.unpack(">ii", self.exactly(8))
            rest = self.exactly(size - 8)
            if code == 196608:
                break
            self.link.sendall(b"N")
        self.base.started.append(rest)
        self.say(b"R", struct.pack(">i", 0))
        self.say(b"S", b"server_version\x0015.0\0")
        self.ready()

    def serve(self):
        self.begin()
        while True:
            kind, size = self.exactly(1), struct.unpack(">i", self.exactly(4))[0]
            data = self.exactly(size - 4)
            if kind == b"X":
                return
            getattr(self, f"on_{kind.decode()}", lambda _: None)(data)

    def on_P(self, data):
        self.statement = data[1:data.index(b"\0", 1)].decode()
        self.say(b"1")

    def on_B(self, data):
        """The parameters: their values alone, all of them binary."""
        at = 2
        count, = struct.unpack_from(">h", data, at)
        at += 2 + 2 * count
        count, = struct.unpack_from(">h", data, at)
        at, values = at + 2, []
        for _ in range(count):
            size, = struct.unpack_from(">i", data, at)
            values.append(data[at + 4:at + 4 + size])
            at += 4 + size
        self.base.asked.append((self.statement, values))
        self.say(b"2")

    def on_E(self, _):
        if self.statement.startswith("COPY"):
            self.base.copied[self.statement], self.copying = b"", True
            self.say(b"G", b"\x01\0\0")
            return
        answer = self.base.answer(self.statement)
        if isinstance(answer, bytes):
            self.link.sendall(answer)
            raise EOFError
        if isinstance(answer, str):
            self.say(b"E", b"SERROR\0C%s\0M%s\0\0" % (answer[:5].encode(), answer[5:].encode()))
            return
        for row in answer:
            self.say(b"D", struct.pack(">h", len(row)) + b"".join(struct.pack(">i", -1) if it is None else struct.pack(">i", len(it)) + it for it in row))
        self.say(b"C", b"SELECT\0")

    def on_D(self, _):
        rows = self.base.answer(self.statement)
        width = len(rows[0]) if isinstance(rows, list) and rows else 0
        if width and not self.statement.startswith("COPY"):
            self.say(b"T", struct.pack(">h", width) + b"".join(b"c\0" + struct.pack(">ihihih", 0, 0, 25, -1, -1, 0) for _ in range(width)))
        else:
            self.say(b"n")

    def on_S(self, _):
        if not self.copying:
            self.ready()

    def on_d(self, data):
        self.base.copied[self.statement] += data

    def on_c(self, _):
        self.copying = False
        self.say(b"C", b"COPY 1\0")

    def on_f(self, _):
        self.copying = False
        self.base.failed.append(self.statement)
        self.say(b"E", b"SERROR\0C57014\0Mcopy failed\0\0")


class Base:
    """What was said to all connections, and the answers: a front of a statement, and rows, an error (its code and words), or bytes."""

    def __init__(self, answers):
        self.answers, self.asked, self.copied, self.failed, self.started = answers, [], {}, [], []

    def answer(self, statement):
        return next((rows for front, rows in self.answers if statement.startswith(front)), [])


def talk(link, base):
    with contextlib.suppress(OSError, EOFError, struct.error), link:
        Peer(link, base).serve()


@contextlib.contextmanager
def listening(answers):
    """A base, and its address for --fleet."""
    base = Base(answers)
    with socket.create_server(("127.0.0.1", 0)) as server:
        def accept():
            with contextlib.suppress(OSError):
                while True:
                    threading.Thread(target=talk, args=(server.accept()[0], base), daemon=True).start()
        threading.Thread(target=accept, daemon=True).start()
        try:
            yield base, f"postgresql://loader@127.0.0.1:{server.getsockname()[1]}/fleet?sslmode=disable&gssencmode=disable"
        finally:
            server.shutdown(socket.SHUT_RDWR)
