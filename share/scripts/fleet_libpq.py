"""What fleet_postgres asks PostgreSQL by: its own library, libpq, which Debian's postgresql-client brings.

A statement is a constant text, and each value a parameter beside it. It is imported, not run.
"""
import ctypes
import select
import struct
import time

from profhouse_script import Fault, shown

COMMAND_OK, TUPLES_OK, COPY_IN = 1, 2, 4
# What PQconnectPoll answers.
FAILED, READING, WRITING, CONNECTED = range(4)
SECONDS = 30
# What PostgreSQL says of a row that is there already, and of two that wait for each other.
UNIQUE, DEADLOCK = "23505", "40P01"
SQLSTATE = ord("C")
HEAD = b"PGCOPY\n\xff\r\n\0" + bytes(8)
TAIL = struct.pack(">h", -1)


NOTICED = ctypes.CFUNCTYPE(None, ctypes.c_void_p, ctypes.c_char_p)


class Refused(Fault):
    """A statement that PostgreSQL refuses; `state` is its code."""

    def __init__(self, why, state):
        super().__init__(why)
        self.state = state


def library():
    try:
        found = ctypes.CDLL("libpq.so.5")
    except OSError as error:
        raise Fault("there is no libpq.so.5: install postgresql-client") from error
    for name in ("PQconnectStart", "PQexecParams", "PQgetResult"):
        getattr(found, name).restype = ctypes.c_void_p
    for name in ("PQerrorMessage", "PQgetvalue", "PQresultErrorField"):
        getattr(found, name).restype = ctypes.c_char_p
    found.PQgetvalue.argtypes = [ctypes.c_void_p, ctypes.c_int, ctypes.c_int]
    return found


# The values of parameters: the number of the type, and the bytes of the binary form.

def array(kind, items):
    items = list(items)
    parts = [struct.pack(">iiIii", 1, 0, kind, len(items), 1)]
    for it in items:
        parts += [struct.pack(">i", len(it)), it]
    return b"".join(parts)


def blob(value):
    return 17, value


def blobs(values):
    return 1001, array(17, values)


def text(value):
    return 25, value.encode()


def texts(values):
    return 1009, array(25, (it.encode() for it in values))


def integer(value):
    return 23, struct.pack(">i", value)


def number(value):
    return 20, struct.pack(">q", value)


def integers(values):
    return 1007, array(23, (struct.pack(">i", it) for it in values))


def bytes_of(text):
    """The bytes of a value of the type bytea, as a result has it."""
    if text[:2] != b"\\x":
        raise Fault("PostgreSQL answers no bytes")
    return bytes.fromhex(text[2:].decode("ascii"))


class Connection:
    """A connection, as the words of libpq and its variables say."""

    def __init__(self, words):
        self.pq = library()
        self.link = ctypes.c_void_p(self.pq.PQconnectStart(words.encode("utf-8", "surrogateescape")))
        # (by default libpq prints what a server notices, as it comes)
        self.silent = NOTICED(lambda *_: None)
        self.pq.PQsetNoticeProcessor(self.link, self.silent, None)
        why = self.connected()
        if why:
            self.close()
            raise Fault(f"no connection to PostgreSQL: {why}")
        self.run("SET client_encoding = 'UTF8'")

    def connected(self):
        """Waits for the connection, and says why there is none."""
        until, state = time.monotonic() + SECONDS, WRITING
        while state in (READING, WRITING):
            socket = self.pq.PQsocket(self.link)
            left = until - time.monotonic()
            if socket < 0:
                break
            if left <= 0 or not any(select.select([socket] * (state == READING), [socket] * (state == WRITING), [], left)):
                return f"it took more than {SECONDS} s"
            state = self.pq.PQconnectPoll(self.link)
        return None if state == CONNECTED else self.message()

    def message(self):
        said = self.pq.PQerrorMessage(self.link).decode("utf-8", "backslashreplace").strip()
        return shown(" ".join(said.split("\n")))

    def close(self):
        self.pq.PQfinish(self.link)

    def __enter__(self):
        return self

    def __exit__(self, *_):
        self.close()

    def wanted(self, result, status):
        """Refuses a result of another status; it is freed then."""
        if self.pq.PQresultStatus(result) in (status, COMMAND_OK) and result:
            return
        state = (self.pq.PQresultErrorField(result, SQLSTATE) or b"").decode() if result else ""
        why = self.message()
        self.pq.PQclear(result)
        raise Refused(f"PostgreSQL: {why}", state)

    def started(self, text, values):
        count = len(values)
        kinds = (ctypes.c_uint * count)(*(kind for kind, _ in values))
        datas = (ctypes.c_char_p * count)(*(data for _, data in values))
        lengths = (ctypes.c_int * count)(*(len(data) for _, data in values))
        binary = (ctypes.c_int * count)(*([1] * count))
        return ctypes.c_void_p(self.pq.PQexecParams(self.link, text.encode(), count, kinds, datas, lengths, binary, 0))

    def run(self, text, *values):
        """The rows that a statement gives, each value as text in bytes, or None."""
        result = self.started(text, values)
        self.wanted(result, TUPLES_OK)
        get, null = self.pq.PQgetvalue, self.pq.PQgetisnull
        wide = range(self.pq.PQnfields(result))
        rows = [tuple(get(result, row, column) or (None if null(result, row, column) else b"") for column in wide)
                for row in range(self.pq.PQntuples(result))]
        self.pq.PQclear(result)
        return rows

    def copy(self, text, pieces):
        """Sends rows in the binary form of COPY."""
        result = self.started(text, ())
        self.wanted(result, COPY_IN)
        self.pq.PQclear(result)
        try:
            self.put(HEAD)
            for piece in pieces:
                self.put(piece)
            self.put(TAIL)
        except BaseException:
            self.pq.PQputCopyEnd(self.link, b"fleet_load has no more")
            self.finished(None)
            raise
        if self.pq.PQputCopyEnd(self.link, None) != 1:
            raise Fault(f"PostgreSQL: {self.message()}")
        self.finished(COMMAND_OK)

    def put(self, piece):
        if self.pq.PQputCopyData(self.link, piece, len(piece)) != 1:
            raise Fault(f"PostgreSQL: {self.message()}")

    def finished(self, status):
        """Reads the results of a COPY up to the last."""
        while (found := self.pq.PQgetResult(self.link)):
            result = ctypes.c_void_p(found)
            if status is not None:
                self.wanted(result, status)
            self.pq.PQclear(result)
