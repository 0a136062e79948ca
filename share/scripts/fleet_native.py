"""The forms in which fleet_clickhouse sends and reads rows: blocks of Native, bodies of external tables, and RowBinary.

It is imported, not run.
"""
import struct

from profhouse_script import Fault

FIXED = {"UInt8": "B", "UInt32": "I", "UInt64": "Q", "Int64": "q"}
STRUCTS = {"Q": "Q", "q": "q", "I": "I", "B": "B", "D": "Qq"}


def varint(number):
    out = bytearray()
    while number > 127:
        out.append(number & 127 | 128)
        number >>= 7
    out.append(number)
    return bytes(out)


def string(data):
    return varint(len(data)) + data


def little(kind, values):
    """Numbers of a fixed width, the low byte first; one that does not fit is refused."""
    return struct.pack(f"<{len(values)}{kind}", *values)


def block(columns):
    """A block of Native: of each column its name, its type and its values."""
    out = [varint(len(columns)), varint(len(columns[0][2]))]
    for name, kind, values in columns:
        out += [string(name.encode()), string(kind.encode())]
        if kind == "String":
            out += map(string, values)
        elif kind == "FixedString(32)":
            if any(len(it) != 32 for it in values):
                raise ValueError("a digest")
            out += values
        else:
            out.append(little(FIXED[kind], values))
    return b"".join(out)


def multipart(tables, boundary):
    """A body with external tables, each of one column: the bytes of its rows in RowBinary."""
    parts = []
    for name, rows in tables.items():
        parts += [b"--", boundary, b'\r\nContent-Disposition: form-data; name="', name.encode(), b'"; filename="x"\r\n'
                  b"Content-Type: application/octet-stream\r\n\r\n", rows, b"\r\n"]
    return b"".join([*parts, b"--", boundary, b"--\r\n"])


def boundary_for(tables, chosen):
    """A boundary that stands in no row."""
    while True:
        boundary = chosen()
        if not any(boundary in rows for rows in tables.values()):
            return boundary


def whole(pair):
    """A number of 128 bits of its low and its high half."""
    return pair[0] | pair[1] << 64


def rows_of(data, form):
    """Rows of RowBinary: Q, q, I and B are numbers, D one of 128 bits, F a digest of 32 bytes, S bytes of any length."""
    if set(form) <= set(STRUCTS):
        return fixed_rows(data, form)
    rows, at = [], 0
    try:
        while at < len(data):
            row = []
            for kind in form:
                value, at = value_at(data, at, kind)
                row.append(value)
            rows.append(tuple(row))
    except (IndexError, struct.error) as error:
        raise Fault("ClickHouse answers rows out of form") from error
    return rows


def fixed_rows(data, form):
    """Rows of numbers alone, which are all equally long."""
    unpack = struct.Struct("<" + "".join(STRUCTS[it] for it in form))
    if len(data) % unpack.size:
        raise Fault("ClickHouse answers rows out of form")
    if "D" not in form:
        return list(unpack.iter_unpack(data))
    places, at = [], 0
    for kind in form:
        places.append((at, kind))
        at += len(STRUCTS[kind])
    return [tuple(whole(row[at:at + 2]) if kind == "D" else row[at] for at, kind in places) for row in unpack.iter_unpack(data)]


def value_at(data, at, kind):
    """A value of a row, and where the next one begins."""
    if kind in STRUCTS:
        found = struct.unpack_from("<" + STRUCTS[kind], data, at)
        return (whole(found) if kind == "D" else found[0]), at + struct.calcsize("<" + STRUCTS[kind])
    length, shift = 32, 0
    if kind == "S":
        length = 0
        while True:
            length |= (data[at] & 127) << shift
            shift, at = shift + 7, at + 1
            if data[at - 1] < 128:
                break
    if at + length > len(data):
        raise IndexError
    return data[at:at + length], at + length
