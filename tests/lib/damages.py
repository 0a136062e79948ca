"""Damage to the two files of a store: each kind is a function that takes a source of chance and the bytes of a file,
and gives the bytes of the damaged one. All of it follows from the seed."""
import os
import sqlite3
import struct
import tempfile

PAGE = 4096
STORE, LOG = "s.db", "s.db-wal"
LOG_HEAD, FRAME_HEAD = 32, 24

# The fields of a database's header: where each begins, and its length.
FIELDS = [(0, 16), (16, 2), (18, 1), (19, 1), (20, 1), (21, 1), (22, 1), (23, 1), (24, 4), (28, 4), (32, 4), (36, 4),
          (40, 4), (44, 4), (48, 4), (52, 4), (56, 4), (60, 4), (64, 4), (68, 4), (72, 20), (92, 4), (96, 4)]
ODD = [0, 1, 2, 3, 4, 5, 16, 127, 128, 255, 256, 4095, 4096, 4097, 32768, 65535, 1 << 31, (1 << 32) - 1]


def put(data, at, part):
    return data[:at] + part + data[at + len(part):]


def page_of(data):
    """The length of a page, as the header says; where it says none, that of the program's own stores."""
    size = int.from_bytes(data[16:18], "big")
    return size if size in (512, 1024, 2048, 4096, 8192, 16384, 32768) and size <= len(data) else PAGE


def pages_of(data):
    return max(1, len(data) // page_of(data))


def page_at(chance, data, first=0):
    """Where a page begins."""
    return chance.randrange(min(first, pages_of(data) - 1), pages_of(data)) * page_of(data)


def place(chance, data):
    """Where a byte stands: mostly one that is not 0, since small tables leave most of their pages empty."""
    places = [chance.randrange(len(data)) for _ in range(chance.choice((1, 50)))]
    return next((at for at in places if data[at]), places[0])


def some_bytes(chance, data):
    for _ in range(chance.choice((1, 1, 2, 5, 20))):
        data = put(data, place(chance, data), chance.randbytes(1))
    return data


def one_bit(chance, data):
    at = place(chance, data)
    return put(data, at, bytes([data[at] ^ 1 << chance.randrange(8)]))


def header(chance, data):
    at, size = chance.choice(FIELDS)
    value = chance.choice(ODD + [pages_of(data) + it for it in (-1, 0, 1)])
    part = chance.randbytes(size) if chance.random() < 0.3 else value.to_bytes(20, "big")[-size:]
    return put(data, at, part)


def page_size(chance, data):
    return put(data, 16, chance.choice([1, 512, 1024, 2048, 8192, 16384, 32768, 0, 3, 4095]).to_bytes(2, "big"))


def swapped(chance, data):
    first, second, size = page_at(chance, data), page_at(chance, data), page_of(data)
    one, other = data[first:first + size], data[second:second + size]
    return put(put(data, first, other), second, one)


def copied(chance, data):
    first, second = page_at(chance, data), page_at(chance, data, 1)
    return put(data, second, data[first:first + page_of(data)])


def cut(chance, data):
    if chance.random() < 0.3:
        return data[:page_at(chance, data)]
    return data[:chance.randrange(len(data))]


def zeroed(chance, data):
    return put(data, page_at(chance, data), bytes(page_of(data)))


def noise(chance, data):
    return put(data, page_at(chance, data, chance.choice((0, 1))), chance.randbytes(page_of(data)))


def longer(chance, data):
    more = chance.choice((1, 100, PAGE, 3 * PAGE))
    return data + chance.choice((bytes(more), chance.randbytes(more)))


def tree_head(data, at):
    """Where the head of a page's tree begins, and its length; none where it is no page of a tree."""
    start = at + (100 if at == 0 else 0)
    return (start, 12) if data[start] in (2, 5) else (start, 8) if data[start] in (10, 13) else (start, 0)


def cells_of(data, at):
    """Where the cells of a page begin, by the places in its head."""
    start, size = tree_head(data, at)
    count = struct.unpack_from(">H", data, start + 3)[0] if size else 0
    places = [at + struct.unpack_from(">H", data, start + size + 2 * it)[0] for it in range(min(count, 1000))]
    return [it for it in places if it + 4 <= len(data)]


def linked(chance, data):
    """A page above others leads to another page: one of a higher one, itself, or none."""
    size = page_of(data)
    above = [at for at in range(0, pages_of(data) * size, size) if tree_head(data, at)[1] == 12]
    if not above:
        return page_head(chance, data)
    at = chance.choice(above)
    start = tree_head(data, at)[0]
    link = chance.choice([start + 8, *cells_of(data, at)])
    target = chance.choice([at // size + 1, chance.choice(above) // size + 1, chance.randrange(pages_of(data) + 3)])
    return put(data, link, target.to_bytes(4, "big"))


def page_head(chance, data):
    """A byte of a page's head, or of the places of its cells."""
    at = page_at(chance, data)
    start, size = tree_head(data, at)
    byte = start + chance.randrange(size + 2 * len(cells_of(data, at)) or 8)
    return put(data, byte, chance.choice((chance.randbytes(1), b"\0", b"\xff", bytes([data[byte] ^ 1]))))


def cell_front(chance, data):
    """A byte of the front of a cell: its length, its number, or the types of its columns."""
    cells = cells_of(data, page_at(chance, data))
    if not cells:
        return page_head(chance, data)
    byte = min(chance.choice(cells) + chance.randrange(12), len(data) - 1)
    return put(data, byte, chance.choice((chance.randbytes(1), b"\0", b"\x7f", b"\xff", bytes([data[byte] ^ 1]))))


def spilled(chance, data):
    """Four bytes of a page that hold the number of another, as the last bytes of a long cell and the first of the
    page that it leads to, become the number of some page."""
    for _ in range(30):
        at = page_at(chance, data)
        places = [it for it in range(at, min(at + page_of(data), len(data)) - 3)
                  if 0 < int.from_bytes(data[it:it + 4], "big") <= pages_of(data)]
        if places:
            return put(data, chance.choice(places), chance.randrange(pages_of(data) + 2).to_bytes(4, "big"))
    return data


def other_rows(chance, data):
    """The file is sound, and says something else: SQLite's own library changes or removes a row."""
    with tempfile.TemporaryDirectory(dir="/dev/shm" if os.path.isdir("/dev/shm") else None) as folder:
        path = os.path.join(folder, STORE)
        with open(path, "wb") as file:
            file.write(data)
        base = sqlite3.connect(path, isolation_level=None)
        for _ in range(chance.choice((1, 1, 3))):
            change_row(chance, base)
        base.execute("PRAGMA wal_checkpoint(TRUNCATE)")
        base.close()
        with open(path, "rb") as file:
            return file.read()


# Columns that may have any number or text, so that a changed row is still in form.
FREE = [("thread_cell", "cost"), ("thread_cell", "line"), ("thread_cell", "thread"), ("arc", "n"), ("stack", "n"),
        ("coef", "n"), ("run_event", "self_cost"), ("run", "label"), ("name", "bytes"), ("stack", "frames"),
        ("derived", "name"), ("run_event", "name"), ("run_event", "stated")]
VALUES = [0, 1, 2, 3, 5, 40, -1, 1 << 31, 1 << 40, (1 << 63) - 1, b"x", b"", "x", "9", None]


def change_row(chance, base):
    """Changes a row, so that it stays in form or not, or removes it."""
    tables = [row[0] for row in base.execute("SELECT name FROM sqlite_master WHERE type = 'table' ORDER BY name")]
    table = chance.choice(tables)
    column, values = chance.choice([row[1] for row in base.execute(f"PRAGMA table_info({table})")]), VALUES
    if is_free := chance.random() < 0.6:
        table, column = chance.choice(FREE)
        kind = next(row[2] for row in base.execute(f"PRAGMA table_info({table})") if row[1] == column)
        values = {"INTEGER": [1, 2, 77, 1 << 33], "TEXT": ["7", "12"], "BLOB": [b"other", b"a;b", b"main"]}[kind]
    rows = [row[0] for row in base.execute(f"SELECT rowid FROM {table}")]
    if not rows:
        return
    row, value = chance.choice(rows), chance.choice(values)
    try:
        if not is_free and chance.random() < 0.4:
            base.execute(f"DELETE FROM {table} WHERE rowid = ?", (row,))
        else:
            base.execute(f"UPDATE {table} SET {column} = ? WHERE rowid = ?", (value, row))
    except sqlite3.Error:
        pass    # (a value of another type, or a key that is there)


def frames_of(data):
    return max(1, (len(data) - LOG_HEAD) // (FRAME_HEAD + PAGE))


def frame_at(chance, data):
    return LOG_HEAD + chance.randrange(frames_of(data)) * (FRAME_HEAD + PAGE)


def log_cut(chance, data):
    return data[:frame_at(chance, data)] if chance.random() < 0.3 else data[:chance.randrange(len(data))]


def log_zeroed(chance, data):
    at = frame_at(chance, data)
    end = chance.choice((at + FRAME_HEAD, at + FRAME_HEAD + PAGE, len(data)))
    return put(data, at, bytes(min(end, len(data)) - at))


def log_frames(chance, data):
    size = FRAME_HEAD + PAGE
    first, second = frame_at(chance, data), frame_at(chance, data)
    one, other = data[first:first + size], data[second:second + size]
    return put(put(data, first, other), second, one)


def log_head(chance, data):
    at = chance.choice((0, frame_at(chance, data))) + chance.randrange(24)
    return put(data, at, chance.choice((chance.randbytes(1), b"\0", b"\xff")))


def log_noise(chance, data):
    at = frame_at(chance, data)
    return put(data, at, chance.randbytes(min(FRAME_HEAD + PAGE, len(data) - at)))


def log_gone(_, __):
    return b""


def log_short(chance, data):
    """What is left of a log that was taken into the store is short: bytes of it, or any."""
    if chance.random() < 0.3:
        return chance.randbytes(chance.randrange(200))
    return some_bytes(chance, data)[:chance.randrange(len(data) + 1)] + bytes(chance.choice((0, 1, PAGE)))


TO_STORE = {
    "bytes": some_bytes, "bit": one_bit, "header": header, "page size": page_size, "pages swapped": swapped,
    "page copied": copied, "cut": cut, "page zeroed": zeroed, "page of noise": noise, "longer": longer, "link": linked,
    "page head": page_head, "cell front": cell_front, "page number": spilled, "other rows": other_rows,
}
TO_LOG = {
    "log bytes": some_bytes, "log bit": one_bit, "log cut": log_cut, "log zeroed": log_zeroed,
    "log frames swapped": log_frames, "log head": log_head, "log frame of noise": log_noise, "log gone": log_gone,
}
SHORT = "short log"


def choices(files, done):
    """The kinds of damage that the files can have, beside what was done, each with its file: those that leave a sound
    store, and those of a log that holds commits, more often than others."""
    to_store = [(STORE, *it) for it in TO_STORE.items() if it[0] != "other rows"]
    log = len(files.get(LOG, b""))
    if log > PAGE:
        return to_store + [(LOG, *it) for it in TO_LOG.items()] * 4
    others = [(STORE, "other rows", other_rows)] * (0 if done else 5)
    return to_store + others + [(LOG, SHORT, log_short)] * bool(log)


def damaged(chance, files, only=()):
    """What was done, and the files then: one damage mostly, else two of any kinds, or of those that are named."""
    done, files = [], dict(files)
    for _ in range(chance.choice((1, 1, 1, 2))):
        kinds = choices(files, done)
        name, what, change = chance.choice([it for it in kinds if it[1] in only] or kinds)
        if len(files[name]) >= PAGE or what == SHORT:
            files[name] = change(chance, files[name])
            done.append(what)
    return done, files
