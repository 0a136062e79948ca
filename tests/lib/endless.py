"""Stores with cells that state more bytes than the file has: their overflow pages lead back to themselves, or belong to
other cells too. SQLite's own library wrote the rest of them."""
import sqlite3
import struct

PAGE = 4096
LEAF, ABOVE = 13, 5
LONGEST = (1 << 31) - 1


def varint(number):
    groups = [number & 127]
    while number := number >> 7:
        groups.append(number & 127 | 128)
    return bytes(reversed(groups))


def kept(length):
    """How many bytes of a payload stand in its cell."""
    least = (PAGE - 12) * 32 // 255 - 23
    wanted = least + (length - least) % (PAGE - 4)
    return length if length <= PAGE - 35 else wanted if wanted <= PAGE - 35 else least


def cell(rowid, types, values, length, page):
    """A row whose payload states so many bytes and goes on in a page. `types` are those of its columns, one of which is
    None, of a blob that has all bytes that the others leave, behind the first values."""
    for size in range(1, 10):
        rest = length - 1 - len(types) + 1 - size - len(values)
        kind = varint(12 + 2 * rest)
        if len(kind) == size:
            break
    head = b"".join(kind if it is None else varint(it) for it in types)
    local = (bytes([1 + len(head)]) + head + values).ljust(kept(length), b"x")
    return varint(length) + varint(rowid) + local + struct.pack(">I", page)


def small(rowid, types, values):
    payload = bytes([1 + len(types)]) + bytes(types) + values
    return varint(len(payload)) + varint(rowid) + payload


def tree_page(kind, cells, last=0):
    """A page of a table: a leaf, or one above others, the last of which is given."""
    page, start, head = bytearray(PAGE), PAGE, 8 if kind == LEAF else 12
    for at, part in enumerate(cells):
        start -= len(part)
        page[start:start + len(part)] = part
        struct.pack_into(">H", page, head + 2 * at, start)
    page[0] = kind
    struct.pack_into(">HH", page, 3, len(cells), start)
    if kind == ABOVE:
        struct.pack_into(">I", page, 8, last)
    return bytes(page)


def link(next_page):
    return struct.pack(">I", next_page).ljust(PAGE, b"a")


class Base:
    """The pages of a store in the database file alone, and what its tables have."""

    def __init__(self, path):
        base = sqlite3.connect(path, isolation_level=None)
        base.execute("PRAGMA wal_checkpoint(TRUNCATE)").fetchall()
        self.roots = dict(base.execute("SELECT name, rootpage FROM sqlite_master"))
        self.names = base.execute("SELECT id, bytes FROM name ORDER BY id").fetchall()
        self.stacks = [row[0] for row in base.execute("SELECT rowid FROM stack ORDER BY rowid")]
        self.run = base.execute("SELECT min(run) FROM stack").fetchone()[0]
        base.close()
        with open(path, "rb") as file:
            data = file.read()
        self.pages = [data[at:at + PAGE] for at in range(0, len(data), PAGE)]

    def changed(self, table, page, more):
        """The file with another page as the root of a table, and more pages at its end."""
        pages = [*self.pages, *more]
        pages[self.roots[table] - 1] = page
        head = pages[0]
        pages[0] = head[:28] + struct.pack(">I", len(pages)) + head[32:]
        return b"".join(pages)

    def stack_rows(self, length, first_of):
        """Stacks of so many bytes each that count 1, in leaves of six, and the page above these."""
        at = len(self.pages) + 1
        cells = [cell(rowid, [1, None, 9], bytes([self.run]), length, at + first_of(it)) for it, rowid in enumerate(self.stacks)]
        return [tree_page(LEAF, cells[it:it + 6]) for it in range(0, len(cells), 6)]

    def stacks_of(self, length, links, first_of):
        """The file with such stacks, whose overflow pages have these links, counted from the first new page."""
        first = len(self.pages) + 1
        leaves = self.stack_rows(length, first_of)
        above = [struct.pack(">I", first + len(links) + it) + varint(self.stacks[6 * it + 5]) for it in range(len(leaves) - 1)]
        top = tree_page(ABOVE, above, first + len(links) + len(leaves) - 1)
        return self.changed("stack", top, [*(link(0 if it is None else first + it) for it in links), *leaves])


def few_kept(length):
    """The next length, downwards, of which few bytes stand in the cell."""
    return next(it for it in range(length, 0, -1) if kept(it) < 600)


def stores(path):
    """The name of each such store, its bytes, and the table that has its long cells."""
    base = Base(path)
    itself = len(base.pages) + 1
    names = [small(it, [0, 12 + 2 * len(name)], name) for it, name in base.names]
    names[2] = cell(base.names[2][0], [0, None], b"", LONGEST, itself)
    yield "a name that leads to itself", base.changed("name", tree_page(LEAF, names), [link(itself)]), "name"
    yield "stacks that lead to themselves", base.stacks_of(few_kept(LONGEST), [0], lambda _: 0), "stack"
    ring = [(it + 1) % 110 for it in range(110)]
    yield "stacks in a ring of pages", base.stacks_of(few_kept(60_000_000), ring, lambda it: it), "stack"
    chain = [*range(1, 110), None]
    yield "stacks that share their pages", base.stacks_of(few_kept(110 * (PAGE - 4)), chain, lambda _: 0), "stack"
