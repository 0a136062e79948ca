"""Turns a store into one of version 1, as the program of that version made it: the same texts of tables in the same order,
cells without threads, and the number 1."""
import os
import sqlite3

RUN = "run INTEGER NOT NULL REFERENCES run ON DELETE CASCADE"
# The texts of version 1, in its order.
TEXTS = [
    "CREATE TABLE meta (id INTEGER PRIMARY KEY CHECK (id = 1), schema INTEGER NOT NULL, next_run INTEGER NOT NULL) STRICT",
    "CREATE TABLE run (run INTEGER PRIMARY KEY, kind INTEGER NOT NULL, digest BLOB NOT NULL UNIQUE, label TEXT NOT NULL, "
    "call_count INTEGER NOT NULL) STRICT",
    f"CREATE TABLE run_event ({RUN}, pos INTEGER NOT NULL, name BLOB NOT NULL, self_cost INTEGER NOT NULL, "
    "call_cost INTEGER NOT NULL, stated TEXT, PRIMARY KEY (run, pos), UNIQUE (run, name)) STRICT",
    f"CREATE TABLE derived ({RUN}, pos INTEGER NOT NULL, name BLOB NOT NULL, PRIMARY KEY (run, pos), "
    "UNIQUE (run, name)) STRICT",
    f"CREATE TABLE coef ({RUN}, pos INTEGER NOT NULL, event INTEGER NOT NULL, n INTEGER NOT NULL, "
    "PRIMARY KEY (run, pos, event)) STRICT",
    "CREATE TABLE name (id INTEGER PRIMARY KEY, bytes BLOB NOT NULL UNIQUE) STRICT",
    f"CREATE TABLE cell ({RUN}, ob INTEGER NOT NULL, fl INTEGER NOT NULL, fn INTEGER NOT NULL, line INTEGER NOT NULL, "
    "event INTEGER NOT NULL, cost INTEGER NOT NULL, PRIMARY KEY (run, ob, fl, fn, line, event)) STRICT",
    f"CREATE TABLE arc ({RUN}, ob INTEGER NOT NULL, fl INTEGER NOT NULL, fn INTEGER NOT NULL, line INTEGER NOT NULL, "
    "cob INTEGER NOT NULL, cfl INTEGER NOT NULL, cfn INTEGER NOT NULL, part INTEGER NOT NULL, n INTEGER NOT NULL, "
    "PRIMARY KEY (run, ob, fl, fn, line, cob, cfl, cfn, part)) STRICT",
    f"CREATE TABLE stack ({RUN}, frames BLOB NOT NULL, n INTEGER NOT NULL, PRIMARY KEY (run, frames)) STRICT",
    "CREATE TABLE grp (name TEXT NOT NULL PRIMARY KEY, baseline INTEGER REFERENCES run ON DELETE SET NULL) STRICT",
    f"CREATE TABLE member (grp TEXT NOT NULL REFERENCES grp ON DELETE CASCADE, {RUN}, PRIMARY KEY (grp, run)) STRICT",
]
TABLES = [text.split()[2] for text in TEXTS]


def as_first(path):
    """Makes of the store at a path one of version 1, where each cost is of thread 0."""
    with sqlite3.connect(path) as base:
        rows = {table: base.execute(f"SELECT * FROM {table} ORDER BY rowid").fetchall()
                for table in TABLES if table != "cell"}
        rows["meta"] = [(number, 1, following) for number, _, following in rows["meta"]]
        rows["cell"] = base.execute("SELECT run, ob, fl, fn, line, event, cost FROM thread_cell WHERE thread = 0 "
                                    "ORDER BY rowid").fetchall()
        threads = base.execute("SELECT count(*) FROM thread_cell WHERE thread != 0").fetchone()
    base.close()
    if threads != (0,):
        raise ValueError(f"{path}: {threads[0]} costs of other threads")
    for file in (path, f"{path}-wal"):
        if os.path.exists(file):
            os.remove(file)
    with sqlite3.connect(path) as base:
        base.execute("PRAGMA foreign_keys = ON")
        for text in TEXTS:
            base.execute(text)
        for table, found in rows.items():
            if found:
                base.executemany(f"INSERT INTO {table} VALUES ({', '.join('?' * len(found[0]))})", found)
    base.close()


def as_second(rows):
    """The rows of a store of version 1, by table, as those of version 2 that it becomes."""
    if "cell" not in rows:
        return rows
    found = {table: list(some) for table, some in rows.items() if table != "cell"}
    found["meta"] = [(number, 2, following) for number, _, following in rows["meta"]]
    found["thread_cell"] = sorted(((run, 0, *rest) for run, *rest in rows["cell"]), key=repr)
    return found
