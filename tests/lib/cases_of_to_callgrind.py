"""share/scripts/to_callgrind: what it writes, and that it imports to the same reports."""
import contextlib
import os
import re
import shutil
import sqlite3

from first_version import as_first
from tried import TOP

NAME = "to_callgrind"
# Inlined code, equal places, two files of one function, calls that cost nothing, a line of 0, missing costs, and names
# that look like what stands for a name or end in a carriage return.
HARD = (
    b"events: Ir Dr\nevent: Sum = Ir + 2 Dr\nevent: None = 0 Ir\nob=/lib/a b\nfl=a.c\nfn=main\n16 20\n16 5 1\nfi=inl.h\n3 100 0\n"
    b"fe=a.c\n17 0 9\ncob=/lib/c\ncfi=c.c\ncfn=(below main)\ncalls=3 7\n17 40 2\ncfn=main\ncalls=0 1\n18\n"
    b"fl=\nfn=(4) (5) odd\n0 1\nfl=b.c\nfn=static\n1 1\nfl=a.c\nfn=static\n1 2\nfn=caller\ncfi=a.c\ncfn=static\ncalls=1 1\n"
    b"9 2\ncfi=b.c\ncfn=static\ncalls=2 1\n9 1 0\nfn=caf\xe9\tx\\\n5 5\nfn=return\r\r\n6 6\nob=/lib/c\nfl=c.c\nfn=(below main)\n"
    b"7 9223372036854770000 2\nfi=inl.h\n2 33\ntotals: 1 2\ntotals: 9223372036854775807 5\n")
WRITTEN = (
    b"# callgrind format\nversion: 1\ncreator: profhouse\ncmd: calls.cg\npositions: line\nevent: Two = 2 Ir\nevents: Ir\n\n"
    b"ob=(1) app\n\nfl=(2) a.c\nfn=(3) main\n16 20\ncob=(1)\ncfi=(6) b.c\ncfn=(5) f\ncalls=6 0\n16 800\n\n"
    b"fl=(6)\nfn=(5)\n20 700\nfi=(4) inl.h\n3 100\ntotals: 820\n")
CALLS = ("events: Ir\nevent: Two = Ir + Ir\nob=app\nfl=a.c\nfn=main\n16 10\n16 10\ncfi=b.c\ncfn=f\ncalls=4 20\n16 500\n"
         "cfi=b.c\ncfn=f\ncalls=2 20\n16 300\nfl=b.c\nfn=f\n20 700\nfi=inl.h\n3 100\ntotals: 820\n")


def by_name(text):
    """A file with the numbers that stand for names left out, and its functions in an order of their own."""
    names = {}

    def full(found):
        space = found[1].lstrip(b"c").replace(b"fi", b"fl")
        if found[3]:
            names[space, found[2]] = found[3]
        return found[1] + b"=" + names[space, found[2]] + b"\n"
    head, *functions = re.sub(rb"(?m)^(\w+)=\((\d+)\)(?: (.*))?\n", full, text).split(b"\n\n")
    return head, sorted(it.split(b"totals")[0].strip() for it in functions), text.rpartition(b"totals")[2]


def reports(tried, store):
    """All that a store with one run says of it."""
    def ask(*words):
        return tried.run(tried.program, words[0], "--db", store, *words[1:])
    base = sqlite3.connect(tried.path(store))
    base.text_factory = bytes
    events = [name for name, in base.execute("SELECT name FROM run_event UNION SELECT name FROM derived")]
    functions = base.execute("SELECT DISTINCT o.bytes, f.bytes FROM (SELECT ob, fn FROM thread_cell UNION SELECT cob, cfn FROM arc)"
                             " JOIN name o ON o.id = ob JOIN name f ON f.id = fn ORDER BY 1, 2").fetchall()
    calls = base.execute("SELECT a.bytes, b.bytes, c.bytes, line, d.bytes, e.bytes, f.bytes, part, n FROM arc JOIN name a ON a.id = ob"
                         " JOIN name b ON b.id = fl JOIN name c ON c.id = fn JOIN name d ON d.id = cob JOIN name e ON e.id = cfl"
                         " JOIN name f ON f.id = cfn ORDER BY 1, 2, 3, 4, 5, 6, 7, 8").fetchall()
    base.close()
    yield "csv", ask("csv")
    yield "verify", ask("verify")
    yield "calls", calls
    for event in events:
        yield "inclusive", ask("inclusive", "--event", event)
        for key in ("object", "file", "function", "line"):
            yield key, ask("by", "--event", event, key)
        if len(functions) < 20:
            # (a word of the command line has to be UTF-8)
            for of, name in functions:
                if b"\xe9" not in name:
                    yield "callers", ask("callers", "--event", event, "--object", of, "--", name)


def cases_of_files(tried):
    """Each file, as it is and as it was written again, says the same."""
    files = [os.path.join(TOP, "examples", it) for it in sorted(os.listdir(os.path.join(TOP, "examples"))) if it.endswith(".cg")]
    for number, path in enumerate([*files, tried.write("hard.cg", HARD), tried.write("calls.cg", CALLS)]):
        here, there = f"{number}.db", f"{number}.again.db"
        tried.profhouse("import", "--db", here, path)
        ran = tried.script(NAME, "--db", here, "1")
        tried.expect(f"{path} is written", (ran.status, ran.err), (0, b""))
        again = tried.write(f"{number}.again.cg", ran.out)
        tried.profhouse("import", "--db", there, again)
        tried.expect(f"{path} says the same", list(reports(tried, there)), list(reports(tried, here)))
        tried.expect(f"{path} written twice", by_name(tried.script(NAME, "--db", there, "1").out.replace(
            os.fsencode(again), os.fsencode(path))), by_name(ran.out))


def cases_of_threads(tried):
    """They are added up."""
    tried.profhouse("import", "--db", "threads.db", os.path.join(TOP, "examples", "workers.cg"))
    again = tried.write("threads.cg", tried.script(NAME, "--db", "threads.db", "1").out)
    tried.profhouse("import", "--db", "threads.db", again)
    tried.expect("threads are added up", tried.profhouse("by", "--db", "threads.db", "--event", "Ir", "--run", "2", "thread"),
                 b"by thread Ir\n56015 100.00% total\n56015 100.00% 0\n0 0.00% (rest)\n")


def cases_of_refusals(tried):
    tried.profhouse("import", "--db", "s.db", "calls.cg")
    tried.profhouse("import", "--db", "s.db", "--folded", tried.write("a.folded", "a;b 2\n"))
    store = tried.read("s.db")
    tried.expect("as worked out by hand", by_name(tried.script(NAME, "--db", "s.db", "1").out), by_name(WRITTEN))
    for what, words, has in (
            ("folded stacks", ("--db", "s.db", "2"), b"profhouse folded --run 2"), ("no run", ("--db", "s.db", "3"), b"no run 3"),
            ("no number", ("--db", "s.db", "last"), b"no number"), ("no store", ("--db", "none.db", "1"), b"there is no store none.db"),
            ("a folder", ("--db", ".", "1"), b"there is no store"), ("no words", (), b"required"), ("no run given", ("--db", "s.db"), b"required"),
            ("a text", ("--db", "calls.cg", "1"), b"not a database")):
        tried.expect_refusal(what, tried.script(NAME, *words), has)
    tried.expect("none was made", os.path.exists(tried.path("none.db")), False)
    shutil.copy(tried.path("s.db"), tried.path("old.db"))
    as_first(tried.path("old.db"))
    tried.expect_refusal("a store of version 1", tried.script(NAME, "--db", "old.db", "1"), b"old.db is a store of version 1")
    with open("/dev/full", "wb") as full:
        tried.expect_refusal("a full output", tried.script(NAME, "--db", "s.db", "1", out=full), b"No space", out=None)
    tried.expect("the store is as it was", tried.read("s.db"), store)
    with tried.serving("s.db"):
        tried.expect_refusal("a store that is served", tried.script(NAME, "--db", "s.db", "1"), b"a profhouse serve may have it open")


def cases_of_strange_stores(tried):
    """Stores that no profhouse has made: a name with a line of its own, and a view in place of a table."""
    for what, change, has in (
            ("a name with a line of its own", "UPDATE name SET bytes = CAST('f' || char(10) || '1 99' AS BLOB) WHERE bytes = CAST('f' AS BLOB)",
             b"end of a line"),
            ("a view", "ALTER TABLE coef RENAME TO other; CREATE VIEW coef AS WITH RECURSIVE c(run) AS (SELECT 1 UNION ALL SELECT run FROM c)"
             " SELECT run, 0 AS pos, 0 AS event, 1 AS n FROM c", b"a view in place of the table coef"),
            ("no table", "DROP TABLE arc", b"no such table")):
        shutil.copy(tried.path("s.db"), tried.path("strange.db"))
        with contextlib.closing(sqlite3.connect(tried.path("strange.db"))) as base:
            base.executescript(f"PRAGMA ignore_check_constraints = ON; {change}")
        ran = tried.script(NAME, "--db", "strange.db", "1")
        tried.expect(f"{what} has no line in the file", b"\n1 99" in ran.out, False)
        tried.expect(what, (ran.status, has in ran.err), (2, True))


def cases(tried):
    tried.expect_help(NAME)
    cases_of_files(tried)
    cases_of_threads(tried)
    cases_of_refusals(tried)
    cases_of_strange_stores(tried)
