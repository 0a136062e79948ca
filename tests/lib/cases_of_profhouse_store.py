"""share/scripts/profhouse_store.py: the lines of calls in a store's file, beside a server, a writer and a backup. What is wanted
was added up from the profiles by plain loops."""
import hashlib
import itertools
import os
import sqlite3
import subprocess
import sys

import forked  # noqa: F401  pylint: disable=unused-import  (with it Python finds the modules of the scripts)
import profhouse_store
from plain_profile import Profile
from profhouse_script import Fault
from tried import SCRIPTS, TOP

PROFILES = os.path.join(TOP, "tests", "web_profiles")
NUMBERS = (1, 2, 3)
# Two functions that reports print alike: b:c of /a, and c of /a:b.
ALIKE = b"events: Ir\nob=/a\nfl=x.c\nfn=b:c\n1 5\nob=/a:b\nfn=c\n1 7\n2 1\n"
# Functions of two files, and a call in a file that another includes; a derived event; names that are no UTF-8, or have control codes.
ODD = (b"events: Ir Dr\nevent: Both = Ir + 2 Dr\nob=/a:b\nfl=x.c\nfn=from\xe9\n1 5 1\ncob=/c\ncfi=y.c\ncfn=to\there\ncalls=3 1\n2 30 4\n"
       b"fi=x.h\ncob=/c\ncfi=z.c\ncfn=to\there\ncalls=2 1\n7 20 0\nfe=x.c\ncob=/c\ncfi=y.c\ncfn=to\there\ncalls=0 1\n9 8 0\n")


def asked(tables, which, event, name, function, runs=(1,)):
    """The lines of calls, or why there are none."""
    try:
        return tables.ask(lambda base: profhouse_store.lines_of_calls(base, which, runs, event, name, function))
    except Fault as fault:
        return str(fault)


def lines_of(tables, event, key, runs=(1,)):
    """What the lines of a function cost."""
    return tables.ask(lambda base: profhouse_store.lines_of_function(base, runs, event, key))


def printed(ends):
    """The ends of calls of a profile as reports print them."""
    return {f"{name}:{function}".encode(): {(file.encode(), line): costs for (file, line), costs in lines.items()} for (name, function), lines in ends.items()}


def sums_of(ends):
    return sorted((sum(it[0] for it in lines.values()), sum(it[1] for it in lines.values()), end) for end, lines in ends.items())


def reported(tried, which, run, name, function):
    """What the program says of the same calls."""
    text = tried.profhouse(which, "--db", "s.db", "--run", str(run), "--event", "Ir", "--object", name, "--", function)
    return sorted((int(cost), int(count), end) for cost, count, end in (it.split(b" ", 2) for it in text.splitlines()[2:]))


def state_of(tried):
    """The folder, and the bytes of the store and its log."""
    return [(it, os.stat(tried.path(it)).st_mtime_ns, hashlib.sha256(tried.read(it)).digest()) for it in sorted(os.listdir(tried.folder)) if it.startswith("s.db")]


def cases_of_all_calls(tried):
    """Each function of three real profiles, while a server has the store; the last one is imported by that."""
    tried.profhouse("import", "--db", "s.db", *(os.path.join(PROFILES, f"words{number}.cg") for number in NUMBERS[:2]))
    profiles = {number: Profile(os.path.join(PROFILES, f"words{number}.cg")) for number in NUMBERS}
    with tried.serving("s.db") as address, profhouse_store.tables_of(tried.path("s.db")) as tables:
        with open(os.path.join(PROFILES, "words3.cg"), "rb") as file:
            tried.expect("an import beside it", tried.run("curl", "-s", "--data-binary", "@-", f"{address}/runs/callgrind?label=l", given=file.read()).out, b"run 3\n")
        tried.expect("it stands in the log", os.path.getsize(tried.path("s.db-wal")) > profhouse_store.SHORTEST_LOG, True)
        before, wrong, count = state_of(tried), [], 0
        for number, profile in profiles.items():
            for name, function in profile.functions():
                for which, wanted in (("callers", profile.callers_of(name, function)), ("callees", profile.callees_of(name, function))):
                    found, count = asked(tables, which, b"Ir", name.encode(), function.encode(), [number]), count + 1
                    if found != printed(wanted):
                        wrong.append((number, which, name, function, found, wanted))
                key = f"{name}:{function}".encode()
                found = lines_of(tables, b"Ir", key, [number])
                if found != {(file.encode(), line): cost for (file, line), cost in profile.lines_of(name, function).items() if cost}:
                    wrong.append((number, "lines", key, found))
        tried.expect(f"{count} lists of calls, and the lines of functions", (wrong[:1], count > 300), ([], True))
        of = "/builds/3/words", "lookup"
        for which in ("callers", "callees"):
            found = asked(tables, which, b"Ir", of[0].encode(), of[1].encode(), [3])
            tried.expect(f"their sums are those of {which}", sums_of(found), reported(tried, which, 3, *of))
        tried.expect("nothing is written", state_of(tried), before)
        copy = tables.folder.name
        tried.expect("a copy is read", sorted(os.listdir(copy))[:1], ["store"])
        both = asked(tables, "callers", b"Ir", b"/builds/2/words", b"hash", NUMBERS[1:]), asked(tables, "callers", b"Ir", b"/builds/2/words", b"hash", NUMBERS)
        wanted = printed(profiles[2].callers_of("/builds/2/words", "hash"))
        tried.expect("runs are added up", both, (wanted, wanted))
    tried.expect("no copy is left", os.path.exists(copy), False)


def cases_of_events(tried):
    tried.profhouse("import", "--db", "odd.db", tried.write("odd.cg", ODD))
    tried.profhouse("group", "--db", "odd.db", "g")
    tried.profhouse("join", "--db", "odd.db", "g", "1")
    here, there = (b"/a:b", b"from\xe9"), (b"/c", b"to\there")
    lines = {(b"x.c", 2): (30, 3, 38), (b"x.h", 7): (20, 2, 20), (b"x.c", 9): (8, 0, 8)}
    with profhouse_store.tables_of(tried.path("odd.db")) as tables:
        tried.expect("lines", [lines_of(tables, event, b"/a:b:from\xe9") for event in (b"Ir", b"Dr", b"Both", b"ir")], [
            {(b"x.c", 1): cost} if cost else {} for cost in (5, 1, 7, 0)])
        tried.expect("functions of a thread", [tables.ask(lambda base, it=it: profhouse_store.functions_of_thread(base, [1], it, 0)) for it in (b"Ir", b"Both", b"ir")], [
            {b"/a:b:from\xe9": 5}, {b"/a:b:from\xe9": 7}, {}])
        tried.expect("functions of no thread", tables.ask(lambda base: profhouse_store.functions_of_thread(base, [1], b"Ir", 1)), {})
        tried.expect("lines of no function", [lines_of(tables, b"Ir", it) for it in (b"/a:b:from", b"from\xe9", b"/a:from\xe9", b"")], [{}] * 4)
        for event, at in ((b"Ir", 0), (b"Both", 2)):
            wanted = {it: (costs[at], costs[1]) for it, costs in lines.items()}
            tried.expect(f"callers in {event}", asked(tables, "callers", event, *there), {b"/a:b:from\xe9": wanted})
            tried.expect(f"callees in {event}", asked(tables, "callees", event, *here), {b"/c:to\\x09here": wanted})
        tried.expect("an event that is not there", asked(tables, "callers", b"ir", *there), {b"/a:b:from\xe9": {it: (0, costs[1]) for it, costs in lines.items()}})
        tried.expect("a function that is not there", asked(tables, "callers", b"Ir", b"/c", b"to"), {})
        tried.expect("a run that is not there", asked(tables, "callers", b"Ir", *there, [7]), {})
        tried.expect("the runs of a group", [tables.ask(lambda base, it=it: profhouse_store.runs_of(base, it)) for it in ("g", "none", None)], [[1], [], [1]])
        found = asked(tables, "callers", b"Ir", *there)
    for what, rows, is_refused in (("all agree", [(58, 5, b"/a:b:from\xe9")], False), ("of two parts", [(50, 5, b"/a:b:from\xe9"), (8, 0, b"/a:b:from\xe9")], False),
                                   ("a cost differs", [(57, 5, b"/a:b:from\xe9")], True), ("a count differs", [(58, 6, b"/a:b:from\xe9")], True),
                                   ("one is missing", [], True), ("one is too many", [(58, 5, b"/a:b:from\xe9"), (0, 0, b"/x:f")], True)):
        try:
            said = profhouse_store.check_sums(found, rows, "callers of x")
        except Fault as fault:
            said = str(fault)
        tried.expect(f"sums: {what}", said, "callers of x: the lines of the calls in the store's file do not sum to what profhouse says of them" if is_refused else None)


def cases_of_names_alike(tried):
    tried.profhouse("import", "--db", "alike.db", tried.write("alike.cg", ALIKE))
    with profhouse_store.tables_of(tried.path("alike.db")) as tables:
        tried.expect("functions that are printed alike are added up", lines_of(tables, b"Ir", b"/a:b:c"), {(b"x.c", 1): 12, (b"x.c", 2): 1})
    for cost, is_refused in ((13, False), (5, True)):
        try:
            said = profhouse_store.check_sum({1: 12, 2: 1}, cost, "f")
        except Fault as fault:
            said = str(fault)
        tried.expect(f"a sum of {cost}", said, "f: its costs in the store's file do not sum to what profhouse says of it" if is_refused else None)


def cases_of_refusals(tried):
    """What is no store, and what cannot be read in one state."""
    path = tried.path("odd.db")
    os.mkdir(tried.path("folder.db"))
    os.mkdir(tried.path("links"))
    os.symlink(path, tried.path("links/link.db"))
    with profhouse_store.tables_of(tried.path("links/link.db")) as tables:
        tried.expect("a link leads to the file", lines_of(tables, b"Ir", b"/a:b:from\xe9"), {(b"x.c", 1): 5})
    tried.write("text.db", "no database\n" * 100)
    tried.write("empty.db", "")
    with sqlite3.connect(tried.path("other.db")) as base:
        base.execute("CREATE TABLE meta(schema)")
    with sqlite3.connect(tried.path("view.db")) as base:
        base.executescript("".join(f"CREATE VIEW {it} AS SELECT 2 AS schema;" for it in profhouse_store.TABLES))
    for name, said in (("folder.db", "is no file"), ("none.db", "there is no store"), ("text.db", "cannot be read"), ("empty.db", "is no store"), ("other.db", "is no store"), ("view.db", "is no store")):
        with profhouse_store.tables_of(tried.path(name)) as tables:
            found = asked(tables, "callers", b"Ir", b"/c", b"f")
            tried.expect(f"{name} is refused", found if said not in found else said, said)
    os.link(path, tried.path("second.db"))
    with profhouse_store.tables_of(path) as tables:
        tried.expect("a store with two names", "has two names" in asked(tables, "callers", b"Ir", b"/c", b"f"), True)
        os.remove(tried.path("second.db"))
        tried.expect("with one again", asked(tables, "callers", b"Ir", b"/c", b"f"), {})


def cases_of_writers(tried):
    """One who holds all locks of the file, and a file that is another at each look."""
    path, patience = tried.path("odd.db"), profhouse_store.PATIENCE
    wanted = {b"/a:b:from\xe9": {(b"x.c", 2): (30, 3), (b"x.h", 7): (20, 2), (b"x.c", 9): (8, 0)}}
    writer = sqlite3.connect(path, isolation_level=None)
    writer.execute("PRAGMA locking_mode = EXCLUSIVE")
    writer.execute("BEGIN EXCLUSIVE")
    with profhouse_store.tables_of(path) as tables:
        tried.expect("a locked store", asked(tables, "callers", b"Ir", b"/c", b"to\there"), wanted)
        writer.execute("ROLLBACK")
        looks_at, longer = profhouse_store.looks_at, itertools.count()

        def grown(path):
            look, log = looks_at(path)
            return (*look[:2], look[2] + next(longer), *look[3:]), log
        profhouse_store.looks_at, profhouse_store.PATIENCE = grown, 0.2
        tried.expect("one that is changed all the time", asked(tables, "callers", b"Ir", b"/c", b"to\there"), f"{path} is changed all the time: try again")
        profhouse_store.looks_at, profhouse_store.PATIENCE = looks_at, patience
        tried.expect("afterwards", asked(tables, "callers", b"Ir", b"/c", b"to\there"), wanted)
    writer.close()


READER = f"import sys\nsys.path.insert(0, {SCRIPTS!r})\nimport profhouse_store\ntables = profhouse_store.Tables(sys.argv[1])\n" \
         "tables.ask(lambda base: (print('reads', flush=True), sys.stdin.read()))\n"


def cases_of_backups(tried):
    """A backup while the file is read: the reader is halted as a server is, and goes on."""
    with subprocess.Popen([sys.executable, "-c", READER, tried.path("odd.db")], stdin=subprocess.PIPE, stdout=subprocess.PIPE) as reader:
        tried.expect("it reads", reader.stdout.readline(), b"reads\n")
        ran = tried.script("backup_store", "--db", "odd.db", "copies")
        tried.expect("a copy", (ran.status, ran.out.endswith(b": 1 runs\n"), ran.err), (0, True, b""))
        reader.stdin.close()
        tried.expect("it goes on to its end", reader.wait(20), 0)


def cases(tried):
    for part in (cases_of_all_calls, cases_of_events, cases_of_names_alike, cases_of_refusals, cases_of_writers, cases_of_backups):
        part(tried)
