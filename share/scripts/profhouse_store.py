"""What scripts beside this file share: the tables of a store's file, read beside the program, and the lines of functions and
of calls in them.

It takes no lock, so nobody waits for it, and it writes nothing to the store. Where the log of the store has no change, the file
is read as it stands, else a copy of both, which goes in the end. What was read counts only if neither was changed
meanwhile, as a report of the program does it. It is imported, not run. A script that is copied elsewhere needs this file,
profhouse_http.py and profhouse_script.py beside it.
"""
import contextlib
import ctypes
import os
import shutil
import sqlite3
import stat
import tempfile
import threading
import time
from collections import namedtuple
from pathlib import Path

from profhouse_http import escaped, plain
from profhouse_script import Fault, reason_of, shown

TABLES = {"meta", "run", "run_event", "derived", "coef", "name", "arc", "stack", "grp", "member", "thread_cell"}
LOG, JOURNAL = "-wal", "-journal"
# A log with a change is as long as this: a head, and a page with a head of its own.
SHORTEST_LOG = 32 + 24 + 512
# Two writes within so many seconds may leave the same times; and for so long is a store tried that is written to.
TICK, PATIENCE = 0.02, 5
# What prctl takes for the name of a process.
PR_SET_NAME = 15
LINES = "SELECT fl, line, event, cost FROM thread_cell WHERE run = ? AND fn = ? AND ob = ?"
OF_THREAD = "SELECT ob, fn, event, sum(cost) FROM thread_cell WHERE run = ? AND thread = ? GROUP BY ob, fn, event"
CALLERS = "SELECT ob, fn, fl, line, part, n FROM arc WHERE run = ? AND cob = ? AND cfn = ?"
CALLEES = "SELECT cob, cfn, fl, line, part, n FROM arc WHERE run = ? AND ob = ? AND fn = ?"

# What calls cost and how often they are made.
Calls = namedtuple("Calls", "cost count")


# The file.

class Changed(Exception):
    """Another process changed the store meanwhile."""


def look_at(path):
    """Which file it is, how long, and when it was changed last; None where there is none."""
    try:
        found = os.lstat(path)
    except FileNotFoundError:
        return None
    if not stat.S_ISREG(found.st_mode) or found.st_nlink != 1:
        raise Fault(f"{shown(path)} is no file, or has two names")
    return found.st_dev, found.st_ino, found.st_size, found.st_mtime_ns, found.st_ctime_ns


def looks_at(path):
    """The same of a store and its log."""
    journal = look_at(path + JOURNAL)
    if journal and journal[2]:
        raise Changed
    return look_at(path), look_at(path + LOG)


def settled(path):
    """The same, such that any later change shows."""
    looks = looks_at(path)
    newest = max(it for look in looks if look for it in look[3:]) if any(looks) else 0
    if abs(time.time_ns() - newest) < TICK * 10 ** 9:
        time.sleep(TICK)
        if looks_at(path) != looks:
            raise Changed
    if looks[0] is None:
        raise Fault(f"there is no store {shown(path)}")
    return looks


def check_form(base, path):
    """Refuses what is no store of this version."""
    kinds = {name.decode("utf-8", "replace"): kind for kind, name in base.execute("SELECT type, lower(name) FROM sqlite_master")}
    if kinds.get("meta") == b"table" and base.execute("SELECT schema FROM meta").fetchone() == (1,):
        raise Fault(f"{shown(path)} is a store of version 1, which any command of profhouse migrates")
    # A view in place of a table might run for ever, and may call functions that do something.
    if any(kinds.get(it) != b"table" for it in TABLES) or base.execute("SELECT schema FROM meta").fetchone() != (2,):
        raise Fault(f"{shown(path)} is no store")


def connected(path, how):
    """A connection to a file that asks, and changes nothing."""
    base = sqlite3.connect(f"{Path(path).absolute().as_uri()}?{how}", uri=True, check_same_thread=False)
    base.text_factory = bytes
    for pragma in ("trusted_schema = OFF", "query_only = ON"):
        base.execute(f"PRAGMA {pragma}")
    return base


class Tables:
    """The tables of a store, of which each question finds one state. The file is open for one question alone, a copy as long
    as the store is unchanged."""

    def __init__(self, path):
        # (the log stands beside the file, not beside a link to it)
        self.path, self.turn = os.path.realpath(path), threading.Lock()
        self.looks = self.base = self.folder = None
        # (a backup halts programs of this name, and goes on without a copy where one of another name reads)
        ctypes.CDLL(None).prctl(PR_SET_NAME, b"profhouse_read")

    def close(self):
        if self.base:
            self.base.close()
        if self.folder:
            self.folder.cleanup()
        self.looks = self.base = self.folder = None

    def opened(self, looks):
        """A connection to the store as it is at these looks."""
        if self.base and self.looks == looks:
            return self.base
        self.close()
        path, how = self.path, "mode=ro&immutable=1"
        if looks[1] and looks[1][2] >= SHORTEST_LOG:
            self.folder = tempfile.TemporaryDirectory(prefix="profhouse.")
            path, how = os.path.join(self.folder.name, "store"), "mode=rw"
            for end in ("", LOG):
                shutil.copyfile(self.path + end, path + end)
            if looks_at(self.path) != looks:
                raise Changed
        self.base = connected(path, how)
        check_form(self.base, self.path)
        self.looks = looks
        return self.base

    def once(self, question):
        """What a question finds, where nobody changes the store meanwhile."""
        looks = settled(self.path)
        try:
            found, fault = question(self.opened(looks)), None
        except (sqlite3.Error, ValueError, TypeError, OverflowError, Fault) as error:
            found, fault = None, error
        except OSError as error:
            found, fault = None, Fault(f"no copy of {shown(self.path)} can be made: {reason_of(error)}")
        if self.folder is None:
            self.close()
        # (what was changed meanwhile may look like damage)
        if looks_at(self.path) != looks:
            raise Changed
        if fault:
            raise fault if isinstance(fault, Fault) else Fault(f"the tables of {shown(self.path)} cannot be read: {shown(fault)}")
        return found

    def ask(self, question):
        """What a question finds in the tables, all in one state."""
        until = time.monotonic() + PATIENCE
        with self.turn:
            while True:
                try:
                    return self.once(question)
                except Changed:
                    self.close()
                    if time.monotonic() > until:
                        raise Fault(f"{shown(self.path)} is changed all the time: try again") from None
                    time.sleep(TICK)


@contextlib.contextmanager
def tables_of(path):
    """The tables of a store, for a `with`."""
    tables = Tables(path)
    try:
        yield tables
    finally:
        tables.close()


# What the tables have.

def number_of(base, name):
    """The number of a name, or None where the store does not have it."""
    found = base.execute("SELECT id FROM name WHERE bytes = ?", (name,)).fetchone()
    return found and found[0]


class Names:
    """The names by their numbers, as reports print them."""

    def __init__(self, base):
        self.base, self.known = base, {}

    def of(self, number):
        if number not in self.known:
            found = self.base.execute("SELECT bytes FROM name WHERE id = ?", (number,)).fetchone()
            if not found or not isinstance(found[0], bytes):
                raise ValueError(f"the name {number} is not there")
            self.known[number] = escaped(found[0])
        return self.known[number]


def factors_of(base, run, event):
    """How often each event of a run, by its place, counts in one. Of a run without that none does."""
    found = base.execute("SELECT pos FROM run_event WHERE run = ? AND name = ?", (run, event)).fetchone()
    if found:
        return {found[0]: 1}
    found = base.execute("SELECT pos FROM derived WHERE run = ? AND name = ?", (run, event)).fetchone()
    return dict(base.execute("SELECT event, n FROM coef WHERE run = ? AND pos = ?", (run, found[0]))) if found else {}


def runs_of(base, group):
    """The members of a group; without one all runs."""
    if group is None:
        return [it for it, in base.execute("SELECT run FROM run ORDER BY run")]
    return [it for it, in base.execute("SELECT run FROM member WHERE grp = ? ORDER BY run", (group,))]


def numbers_of(base, key):
    """The numbers of each function and its object that are printed as this key: both may have colons."""
    cuts = [at for at, sign in enumerate(key) if sign == ord(":")]
    pairs = ((number_of(base, plain(key[at + 1:])), number_of(base, plain(key[:at]))) for at in cuts)
    return [it for it in pairs if None not in it]


def lines_of_function(base, runs, event, key):
    """What the lines of a function cost in some runs, by file and line. It is named as reports have it, as they have the lines."""
    lines, names, numbers = {}, Names(base), numbers_of(base, key)
    for run in runs:
        factors = factors_of(base, run, event)
        for file, line, at, cost in (row for it in numbers for row in base.execute(LINES, (run, *it))):
            if factors.get(at):
                place = names.of(file), line
                lines[place] = lines.get(place, 0) + cost * factors[at]
    return lines


def functions_of_thread(base, runs, event, thread):
    """What each function costs in one thread of some runs, by its key."""
    costs, names = {}, Names(base)
    for run in runs:
        factors = factors_of(base, run, event)
        for ob, fn, at, cost in base.execute(OF_THREAD, (run, thread)):
            if factors.get(at):
                key = names.of(ob) + b":" + names.of(fn)
                costs[key] = costs.get(key, 0) + cost * factors[at]
    return costs


def lines_of_calls(base, which, runs, event, object_, function):
    """The calls of a function (`callers`) or by it (`callees`) in some runs: by the function at their other end, and there by
    the file and the line of the caller. The names that are asked for are bytes, those that are found as reports have them."""
    ends, names = {}, Names(base)
    numbers = number_of(base, object_), number_of(base, function)
    for run in runs if None not in numbers else ():
        factors = factors_of(base, run, event)
        for ob, fn, file, line, part, n in base.execute(CALLERS if which == "callers" else CALLEES, (run, *numbers)):
            lines = ends.setdefault(names.of(ob) + b":" + names.of(fn), {})
            place = names.of(file), line
            cost, count = lines.get(place, (0, 0))
            lines[place] = Calls(cost + n * factors.get(part - 1, 0), count + (n if part == 0 else 0))
    return ends


def check_sum(parts, cost, said):
    """Refuses the lines of a function, or the functions of a thread, that do not sum to what the program says of it."""
    if sum(parts.values()) != cost:
        raise Fault(f"{said}: its costs in the store's file do not sum to what profhouse says of it")


def check_sums(ends, rows, said):
    """Refuses lines of calls that do not sum to the program's own rows of these calls: cost, count and function."""
    wanted, found = {}, {end: (sum(it.cost for it in lines.values()), sum(it.count for it in lines.values())) for end, lines in ends.items()}
    for cost, count, end in rows:
        before = wanted.get(end, (0, 0))
        wanted[end] = before[0] + cost, before[1] + count
    if wanted != found:
        raise Fault(f"{said}: the lines of the calls in the store's file do not sum to what profhouse says of them")
