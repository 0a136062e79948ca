"""What fleet_load reads of a store: from a copy of its file, run by run, in pieces that fit into little memory.

It is imported, not run, and knows no engine. A script that is copied elsewhere needs backup_store beside it.
"""
import contextlib
import os
import re
import sqlite3
import subprocess
import sys
import tempfile
from collections import defaultdict, namedtuple
from pathlib import Path

from profhouse_script import Fault, shown
from profhouse_store import check_form

# How many rows are read at a time.
PIECE = 8192
CALLGRIND, FOLDED = 1, 2
KINDS = {CALLGRIND: "callgrind", FOLDED: "folded"}
UNNAMED = b"???"
GROUP_NAME = re.compile(rb"[A-Za-z0-9._-]{1,64}")
COSTS = "SELECT ob, fl, fn, line, thread, event, cost FROM thread_cell WHERE run = ?"
CALLS = "SELECT ob, fl, fn, line, cob, cfl, cfn, part, n FROM arc WHERE run = ?"
STACKS = "SELECT frames, n FROM stack WHERE run = ?"
# What each function costs itself, and what its calls of others cost.
FUNCTIONS = """SELECT ob, fn, event, sum(own), sum(called) FROM (
SELECT ob, fn, event, cost AS own, 0 AS called FROM thread_cell WHERE run = ?1
UNION ALL SELECT ob, fn, part - 1, 0, n FROM arc WHERE run = ?1 AND part > 0 AND (ob <> cob OR fn <> cfn)
) GROUP BY fn, ob, event"""

Event = namedtuple("Event", "pos name self_cost call_cost")
# A derived event, and how often each event counts in it.
Formula = namedtuple("Formula", "name terms")


class Sums:
    """What was sent of a run, or is there: sums by event of costs, of calls and of functions, counts, and numbers of rows."""

    def __init__(self):
        self.rows = defaultdict(int)
        self.costs, self.calls = defaultdict(int), defaultdict(int)
        self.own, self.called = defaultdict(int), defaultdict(int)
        self.call_count = self.samples = 0

    def differences(self, other):
        """In which of the sums another one differs."""
        pairs = [(name, getattr(self, name), getattr(other, name)) for name in vars(self)]
        same = [name for name, one, two in pairs if above_0(one) == above_0(two)]
        return [name for name, _, _ in pairs if name not in same]


def above_0(sums):
    return {key: cost for key, cost in sums.items() if cost} if isinstance(sums, dict) else sums


class Run:
    """A run of a store, whose rows are read while they are sent."""

    def __init__(self, store, row):
        self.store, self.base = store, store.base
        self.number, self.kind, self.digest, self.label, self.call_count = row
        if self.kind not in KINDS or len(self.digest) != 32 or not isinstance(self.number, int):
            raise ValueError(f"run {shown(self.number)}")
        self.sums = Sums()

    def head(self):
        """Reads the events and the formulas."""
        self.events = [Event(*row) for row in self.base.execute(
            "SELECT pos, name, self_cost, call_cost FROM run_event WHERE run = ? ORDER BY pos", (self.number,))]
        if [it.pos for it in self.events] != list(range(len(self.events))):
            raise ValueError(f"the events of run {self.number}")
        terms = "SELECT event, n FROM coef WHERE run = ? AND pos = ? ORDER BY event"
        derived = self.base.execute("SELECT pos, name FROM derived WHERE run = ? ORDER BY pos", (self.number,)).fetchall()
        self.formulas = [Formula(name, self.base.execute(terms, (self.number, pos)).fetchall()) for pos, name in derived]
        if any(not 0 <= event < len(self.events) for it in self.formulas for event, _ in it.terms):
            raise ValueError(f"the formulas of run {self.number}")

    def size(self):
        """How many rows of costs it has."""
        return self.base.execute("SELECT count(*) FROM thread_cell WHERE run = ?", (self.number,)).fetchone()[0]

    def pieces(self, name, query):
        """The rows of a query about this run, some thousand at a time."""
        rows = self.base.execute(query, (self.number,))
        while piece := rows.fetchmany(PIECE):
            self.sums.rows[name] += len(piece)
            yield piece

    def costs(self):
        """The self costs: object, file, function, line, thread, event, cost."""
        sums = self.sums.costs
        for piece in self.pieces("costs", COSTS):
            for row in piece:
                sums[row[5]] += row[6]
            yield piece

    def calls(self):
        """The calls: caller with its line, callee, and the count (part 0) or the cost in an event (part 1 and so on)."""
        sums = self.sums
        for piece in self.pieces("calls", CALLS):
            for row in piece:
                if row[7]:
                    sums.calls[row[7] - 1] += row[8]
                else:
                    sums.call_count += row[8]
            yield piece

    def stacks(self):
        """The stacks: frames and count."""
        for piece in self.pieces("stacks", STACKS):
            self.sums.samples += sum(n for _, n in piece)
            yield piece

    def functions(self):
        """What each function costs: object, function, event, its self cost, and what its calls of others cost."""
        sums = self.sums
        for piece in self.of_frames() if self.kind == FOLDED else self.pieces("functions", FUNCTIONS):
            for _, _, event, own, called in piece:
                sums.own[event] += own
                sums.called[event] += called
            yield piece

    def of_frames(self):
        """The functions of folded stacks: one that is anywhere in a stack has its count, once."""
        counts = defaultdict(lambda: [0, 0])
        for frames, n in self.base.execute(STACKS, (self.number,)):
            names = [it or UNNAMED for it in frames.split(b";")]
            counts[names[-1]][0] += n
            for name in set(names):
                counts[name][1] += n
        none = self.store.number_of(UNNAMED)
        rows = [(none, self.store.number_of(name), 0, own, all_ - own) for name, (own, all_) in counts.items()]
        for at in range(0, len(rows), PIECE):
            self.sums.rows["functions"] += len(rows[at:at + PIECE])
            yield rows[at:at + PIECE]

    def stated(self):
        """The sums that the store states of the run; those of functions, and numbers of rows, are what was read."""
        stated = Sums()
        stated.rows, stated.called = self.sums.rows, self.sums.called
        stated.costs = stated.own = {it.pos: it.self_cost for it in self.events}
        stated.calls = {it.pos: it.call_cost for it in self.events}
        stated.call_count = self.call_count
        stated.samples = self.events[0].self_cost if self.kind == FOLDED else 0
        return stated


class Store:
    """A copy of a store, open to be read."""

    def __init__(self, base):
        self.base = base
        # The numbers of names that the store has in stacks alone: they are below 0.
        self.more = {}

    def runs(self):
        return [Run(self, row) for row in self.base.execute("SELECT run, kind, digest, CAST(label AS BLOB), call_count FROM run ORDER BY run")]

    def groups(self):
        """The groups as `profhouse groups` prints them: name, baseline and members."""
        members = defaultdict(list)
        for group, run in self.base.execute("SELECT grp, run FROM member ORDER BY grp, run"):
            members[group].append(b"%d" % run)
        rows = self.base.execute("SELECT name, baseline FROM grp ORDER BY name").fetchall()
        if any(not GROUP_NAME.fullmatch(name) for name, _ in rows):
            raise ValueError("the name of a group")
        return b"".join(b"%s %s %s\n" % (name, b"-" if first is None else b"%d" % first, b",".join(members[name]) or b"-")
                        for name, first in rows)

    def number_of(self, name):
        """The number of a name; a new one if the store has none."""
        found = self.base.execute("SELECT id FROM name WHERE bytes = ?", (name,)).fetchone()
        return found[0] if found else self.more.setdefault(name, -1 - len(self.more))

    def names(self, numbers):
        """The bytes of names by their numbers."""
        found = {number: name for name, number in self.more.items() if number in numbers}
        for number in numbers - set(found):
            row = self.base.execute("SELECT bytes FROM name WHERE id = ?", (number,)).fetchone()
            if not row or not isinstance(row[0], bytes):
                raise ValueError(f"the name {shown(number)}")
            found[number] = row[0]
        return found


@contextlib.contextmanager
def copied(path):
    """The path of a copy of a store, made by backup_store, which goes in the end."""
    with tempfile.TemporaryDirectory(prefix="fleet.") as folder:
        words = [sys.executable, os.path.join(os.path.dirname(os.path.abspath(__file__)), "backup_store"), f"--db={path}", folder]
        done = subprocess.run(words, stdin=subprocess.DEVNULL, stdout=subprocess.DEVNULL, stderr=subprocess.PIPE, check=False)
        if done.returncode != 0:
            raise Fault("; ".join(map(shown, done.stderr.strip().splitlines())) or "no copy of the store could be made")
        yield next(os.path.join(folder, it) for it in os.listdir(folder) if not it.endswith(".origin"))


@contextlib.contextmanager
def opened(path):
    """A copy of a store, to be read. Nothing else may write to it meanwhile."""
    if not os.path.isfile(path):
        raise Fault(f"there is no store {shown(path)}")
    try:
        with contextlib.closing(sqlite3.connect(f"{Path(path).absolute().as_uri()}?mode=ro&immutable=1", uri=True)) as base:
            base.text_factory = bytes
            for pragma in ("trusted_schema = OFF", "temp_store = FILE", "cache_size = -4000"):
                base.execute(f"PRAGMA {pragma}")
            check_form(base, path)
            yield Store(base)
    except sqlite3.Error as error:
        raise Fault(f"{shown(path)} cannot be read: {shown(error)}") from error
    except (ValueError, TypeError, OverflowError) as error:
        raise Fault(f"rows of the store are out of form ({shown(error)})") from error
