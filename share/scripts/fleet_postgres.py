"""How fleet_load and fleet_ask keep a fleet's runs in PostgreSQL: its tables, a load in one transaction, and the questions.

It is imported, not run. Each statement is a constant text; in those that make tables stands a month, six digits.
"""
import hashlib
import operator
import struct

from fleet_libpq import DEADLOCK, UNIQUE, Connection, Refused, blob, blobs, bytes_of, integer, integers, number, text, texts
from fleet_engines import grouped
from fleet_store import Sums
from profhouse_script import Fault

VERSION = 1
# (texts of names are looked up by their SHA-256, since a name may be longer than a key of an index)
TABLES = """
CREATE SCHEMA profhouse
CREATE TABLE profhouse.form (version integer NOT NULL)
INSERT INTO profhouse.form VALUES (1)
CREATE TABLE profhouse.name (id integer GENERATED ALWAYS AS IDENTITY PRIMARY KEY, bytes bytea NOT NULL)
CREATE UNIQUE INDEX ON profhouse.name (sha256(bytes))
CREATE TABLE profhouse.store (store text PRIMARY KEY, version bigint NOT NULL, groups bytea NOT NULL)
CREATE TABLE profhouse.listed (store text, run integer, digest bytea NOT NULL, label bytea NOT NULL, PRIMARY KEY (store, run))
CREATE TABLE profhouse.load (load integer GENERATED ALWAYS AS IDENTITY PRIMARY KEY, digest bytea NOT NULL UNIQUE, kind smallint NOT NULL, \
at bigint NOT NULL, month integer NOT NULL, call_count bigint NOT NULL, dropped boolean NOT NULL DEFAULT false)
CREATE TABLE profhouse.event (load integer, event smallint, name integer NOT NULL, self_cost bigint NOT NULL, call_cost bigint NOT NULL, \
called bigint NOT NULL, PRIMARY KEY (load, event))
CREATE TABLE profhouse.derived (load integer, name integer, PRIMARY KEY (load, name))
CREATE TABLE profhouse.coef (load integer, derived integer, event smallint, n bigint NOT NULL, PRIMARY KEY (load, derived, event))
CREATE TABLE profhouse.cost (line bigint NOT NULL, thread bigint NOT NULL, cost bigint NOT NULL, load integer NOT NULL, month integer NOT NULL, \
object integer NOT NULL, file integer NOT NULL, function integer NOT NULL, event smallint NOT NULL) PARTITION BY LIST (month)
CREATE INDEX ON profhouse.cost USING brin (load) WITH (pages_per_range = 16)
CREATE TABLE profhouse.by_function (self bigint NOT NULL, called bigint NOT NULL, load integer NOT NULL, month integer NOT NULL, \
object integer NOT NULL, function integer NOT NULL, event smallint NOT NULL) PARTITION BY LIST (month)
CREATE INDEX ON profhouse.by_function USING brin (load) WITH (pages_per_range = 4)
CREATE INDEX ON profhouse.by_function (function, load)
CREATE TABLE profhouse.call (line bigint NOT NULL, n bigint NOT NULL, load integer NOT NULL, month integer NOT NULL, object integer NOT NULL, \
file integer NOT NULL, function integer NOT NULL, called_object integer NOT NULL, called_file integer NOT NULL, \
called_function integer NOT NULL, part smallint NOT NULL) PARTITION BY LIST (month)
CREATE INDEX ON profhouse.call USING brin (load) WITH (pages_per_range = 16)
CREATE TABLE profhouse.stack (n bigint NOT NULL, load integer NOT NULL, month integer NOT NULL, frames bytea NOT NULL) PARTITION BY LIST (month)
CREATE INDEX ON profhouse.stack USING brin (load)
"""
# Those who make tables do it one after another.
LOCK = "SELECT pg_advisory_xact_lock(hashtextextended('profhouse', 0))"
BY_MONTH = ("cost", "by_function", "call", "stack")
# The form of each row of COPY: how many columns, and each behind its length.
ROWS = {"cost": struct.Struct(">h" + "iq" * 3 + "ii" * 5 + "ih"), "by_function": struct.Struct(">h" + "iq" * 2 + "ii" * 4 + "ih"),
        "call": struct.Struct(">h" + "iq" * 2 + "ii" * 8 + "ih")}
COLUMNS = {"cost": "line, thread, cost, load, month, object, file, function, event", "by_function": "self, called, load, month, object, function, event",
           "call": "line, n, load, month, object, file, function, called_object, called_file, called_function, part", "stack": "n, load, month, frames"}
STACK = struct.Struct(">hiqiiiii")
KNOWN = "SELECT id, sha256(bytes) FROM profhouse.name WHERE sha256(bytes) = ANY ($1)"
BACK = {
    "costs": "SELECT event, sum(cost), count(*) FROM profhouse.cost WHERE load = $1 AND month = $2 GROUP BY event",
    "functions": "SELECT event, sum(self), sum(called), count(*) FROM profhouse.by_function WHERE load = $1 AND month = $2 GROUP BY event",
    "calls": "SELECT part, sum(n), count(*) FROM profhouse.call WHERE load = $1 AND month = $2 GROUP BY part",
    "stacks": "SELECT coalesce(sum(n), 0), count(*) FROM profhouse.stack WHERE load = $1 AND month = $2",
}
# The runs that count, the events of them, and the months in which to look: each question about sums is asked for each factor.
OF_RUNS = " WHERE s.load = ANY ($1) AND s.event = ANY ($2) AND s.month = ANY ($3) GROUP BY "
SUMS = {
    "object": "SELECT s.object, sum(s.self) FROM profhouse.by_function AS s" + OF_RUNS + "1",
    "function": "SELECT s.object, s.function, sum(s.self) FROM profhouse.by_function AS s" + OF_RUNS + "1, 2",
    "file": "SELECT s.file, sum(s.cost) FROM profhouse.cost AS s" + OF_RUNS + "1",
    "line": "SELECT s.file, s.line, sum(s.cost) FROM profhouse.cost AS s" + OF_RUNS + "1, 2",
    "thread": "SELECT s.thread, sum(s.cost) FROM profhouse.cost AS s" + OF_RUNS + "1",
    "run": "SELECT s.load, s.object, s.function, sum(s.self) FROM profhouse.by_function AS s" + OF_RUNS + "1, 2, 3",
    "inclusive": "SELECT s.object, s.function, sum(s.self), sum(s.called) FROM profhouse.by_function AS s" + OF_RUNS + "1, 2",
}
TREND = "SELECT s.load, sum(s.self) FROM profhouse.by_function AS s" + OF_RUNS.replace(" GROUP BY ", " AND s.function = $5 AND s.object = $4 GROUP BY 1")
# Calls of a function are told apart by the other side; all others are one row, so that the sums can be compared.
CALLS = {
    "callers": """SELECT CASE WHEN s.called_object = $4 AND s.called_function = $5 THEN s.object END,
CASE WHEN s.called_object = $4 AND s.called_function = $5 THEN s.function END, sum(s.n) FROM profhouse.call AS s""",
    "callees": """SELECT CASE WHEN s.object = $4 AND s.function = $5 THEN s.called_object END,
CASE WHEN s.object = $4 AND s.function = $5 THEN s.called_function END, sum(s.n) FROM profhouse.call AS s""",
}
CALLS_OF_RUNS = " WHERE s.load = ANY ($1) AND s.part = ANY ($2) AND s.month = ANY ($3) GROUP BY 1, 2"
# Of more runs than these the whole month is read, and no index.
MANY = 50
EVENTS = """SELECT e.load, e.event, 1, e.self_cost, e.call_cost, e.called FROM profhouse.event AS e JOIN profhouse.name AS n ON n.id = e.name
WHERE e.load = ANY ($1) AND sha256(n.bytes) = sha256($2) AND n.bytes = $2"""
DERIVED = """SELECT d.load, c.event, c.n, e.self_cost, e.call_cost, e.called FROM profhouse.derived AS d JOIN profhouse.name AS n ON n.id = d.name
LEFT JOIN profhouse.coef AS c ON c.load = d.load AND c.derived = d.name LEFT JOIN profhouse.event AS e ON e.load = d.load AND e.event = c.event
WHERE d.load = ANY ($1) AND sha256(n.bytes) = sha256($2) AND n.bytes = $2"""
HAS = "SELECT EXISTS (SELECT FROM profhouse.by_function WHERE load = ANY ($1) AND month = ANY ($2) AND object = $3 AND function = $4)"
HAS_CALL = "SELECT EXISTS (SELECT FROM profhouse.call WHERE load = ANY ($1) AND month = ANY ($2)" \
    " AND ((object = $3 AND function = $4) OR (called_object = $3 AND called_function = $4)))"


def column(piece, at):
    return map(operator.itemgetter(at), piece)


def digest_of(name):
    return hashlib.sha256(name).digest()


class Postgres:
    """A database of PostgreSQL. What it is said to be, as postgresql://user@host/name, is for libpq."""

    def __init__(self, words):
        self.words = words
        self.link = Connection(words)
        # (names are put in beside the rows that need them, which are sent meanwhile)
        self.side = None
        self.numbers = {}
        self.months = set()

    def close(self):
        self.link.close()
        if self.side:
            self.side.close()

    def create(self):
        """Makes the tables, where there are none."""
        self.link.run("BEGIN")
        self.link.run(LOCK)
        if self.link.run("SELECT to_regclass('profhouse.form') IS NOT NULL") != [(b"t",)]:
            for statement in TABLES.strip().split("\n"):
                self.link.run(statement)
        self.link.run("COMMIT")

    def checked(self):
        """Refuses a database without our tables."""
        try:
            found = self.link.run("SELECT version FROM profhouse.form")
        except Refused as error:
            raise Fault(f"the database has no tables of a fleet, or you may not read them: fleet_load --create makes them ({error})") from error
        if found != [(b"%d" % VERSION,)]:
            raise Fault("the tables of the database are those of another version")

    # What a load writes.

    def held(self, digests):
        """Which of these runs are there."""
        return {bytes_of(it) for it, in self.link.run("SELECT digest FROM profhouse.load WHERE digest = ANY ($1)", blobs(digests))}

    def month(self, month):
        """Makes the parts of the tables that a month needs."""
        if month in self.months:
            return
        # (a new part waits for all who use its table, so it is not made where it is there)
        if self.link.run("SELECT to_regclass($1) IS NOT NULL", text(f"profhouse.stack_{month:06d}")) != [(b"t",)]:
            self.link.run("BEGIN")
            self.link.run(LOCK)
            for table in BY_MONTH:
                self.link.run(f"CREATE TABLE IF NOT EXISTS profhouse.{table}_{month:06d} PARTITION OF profhouse.{table} FOR VALUES IN ({month:06d})")
            self.link.run("COMMIT")
        self.months.add(month)

    def coded(self, names):
        """The number of each of these names, which are put in if they are not there."""
        if self.side is None:
            self.side = Connection(self.words)
        wanted = {digest_of(it): it for it in names}
        found = {bytes_of(digest): int(it) for it, digest in self.side.run(KNOWN, blobs(wanted))}
        # (all loads put in names in one order, so that no two wait for each other)
        new = sorted(set(wanted) - set(found))
        if new:
            self.side.run("INSERT INTO profhouse.name (bytes) SELECT unnest($1::bytea[]) ON CONFLICT DO NOTHING", blobs(wanted[it] for it in new))
            found.update((bytes_of(digest), int(it)) for it, digest in self.side.run(KNOWN, blobs(new)))
        return {name: found[digest] for digest, name in wanted.items()}

    def code(self, store, ids):
        """Sees that the numbers of these names of a store are known."""
        new = ids - self.numbers.keys()
        if new:
            names = store.names(new)
            codes = self.coded(set(names.values()))
            self.numbers.update((it, codes[name]) for it, name in names.items())

    def send(self, run, table, pieces, packed, name_columns):
        """Sends the rows of a table; a piece of them is packed when their names are known."""
        def parts():
            for piece in pieces:
                self.code(run.store, {it for at in name_columns for it in column(piece, at)})
                yield b"".join(map(packed, piece))
        self.link.copy(f"COPY profhouse.{table} ({COLUMNS[table]}) FROM STDIN WITH (FORMAT binary)", parts())

    def load(self, runs, at, month):
        """Loads runs, each in one transaction; those that are there meanwhile are passed over. Gives what was loaded."""
        self.month(month)
        for run in runs:
            if self.load_one(run, at, month):
                yield run

    def load_one(self, run, at, month):
        try:
            self.link.run("BEGIN")
            made = self.link.run("INSERT INTO profhouse.load (digest, kind, at, month, call_count) VALUES ($1, $2::bigint, $3, $4::bigint, $5)"
                                 " ON CONFLICT DO NOTHING RETURNING load",
                                 blob(run.digest), number(run.kind), number(at), number(month), number(run.call_count))
            if not made:
                self.link.run("ROLLBACK")
                return False
            load = int(made[0][0])
            self.send_rows(run, load, month)
            self.send_head(run, load)
            wrong = run.stated().differences(self.back(load, month))
            if wrong:
                raise Fault(f"what PostgreSQL has of run {run.number} differs in {', '.join(wrong)}: it is not loaded")
            self.link.run("COMMIT")
        except Refused as error:
            self.link.run("ROLLBACK")
            if error.state in (UNIQUE, DEADLOCK):
                return False
            raise
        return True

    def send_rows(self, run, load, month):
        """Sends the costs, the sums by function, the calls and the stacks of a run."""
        of = self.numbers
        cost, by_function, call = (ROWS[it].pack for it in ("cost", "by_function", "call"))
        self.send(run, "cost", run.costs(), lambda it: cost(
            9, 8, it[3], 8, it[4], 8, it[6], 4, load, 4, month, 4, of[it[0]], 4, of[it[1]], 4, of[it[2]], 2, it[5]), (0, 1, 2))
        self.send(run, "by_function", run.functions(), lambda it: by_function(
            7, 8, it[3], 8, it[4], 4, load, 4, month, 4, of[it[0]], 4, of[it[1]], 2, it[2]), (0, 1))
        self.send(run, "call", run.calls(), lambda it: call(
            11, 8, it[3], 8, it[8], 4, load, 4, month, 4, of[it[0]], 4, of[it[1]], 4, of[it[2]], 4, of[it[4]], 4, of[it[5]], 4, of[it[6]],
            2, it[7]), (0, 1, 2, 4, 5, 6))
        self.send(run, "stack", run.stacks(), lambda it: STACK.pack(4, 8, it[1], 4, load, 4, month, len(it[0])) + it[0], ())

    def send_head(self, run, load):
        """Sends the events and the formulas of a run."""
        code = self.coded({it.name for it in (*run.events, *run.formulas)}) if run.events or run.formulas else {}
        for it in run.events:
            self.link.run("INSERT INTO profhouse.event VALUES ($1::bigint, $2::bigint, $3::bigint, $4, $5, $6)", number(load), number(it.pos),
                          number(code[it.name]), number(it.self_cost), number(it.call_cost), number(run.sums.called[it.pos]))
        for it in run.formulas:
            self.link.run("INSERT INTO profhouse.derived VALUES ($1::bigint, $2::bigint)", number(load), number(code[it.name]))
            for event, n in it.terms:
                self.link.run("INSERT INTO profhouse.coef VALUES ($1::bigint, $2::bigint, $3::bigint, $4)", number(load), number(code[it.name]),
                              number(event), number(n))

    def back(self, load, month):
        """The sums of what is there of a load."""
        sums, asked = Sums(), (number(load), number(month))
        for event, cost, count in self.link.run(BACK["costs"], *asked):
            sums.costs[int(event)], sums.rows["costs"] = int(cost), sums.rows["costs"] + int(count)
        for event, own, called, count in self.link.run(BACK["functions"], *asked):
            sums.own[int(event)], sums.called[int(event)] = int(own), int(called)
            sums.rows["functions"] += int(count)
        for part, n, count in self.link.run(BACK["calls"], *asked):
            sums.rows["calls"] += int(count)
            if int(part):
                sums.calls[int(part) - 1] = int(n)
            else:
                sums.call_count = int(n)
        (samples, count), = self.link.run(BACK["stacks"], *asked)
        sums.samples, sums.rows["stacks"] = int(samples), int(count)
        return sums

    def list_runs(self, store, version, runs, groups):
        """Writes which runs a store has, and its groups, unless a newer state of it is there."""
        name = text(store)
        self.link.run("BEGIN")
        made = self.link.run("INSERT INTO profhouse.store AS s VALUES ($1, $2, $3) ON CONFLICT (store) DO UPDATE SET version = $2, groups = $3"
                             " WHERE s.version <= $2 RETURNING true", name, number(version), blob(groups))
        if made:
            self.link.run("DELETE FROM profhouse.listed WHERE store = $1", name)
            self.link.run("INSERT INTO profhouse.listed SELECT $1, * FROM unnest($2::integer[], $3::bytea[], $4::bytea[])", name,
                          integers(it.number for it in runs), blobs(it.digest for it in runs), blobs(it.label for it in runs))
        self.link.run("COMMIT")
        return bool(made)

    def drop_before(self, month):
        """Drops the rows of all months before one; their runs stay known, and count no more."""
        self.link.run("BEGIN")
        self.link.run(LOCK)
        months = [int(it) for it, in self.link.run("SELECT DISTINCT month FROM profhouse.load WHERE month < $1 AND NOT dropped", integer(month))]
        for table in ("event", "derived", "coef"):
            self.link.run(f"DELETE FROM profhouse.{table} AS t USING profhouse.load AS d WHERE t.load = d.load AND d.month < $1", integer(month))
        self.link.run("UPDATE profhouse.load SET dropped = true WHERE month < $1", integer(month))
        for its in months:
            for table in BY_MONTH:
                self.link.run(f"DROP TABLE IF EXISTS profhouse.{table}_{its:06d}")
        self.link.run("COMMIT")

    def clean(self, hours):
        """(a load that came to nothing leaves nothing)"""

    # What is asked.

    def begin(self):
        """One state for all questions that follow, which change nothing."""
        self.link.run("BEGIN ISOLATION LEVEL REPEATABLE READ READ ONLY")
        self.link.run("SET LOCAL jit = off")

    def stores(self):
        """The name of each store, and its groups."""
        return [(name.decode(), bytes_of(groups)) for name, groups in self.link.run("SELECT store, groups FROM profhouse.store")]

    def listed(self, stores):
        """The runs of these stores that count: store, run, label, digest, load, kind, time."""
        rows = self.link.run("SELECT l.store, l.run, l.label, l.digest, d.load, d.kind, d.at, d.month, d.call_count FROM profhouse.listed AS l"
                             " JOIN profhouse.load AS d USING (digest) WHERE NOT d.dropped AND l.store = ANY ($1)", texts(stores))
        return [(store.decode(), int(run), bytes_of(label), bytes_of(digest), *map(int, rest)) for store, run, label, digest, *rest in rows]

    def events(self, loads, name):
        """The runs that have an event, and how often each of theirs counts in it: load, event, factor, and its three sums; of a
        derived event that counts nothing, a row of the load alone."""
        asked = integers(loads), blob(name)
        own = [tuple(map(int, row)) for row in self.link.run(EVENTS, *asked)]
        has = {row[0] for row in own}
        derived = [tuple(int(it or 0) for it in row) for row in self.link.run(DERIVED, *asked)]
        return own + [row for row in derived if row[0] not in has]

    def each(self, weights, text_of_query, months, *more):
        """The rows of a query for each factor: those events and runs that it has in common are asked at once."""
        for factor, events, loads in grouped(weights):
            self.link.run("SET LOCAL enable_bitmapscan = off" if len(loads) > MANY else "SET LOCAL enable_bitmapscan = on")
            for row in self.link.run(text_of_query, integers(loads), integers(events), integers(months), *more):
                yield factor, row

    def sums(self, key, weights, months):
        """The sums by a key: the key's parts, a factor, and the sum of all that counts by this factor."""
        width = 2 if key == "inclusive" else -1
        found = ((factor, tuple(map(int, row))) for factor, row in self.each(weights, SUMS[key], months))
        return [(*row[:width], factor, *row[width:]) for factor, row in found]

    def whole(self, weights, months):
        """(a load is one transaction, so that its sums by function are all there)"""

    def trend(self, weights, months, object_, function):
        """What a function costs in each run: load, factor, sum."""
        rows = self.each(weights, TREND, months, integer(object_), integer(function))
        return [(int(load), factor, int(total)) for factor, (load, total) in rows]

    def calls(self, side, weights, loads, months, object_, function):
        """The calls of a function by the other side, and all others as None: object, function, whether it is a cost, factor, sum."""
        found = []
        for cost, parts in ((False, [(load, 0, 1) for load in loads]), (True, [(load, event + 1, factor) for load, event, factor in weights])):
            for factor, (one, two, total) in self.each(parts, CALLS[side] + CALLS_OF_RUNS, months, integer(object_), integer(function)):
                found.append((one and int(one), two and int(two), cost, factor, int(total)))
        return found

    def has(self, loads, months, object_, function):
        """Whether any of these runs has a function."""
        asked = integers(loads), integers(months), integer(object_), integer(function)
        # (by the index on functions)
        for scan in ("seqscan", "bitmapscan"):
            self.link.run(f"SET LOCAL enable_{scan} = off")
        found = self.link.run(HAS, *asked)
        self.link.run("SET LOCAL enable_seqscan = on")
        return found == [(b"t",)] or self.link.run(HAS_CALL, *asked) == [(b"t",)]

    def number(self, name):
        """The number of a name, or None."""
        found = self.link.run("SELECT id FROM profhouse.name WHERE sha256(bytes) = sha256($1) AND bytes = $1", blob(name))
        return int(found[0][0]) if found else None

    def names(self, ids):
        """The bytes of names by their numbers."""
        return {int(it): bytes_of(name) for it, name in self.link.run("SELECT id, bytes FROM profhouse.name WHERE id = ANY ($1)", integers(ids))}
