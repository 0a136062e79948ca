"""The reports of fleet_ask: which runs count, what they sum to, and what is printed. It knows no engine.

An engine sums the costs of each factor exactly, and what is multiplied and added then are Python's own numbers. It is
imported, not run.
"""
import csv
import io
import json
import os
import sys
import time
from collections import defaultdict, namedtuple

from fleet_store import KINDS
from profhouse_http import escaped
from profhouse_script import Fault, shown

# A run that a store lists and that is there. Two stores may list one run: it is one load.
Run = namedtuple("Run", "store number label digest load kind at month call_count")
# The sums that are stated of the chosen event of a run, and how often its events count.
Parts = namedtuple("Parts", "load event factor own calls called")
NAMED = {"object": ("object",), "file": ("file",), "function": ("object", "function"), "line": ("file",), "thread": ()}
# What `grew` asks at a time.
RUNS_AT_A_TIME = 200


class Chosen:
    """The runs of a selection, each once, with the parts of an event in each."""

    def __init__(self, engine, runs, event):
        self.runs = list({it.load: it for it in runs}.values())
        self.months = sorted({it.month for it in self.runs})
        self.loads = [it.load for it in self.runs]
        self.parts = [Parts(*row) for row in engine.events(self.loads, event)]
        self.having = {it.load for it in self.parts}

    def weights(self, sign=1):
        return [(it.load, it.event, sign * it.factor) for it in self.parts if it.factor]

    def stated(self, what="own"):
        return sum(it.factor * getattr(it, what) for it in self.parts)


class Fleet:
    """The stores of an engine, in the state in which they are when it is opened."""

    def __init__(self, engine):
        self.engine = engine
        engine.begin()
        self.groups = {name: groups_of(text) for name, text in engine.stores()}

    def runs(self, names, run=None, group=None, last=None, since=None, until=None):
        """The runs of a selection."""
        for name in names or ():
            if name not in self.groups:
                raise Fault(f"no such store: {shown(name)}")
        if run is not None and len(names or self.groups) != 1:
            raise Fault("--run N is of one store: give --store")
        runs = sorted((Run(*row) for row in self.engine.listed(names or sorted(self.groups))), key=lambda it: (it.store, it.number))
        if run is not None:
            runs = [it for it in runs if it.number == run]
            if not runs:
                raise Fault("no such run")
        if group is not None:
            members = self.members(names, group)
            runs = [it for it in runs if it.number in members.get(it.store, ())]
        runs = [it for it in runs if (since is None or it.at >= since) and (until is None or it.at < until)]
        return runs if last is None else [it for of_store in by_store(runs).values() for it in of_store[-last:]]

    def members(self, names, group):
        """The members of a group in each store that has it."""
        found = {it: self.groups[it][group][1] for it in names or self.groups if group in self.groups[it]}
        if not found:
            raise Fault("no such group")
        return found

    def baselines(self, names, group):
        """The baselines of a group."""
        self.members(names, group)
        wanted = {it: self.groups[it][group][0] for it in names or self.groups if group in self.groups[it]}
        if None in wanted.values():
            raise Fault("no baseline")
        return [it for it in self.runs(names) if it.number == wanted.get(it.store)]

    def chosen(self, runs, event):
        found = Chosen(self.engine, runs, event)
        if not found.having:
            raise Fault("no such event")
        return found


def by_store(runs):
    found = defaultdict(list)
    for it in runs:
        found[it.store].append(it)
    return found


def groups_of(text):
    """The groups of a store, as `profhouse groups` prints them: the baseline and the members of each."""
    found = {}
    for line in text.decode("ascii").split("\n")[:-1]:
        name, first, members = line.split(" ")
        found[name] = (None if first == "-" else int(first), set() if members == "-" else set(map(int, members.split(","))))
    return found


def added(rows):
    """Sums by key: of each row the sum counts by its factor."""
    sums = defaultdict(int)
    for *key, factor, total in rows:
        sums[tuple(key)] += factor * total
    return sums


def proved(found, stated, what="the costs"):
    """Refuses an answer that does not sum to what was stated when the runs were loaded."""
    if found != stated:
        raise Fault(f"{what} that are there sum to {found}, and the runs state {stated}: a node is behind, or has lost a part")


def named(engine, key, sums):
    """The sums with their names in place of the numbers: keys are of bytes, lines and threads."""
    width = len(NAMED[key])
    names = engine.names({it for ids in sums for it in ids[:width]}) if width else {}
    try:
        return {(*(names[it] for it in ids[:width]), *ids[width:]): cost for ids, cost in sums.items()}
    except KeyError as error:
        raise Fault(f"the name {error} is missing: a node is behind, or has lost a part") from error


def text_of(key):
    return b":".join(b"%d" % it if isinstance(it, int) else escaped(it) for it in key)


def share(cost, total):
    hundredths = 10000 * cost // total if total else 0
    return b"%d.%02d%%" % divmod(hundredths, 100)


class Report:
    """What is printed: a head, a line for the whole, rows, and perhaps a line for the rest. A row is what stands before its
    key, and the key."""

    def __init__(self, words, columns, key, whole, rows, rest=None):
        self.words, self.columns, self.key, self.whole, self.rows, self.rest = words, columns, key, whole, rows, rest

    def as_text(self):
        lines = [b" ".join(self.words)]
        if self.whole is not None:
            lines.append(b" ".join([*self.whole, b"total"]))
        lines += [b" ".join([*front, *([text_of(key)] if key else [])]) for front, key in self.rows]
        if self.rest is not None:
            lines.append(b" ".join([*self.rest, b"(rest)"]))
        return b"".join(it + b"\n" for it in lines)

    def cells(self):
        """Each row by its columns, as texts in which nothing is hidden."""
        for front, key in self.rows:
            yield [shown(it) for it in front] + [shown(it if isinstance(it, int) else escaped(it)) for it in key]

    def as_csv(self):
        out = io.StringIO()
        writer = csv.writer(out, lineterminator="\n")
        writer.writerow([*self.columns, *self.key])
        writer.writerows(self.cells())
        return out.getvalue().encode()

    def as_json(self):
        """Numbers are texts, since most who read them would round them."""
        columns = [*self.columns, *self.key]
        said = {"report": [shown(it) for it in self.words], "rows": [dict(zip(columns, it)) for it in self.cells()]}
        for name, front in (("total", self.whole), ("rest", self.rest)):
            if front is not None:
                said[name] = dict(zip(self.columns, map(shown, front)))
        return json.dumps(said, ensure_ascii=False).encode() + b"\n"


def digits(*numbers):
    return [b"%d" % it for it in numbers]


def key_columns(key):
    return {"line": ("file", "line"), "thread": ("thread",)}.get(key, NAMED[key])


def by(fleet, runs, event, key, limit=None, threshold=100):
    """Self costs by a key."""
    chosen = fleet.chosen(runs, event)
    sums = added(fleet.engine.sums(key, chosen.weights(), chosen.months))
    total = sum(sums.values())
    proved(total, chosen.stated())
    rows = sorted(((cost, it) for it, cost in named(fleet.engine, key, sums).items() if cost), key=lambda it: (-it[0], it[1]))
    shown_rows, so_far = [], 0
    for cost, it in rows:
        if so_far * 100 >= threshold * total or limit is not None and len(shown_rows) >= limit:
            break
        so_far += cost
        shown_rows.append(([b"%d" % cost, share(cost, total)], it))
    rest = [b"%d" % (total - so_far), share(total - so_far, total)]
    return Report([b"by", key.encode(), escaped(event)], ("cost", "percent"), key_columns(key), [b"%d" % total, share(total, total)], shown_rows, rest)


def inclusive(fleet, runs, event):
    """What functions cost with all that they call."""
    chosen = fleet.chosen(runs, event)
    rows = fleet.engine.sums("inclusive", chosen.weights(), chosen.months)
    total = sum(factor * own for *_, factor, own, _ in rows)
    proved(total, chosen.stated())
    proved(sum(factor * called for *_, factor, _, called in rows), chosen.stated("called"), "the costs of calls")
    sums = added((*key, factor, own + called) for *key, factor, own, called in rows)
    costs = sorted(((cost, it) for it, cost in named(fleet.engine, "function", sums).items() if cost), key=lambda it: (-it[0], it[1]))
    return Report([b"inclusive", escaped(event)], ("cost", "percent"), NAMED["function"], [b"%d" % total, share(total, total)],
                  [([b"%d" % cost, share(cost, total)], it) for cost, it in costs])


def numbers_of(fleet, object_, function):
    """The numbers of the names of a function."""
    ids = [fleet.engine.number(it) for it in (object_, function)]
    if None in ids:
        raise Fault("no such name")
    return ids


def known(fleet, chosen, ids, found):
    """Refuses a function that none of the runs has. (Where something was found of it, it need not be sought again.)"""
    if not found and not fleet.engine.has(chosen.loads, chosen.months, *ids):
        raise Fault("no such name")


def calls(fleet, runs, event, side, object_, function):
    """Who calls a function, or whom it calls."""
    chosen = fleet.chosen(runs, event)
    ids = numbers_of(fleet, object_, function)
    rows = fleet.engine.calls(side, chosen.weights(), chosen.loads, chosen.months, *ids)
    known(fleet, chosen, ids, any(row[:2] != (None, None) for row in rows))
    costs, counts = added(row[:2] + row[3:] for row in rows if row[2]), added(row[:2] + row[3:] for row in rows if not row[2])
    proved(sum(costs.values()), chosen.stated("calls"), "the costs of calls")
    proved(sum(counts.values()), sum(it.call_count for it in chosen.runs), "the calls")
    counts.pop((None, None), None)
    found = named(fleet.engine, "function", {it: (costs[it], count) for it, count in counts.items()})
    lines = sorted(((cost, count, it) for it, (cost, count) in found.items()), key=lambda it: (-it[0], it[2]))
    whole = digits(sum(it[0] for it in lines), sum(it[1] for it in lines))
    return Report([side.encode(), escaped(event), text_of((object_, function))], ("cost", "count"), NAMED["function"], whole,
                  [(digits(cost, count), it) for cost, count, it in lines])


def subtract(fleet, runs, less, event, key):
    """How self costs differ."""
    sides = [Chosen(fleet.engine, it, event) for it in (runs, less)]
    if not sides[0].having and not sides[1].having:
        raise Fault("no such event")
    weights = defaultdict(int)
    for chosen, sign in zip(sides, (1, -1)):
        for load, it, factor in chosen.weights(sign):
            weights[load, it] += factor
    months = sorted({*sides[0].months, *sides[1].months})
    sums = added(fleet.engine.sums(key, [(*it, n) for it, n in weights.items() if n], months))
    total = sum(sums.values())
    proved(total, sides[0].stated() - sides[1].stated())
    rows = sorted(((cost, it) for it, cost in named(fleet.engine, key, sums).items() if cost), key=lambda it: (-abs(it[0]), it[1]))
    return Report([b"subtract", key.encode(), escaped(event)], ("cost",), key_columns(key), digits(total), [(digits(cost), it) for cost, it in rows])


def utc(seconds):
    return time.strftime("%Y-%m-%dT%H:%M:%SZ", time.gmtime(seconds)).encode()


def label_of(run):
    """A label as `profhouse runs` prints it."""
    return escaped(run.label).replace(b"\\\\", b"\\")


def trend(fleet, runs, event, object_, function):
    """What a function costs in each run, in the order of time."""
    chosen = fleet.chosen(runs, event)
    ids = numbers_of(fleet, object_, function)
    fleet.engine.whole(chosen.weights(), chosen.months)
    costs = added(fleet.engine.trend(chosen.weights(), chosen.months, *ids))
    known(fleet, chosen, ids, bool(costs))
    rows = [([b"%d" % costs[it.load,], it.store.encode(), b"%d" % it.number, utc(it.at), label_of(it)], ())
            for it in sorted(runs, key=lambda it: (it.at, it.store, it.number)) if it.load in chosen.having]
    return Report([b"trend", escaped(event), text_of((object_, function))], ("cost", "store", "run", "time", "label"), (), None, rows)


def grew(fleet, runs, event, limit=None):
    """How the functions of each of these runs differ from the run before it in its store that has the event."""
    all_ = by_store(fleet.runs(sorted({it.store for it in runs})))
    having = Chosen(fleet.engine, [it for of_store in all_.values() for it in of_store], event).having
    steps = []
    for store, of_store in all_.items():
        with_it = [it for it in of_store if it.load in having]
        wanted = {it.number for it in runs if it.store == store}
        steps += [(before, after) for before, after in zip([None, *with_it], with_it) if after.number in wanted and before]
    if not having:
        raise Fault("no such event")
    rows = []
    for at in range(0, len(steps), RUNS_AT_A_TIME):
        rows = kept(rows + differences(fleet, steps[at:at + RUNS_AT_A_TIME], event), limit)
    names = fleet.engine.names({it for row in rows for it in row[2]})
    lines = sorted(((change, after.store, after.number, tuple(names[it] for it in ids)) for change, after, ids in rows), key=lambda it: (-abs(it[0]), it[1:]))
    return Report([b"grew", escaped(event)], ("cost", "store", "run"), NAMED["function"], None,
                  [([b"%d" % change, store.encode(), b"%d" % number], it) for change, store, number, it in lines[:limit]])


def differences(fleet, steps, event):
    """The changes of functions from one run to another, for some pairs of runs."""
    chosen = fleet.chosen([it for step in steps for it in step], event)
    of_run = defaultdict(lambda: defaultdict(int))
    for load, *ids, factor, own in fleet.engine.sums("run", chosen.weights(), chosen.months):
        of_run[load][tuple(ids)] += factor * own
    proved(sum(sum(it.values()) for it in of_run.values()), chosen.stated())
    found = []
    for before, after in steps:
        one, two = of_run[before.load], of_run[after.load]
        found += [(two.get(it, 0) - one.get(it, 0), after, it) for it in one.keys() | two.keys() if one.get(it, 0) != two.get(it, 0)]
    return found


def kept(rows, limit):
    """The rows that may be among the greatest."""
    if limit is None or len(rows) <= limit:
        return rows
    least = sorted((abs(it[0]) for it in rows), reverse=True)[limit - 1] if limit else 0
    return [it for it in rows if abs(it[0]) >= least] if limit else []


def list_of(runs):
    """The runs themselves."""
    return Report([b"runs"], ("store", "run", "kind", "sha256", "time", "label"), (), None,
                  [([it.store.encode(), b"%d" % it.number, KINDS[it.kind].encode(), it.digest.hex().encode(), utc(it.at), label_of(it)], ())
                   for it in runs])


def write(report, form):
    """Prints a report; on a terminal, with nothing hidden."""
    text = {"text": report.as_text, "csv": report.as_csv, "json": report.as_json}[form]()
    if os.isatty(1):
        text = (shown(text, "\n\t")).encode()
    sys.stdout.buffer.write(text)
    sys.stdout.buffer.flush()
