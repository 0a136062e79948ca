"""Compares every report of fleet_ask with what profhouse says over the same runs, line by line: for tests/by_hand/fleet."""
import os
import re

from fleet_stores import facts
from forked import ran

KEYS = ("object", "file", "function", "line", "thread")
# How many functions of a store are asked for their calls, and for their trend.
FUNCTIONS, TRENDS = 60, 12


def is_text(word):
    """Whether a word of a command line is UTF-8."""
    try:
        os.fsencode(word).decode()
    except UnicodeDecodeError:
        return False
    return True


class Compared:
    """The reports of a fleet beside those of the stores that were loaded into it."""

    def __init__(self, tried, said):
        self.tried, self.lines, self.reports, self.said = tried, 0, 0, said

    def asked(self, *words):
        return ran("fleet_ask", *words, folder=self.tried.folder, environment=self.tried.environment)

    def program(self, *words):
        """What profhouse says, which is kept for the other engine."""
        if words not in self.said:
            done = self.tried.run(self.tried.program, *words)
            self.said[words] = done.status, done.out
        return self.said[words]

    def same(self, command, store, *words, where=()):
        """One report over one store."""
        status, out = self.program(command, "--db", f"{store}.db", *where, *words)
        if not all(map(is_text, words)):
            # (the program takes words of UTF-8 alone, and so has no report by these)
            self.tried.expect(f"{command} by words that are no text", (status, out), (1, b""))
            return
        done = self.asked(command, "--store", store, *where, *words)
        self.reports += 1
        self.lines += out.count(b"\n")
        if status:
            wanted = (2, b"", re.sub(rb"^refused: ", b"fleet_ask: ", out))
        else:
            wanted = (0, out, b"")
        if tuple(done) != wanted:
            self.tried.expect(f"{command} of {store} {where} {words}", tuple(done), wanted)
        else:
            self.tried.passed += 1

    def store(self, name):
        """All reports over one store."""
        runs, events, functions = facts(self.tried.path(f"{name}.db"))
        every = sorted({it for of_run in events.values() for it in of_run})
        places = [("--run", str(run)) for run in runs] + [("--group", it) for it in ("main", "bare", "empty", "none")] + [(), ("--run", "99")]
        for where in places:
            of_run = events.get(int(where[1])) if where[:1] == ("--run",) else None
            for event in [*(of_run or some(every)), b"NoSuch"]:
                for key in KEYS:
                    self.same("by", name, "--event", event, key, where=where)
                self.same("inclusive", name, "--event", event, where=where)
        self.cut(name, every)
        self.differences(name, runs, every)
        self.calls(name, every, functions, places)
        self.trends(name, runs, events, functions)

    def cut(self, name, events):
        for more in (("--limit", "3"), ("--limit", "0"), ("--threshold", "0"), ("--threshold", "55"), ("--threshold", "90", "--limit", "7")):
            for event in events[:3]:
                self.same("by", name, "--event", event, *more, "function")
                self.same("by", name, "--event", event, *more, "line")

    def differences(self, name, runs, events):
        for event in [*some(events), b"NoSuch"]:
            for key in KEYS:
                for one, two in zip(runs, [*runs[1:], runs[0]]):
                    self.same("subtract", name, "--event", event, key, where=("--run", str(two), "--less-run", str(one)))
                for where in (("--group", "main"), ("--group", "bare"), ("--group", "bare", "--less-group", "main"), ()):
                    self.same("subtract", name, "--event", event, key, where=where)

    def calls(self, name, events, functions, places):
        step = max(1, len(functions) // FUNCTIONS)
        for at, (object_, function) in enumerate(functions[::step]):
            if b"\0" in object_ + function or not function or function.startswith(b"-"):
                continue
            event = events[at % len(events)]
            for side in ("callers", "callees"):
                self.same(side, name, "--event", event, f"--object={object_.decode('utf-8', 'surrogateescape')}", function, where=places[at % len(places)])
        self.same("callers", name, "--event", events[0], "no such function")

    def trends(self, name, runs, events, functions):
        """A trend has what `by function` has of each run, and `grew` what `subtract` has."""
        for event in sorted({it for of_run in events.values() for it in of_run})[:4]:
            having = [run for run in runs if event in events[run]]
            by_run = {run: self.costs("by", name, event, "--run", str(run)) for run in having}
            for object_, function in functions[::max(1, len(functions) // TRENDS)]:
                key = shown(object_) + b":" + shown(function)
                known = any(key in self.costs("inclusive", name, event, "--run", str(run)) for run in having)
                if b"\0" in key or not known or function.startswith(b"-") or not function:
                    continue
                done = self.asked("trend", "--store", name, "--event", event, f"--object={object_.decode('utf-8', 'surrogateescape')}", function)
                rows = [it.split(b" ") for it in done.out.split(b"\n")[1:-1]]
                # (in the order of their times, which are those of the loads, so not always of their numbers)
                found, times = sorted((int(it[2]), int(it[0])) for it in rows), [(it[3], int(it[2])) for it in rows]
                self.lines += len(found)
                wanted = sorted((run, by_run[run].get(key, 0)) for run in having)
                self.tried.expect(f"trend of {key} in {name}, {event}", (done.err, found, times), (b"", wanted, sorted(times)))
            self.grown(name, event, having)

    def grown(self, name, event, having):
        wanted = []
        for one, two in zip(having, having[1:]):
            rows = self.costs("subtract", name, event, "--run", str(two), "--less-run", str(one))
            wanted += [b"%d %s %d %s" % (cost, name.encode(), two, key) for key, cost in rows.items()]
        done = self.asked("grew", "--store", name, "--event", event, "--last", "99")
        self.lines += len(wanted)
        self.tried.expect(f"grew of {name}, {event}", (done.err, sorted(done.out.split(b"\n")[1:-1])), (b"", sorted(wanted)))
        costs = [abs(int(it.split(b" ")[0])) for it in done.out.split(b"\n")[1:-1]]
        self.tried.expect(f"the order of grew of {name}", costs, sorted(costs, reverse=True))
        least = self.asked("grew", "--store", name, "--event", event, "--last", "99", "--limit", "5").out
        self.tried.expect(f"the greatest of grew of {name}", least.split(b"\n")[1:-1], done.out.split(b"\n")[1:-1][:5])

    def costs(self, command, name, event, *where):
        """The rows of a report of profhouse: the cost of each key."""
        words = (command, "--db", f"{name}.db", *where, "--event", event, *(() if command == "inclusive" else ("function",)))
        rows = [it.split(b" ") for it in self.program(*words)[1].split(b"\n")[2:-1]]
        skip = 1 if command == "subtract" else 2
        return {b" ".join(row[skip:]): int(row[0]) for row in rows if b" ".join(row[skip:]) != b"(rest)"}

    def fleet(self, names, merged):
        """Reports over all stores, beside those of one store that has all files but those whose sums pass its bound."""
        _, events, _ = facts(self.tried.path(f"{merged}.db"))
        every = sorted({it for of_run in events.values() for it in of_run})
        stores = [word for it in names for word in ("--store", it)]
        for event in some(every):
            for key in KEYS:
                self.equal(("by", *stores, "--event", event, key), ("by", "--db", f"{merged}.db", "--event", event, key))
            self.equal(("inclusive", *stores, "--event", event), ("inclusive", "--db", f"{merged}.db", "--event", event))

    def equal(self, words, of_program):
        status, out = self.program(*of_program)
        self.lines += out.count(b"\n")
        self.reports += 1
        done = self.asked(*words)
        self.tried.expect(f"{words[0]} over all stores, {words[-2:]}", tuple(done), (status, out, b""))

    def past_64_bits(self):
        """Sums that no store can have, beside those of its stores added up."""
        for event in (b"Huge", b"Big"):
            wanted = {}
            for name in ("odd", "odd_too", "huge"):
                for run in facts(self.tried.path(f"{name}.db"))[0]:
                    for key, cost in self.costs("by", name, event, "--run", str(run)).items():
                        wanted.setdefault((name, run), {})[key] = cost
            # (the run that two of them have counts once)
            once = {tuple(sorted(rows.items())): rows for rows in wanted.values()}
            sums = {}
            for rows in once.values():
                for key, cost in rows.items():
                    sums[key] = sums.get(key, 0) + cost
            done = self.asked("by", "--store", "odd", "--store", "odd_too", "--store", "huge", "--event", event, "function")
            rows = [it.split(b" ", 2) for it in done.out.split(b"\n")[2:-2]]
            self.lines += len(rows)
            self.tried.expect(f"sums past 64 bits of {event}", ({it[2]: int(it[0]) for it in rows}, sum(sums.values()) > 2 ** 63), (sums, True))


def some(events):
    """Some of the events, of the measured and of the derived ones."""
    return events if len(events) < 6 else [*events[:2], events[len(events) // 2], *events[-3:]]


def shown(name):
    return re.sub(rb"[\x00-\x1f\x7f\\]", lambda it: b"\\\\" if it[0] == b"\\" else b"\\x%02x" % it[0][0], name)
