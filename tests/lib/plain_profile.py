"""Reads a Callgrind file of one event by plain loops, to say what its lines cost and in which lines its calls are made."""
import re
from collections import Counter

SPACES = {"ob": "ob", "cob": "ob", "fl": "fl", "fi": "fl", "fe": "fl", "cfi": "fl", "cfl": "fl", "fn": "fn", "cfn": "fn"}


class Profile:
    """The self costs by object, file, function and line; and the counts and costs of calls by the caller's object, function,
    file and line, and by the object and function that are called."""

    def __init__(self, path):
        self.costs, self.counts, self.calls = Counter(), Counter(), Counter()
        self.names, self.now, self.last, self.is_call = {}, {"ob": "???", "fl": "???", "fn": "???"}, 0, False
        with open(path, encoding="utf-8") as file:
            for line in file:
                self.take(line.rstrip("\n"))

    def take(self, line):
        named, cost = re.fullmatch(r"([a-z]+)=(?:\((\d+)\) ?)?(.*)", line), re.fullmatch(r"([+-]?\d+|\*) (\d+)", line)
        if line.startswith("calls="):
            self.is_call, self.count = True, int(line[len("calls="):].split(" ")[0])
        elif named and named[1] in SPACES:
            key = SPACES[named[1]], named[2]
            if named[2] and named[3]:
                self.names[key] = named[3]
            self.now[named[1] if named[1] in ("ob", "fn", "cob", "cfn") else key[0] if named[1][0] == "f" else "other"] = self.names[key] if named[2] else named[3]
        elif cost:
            at = cost[1]
            self.last = self.last if at == "*" else self.last + int(at) if at[0] in "+-" else int(at)
            self.add(int(cost[2]))

    def add(self, cost):
        caller = self.now["ob"], self.now["fl"], self.now["fn"], self.last
        if not self.is_call:
            self.costs[caller] += cost
            return
        called = self.now.pop("cob", self.now["ob"]), self.now.pop("cfn")
        self.counts[caller + called] += self.count
        self.calls[caller + called] += cost
        self.is_call = False

    def lines_of(self, name, function):
        """What each line of a function costs, by file and line."""
        return {(it[1], it[3]): cost for it, cost in self.costs.items() if (it[0], it[2]) == (name, function)}

    def callers_of(self, name, function):
        """Of each function that calls one: the cost and the count of its calls by file and line."""
        return self.grouped({it: (it[0], it[2]) for it in self.calls if it[4:] == (name, function)})

    def callees_of(self, name, function):
        return self.grouped({it: it[4:] for it in self.calls if (it[0], it[2]) == (name, function)})

    def grouped(self, ends):
        found = {}
        for it, end in ends.items():
            lines = found.setdefault(end, {})
            cost, count = lines.get((it[1], it[3]), (0, 0))
            lines[it[1], it[3]] = cost + self.calls[it], count + self.counts[it]
        return found

    def functions(self):
        return {(it[0], it[2]) for it in self.costs} | {it[4:] for it in self.calls}


def line_changes(before, after):
    """How lines differ, from the greatest change on, and those that only moved with their old number: a line that is new and
    one that is gone of one cost in one file."""
    gone, new = ({it: cost for it, cost in one.items() if it not in other} for one, other in ((before, after), (after, before)))
    moved = []
    for (file, line), cost in sorted(new.items()):
        old = sorted(it for it, other in gone.items() if it[0] == file and other == cost)
        if old:
            moved.append((file, line, old[0][1]))
            del gone[old[0]]
    passed = {(file, it) for file, *both in moved for it in both}
    changes = [(after.get(it, 0) - before.get(it, 0), *it) for it in {*before, *after} - passed]
    return sorted((it for it in changes if it[0]), key=lambda it: (-abs(it[0]), it[1:])), sorted(moved)
