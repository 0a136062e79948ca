"""What the rows of a store say: the answers of the commands that only read (docs/USAGE.md), computed from the rows that
SQLite's own library reads (docs/STORE.md). Texts are bytes."""
from collections import Counter, defaultdict

COLUMNS = {
    "run": "run kind digest label call_count", "run_event": "run pos name self_cost call_cost stated", "derived": "run pos name",
    "coef": "run pos event n", "name": "id bytes", "arc": "run ob fl fn cob cfl cfn part n line",
    "stack": "run frames n", "grp": "name baseline", "member": "grp run",
    "thread_cell": "run thread ob fl fn line event cost",
}
KINDS = {1: b"callgrind", 2: b"folded"}
KEYS = ("object", "file", "function", "line", "thread")
UNNAMED = b"???"
GREATEST_SUM = 1 << 112


class OutOfForm(Exception):
    """A row is not as docs/STORE.md says, so the question has to be refused."""


class Refused(Exception):
    """The question is refused for what it asks."""


class Text(bytes):
    """A text of a database; other bytes are a BLOB."""


class NoName:
    """The name of a number that has none in form: the question has to be refused where it is shown or put in order."""

    def __init__(self, at):
        self.at = at

    def __eq__(self, other):
        return isinstance(other, NoName) and self.at == other.at

    def __hash__(self):
        return hash(self.at)

    def refuse(self, *_):
        raise OutOfForm("no such name")

    __lt__ = __gt__ = __iter__ = refuse


def number(value, below=1 << 63):
    """A whole number of a row."""
    if type(value) is not int or not 0 <= value < below:
        raise OutOfForm(value)
    return value


def blob(value):
    if type(value) is not bytes:
        raise OutOfForm(value)
    return value


def text(value):
    if type(value) is not Text:
        raise OutOfForm(value)
    return bytes(value)


def escaped(name):
    """A name as it is printed."""
    return b"".join(b"\\\\" if byte == 92 else b"\\x%02x" % byte if byte < 32 or byte == 127 else bytes([byte])
                    for byte in name)


def shown(key):
    """A key as it is printed: a name, a thread, an object with a function, or a file with a line."""
    parts = key if isinstance(key, tuple) else (key,)
    return b":".join(b"%d" % part if isinstance(part, int) else escaped(part) for part in parts)


def percent(cost, total):
    part = cost * 10000 // total if total else 0
    return b"%d.%02d%%" % (part // 100, part % 100)


def in_order(sums):
    """The keys whose sum is not 0, with the greatest first, and equal ones by their keys."""
    return sorted(((key, cost) for key, cost in sums.items() if cost), key=lambda row: (-abs(row[1]), row[0]))


def bounded(sums):
    """Sums, whose total is not too great."""
    if sum(map(abs, sums.values())) >= GREATEST_SUM:
        raise OutOfForm("a sum")
    return sums


class Head:
    """The events of a run, and those that are derived."""

    def __init__(self, rows, run):
        self.events = self.in_places(rows, "run_event", run)
        self.derived = self.in_places(rows, "derived", run)
        stated = [row[-1] for row in self.events]
        if None in stated and any(it is not None for it in stated):
            raise OutOfForm("totals of some events alone")
        for it in stated:
            if it is not None and not text(it).isdigit():
                raise OutOfForm(it)
        names = [blob(row[0]) for row in self.events + self.derived]
        if len(set(names)) < len(names):
            raise OutOfForm("a name twice")
        self.times = defaultdict(dict)
        for of, place, event, times in rows["coef"]:
            if of == run:
                number(place, len(self.derived))
                self.times[place][number(event, len(self.events))] = number(times)
                if times == 0:
                    raise OutOfForm("a coefficient of 0")

    @staticmethod
    def in_places(rows, table, run):
        """The rows of a run behind their places, which have no gap."""
        found = [row[1:] for row in rows[table] if row[0] == run]
        for row in found:
            number(row[0])
        found.sort(key=lambda row: row[0])
        if [row[0] for row in found] != list(range(len(found))):
            raise OutOfForm("a gap")
        return [row[1:] for row in found]

    def counts(self, event):
        """How often each column counts in an event; None where the run does not have it."""
        for place, row in enumerate(self.events):
            if row[0] == event:
                return {place: 1}
        for place, row in enumerate(self.derived):
            if row[0] == event:
                return self.times[place]
        return None


class Rows:
    """The rows of a database, each table read when it is asked for, without an index."""

    def __init__(self, connection):
        self.connection, self.tables, self.heads = connection, {}, {}
        connection.text_factory = Text

    def __getitem__(self, table):
        if table not in self.tables:
            columns = ", ".join(COLUMNS[table].split())
            self.tables[table] = self.connection.execute(f"SELECT {columns} FROM {table} NOT INDEXED").fetchall()
        return self.tables[table]

    def name(self, at):
        if "names" not in self.tables:
            self.tables["names"] = dict(self["name"])
        name = self.tables["names"].get(number(at, 1 << 32))
        return name if type(name) is bytes else NoName(at)

    def selected(self, run):
        """The numbers of the runs of a selection: one, or all."""
        numbers = sorted(number(row[0], 1 << 32) for row in self["run"])
        if len(set(numbers)) < len(numbers):
            raise OutOfForm("a run twice")
        if run is not None and run not in numbers:
            raise Refused("no such run")
        return numbers if run is None else [run]

    def kind(self, run):
        """The kind of a run: only questions that ask for it find it out of form."""
        (kind,) = [row[1] for row in self["run"] if row[0] == run]
        if kind not in KINDS:
            raise OutOfForm("a kind")
        return kind

    def head(self, run):
        if run not in self.heads:
            self.heads[run] = Head(self, run)
        return self.heads[run]

    def counts(self, runs, event):
        """Of each run how often its columns count in an event, which one of them has to have."""
        found = {run: self.head(run).counts(event) for run in runs}
        if all(it is None for it in found.values()):
            raise Refused("no such event")
        return {run: it or {} for run, it in found.items()}

    def cells(self, run):
        """Each cell of a run: its thread, object, file, function, line, column and cost. Those of an event sum to what
        the row of the event says."""
        events, sums = self.head(run).events, Counter()
        for of, thread, *places, line, event, cost in self["thread_cell"]:
            if of == run:
                sums[number(event, len(events))] += number(cost)
                yield number(thread), *map(self.name, places), number(line), event, cost
        if any(sums[column] != number(row[1]) for column, row in enumerate(events)):
            raise OutOfForm("cells and their sum")

    def calls(self, run):
        """Each part of a call of a run: the caller, the called, the part and its number. Those of a part sum to what the
        rows of the run and of its events say."""
        events, parts, sums = self.head(run).events, Counter(), Counter()
        for of, ob, fl, fn, cob, cfl, cfn, part, count, line in self["arc"]:
            if of == run:
                caller, called = (self.name(ob), self.name(fn)), (self.name(cob), self.name(cfn))
                parts[(self.name(fl), number(line), self.name(cfl), caller, called)] += number(part, len(events) + 1) == 0
                sums[part] += number(count)
                yield caller, called, part, count
        counts = [row[4] for row in self["run"] if row[0] == run]
        if any(sums[part] != number(it) for part, it in enumerate(counts + [row[2] for row in events])):
            raise OutOfForm("calls and their sum")
        if any(count != 1 for count in parts.values()):
            raise OutOfForm("calls without a count of them")

    def stacks(self, run):
        """The stacks of a run, with their counts, which sum to the samples of a folded run."""
        found = [(blob(frames), number(count)) for of, frames, count in self["stack"] if of == run]
        samples = sum(number(row[1]) for row in self.head(run).events) if self.kind(run) == 2 else 0
        if sum(count for _, count in found) != samples:
            raise OutOfForm("stacks and their sum")
        return found

    def functions_of_stacks(self, run):
        """The functions of each stack, each once, and its count. An empty name is that of what has none."""
        for frames, count in self.stacks(run):
            yield {it or UNNAMED for it in frames.split(b";")}, count

    def by_key(self, key, event, runs):
        """What each key costs in an event over runs."""
        sums = Counter()
        for run, counts in self.counts(runs, event).items():
            for thread, ob, fl, fn, line, column, cost in self.cells(run) if counts else ():
                keys = (ob, fl, (ob, fn), (fl, line), thread)
                sums[keys[KEYS.index(key)]] += counts.get(column, 0) * cost
        return bounded(sums)


def runs(rows):
    lines, found = [], {row[0]: row for row in rows["run"]}
    for run in rows.selected(None):
        _, _, digest, label, _ = found[run]
        name = text(label)
        if len(blob(digest)) != 32 or not 1 <= len(name) <= 1024 or any(byte < 32 or byte == 127 for byte in name):
            raise OutOfForm(run)
        lines.append(b"%d %s %s %s\n" % (run, KINDS[rows.kind(run)], digest.hex().encode(), name))
    return b"".join(lines)


def groups(rows):
    lines = []
    for name, baseline in sorted(rows["grp"], key=lambda row: text(row[0])):
        members = sorted(number(run, 1 << 32) for group, run in rows["member"] if group == name)
        based = b"-" if baseline is None else b"%d" % number(baseline, 1 << 32)
        lines.append(b"%s %s %s\n" % (name, based, b",".join(b"%d" % it for it in members) or b"-"))
    return b"".join(lines)


def verify(rows, run=None):
    """The sums of self costs that the rows of events have, beside the totals that are stated."""
    return verified(rows, run, lambda it: [row[1] for row in rows.head(it).events])


def verify_cells(rows, run=None):
    """The same, with the sums of the cells: in a store that no one damaged these are equal."""
    return verified(rows, run, lambda it: sums_of_columns(rows, it))


def sums_of_columns(rows, run):
    sums = [0] * len(rows.head(run).events)
    for *_, column, cost in rows.cells(run):
        sums[column] += cost
    return sums


def verified(rows, run, sums_of):
    lines = []
    for it in rows.selected(run):
        for (name, _, _, stated), cost in zip(rows.head(it).events, sums_of(it)):
            word = b"none" if stated is None else b"ok" if int(stated) == number(cost) else b"differs"
            total = b"none" if stated is None else b"%d" % int(stated)
            lines.append(b"%d %s %d %s %s\n" % (it, escaped(blob(name)), number(cost), total, word))
    return b"".join(lines)


def by(rows, event, key, run=None):
    sums = rows.by_key(key, event, rows.selected(run))
    total = sum(sums.values())
    lines = [(total, b"total"), *((cost, shown(it)) for it, cost in in_order(sums)), (0, b"(rest)")]
    return b"by %s %s\n" % (key.encode(), escaped(event)) + b"".join(
        b"%d %s %s\n" % (cost, percent(cost, total), name) for cost, name in lines)


def inclusive(rows, event, run=None):
    """What functions cost with all that they call: by the cells and the calls of a Callgrind run, or the stacks."""
    chosen, sums, total = rows.selected(run), Counter(), 0
    for it, counts in rows.counts(chosen, event).items():
        is_callgrind = bool(counts) and rows.kind(it) == 1
        for _, ob, _, fn, _, column, cost in rows.cells(it) if counts and is_callgrind else ():
            total += counts.get(column, 0) * cost
            sums[(ob, fn)] += counts.get(column, 0) * cost
        for caller, called, part, cost in rows.calls(it) if counts and is_callgrind else ():
            if part and caller != called:
                sums[caller] += counts.get(part - 1, 0) * cost
        for functions, count in rows.functions_of_stacks(it) if counts and not is_callgrind else ():
            total += counts.get(0, 0) * count
            for function in functions:
                sums[(UNNAMED, function)] += counts.get(0, 0) * count
    lines = [(total, b"total"), *((cost, shown(key)) for key, cost in in_order(bounded(sums)))]
    return b"inclusive %s\n" % escaped(event) + b"".join(
        b"%d %s %s\n" % (cost, percent(cost, total), name) for cost, name in lines)


def has_function(rows, runs_asked, function):
    for run in runs_asked:
        if any((ob, fn) == function for _, ob, _, fn, *_ in rows.cells(run)):
            return True
        if any(function in (caller, called) for caller, called, *_ in rows.calls(run)):
            return True
        if function[0] == UNNAMED and any(function[1] in it for it, _ in rows.functions_of_stacks(run)):
            return True
    return False


def _calls(rows, word, event, function, run):
    costs, times, chosen, is_known = Counter(), Counter(), rows.selected(run), False
    for it, counts in rows.counts(chosen, event).items():
        for caller, called, part, count in rows.calls(it):
            is_known = is_known or function in (caller, called)
            if function != (called if word == b"callers" else caller):
                continue
            other = caller if word == b"callers" else called
            times[other] += count if part == 0 else 0
            costs[other] += counts.get(part - 1, 0) * count if part else 0
    # A function that a call has is known; for any other the cells and the stacks are read.
    if not is_known and not has_function(rows, chosen, function):
        raise Refused("no such name")
    order = sorted(times, key=lambda key: (-bounded(costs)[key], key))
    lines = [(costs[key], times[key], shown(key)) for key in order]
    lines.insert(0, (sum(costs.values()), sum(times.values()), b"total"))
    head = b"%s %s %s\n" % (word, escaped(event), shown(function))
    return head + b"".join(b"%d %d %s\n" % line for line in lines)


def callers(rows, event, function, run=None):
    return _calls(rows, b"callers", event, function, run)


def callees(rows, event, function, run=None):
    return _calls(rows, b"callees", event, function, run)


def subtract(rows, event, key, run, less):
    chosen = [rows.selected(it) for it in (run, less)]
    heads = [rows.head(it).counts(event) for it in chosen[0] + chosen[1]]
    if all(it is None for it in heads):
        raise Refused("no such event")
    sides = []
    for numbers in chosen:
        has_event = any(rows.head(it).counts(event) is not None for it in numbers)
        sides.append(rows.by_key(key, event, numbers) if has_event else Counter())
    sums = Counter(sides[0])
    sums.subtract(sides[1])
    lines = [(sum(sums.values()), b"total"), *((cost, shown(it)) for it, cost in in_order(sums))]
    return b"subtract %s %s\n" % (key.encode(), escaped(event)) + b"".join(b"%d %s\n" % line for line in lines)


def annotate(rows, event, file, source, run=None):
    """The costs of a file beside the lines of its source."""
    chosen = rows.selected(run)
    costs = {line: cost for (name, line), cost in rows.by_key("line", event, chosen).items() if name == file}
    if not any(fl == file for it in chosen for _, _, fl, *_ in rows.cells(it)):
        raise Refused("no such name")
    lines = source.split(b"\n")[:-1] if source.endswith(b"\n") else source.split(b"\n")
    rest = sum(costs.values())
    found = [b"annotate %s %s\n" % (escaped(file), escaped(event)), b"%d total\n" % rest]
    for at, line in enumerate(lines, 1):
        cost = costs.get(at, 0)
        found.append(b"%s %d: %s\n" % (b"%d" % cost if cost else b".", at, line))
        rest -= cost
    return b"".join([*found, b"%d (outside)\n" % rest])


def field(value):
    """A field of RFC 4180."""
    is_plain = not any(byte in value for byte in b'",\r\n')
    return value if is_plain else b'"' + value.replace(b'"', b'""') + b'"'


def csv(rows, run=None):
    sums = Counter()
    for it in rows.selected(run):
        events = [blob(name) for name, *_ in rows.head(it).events]
        for _, ob, fl, fn, line, column, cost in rows.cells(it):
            sums[(ob, fl, fn, line, events[column])] += cost
    lines = [b"%s,%s,%s,%d,%s,%d\n" % (field(ob), field(fl), field(fn), line, field(event), cost)
             for (ob, fl, fn, line, event), cost in sorted(bounded(sums).items()) if cost]
    return b"object,file,function,line,event,cost\n" + b"".join(lines)


def folded(rows, run=None):
    sums = Counter()
    for it in rows.selected(run):
        for frames, count in rows.stacks(it):
            sums[frames] += count
    return b"".join(b"%s %d\n" % row for row in sorted(bounded(sums).items()))


def said(rows, question, words):
    """What the program prints for a question, and its status; None where it has to refuse."""
    try:
        return question(rows, *words), 0
    except Refused as refusal:
        return b"refused: %s\n" % str(refusal).encode(), 1
    except OutOfForm:
        return None
