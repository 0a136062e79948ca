"""What scripts beside this file share: the costs of a run by a key, how they differ, and when a difference is more than noise.

All costs are whole numbers as a server prints them, and the rows of a report have to sum to its total. It is imported, not
run. A script that is copied elsewhere needs this file beside it.
"""
import operator
import os
import re
from collections import namedtuple

from profhouse_http import CALL_LINE, SHARE_LINE, SUM_LINE, escaped, fields_of, pairs_of, plain, said_by
from profhouse_names import Name, last_part, matched, names_of
from profhouse_script import Fault, WordFault, shown

KEYS = ("object", "file", "function", "line", "thread")
# So many runs before a run, and with it so many from it on, tell what is noise.
AROUND = 2
NO_EVENT, NO_NAME = b"refused: no such event\n", b"refused: no such name\n"
LIMIT = re.compile(r"([0-9]{1,1000})(?:(?:\.([0-9]{1,1000}))?(%))?")
STACK_LINE = re.compile(rb"([^\n]+) ([0-9]{1,4000})")

# What a pair of a name and a cost has.
COST = operator.itemgetter(1)

# The total of a run, and the cost of each key as it is printed.
Costs = namedtuple("Costs", "total rows")
# What a call costs, how often it is made, and the function at its other end. Stacks do not tell how often.
Call = namedtuple("Call", "cost count key")


class Limit:
    """How much more may be: a number, or a part of what was before."""

    def __init__(self, text, name="LIMIT"):
        found = LIMIT.fullmatch(text)
        if not found:
            # (Python reads no number of many thousand digits)
            raise Fault(f"{name} is digits, as 50000, or a percentage, as 2% or 0.5%, and not '{shown(text)}'")
        whole, decimals, percent = found[1], found[2] or "", found[3]
        self.text = text
        # The limit is top / below, of the cost before if `is_part`.
        self.is_part = bool(percent)
        self.top, self.below = int(whole + decimals), 10 ** len(decimals) * (100 if percent else 1)

    def is_passed(self, more, before):
        if self.is_part and before == 0:
            raise Fault("the baseline costs nothing, and a percentage of nothing says nothing: give a number")
        return more * self.below > self.top * (before if self.is_part else 1)

    def said(self, before):
        return f"{self.text} of {before}" if self.is_part else self.text


def percentage(text, name):
    """A limit that is a percentage."""
    limit = Limit(text, name) if text.endswith("%") else None
    if limit is None:
        raise WordFault(f"{name} is a percentage, as 2% or 0.5%, and not '{shown(text)}'")
    return limit


def share(cost, before):
    """A cost as a percentage of what was before, cut to two decimals; of nothing it is none."""
    if before == 0:
        return ""
    hundredths = abs(cost) * 10000 // before
    return f"{'-' if cost < 0 else '+'}{hundredths // 100}.{hundredths % 100:02}"


def part(cost, whole):
    """A cost as a percentage of the whole."""
    return share(cost, whole).lstrip("+")


def answer_of(server, path, refusal, **query):
    """The answer to a question, or None where it is refused so."""
    return accepted_of(server.ask("GET", path, list(query.items())), refusal, query)


def accepted_of(answer, refusal, query):
    accepted, text = answer
    if accepted or text == refusal:
        return text if accepted else None
    raise Fault(f"{said_of(query)}: {said_by(text)}")


# The runs of a report are a pair for its query, as ("run", "7"), or ("group", "main") where a group is added up.
def of_run(number):
    return {"run": str(number)}


def said_of(query):
    return next((f"{it} {shown(query[it])}" for it in ("run", "group") if it in query), "the server")


def added(pairs):
    """The costs by their keys. Names that are printed alike, as `a:b:c` of object `a` or `a:b`, are one."""
    costs = dict(pairs)
    if len(costs) < len(pairs):
        costs = dict.fromkeys(costs, 0)
        for key, cost in pairs:
            costs[key] += cost
    return costs


def question_of(of, event, key, inclusive=False):
    """The path and the query of what runs cost by a key. Without a key the total alone is asked for."""
    path = "/inclusive" if inclusive else f"/reports/{key or 'object'}"
    return path, {**of, "event": event, **({} if key or inclusive else {"limit": "0"})}


def costs_in(text, of, event, key, inclusive=False):
    """The costs that an answer has. Self costs sum to the total, those with all that is called sum to nothing."""
    total, rows = pairs_of(text, SHARE_LINE, "inclusive" if inclusive else f"by {key or 'object'}", event)
    if inclusive:
        return Costs(total, added(rows))
    if not rows or rows[-1][0] != b"(rest)" or sum(map(COST, rows)) != total or (key and rows[-1][1] != 0):
        raise Fault(f"{said_of(of)}: the rows of the answer do not sum to its total")
    return Costs(total, added(rows[:-1]))


def costs_of(server, of, event, key, inclusive=False):
    """What runs cost by a key, or None where they have no such event."""
    path, query = question_of(of, event, key, inclusive)
    text = answer_of(server, path, NO_EVENT, **query)
    return None if text is None else costs_in(text, of, event, key, inclusive)


def costs_of_each(server, numbers, event, key, inclusive=False):
    """The same of each of these runs, by its number."""
    questions = [question_of(of_run(it), event, key, inclusive) for it in numbers]
    for number, (_, query), answer in zip(numbers, questions, server.answers(questions)):
        text = accepted_of(answer, NO_EVENT, query)
        yield number, None if text is None else costs_in(text, of_run(number), event, key, inclusive)


def self_costs(server, of, event, key):
    return costs_of(server, of, event, key)


def inclusive_costs(server, of, event):
    return costs_of(server, of, event, "function", True)


def costs_by_object(server, run, event):
    """What a run costs by object. A run without the event is a fault."""
    costs = self_costs(server, of_run(run), event, "object")
    if costs is None:
        raise Fault(f"run {run}: refused: no such event")
    return costs


class Functions:
    """The functions of reports by their keys. Both sides of OBJECT:FUNCTION may have colons, so the objects of a selection
    are asked for where a key that was not seen before has more than one."""

    def __init__(self, server, event):
        self.server, self.event, self.names, self.objects = server, event, {}, set()

    def take(self, of, keys):
        """Takes in the functions of a report, by whose keys this is a dict."""
        new = [] if keys.keys() <= self.names.keys() else [it for it in keys if it not in self.names]
        several = [it for it in new if it.count(b":") > 1]
        if several:
            self.ask(of, self.event)
        if not all(self.is_known(it) for it in several):
            # (an object may cost nothing itself of one event, and then something of another)
            for event in dict.fromkeys(it[0].split(b" ")[1] for it in fields_of(self.server.text("/verify", **of), SUM_LINE)):
                self.ask(of, os.fsdecode(plain(event)))
        self.names.update(names_of(new, self.objects))

    def ask(self, of, event):
        costs = self_costs(self.server, of, event, "object")
        self.objects |= set(costs.rows) if costs else set()

    def is_known(self, key):
        return any(key.startswith(it + b":") for it in self.objects)


class Matched:
    """The costs of runs by names as they are compared, and the names that stand behind each in each run."""

    def __init__(self, server, event, key, how):
        self.key, self.how, self.names, self.together = key, how, {}, {}
        self.functions = Functions(server, event) if key == "function" else None

    def take(self, number, of, costs):
        """The same costs by the names as they are compared; equal ones are added up."""
        if self.functions:
            self.functions.take(of, costs.rows)
        names = self.functions.names if self.functions else names_of(costs.rows)
        if self.how == "path":
            self.names = names if self.functions else {**self.names, **names}
            return costs
        rows = {}
        for key, cost in costs.rows.items():
            it = matched(names[key], self.key, self.how)
            self.names.setdefault(it.key, it)
            self.together.setdefault((number, it.key), []).append(names[key])
            rows[it.key] = rows.get(it.key, 0) + cost
        return Costs(costs.total, rows)

    def behind(self, number, key):
        """The names of a run that are this one as they are compared."""
        return [self.names[key]] if self.how == "path" else self.together.get((number, key), [])

    def place(self, file):
        """A file as it is compared."""
        return matched(Name(file, None, file), "file", self.how).key

    def called(self, key):
        """The name of a function at the other end of a call, as it is compared."""
        known = self.functions.names.get(key) or names_of([key], self.functions.objects)[key]
        return matched(known, "function", self.how).key


# Calls.

def calls_of_each(server, asked, event):
    """The calls that are asked for, each by `callers` or `callees`, a run of Callgrind and the name of a function: their sum, and
    each; none where there is no such function."""
    questions = [(f"/{which}", {**of_run(run), "event": event, "object": plain(name.object), "function": plain(name.name)}) for which, run, name in asked]
    for (which, run, name), (_, query), answer in zip(asked, questions, server.answers(questions)):
        text = accepted_of(answer, NO_NAME, query)
        yield (0, []) if text is None else calls_in_answer(text, which, of_run(run), event, name)


def calls_in_answer(text, which, of, event, name):
    """The calls that an answer has, and their sum."""
    head = b" ".join([which.encode(), escaped(os.fsencode(event)), name.object + b":" + name.name])
    total, *rows = [Call(int(it[1]), int(it[2]), it[3]) for it in fields_of(text, CALL_LINE, 1)] or [None]
    if text.partition(b"\n")[0] != head or total is None or total.key != b"total":
        raise Fault(f"the answer is no report `{which} {shown(event)}`")
    if (total.cost, total.count) != (sum(it.cost for it in rows), sum(it.count for it in rows)):
        raise Fault(f"{said_of(of)}: the calls of the answer do not sum to their total")
    return total.cost, rows


def stacks_of(server, of):
    """The stacks of folded runs: their frames, as functions are printed, and their counts."""
    return [([b"???:" + escaped(frame or b"???") for frame in it[1].split(b";")], int(it[2]))
            for it in fields_of(server.text("/folded", **of), STACK_LINE)]


def calls_in(stacks, which, key):
    """The frames just above or below those of a function, and its own count. A stack counts once for each frame beside it,
    and once for the function, as it does in `inclusive`."""
    total, sums, side = 0, {}, -1 if which == "callers" else 1
    for frames, count in stacks:
        if count == 0:
            continue
        places = [at for at, it in enumerate(frames) if it == key]
        total += count if places else 0
        for it in {frames[at + side] if 0 <= at + side < len(frames) else None for at in places}:
            sums[it] = sums.get(it, 0) + count
    return total, [Call(cost, None, it) for it, cost in sums.items()]


# Noise.

class Rule:
    """When a change is more than noise.

    A run makes a name jump where it, and so many runs behind it that there are AROUND, all cost more (or all less) than
    each of the AROUND runs before it: by more than the limit of what they cost, and by more than a hundredth of the limit
    of the run's total before. So what goes up and down from run to run is none, nor what is tiny.
    """

    def __init__(self, more, around=AROUND):
        self.more, self.around = more, around

    def is_jump(self, before, after, total):
        """Whether there is a jump between these costs; `total` is that of the run before."""
        up, down = min(after) - max(before), min(before) - max(after)
        gap, base = (up, max(before)) if up > 0 else (down, min(before))
        if gap <= 0:
            return False
        more = self.more
        return gap * more.below > more.top * base and gap * more.below * 100 > more.top * total

    def jumps_in(self, series, totals):
        """The places of a series at which there is a jump."""
        # (most costs are those of the run before)
        return [at for at in range(1, len(series)) if series[at] != series[at - 1] and self.is_jump(
            series[max(0, at - self.around):at], series[at:at + self.around], totals[at - 1])]


def change(series, at):
    """The change to the one before."""
    return series[at] - series[at - 1]


def series_of(costs, key):
    return [it.rows.get(key, 0) for it in costs]


def all_series(costs):
    """Each key, and its costs in all runs. (Key by key, a million costs would take a second.)"""
    keys = [*set().union(*(it.rows for it in costs))]
    nothing, of_all = dict.fromkeys(keys, 0), operator.itemgetter(*keys) if len(keys) > 1 else lambda rows: [rows[it] for it in keys]
    return zip(keys, zip(*(of_all({**nothing, **it.rows}) for it in costs)))


def jumps_of(costs, rule):
    """The jumps of all keys over runs of which these are the costs: place and key, the greatest change first."""
    totals, found = [it.total for it in costs], []
    for key, series in all_series(costs):
        if series.count(series[0]) < len(series):
            found += [(at, key, change(series, at), series) for at in rule.jumps_in(series, totals)]
    return sorted(found, key=lambda it: (-abs(it[2]), it[0], it[1]))


# What differs.

def moved(before, after):
    """The objects or files that are gone in one folder and new in another, as pairs of both paths."""
    gone, new = ({last_part(it): it for it in sorted({*one} - {*other})} for one, other in ((before, after), (after, before)))
    return [(gone[it], new[it]) for it in sorted({*gone} & {*new})]


def differences(before, after, among=None):
    """How the costs of keys differ, the greatest difference first; among equal ones that of the greatest change of what
    `among` has of each."""
    among = among or {}
    rows = [(after.rows.get(key, 0) - before.rows.get(key, 0), key) for key in {*before.rows, *after.rows}]
    return sorted((it for it in rows if it[0] != 0), key=lambda it: (-abs(it[0]), -abs(among.get(it[1], 0)), it[1]))


# Lines of a function, by file and number, with what they cost in one or more ways.

def moved_lines(before, after):
    """The lines that an edit only moved, and where each stood: a line that is new and one that is gone, in one file and of
    exactly equal costs. Of several they are pairs in their order."""
    gone, new = {}, {}
    for found, lines, others in ((gone, before, after), (new, after, before)):
        for file, line in sorted({*lines} - {*others}):
            found.setdefault((file, lines[file, line]), []).append(line)
    return {(place[0], line): since for place, lines in new.items() for line, since in zip(lines, gone.get(place, []))}


def changes_of_lines(before, after):
    """The lines whose costs differ, each with how, the greatest change first; and those that only moved, with their old number."""
    moved = moved_lines(before, after)
    since = {*moved, *((file, old) for (file, _), old in moved.items())}
    nothing = (0,) * len(next(iter({**before, **after}.values()), ()))
    rows = [(place, tuple(one - other for one, other in zip(after.get(place, nothing), before.get(place, nothing)))) for place in {*before, *after} - since]
    changed = sorted((it for it in rows if any(it[1])), key=lambda it: ([-abs(cost) for cost in it[1]], it[0]))
    return changed, sorted(moved.items())
