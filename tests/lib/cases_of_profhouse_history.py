"""share/scripts/profhouse_history: what each command prints in each form, which runs it takes, the rule for noise, and what is
refused. All figures were reckoned by hand from COSTS and STACKS, or are added up from them here."""
import csv
import io
import json
import os
import pty
import subprocess
import sys

from tried import SCRIPTS

NAME = "profhouse_history"
APP, LIB = "/opt/app", "/lib/x:y.so"
GET = "ns::Cache<int, long>::get(int)"
# What the functions cost in each run: one steps up in run 5, one goes up and down, one is high once, one is new in run 8, and
# one is tiny.
FUNCTIONS = [(APP, "main"), (APP, GET), (APP, "noisy"), (LIB, "spike"), (LIB, "late"), (LIB, "tiny")]
COSTS = [(100000, 400, 100, 50, 0, 1), (100000, 400, 130, 50, 0, 1), (100000, 400, 100, 500, 0, 1), (100000, 400, 130, 50, 0, 1),
         (100000, 900, 100, 50, 0, 1), (100000, 900, 130, 50, 0, 2), (100000, 900, 100, 50, 0, 2), (100000, 900, 130, 50, 60, 2)]
TOTALS = [100551, 100581, 101001, 100581, 101051, 101082, 101052, 101142]
# So often does main call GET.
COUNTS = [4, 4, 4, 4, 9, 9, 9, 9]
STACKS = "main;read;x 3\nmain;a b;read 2\nread;read 5\n;read 4\nmain;reader 1\n"
OTHER, FOLDED, GONE = 9, 10, 11

TOTAL_TEXT = """trend of Ir: total
run     cost  to the one before           to run 1           label
  1  100,551                  -                 +0  +0.00 %  1.cg
  2  100,581                +30  +0.02 %       +30  +0.02 %  2.cg
  3  101,001               +420  +0.41 %      +450  +0.44 %  3.cg
  4  100,581               -420  -0.41 %       +30  +0.02 %  4.cg
  5  101,051               +470  +0.46 %      +500  +0.49 %  5.cg
  6  101,082                +31  +0.03 %      +531  +0.52 %  6.cg
  7  101,052                -30  -0.02 %      +501  +0.49 %  7.cg
  8  101,142                +90  +0.08 %      +591  +0.58 %  8.cg
"""
JUMPS_TEXT = f"""jumps of Ir by function in 8 runs: more than 2%
run  change             before  cost  function
  5    +500  +125.00 %     400   900  {APP}:{GET}
                                        called by {APP}:main: +500, +5 calls
  8     +60                  0    60  {LIB}:late
run 5 (5.cg)
run 8 (8.cg)
"""
GREW_TEXT = f"""Ir by function, self costs: run 8 (8.cg), less run 4 (4.cg)
change              before    after  function
  +561    +0.55 %  100,581  101,142  total
  +500  +125.00 %      400      900  {APP}:{GET}
   +60                   0       60  {LIB}:late
1 difference more, by +1 together
"""
GREW_MARKDOWN = f"""**`Ir by function, with all that they call: run 8 (8.cg), less run 4 (4.cg)`**

| change |  | before | after | function |
|--:|--:|--:|--:|---|
| +561 | +0.55 % | 100,581 | 101,142 | `total` |
| +500 | +125.00 % | 400 | 900 | `{APP}:{GET}` |
| +500 | +0.49 % | 100,400 | 100,900 | `{APP}:main` |

`2 differences more`
"""


# Runs of benchmarks of builds: the label, the event, and the cost.
LABELLED = [("bench=sort commit=a1 branch=main date=2026-11-27", "Ir", 1000), ("bench=parse commit=a1 branch=main", "Ir", 500),
            ("bench=sort commit=b2 branch=main", "Ir", 1010), ("again/bench=sort commit=b2 branch=main", "Ir", 1005),
            ("bench=parse commit=c3 branch=main", "Ir", 600), ("bench=sort commit=c3 branch=main", "Ir", 1006),
            ("bench=sort commit=d4 branch=work/x commit=a1", "Ir", 2000), ("plain bench= commit", "Ir", 7), ("bench=new commit=d4", "Dr", 5)]
BENCHES_TEXT = """Ir of 2 benchmarks in 3 of 3 builds
  [1]    [2]    [3]  to the one before                  bench
  500      -    600               +100  +20.00 %  jump  parse
1,000  1,005  1,006                 +1   +0.09 %        sort
[1] a1 branch=main date=2026-11-27
[2] b2 branch=main
[3] c3 branch=main
"""
BENCHES_CSV = """a1,b2,c3,d4,change,change_percent,jump,bench
,,,,,,,new
500,,600,,,,,parse
1000,1005,1006,2000,994,+98.80,jump,sort
"""


def profile(number, costs, count):
    """The file of a run. (Two files of the same bytes would be one run.)"""
    lines = [f"pid: {number}", "events: Ir Dr", "event: Both = Ir + 2 Dr"]
    for (name, function), cost in zip(FUNCTIONS, costs):
        lines += [f"ob={name}", f"fl={'a.c' if name == APP else 'l.c'}", f"fn={function}", f"{len(function)} {cost} 1"]
        if function == "main":
            lines += [f"cfn={GET}", f"calls={count} 1", f"2 {costs[1]} 1"]
    return "\n".join(lines) + "\n"


def make_store(tried):
    files = [tried.write(f"{number}.cg", profile(number, *it)) and f"{number}.cg" for number, it in enumerate(zip(COSTS, COUNTS), 1)]
    tried.write("other.cg", "events: Dr\nfn=f\n1 5\n")
    tried.write("gone.cg", "events: Ir\nfn=f\n1 7\n")
    tried.write("stacks.folded", STACKS)
    tried.profhouse("import", "--db", "s.db", *files, "other.cg")
    tried.profhouse("import", "--db", "s.db", "--folded", "stacks.folded")
    tried.profhouse("import", "--db", "s.db", "gone.cg")
    for group, baseline, members in (("main", 1, range(1, 9)), ("rel", 2, (7, 8)), ("bare", None, ()), ("based", 3, ()), ("lost", 3, (GONE,))):
        tried.profhouse("group", "--db", "s.db", group)
        for member in members:
            tried.profhouse("join", "--db", "s.db", group, str(member))
        if baseline:
            tried.profhouse("baseline", "--db", "s.db", group, str(baseline))
    tried.profhouse("remove", "--db", "s.db", str(GONE))


def rows_of(ran):
    """The rows of CSV, or what went wrong."""
    return list(csv.reader(io.StringIO(ran.out.decode()))) if ran.status == 0 else ran


def percentage(more, before):
    """A share cut to two decimals, by digits and no division of floats."""
    digits = str(abs(more) * 10000 // before).rjust(3, "0")
    return f"{'-' if more < 0 else '+'}{digits[:-2]}.{digits[-2:]}"


def trend_rows(numbers, costs, base, labels=None):
    """The rows of `trend --csv` for these costs, of which None is a run without the event."""
    rows, before = [["run", "cost", "change", "change_percent", "to_baseline", "to_baseline_percent", "label"]], None
    for number, cost in zip(numbers, costs):
        row = [str(number), "", "", "", "", "", (labels or {}).get(number, f"{number}.cg")]
        if cost is not None:
            row[1], row[4], row[5] = str(cost), str(cost - base), percentage(cost - base, base) if base else ""
            if before is not None:
                row[2], row[3] = str(cost - before), percentage(cost - before, before) if before else ""
            before = cost
        rows.append(row)
    return rows


def series(function):
    return [it[[name for _, name in FUNCTIONS].index(function)] for it in COSTS]


def cases_of_trend(tried, ask):
    numbers, labels = range(1, 9), {OTHER: "other.cg", FOLDED: "stacks.folded"}
    tried.expect("the total", ask("trend", "--event", "Ir", "--group", "main"), (0, TOTAL_TEXT.encode(), b""))
    all_runs = rows_of(ask("trend", "--event", "Ir", "--csv"))
    tried.expect("all runs, some without the event", all_runs, trend_rows([*numbers, OTHER, FOLDED], [*TOTALS, None, None], TOTALS[0], labels))
    for what, words, costs in (
            ("a whole name", ("function", "main"), series("main")), ("the last part", ("function", "get"), series(GET)),
            ("without brackets", ("function", "Cache::get"), series(GET)), ("a part", ("function", "noi"), series("noisy")),
            ("no capitals", ("function", "NOISY"), series("noisy")), ("with its object", ("function", f"{LIB}:late"), series("late")),
            ("with all that they call", ("function", "main", "--inclusive"), [a + b for a, b in zip(series("main"), series(GET))]),
            ("an object", ("object", "y.so"), [sum(it[3:]) for it in COSTS]), ("a file", ("file", "l."), [sum(it[3:]) for it in COSTS]),
            ("a line", ("line", "a.c:30"), series(GET)), ("a thread", ("thread", "0"), TOTALS)):
        tried.expect(what, rows_of(ask("trend", "--event", "Ir", "--group", "main", "--csv", *words)), trend_rows(numbers, costs, costs[0]))
    both = [total + 2 * 6 for total in TOTALS]
    tried.expect("a derived event", rows_of(ask("trend", "--event", "Both", "--group", "main", "--csv")), trend_rows(numbers, both, both[0]))


def cases_of_selections(tried, ask):
    def rows(*words):
        return rows_of(ask("trend", "--event", "Ir", "--csv", *words))
    # The baseline is run 2, and no member.
    tried.expect("a group and its baseline", rows("--group", "rel"), trend_rows([2, 7, 8], [TOTALS[1], *TOTALS[6:]], TOTALS[1]))
    tried.expect("the baseline is far off", rows("--group", "rel", "--last", "1"), trend_rows([8], [TOTALS[7]], TOTALS[1]))
    tried.expect("from run to run", rows("--runs", "3..5"), trend_rows([3, 4, 5], TOTALS[2:5], TOTALS[2]))
    tried.expect("from the end", rows("--runs", "last-3..8"), trend_rows([7, 8], TOTALS[6:], TOTALS[6]))
    tried.expect("up to a run", rows("--runs", "..002"), trend_rows([1, 2], TOTALS[:2], TOTALS[0]))
    tried.expect("the newest of a group", rows("--group", "main", "--last", "2"), trend_rows([7, 8], TOTALS[6:], TOTALS[0]))
    tried.expect("one run", rows("--runs", "4..4"), trend_rows([4], TOTALS[3:4], TOTALS[3]))
    tried.expect("a baseline alone", rows("--group", "based"), trend_rows([3], TOTALS[2:3], TOTALS[2]))
    tried.expect("a run that is removed has left its group", rows("--group", "lost"), trend_rows([3], TOTALS[2:3], TOTALS[2]))
    tried.expect("jumps in one run", ask("jumps", "--event", "Ir", "--runs", "4..4").out, b"jumps of Ir by function in 1 runs: more than 2%\n"
                 b"run  change    before  cost  function\nno jumps\n")


def cases_of_many(tried, ask):
    ran = ask("trend", "--event", "Ir", "--runs", "4..5", "function", "get", "spike")
    tried.expect("two names", ran.out.decode(), f"trend of Ir\nrun  [1]  [2]  label\n  4  400   50  4.cg\n  5  900   50  5.cg\n[1] {APP}:{GET}\n[2] {LIB}:spike\n")
    ran = ask("trend", "--event", "Ir", "--runs", "4..5", "function", "spike", "--top", "2", "--csv")
    tried.expect("the greatest, and one", rows_of(ran), [["run", f"{LIB}:spike", f"{APP}:main", f"{APP}:{GET}", "label"],
                                                         ["4", "50", "100000", "400", "4.cg"], ["5", "50", "100000", "900", "5.cg"]])
    ran = ask("trend", "--event", "Ir", "--runs", "8..9", "--top", "2", "--json")
    tried.expect("as data", json.loads(ran.out), [
        {"run": 8, "label": "8.cg", "costs": {f"{APP}:main": 100000, f"{APP}:{GET}": 900}},
        {"run": 9, "label": "other.cg", "costs": {f"{APP}:main": None, f"{APP}:{GET}": None}}])
    ran = ask("trend", "--event", "Ir", "--runs", "8..9", "--top", "2", "--markdown")
    tried.expect("as Markdown", ran.out.decode().splitlines()[2:6], ["| run | [1] | [2] | label |", "|--:|--:|--:|---|",
                                                                    "| 8 | 100,000 | 900 | `8.cg` |", "| 9 | - | - | `other.cg` |"])
    ran = ask("trend", "--event", "Ir", "--runs", "8..8", "function", "get", "--json")
    tried.expect("one name as data", json.loads(ran.out), [
        {"run": 8, "cost": 900, "change": None, "change_percent": None, "to_baseline": 0, "to_baseline_percent": "+0.00", "label": "8.cg"}])


def cases_of_jumps(tried, ask):
    def found(*words):
        return [(int(it[0]), int(it[1]), it[6].rpartition(":")[2] if "function" in words else it[6])
                for it in rows_of(ask("jumps", "--event", "Ir", "--group", "main", "--csv", *words))[1:]]
    tried.expect("jumps", ask("jumps", "--event", "Ir", "--group", "main"), (0, JUMPS_TEXT.encode(), b""))
    get = GET.rpartition(":")[2]
    # By the run before alone: 30 is more than 2 percent of 130 and more than 0.02 percent of 101142, and 1 is not.
    swings = [(run, 30 if run % 2 == 0 else -30, "noisy") for run in range(2, 9)]
    tried.expect("without a rule for noise", found("function", "--around", "1"), [
        (5, 500, get), (3, 450, "spike"), (4, -450, "spike"), (8, 60, "late"), *swings])
    # 60 are 0.0593 percent of 101052.
    for more, wanted in (("5.93%", [(5, 500, get), (8, 60, "late")]), ("5.94%", [(5, 500, get)]), ("125%", [])):
        tried.expect(f"too little of the total by {more}", found("function", "--more", more), wanted)
    tried.expect("as little as may be", [it for it in found("function", "--more", "0.05%") if it[2] == "tiny"], [(6, 1, "tiny")])
    # Those of /opt/app are 100500, 100530, 100500, 100530, 101000 and so on, and from 100530 to 101000 it is 0.467 percent.
    for more, wanted in (("0.46%", [(5, 470, APP), (8, 60, LIB)]), ("0.47%", [(8, 60, LIB)])):
        tried.expect(f"objects by {more}", found("object", "--more", more), wanted)
    tried.expect("files", found("file"), [(8, 60, "l.c")])
    tried.expect("a step down", [it[:2] for it in rows_of(ask("jumps", "--event", "Ir", "--csv", "--runs", "2..5", "--around", "1"))[1:3]],
                 [["5", "500"], ["3", "450"]])
    rows = json.loads(ask("jumps", "--event", "Ir", "--group", "main", "--json").out)
    tried.expect("as data", rows[0], {"run": 5, "change": 500, "change_percent": "+125.00", "before": 400, "cost": 900, "label": "5.cg",
                                      "name": f"{APP}:{GET}", "calls": [f"called by {APP}:main: +500, +5 calls"]})
    tried.expect("some rows", ask("jumps", "--event", "Ir", "--group", "main", "--rows", "1").out.decode().splitlines()[-2:],
                 ["1 smaller jump not shown", "run 5 (5.cg)"])
    tried.expect("with all that they call", found("function", "--more", "0.4%", "--inclusive"), [(5, 500, get), (5, 500, "main"), (8, 60, "late")])
    ran = ask("jumps", "--event", "Ir", "--group", "main", "--lines", "--json")
    tried.expect("lines of a server", ([it["calls"] for it in json.loads(ran.out)], ran.err), (
        [[f"called by {APP}:main: +500, +5 calls", "at a.c:30: +500"], ["at l.c:4: +60"]],
        b"profhouse_history: the lines of calls are not told: no server tells them, so they need --db D\n"))
    # Runs without the event are passed over: one that stands between two others is as if it were not there.
    tried.expect("runs without the event", found("function", "--more", "2%"), [(5, 500, get), (8, 60, "late")])


def cases_of_grew(tried, ask):
    def changes(*words):
        return {it[-1].rpartition(":")[2] if "function" in it[-1] or ":" in it[-1] else it[-1]: int(it[0])
                for it in rows_of(ask("grew", "--event", "Ir", "--csv", *words))[1:]}
    get = GET.rpartition(":")[2]
    tried.expect("what grew", ask("grew", "--event", "Ir", "4", "8", "--rows", "2"), (0, GREW_TEXT.encode(), b""))
    tried.expect("with all that they call", ask("grew", "--event", "Ir", "4", "8", "--inclusive", "--markdown", "--rows", "2").out.decode(), GREW_MARKDOWN)
    since = {get: 500, "late": 60, "noisy": 30, "tiny": 1}
    for what, words in (("a group and its baseline", ("main@baseline", "main")), ("numbers", ("1", "08")), ("newest", ("1", "rel@newest"))):
        tried.expect(what, changes(*words), since)
    tried.expect("the other way", changes("main", "main@baseline"), {name: -cost for name, cost in since.items()})
    tried.expect("a group is added up", changes("rel@baseline", "rel", "--sum"), {"main": 100000, get: 1400, "noisy": 100, "late": 60, "spike": 50, "tiny": 3})
    tried.expect("nothing", changes("6", "6"), {})
    tried.expect("by object", ask("grew", "--event", "Ir", "last-9", "8", "object", "--csv").out.decode(),
                 f"change,change_percent,before,after,name\n530,+0.52,100500,101030,{APP}\n61,+119.60,51,112,{LIB}\n")


def cases_of_calls(tried, ask):
    def rows(*words):
        return [(it[-1], *map(int, [it[0], *it[2:-1]])) for it in rows_of(ask(*words, "--csv"))[1:]]
    tried.expect("callers in stacks", ask("callers", "read"), (0, (
        f"callers of ???:read in samples, run {FOLDED} (stacks.folded)\ncost            caller\n  14  100.00 %  total\n   5   35.71 %  (nobody)\n"
        "   5   35.71 %  ???:read\n   4   28.57 %  ???:???\n   3   21.42 %  ???:main\n   2   14.28 %  ???:a b\n").encode(), b""))
    tried.expect("callees in stacks", rows("callees", "--run", str(FOLDED), "read"), [("(nothing)", 11), ("???:read", 5), ("???:x", 3)])
    tried.expect("callees of the root", rows("callees", "mai"), [("???:read", 3), ("???:a b", 2), ("???:reader", 1)])
    tried.expect("a frame without a name", rows("callees", "???"), [("???:read", 4)])
    tried.expect("calls of Callgrind", rows("callers", "--event", "Ir", "--run", "rel@baseline", "get"), [(f"{APP}:main", 400, 4)])
    tried.expect("nobody calls", rows("callers", "--event", "Ir", "--run", "3", "main"), [])
    tried.expect("so many rows", ask("callers", "read", "--rows", "1").out.decode().splitlines()[-1], "4 more, of 14 together")


def cases_of_refusals(tried, ask):
    fits = "".join(f"\n  {it}" for it in sorted((f"{APP}:main", f"{APP}:{GET}", f"{APP}:noisy", f"{LIB}:spike", f"{LIB}:tiny")))
    for what, words, has in (
            ("no command", (), b"COMMAND"), ("another command", ("history", "--event", "Ir"), b"invalid choice"),
            ("no event is given", ("trend",), b"--event"), ("no run has the event", ("trend", "--event", "ir"), b"no run has the event ir"),
            ("no name", ("trend", "--event", "Ir", "function"), b"which function?"), ("no key", ("trend", "--event", "Ir", "main"), b"KEY is object"),
            ("none fits", ("trend", "--event", "Ir", "function", "nobody"), b"no function fits nobody"),
            ("several fit", ("trend", "--event", "Ir", "function", "i"), f"5 functions fit i; give more of the name, or a whole line:{fits}\n".encode()),
            ("an empty name", ("trend", "--event", "Ir", "function", ""), b"no function fits"),
            ("inclusive objects", ("trend", "--event", "Ir", "object", "x", "--inclusive"), b"--inclusive is for functions"),
            ("lines of objects", ("jumps", "--event", "Ir", "object", "--lines"), b"--lines is for functions"),
            ("an inclusive file", ("jumps", "--event", "Ir", "file", "--inclusive"), b"--inclusive is for functions"),
            ("an inclusive total", ("trend", "--event", "Ir", "--inclusive"), b"--inclusive is for functions"),
            ("none of the runs", ("trend", "--event", "Ir", "--runs", "8..3"), b"there are no such runs"),
            ("a group without runs", ("trend", "--event", "Ir", "--group", "bare"), b"there are no such runs"),
            ("no such group", ("jumps", "--event", "Ir", "--group", "mai"), b"there is no group mai"),
            ("a removed run", ("grew", "--event", "Ir", "1", str(GONE)), b"there is no run 11"),
            ("run 0", ("grew", "--event", "Ir", "0", "1"), b"there is no group 0"), ("before the first", ("callers", "--run", "last-10", "x"), b"no run last-10"),
            ("the newest run of none", ("grew", "--event", "Ir", "1", "bare"), b"the group bare has no runs"),
            ("no baseline", ("grew", "--event", "Ir", "bare@baseline", "1"), b"the group bare has no baseline"),
            ("a run without the event", ("grew", "--event", "Ir", "1", str(OTHER)), b"run 9 has no event Ir"),
            ("one run", ("grew", "--event", "Ir", "1"), b"FROM and TO are needed"), ("a word too many", ("grew", "--event", "Ir", "1", "2", "file", "x"), b"a word too many: x"),
            ("a cost in place of a percentage", ("jumps", "--event", "Ir", "--more", "2"), b"--more is a percentage"),
            ("no percentage", ("jumps", "--event", "Ir", "--more", "x%"), b"--more is digits"), ("no rows", ("jumps", "--event", "Ir", "--rows", "-1"), b"no number from 0 on"),
            ("around 0", ("jumps", "--event", "Ir", "--around", "0"), b"no number from 1 on"), ("no range", ("trend", "--event", "Ir", "--runs", "3"), b"--runs is A..B"),
            ("no event of Callgrind", ("callers", "--run", "1", "main"), b"which --event?"), ("two names", ("callers", "a", "b"), b"one NAME"),
            ("two forms", ("trend", "--event", "Ir", "--csv", "--json"), b"not allowed")):
        tried.expect_refusal(what, ask(*words), has)


def cases_of_names(tried):
    """Functions of one name in two objects, names with a dash, a colon, a backslash and bytes that are no UTF-8."""
    tried.write("names.cg", b"events: Ir\nob=/a/x\nfn=twice\n1 3\nfn=-f\n1 4\nob=/b:c/x\nfn=twice\n1 5\nfn=a\\b\n1 6\nfn=\xe9t\xe9\n1 7\n"
                            b"fn=operator<<(std::ostream&, A<int>)\n1 8\nfn=<A as B>::run\n1 9\nfn=run\n1 10\nfn=label\n1 11\nfn=tab\there\n1 12\n")
    tried.profhouse("import", "--db", "names.db", "names.cg")

    def cost(*words):
        ran = tried.script(NAME, "trend", "--db", "names.db", "--event", "Ir", "--csv", *words)
        return int(rows_of(ran)[1][1]) if ran.status == 0 else ran.err
    said = b"profhouse_history: 2 functions fit twice; give more of the name, or a whole line, or --match last:\n  /a/x:twice\n  /b:c/x:twice\n"
    tried.expect("a name in two objects", cost("function", "twice"), said)
    for word, wanted in (("/b:c/x:twice", 5), ("a\\b", 6), ("a\\\\b", 6), (b"\xe9t\xe9", 7), ("\\xe9t\\xe9", 7), ("operator<<", 8), ("<A as B>::run", 9),
                         ("run", 10), ("B>::r", 9), (b"tab\t", 12), ("tab\\x09here", 12), (b"\xe9t", 7)):
        tried.expect(f"the name {word}", cost("function", word), wanted)
    tried.expect("a name with a dash", cost("function", "--", "-f"), 4)
    ran = tried.script(NAME, "trend", "--db", "names.db", "--event", "Ir", "--json", "function", "b:c/x:run", "/b:c/x:run", "/b:c/x:label")
    tried.expect_refusal("a part of an object is none of a function", ran, b"no function fits b:c/x:run")
    ran = tried.script(NAME, "trend", "--db", "names.db", "--event", "Ir", "--json", "function", "/b:c/x:run", "/b:c/x:label")
    tried.expect("names like columns", json.loads(ran.out), [{"run": 1, "label": "names.cg", "costs": {"/b:c/x:run": 10, "/b:c/x:label": 11}}])


def cases_of_objects(tried):
    """An object with a colon that costs nothing itself of the event, and the stacks that nobody saw."""
    tried.write("objects.cg", "events: Ir Dr\nob=/a:b/x\nfn=out\n1 0 4\ncob=/c\ncfn=in\ncalls=2 1\n1 9 0\nob=/c\nfn=in\n1 9 0\n")
    tried.write("zeros.folded", "a;b 0\nc;b 3\n")
    tried.profhouse("import", "--db", "objects.db", "objects.cg")
    tried.profhouse("import", "--db", "objects.db", "--folded", "zeros.folded")
    ran = tried.script(NAME, "grew", "--db", "objects.db", "--event", "Ir", "1", "1", "--inclusive", "--csv")
    tried.expect("no difference", ran.out, b"change,change_percent,before,after,name\n")
    ran = tried.script(NAME, "trend", "--db", "objects.db", "--event", "Ir", "--runs", "1..1", "--inclusive", "--match", "name", "--csv", "function", "out")
    tried.expect("an object by another event", ran.out.decode().splitlines()[1:], ["1,9,,,0,+0.00,objects.cg"])
    ran = tried.script(NAME, "callers", "--db", "objects.db", "--csv", "b")
    # (a command line takes no such word, and a server does)
    tried.profhouse("import", "--db", "bytes.db", tried.write("bytes.cg", b"events: \xe9v\nfn=f\n1 5\n"))
    more = tried.script(NAME, "trend", "--db", "bytes.db", "--event", b"\xe9v", "--csv")
    tried.expect("an event that is no UTF-8", more.out.splitlines()[1].rpartition(b",")[0], b"1,5,,,0,+0.00")
    tried.expect("a stack that was seen", ran.out.decode().splitlines()[1:], ["3,100.00,???:c"])


def cases_of_folders(tried):
    """Builds in two folders: `work` costs 700 of 1000 more in the second, and is called five times more; the library has two
    objects of one name, and the function `same` of both."""
    for number, cost, calls in ((1, 1000, 5), (2, 1700, 10)):
        tried.write(f"build{number}.cg", f"events: Ir\nob=/b/{number}/app\nfl=/b/{number}/a.c\nfn=main\n1 10\ncfn=work\ncalls={calls} 1\n2 {cost}\nfn=work\n3 {cost}\n"
                                         f"ob=/l/x.so\nfl=x.c\nfn=same\n1 {number}\nob=/m/x.so\nfn=same\n1 20\n")
    tried.profhouse("import", "--db", "folders.db", "build1.cg", "build2.cg")

    def ask(command, *words):
        ran = tried.script(NAME, command, "--db", "folders.db", "--event", "Ir", *words)
        return ran.out.decode().splitlines() if ran.status == 0 else ran.err.decode().splitlines()
    tried.expect("a name in two folders", ask("trend", "function", "work"), [
        "profhouse_history: 2 functions fit work; give more of the name, or a whole line, or --match last:", "  /b/1/app:work", "  /b/2/app:work"])
    tried.expect("by the last part of the path", ask("trend", "function", "work", "--match", "last", "--csv")[1:], [
        "1,1000,,,0,+0.00,build1.cg", "2,1700,700,+70.00,700,+70.00,build2.cg"])
    tried.expect("two objects of one name", ask("trend", "function", "x.so:same", "--match", "last", "--csv")[1:], [
        "1,21,,,0,+0.00,build1.cg", "2,22,1,+4.76,1,+4.76,build2.cg"])
    tried.expect("what grew by whole paths", ask("grew", "1", "2")[-1],
                 "Some names are gone in one place and new in another, as where builds have folders of their own: --match last")
    tried.expect("what grew by last parts", ask("grew", "1", "2", "--match", "last", "--csv")[1:], ["700,+70.00,1000,1700,app:work", "1,+4.76,21,22,x.so:same"])
    tried.expect("by names alone", ask("grew", "1", "2", "--match", "name", "--csv")[1:], ["700,+70.00,1000,1700,work", "1,+4.76,21,22,same"])
    tried.expect("files by last parts", ask("grew", "1", "2", "file", "--match", "last", "--csv")[1:], ["700,+69.30,1010,1710,a.c", "1,+4.76,21,22,x.c"])
    tried.expect("lines by last parts", ask("grew", "1", "2", "line", "--match", "last", "--csv")[1:], ["700,+70.00,1000,1700,a.c:3", "1,+4.76,21,22,x.c:1"])
    tried.expect("jumps by last parts", ask("jumps", "--match", "last"), [
        "jumps of Ir by function in 2 runs: more than 2%", "run  change            before   cost  function", "  2    +700  +70.00 %   1,000  1,700  app:work",
        f"{'':40}called by app:main: +700, +5 calls", "  2      +1   +4.76 %      21     22  x.so:same", "run 2 (build2.cg)"])


# Two builds: the second has three lines more at the head of both files, and calls `work` five times more in one line of two.
# What costs more is `work` alone, of which `begin` and `all` are the callers' callers; and a call that is not counted.
MOVED = ["""events: Ir
event: Twice = 2 Ir
ob=/opt/app
fl=m.c
fn=main
{main} 100000
cfi=w.c
cfn=work
calls=2 1
{kept} 300
cfi=w.c
cfn=work
calls={count} 1
{grown} {cost}
fn=all
1 10
cfn=begin
calls=1 1
2 {sum}
fn=begin
1 10
cfn=main
calls=0 1
3 {sum}
fl=w.c
fn=work
{same} 100
{more} {self}
""".format(**it) for it in (
    {"main": 3, "kept": 10, "count": 1, "grown": 20, "cost": 200, "sum": 100500, "same": 5, "more": 6, "self": 400},
    {"main": 6, "kept": 13, "count": 6, "grown": 23, "cost": 1200, "sum": 101500, "same": 8, "more": 9, "self": 1400})]
LINES_TEXT = f"""jumps of Ir by function in 2 runs: more than 2%
run  change             before   cost  function
  2  +1,000  +200.00 %     500  1,500  /opt/app:work
{'':41}called by /opt/app:main: +1,000, +5 calls
{'':41}  in line m.c:23: +1,200, +6 calls
{'':41}  in line m.c:20: -200, -1 call
{'':41}  in line m.c:13: moved from 10
{'':41}at w.c:9: +1,400
{'':41}at w.c:8: moved from 5
run 2 (moved2.cg)
"""


def cases_of_lines(tried):
    """In which lines calls are made, what an edit only moved, and what costs more itself."""
    for number, text in enumerate(MOVED, 1):
        tried.write(f"moved{number}.cg", text)
    tried.profhouse("import", "--db", "moved.db", "moved1.cg", "moved2.cg")

    def ask(command, *words, event="Ir"):
        return tried.script(NAME, command, "--db", "moved.db", "--event", event, *words)
    tried.expect("jumps with lines", ask("jumps", "--lines"), (0, LINES_TEXT.encode(), b""))
    found = json.loads(ask("jumps", "--lines", "--json").out)[0]["calls"]
    tried.expect("as data", found, [it.strip() for it in LINES_TEXT.splitlines()[3:-1]])
    found = json.loads(ask("jumps", "--lines", "--json", event="Twice").out)[0]["calls"]
    tried.expect("lines of a derived event", found, ["called by /opt/app:main: +2,000, +5 calls", "in line m.c:23: +2,400, +6 calls", "in line m.c:20: -400, -1 call",
                                                     "in line m.c:13: moved from 10", "at w.c:9: +2,800", "at w.c:8: moved from 5"])
    tried.expect("the other way", json.loads(tried.script(NAME, "jumps", "--db", swapped(tried), "--event", "Ir", "--lines", "--json").out)[0]["calls"], [
        "called by /opt/app:main: -1,000, -5 calls", "in line m.c:23: -1,200, -6 calls", "in line m.c:20: +200, +1 call", "in line m.c:10: moved from 13",
        "at w.c:9: -1,400", "at w.c:5: moved from 8"])
    # Each of these costs 1000 more with all that it calls.
    names = [it[-1] for it in rows_of(ask("grew", "1", "2", "--inclusive", "--csv"))[1:]]
    tried.expect("what costs more itself comes before who calls it", names, ["/opt/app:work", "/opt/app:all", "/opt/app:begin", "/opt/app:main"])
    names = [it[-2] for it in rows_of(ask("jumps", "--inclusive", "--more", "0.1%", "--csv"))[1:]]
    tried.expect("so do jumps", names, ["/opt/app:work", "/opt/app:all", "/opt/app:begin", "/opt/app:main"])
    tried.expect("no call is recorded", ask("callers", "main").out.decode().splitlines()[1:], [
        "   cost            calls  caller", "101,500  100.00 %      -  total", "101,500  100.00 %      -  /opt/app:begin", "-: no call is recorded"])
    tried.expect("nobody calls", ask("callers", "all").out.decode().splitlines()[1:], ["cost    calls  caller", "   0        -  total", "-: no call is recorded"])
    tried.expect("as data it is a number", rows_of(ask("callers", "main", "--csv"))[1:], [["101500", "100.00", "0", "/opt/app:begin"]])


def swapped(tried):
    """A store of the same runs in the other order."""
    tried.profhouse("import", "--db", "swapped.db", "moved2.cg", "moved1.cg")
    return "swapped.db"


def cases_of_long_names(tried):
    """Names that are longer than the terminal: where they would look alike, what differs is seen."""
    string = "std::__cxx11::basic_string<char, std::char_traits<char> >"
    names = [f"shop::Cache<{string}, {kind}>::get({string} const&)" for kind in ("int", "long")]
    plain = [f"{'a' * 60}{kind}{'z' * 60}" for kind in ("_one_", "_two_")]
    for number in (1, 2):
        tried.write(f"long{number}.cg", "events: Ir\nfn=main\n1 1000\n" + "".join(f"cfn={it}\ncalls={number} 1\n2 {number * 100}\n" for it in names)
                    + "".join(f"fn={it}\n3 {number * (100 - at)}\n" for at, it in enumerate([*names, *plain])))
    tried.profhouse("import", "--db", "long.db", "long1.cg", "long2.cg")
    words = ("jumps", "--db", "long.db", "--event", "Ir")
    shown = in_a_terminal(tried, *words, columns=77)
    tried.expect("the instances of a template", [it[38:].strip() for it in shown[2:6]], [
        "???:shop::Cache<\u2026int>::get(\u2026)", "called by ???:main: +100, +1 call", "???:shop::Cache<\u2026long>::get(\u2026)", "called by ???:main: +100, +1 call"])
    # Of 38 signs 12 are the front, 12 the end, and 12 the middle, of which 6 stand in front of the first difference.
    tried.expect("names without brackets", [it[38:] for it in shown[6:8]], [
        f"???:aaaaaaaa\u2026aaaaa_{kind}_zz\u2026zzzzzzzzzzzz" for kind in ("one", "two")])
    tried.expect("lines that are longer than the terminal", [it for it in shown if len(it) > 77], [])
    shown = in_a_terminal(tried, "callees", "--db", "long.db", "--event", "Ir", "--run", "1", "main", columns=60)
    tried.expect("a name with its figures", [it.split("  ")[-1] for it in shown[3:5]], ["???:shop::Cache<\u2026int>::get(\u2026)", "???:shop::Cache<\u2026long>::get(\u2026)"])
    whole = {f"???:{it}" for it in [*names, *plain]}
    for form, read in (("--csv", lambda out: {it[6] for it in csv.reader(io.StringIO(out))}), ("--json", lambda out: {it["name"] for it in json.loads(out)}),
                       ("--markdown", lambda out: {it.rpartition(" | ")[2].partition("<br>")[0].strip("` |") for it in out.splitlines()})):
        tried.expect(f"{form} has whole names", whole - read("\n".join([*in_a_terminal(tried, *words, form, columns=40), ""])), set())
    tried.expect("and so has a pipe", [it for it in whole if it not in tried.script(NAME, *words).out.decode()], [])


def cases_of_labels(tried):
    """Which runs --where takes, and a table of benchmarks by builds."""
    for folder in ("again", "bench=sort commit=d4 branch=work"):
        os.mkdir(tried.path(folder))
    for number, (label, event, cost) in enumerate(LABELLED, 1):
        tried.write(label, f"pid: {number}\nevents: {event}\nfn=f\n1 {cost}\n")
    tried.profhouse("import", "--db", "l.db", *(label for label, *_ in LABELLED))
    for what, *words in (("group", "g"), ("join", "g", "2"), ("join", "g", "5"), ("baseline", "g", "1")):
        tried.profhouse(what, "--db", "l.db", *words)

    def ask(command, *words, event="Ir"):
        return tried.script(NAME, command, "--db", "l.db", "--event", event, *words)

    def costs(*words):
        rows = rows_of(ask("trend", "--csv", *words))
        return [(it[0], it[1]) for it in rows[1:]] if isinstance(rows, list) else rows
    sort, here = ("--where", "bench=sort"), ("--where", "branch=main")
    tried.expect("two fields", costs(*sort, *here), [("1", "1000"), ("3", "1010"), ("4", "1005"), ("6", "1006")])
    tried.expect("the newest two of these", costs(*sort, "--last", "2"), [("6", "1006"), ("7", "2000")])
    tried.expect("a value with a slash, and the first of two", costs("--where", "branch=work/x", "--where", "commit=d4"), [("7", "2000")])
    tried.expect("the second of two fields is none", ask("trend", "--where", "branch=work/x", "--where", "commit=a1").status, 2)
    parse = rows_of(ask("trend", "--csv", "--group", "g", "--where", "bench=parse"))
    tried.expect("a baseline of another benchmark is none", parse[1:], [["2", "500", "", "", "0", "+0.00", LABELLED[1][0]],
                                                                        ["5", "600", "100", "+20.00", "100", "+20.00", LABELLED[4][0]]])
    tried.expect("benchmarks by builds", ask("benches", *here), (0, BENCHES_TEXT.encode(), b""))
    tried.expect("as CSV", ask("benches", "--csv").out, BENCHES_CSV.encode())
    row = {"costs": {"c3": 600}, "change": 100, "change_percent": "+20.00", "jump": "jump", "bench": "parse"}
    tried.expect("as JSON", json.loads(ask("benches", "--builds", "1", "--json", *here).out), [
        row, {"costs": {"c3": 1006}, "change": 1, "change_percent": "+0.09", "jump": None, "bench": "sort"}])
    tried.expect("as Markdown", ask("benches", "--builds", "2", "--markdown", *here).out.decode().splitlines()[2:6], [
        "| [1] | [2] | to the one before |  |  | bench |", "|--:|--:|--:|--:|---|---|",
        "| - | 600 | +100 | +20.00 % | `jump` | `parse` |", "| 1,005 | 1,006 | +1 | +0.09 % |  | `sort` |"])
    tried.expect("more is no jump", b"jump" in ask("benches", "--more", "20%", *here).out, False)
    for what, ran, said in (("no such word", ask("trend", "--where", "branch"), b"NAME=VALUE"), ("no such run", ask("benches", "--where", "branch=none"), b"no such runs"),
                            ("no benchmark", ask("benches", "--runs", "8..8"), b"bench= and commit="), ("no event", ask("benches", event="ir"), b"no run has the event ir")):
        tried.expect_refusal(what, ran, said)


def cases_of_helps(tried):
    for command in ("trend", "jumps", "grew", "benches", "callers", "callees"):
        ran = tried.script(NAME, command, "--help")
        tried.expect(f"{command} --help", (ran.status, ran.err, ran.out.startswith(f"usage: {NAME} {command} ".encode())), (0, b"", True))


def in_a_terminal(tried, *words, columns=80):
    """What a terminal shows."""
    above, below = pty.openpty()
    environment = {**tried.environment, "COLUMNS": str(columns), "LINES": "24", "LC_ALL": "C.UTF-8", "PYTHONUTF8": "1"}
    with subprocess.Popen([sys.executable, os.path.join(SCRIPTS, NAME), *words], stdout=below, stdin=subprocess.DEVNULL, cwd=tried.folder,
                          env=environment):
        os.close(below)
        data = b""
        while True:
            try:
                data += os.read(above, 65536)
            except OSError:
                break
    os.close(above)
    return data.decode().replace("\r\n", "\n").splitlines()


def cases_of_terminals(tried, address):
    where = ("--api", address, "--event", "Ir", "--group", "main")
    tried.expect("bars of a name", in_a_terminal(tried, "trend", *where, "function", "get")[-1], "▁▁▁▁████  400 to 900")
    # From 100551 to 101142 there are 591: of 7 levels 450 is the 5th, 30 the 0th, 500 the 5th, and 531 the 6th.
    tried.expect("bars of the total", in_a_terminal(tried, "trend", *where)[-1], "▁▁▆▁▆▇▆█  100,551 to 101,142")
    shown = in_a_terminal(tried, "trend", *where, "function", "get", "main", columns=60)
    tried.expect("bars of two names", [it[:22] for it in shown[-2:]], ["[1] ▁▁▁▁████  400 to 9", "[2] ▁▁▁▁▁▁▁▁  100,000 "])
    tried.expect("no line is longer than the terminal", [it for it in shown if len(it) > 60], [])
    shown = in_a_terminal(tried, "jumps", *where, columns=60)
    # 24 signs: without what stands in brackets it has 29, of which 8 and 15 are shown.
    tried.expect("a long name is short", (shown[2], max(map(len, shown)) <= 66), ("  5    +500  +125.00 %     400   900  /opt/app\u2026ache<\u2026>::get(\u2026)", True))


def cases(tried):
    tried.expect_help(NAME)
    cases_of_helps(tried)
    make_store(tried)
    cases_of_labels(tried)
    cases_of_names(tried)
    cases_of_objects(tried)
    cases_of_folders(tried)
    cases_of_lines(tried)
    cases_of_long_names(tried)
    tried.expect("a store", tried.script(NAME, "trend", "--db", "s.db", "--event", "Ir", "--group", "main").out, TOTAL_TEXT.encode())
    tried.expect_refusal("no store", tried.script(NAME, "jumps", "--db", "none.db", "--event", "Ir"), b"there is no store none.db")
    tried.expect_refusal("neither store nor server", tried.script(NAME, "jumps", "--event", "Ir"), b"--db D or --api URL")
    tried.write("zero.cg", "events: Ir\n")
    tried.profhouse("import", "--db", "zero.db", "zero.cg")
    tried.expect("a run that costs nothing", rows_of(tried.script(NAME, "trend", "--db", "zero.db", "--event", "Ir", "--csv")),
                 [*trend_rows([1], [0], 0, {1: "zero.cg"})])
    tried.profhouse("remove", "--db", "zero.db", "1")
    for words in (("trend", "--event", "Ir"), ("jumps", "--event", "Ir"), ("grew", "--event", "Ir", "last", "last"), ("callers", "f")):
        tried.expect_refusal(f"{words[0]} without a run", tried.script(NAME, *words, "--db", "zero.db"), b"there ")
    with tried.serving("s.db") as address:
        def ask(*words):
            return tried.script(NAME, *words, "--url", address) if words else tried.script(NAME)
        for part in (cases_of_trend, cases_of_selections, cases_of_many, cases_of_jumps, cases_of_grew, cases_of_calls, cases_of_refusals):
            part(tried, ask)
        cases_of_terminals(tried, address)
