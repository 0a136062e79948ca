"""share/scripts/markdown_difference: the table, its escapes, and what is refused."""
NAME = "markdown_difference"
# What functions cost before and after.
BEFORE = [("/opt/a/app", "main", 1000), ("/opt/a/app", "gone", 250), ("/lib/x:y.so", "f|g`h", 4000000), ("/lib/c", "same", 7)]
AFTER = [("/opt/a/app", "main", 1001), ("/lib/x:y.so", "f|g`h", 1234567), ("/lib/c", "same", 7), ("/lib/c", "n::ew", 33),
         ("/lib/c", "l" * 200, 5)]


def profile(rows):
    return "events: Ir Dr\n" + "".join(f"ob={name}\nfn={function}\n1 {cost}\n" for name, function, cost in rows)


def make_store(tried):
    tried.profhouse("import", "--db", "s.db", tried.write("before.cg", profile(BEFORE)) and "before.cg")
    tried.profhouse("import", "--db", "s.db", tried.write("after.cg", profile(AFTER)) and "after.cg")
    tried.profhouse("group", "--db", "s.db", "main")
    tried.profhouse("baseline", "--db", "s.db", "main", "1")
    tried.profhouse("group", "--db", "s.db", "bare")


# Before: 4001257 in all. After: 1235613. 2765433 is 69.1141 percent of it, 250 is 0.0062, 33 is 0.0008 and 5 is 0.0001.
HEAD = """**`Ir`: -2,765,644 (-69.11 %)**, run 2 (`after.cg`) less run 1 (`before.cg`)

| cost | of all before | function | object |
|--:|--:|---|---|
| -2,765,433 | -69.11 % | ``f\\|g`h`` | `x:y.so` |
| -250 | -0.00 % | `gone` | `app` |
"""
ALL = HEAD + f"""| +33 | +0.00 % | `n::ew` | `c` |
| +5 | +0.00 % | `{'l' * 160}…` | `c` |
| +1 | +0.00 % | `main` | `app` |
"""


def cases_of_texts(tried, *where):
    def ask(*words):
        return tried.script(NAME, *where, *words)
    tried.expect("all rows", ask("2", "1", "Ir"), (0, ALL.encode(), b""))
    tried.expect("less a baseline", ask("2", "main", "Ir").out, ALL.encode())
    tried.expect("some rows", ask("02", "1", "Ir", "--rows", "2").out, (HEAD + "\n3 more functions differ, by +39 together.\n").encode())
    tried.expect("no rows", ask("--rows=0", "2", "1", "Ir").out.decode().splitlines()[-1], "5 more functions differ, by -2,765,644 together.")
    tried.expect("no difference", ask("1", "1", "Ir").out.decode().splitlines(), [
        "**`Ir`: +0 (+0.00 %)**, run 1 (`before.cg`) less run 1 (`before.cg`)", "", "No function differs."])
    tried.expect("an event that costs nothing", ask("2", "1", "Dr").out.decode().splitlines()[0],
                 "**`Dr`: +0**, run 2 (`after.cg`) less run 1 (`before.cg`)")
    for what, words, has in (
            ("no run", ("9", "1", "Ir"), b"refused: no such run"), ("no event", ("2", "1", "ir"), b"refused: no such event"),
            ("no group", ("2", "none", "Ir"), b"there is no group none"), ("no baseline", ("2", "bare", "Ir"), b"has no baseline"),
            ("a name for a run", ("main", "1", "Ir"), b"RUN is the number"), ("too few words", ("2", "1"), b"required"),
            ("rows below 0", ("2", "1", "Ir", "--rows", "-1"), b"0 or more")):
        tried.expect_refusal(f"{where[0]}: {what}", ask(*words), has)


# What functions cost in each run of a group, whose baseline is the first: one steps up in the newest run, one goes up and down.
SERIES = {"step": (100, 100, 102, 200), "swings": (50, 90, 50, 90), "falls": (800, 600, 300, 0)}
TREND = """**`Ir`: -660 (-69.47 %)**, run 4 (`run4.cg`) less run 1 (`run1.cg`)

| cost | of all before | function | object | last 4 runs |
|--:|--:|---|---|---|
| -800 | -84.21 % | `falls` | `app` | `█▆▃▁` **jump** |
| +100 | +10.52 % | `step` | `app` | `▁▁▁█` **jump** |
| +40 | +4.21 % | `swings` | `app` | `▁█▁█` |

The total in the last 4 runs: `█▆▂▁`, from 290 to 950.
"""


def cases_of_trends(tried):
    """The column of the last runs. Of 7 levels 600 of 800 are the 5th, and 300 the 2nd; of 950, 790, 452 and 290 the middle
    ones are the 5th (500 * 7 / 660) and the 1st (162 * 7 / 660)."""
    for number, costs in enumerate(zip(*SERIES.values()), 1):
        rows = "".join(f"ob=/opt/app\nfn={name}\n1 {cost}\n" for name, cost in zip(SERIES, costs))
        tried.profhouse("import", "--db", "trend.db", tried.write(f"run{number}.cg", f"events: Ir\n{rows}") and f"run{number}.cg")
    tried.profhouse("group", "--db", "trend.db", "main")
    for number in ("1", "2", "3"):
        tried.profhouse("join", "--db", "trend.db", "main", number)
    tried.profhouse("baseline", "--db", "trend.db", "main", "1")
    ran = tried.script(NAME, "--db", "trend.db", "4", "main", "Ir")
    tried.expect("a column of the last runs", ran.out.decode(), TREND)
    rows = tried.script(NAME, "--db", "trend.db", "4", "1", "Ir").out.decode().splitlines()
    tried.expect("none without a group", (rows[2], rows[-1]), ("| cost | of all before | function | object |", "| +40 | +4.21 % | `swings` | `app` |"))
    tried.expect("none for two runs", tried.script(NAME, "--db", "trend.db", "2", "main", "Ir").out.decode().splitlines()[2], "| cost | of all before | function | object |")


def cases(tried):
    cases_of_trends(tried)
    tried.expect_help(NAME)
    make_store(tried)
    cases_of_texts(tried, "--db", "s.db")
    tried.expect_refusal("no store", tried.script(NAME, "--db", "none.db", "2", "1", "Ir"), b"there is no store none.db")
    tried.expect_refusal("neither store nor server", tried.script(NAME, "2", "1", "Ir"), b"--db D or --api URL")
    with tried.serving("s.db") as address:
        cases_of_texts(tried, "--api", address)
        tried.expect("the variable", tried.script(NAME, "2", "1", "Ir", PROFHOUSE_API=address).status, 0)
        tried.expect_refusal("a store that is served", tried.script(NAME, "--db", "s.db", "2", "1", "Ir"), b"give --api")
