"""Hostile names in a store, and as words of a command line, through each script that prints: what tests/hostile_words
tries then."""
import csv
import io
import json
import os
import random
import re
import shutil
import sqlite3
import tempfile

import tried as trying
from forked import ran
from hostile import COMMANDS, CONTROLS, MARKUP, hidden_in, strange_lines, visible
from hostile_answers import CODE, Sound, in_children, listening_for
from tried import DISK

COUNT = 200
PIECES = [it for it in COMMANDS + MARKUP + CONTROLS if "\n" not in it]
ODD = [b"\xe9", b"\xc2\x9b31m", b"\xe2\x80\xae", b"\xff\xfe", b"\xed\xa0\x80", b"\\", b"\\|", b"``", b"\x1b[8m", b"\xf3\xa0\x81\x81", b"\r", b"\x00"]
# A byte that is no UTF-8, and the character of its number: two names.
TWINS = [b"twin\x9b", b"twin\xc2\x9b", b"twin\xad", b"twin\xc2\xad"]
LONGEST = 160


def names_of(chance, mark):
    """Names that are bytes, and each of which is no other."""
    for number in range(COUNT):
        pieces = [chance.choice(PIECES).replace("MARK", mark).encode("utf-8", "surrogateescape")[:400] for _ in range(chance.randrange(1, 4))]
        yield b"n%d" % number + b"".join(pieces + [chance.choice(ODD)]) + b"z"


def as_printed(name):
    """A name's bytes as a report has them."""
    return re.sub(rb"[\x00-\x1f\x7f\\]", lambda it: b"\\\\" if it[0] == b"\\" else b"\\x%02x" % it[0][0], name)


def as_shown(name):
    return visible(as_printed(name).decode("utf-8", "backslashreplace"))


def profile(names, factor):
    """A file in which each name is one of a function, of an object and of a source."""
    rows = (b"ob=%s\nfl=%s\nfn=%s\n1 %d\n" % (name, name, name, factor * (100 + number)) for number, name in enumerate(names))
    return b"events: Ir\n" + b"".join(rows)


class Stored:
    """A store with hostile names, and what the scripts say of it."""

    def __init__(self, tried, seed):
        self.tried, self.mark = tried, tried.path("mark")
        chance = random.Random(f"{seed} names")
        self.names = [*names_of(chance, self.mark), *TWINS]
        self.shown = [as_shown(it) for it in self.names]
        # (the label of a run is its path, without control codes)
        label = "run $(touch mark) bench=\u202e|`\u009b31m\u2066 commit=%d|$(touch${IFS}mark)`\U000e0041 |\u202e=\u009b.cg"
        for number in (1, 2):
            tried.profhouse("import", "--db", "s.db", tried.write(f"{number}{label % number}", profile(self.names, number)))
        tried.profhouse("group", "--db", "s.db", "main")
        tried.profhouse("baseline", "--db", "s.db", "main", "1")
        for name in ("tmp", "home"):
            os.mkdir(tried.path(name))
        self.environment = {"PATH": tried.environment["PATH"], "HOME": tried.path("home"), "TMPDIR": tried.path("tmp"),
                            "LANG": "C.UTF-8"}
        self.before = sorted(os.listdir(tried.folder))

    def ran(self, script, *words, **more):
        return ran(script, *words, folder=self.tried.folder, environment=self.environment, **more)

    def each(self, what, wanted, found, done):
        """A result for each name: whether what it has to be shown as is there."""
        whole = None if done.status == 0 and not hidden_in(done.err) else f"{what}: {done.status} {done.err[:500]}"
        return [whole or (None if it in found else f"{what}: {it!r} is not there") for it in wanted]

    def of_costs(self, done):
        wanted = [f"{100 + at} {it}:{it}" for at, it in enumerate(self.shown)]
        return self.each("fail_if_costlier", wanted, set(done.out.decode().split("\n")), done) + [hidden_wrong("fail_if_costlier", done.out, "\n")]

    def of_a_table(self, done):
        rows = [cells(it) for it in done.out.decode().split("\n") if it.startswith("| +")]
        found = {tuple(content_of(it) for it in row[2:]) if len(row) == 4 else None for row in rows}
        wanted = [(cut(it), cut(as_shown(name.rpartition(b"/")[2]))) for it, name in zip(self.shown, self.names)]
        return self.each("markdown_difference", wanted, found, done) + [hidden_wrong("markdown_difference", done.out, "\n")]

    def of_a_terminal(self, address):
        words = ("by", "--api", address, "--event", "Ir", "--run", "1", "function")
        plain, seen = self.ran("profhouse_remote", *words), self.ran("profhouse_remote", *words, terminal=True)
        said = self.tried.run("curl", "-s", f"{address}/reports/function?event=Ir&run=1").out
        wanted = [f"{it}:{it}" for it in self.shown]
        found = {it.split(" ", 2)[2] for it in seen.out.decode().split("\n")[1:-1]}
        return [*self.each("profhouse_remote", wanted, found, seen), hidden_wrong("profhouse_remote", seen.out, "\n"),
                None if plain.out == said else "profhouse_remote: a file gets other bytes than the server says",
                *(hidden_wrong(f"profhouse_remote {it}", self.ran("profhouse_remote", it, "--api", address, terminal=True).out, "\n\t")
                  for it in ("runs", "csv"))]

    def of_history(self):
        """Each name in each form: run 2 costs twice what run 1 does."""
        wanted, found = [f"{it}:{it}" for it in self.shown], []
        words = ("grew", "--db", "s.db", "--event", "Ir", "1", "2", "--rows", "1000")
        readers = {"--json": lambda out: {it["name"] for it in json.loads(out)}, "--csv": lambda out: {it[-1] for it in csv.reader(io.StringIO(out))},
                   "--markdown": lambda out: {content_of(cells(it)[-1]) for it in out.split("\n")[4:-1]}}
        for form in ("--json", "--csv", "--markdown"):
            done = self.ran("profhouse_history", *words, form)
            names = [cut(it) for it in wanted] if form == "--markdown" else wanted
            found += [*self.each(f"profhouse_history {form}", names, readers[form](done.out.decode()), done), hidden_wrong(f"profhouse_history {form}", done.out, "\n")]
        for more in (("grew", "1", "2"), ("jumps", "--lines"), ("trend", "--top", "300"), ("benches",), ("benches", "--json"), ("benches", "--csv")):
            done = self.ran("profhouse_history", more[0], "--db", "s.db", "--event", "Ir", *more[1:])
            found += [hidden_wrong(f"profhouse_history {more[0]}", done.out, "\n"), None if done.status == 0 else f"profhouse_history {more}: {done}"]
        found += self.of_benches()
        for name, it in zip(self.names[::20], self.shown[::20]):
            done = self.ran("profhouse_history", "trend", "--db", "s.db", "--event", "Ir", "--runs=1..1", "--json", "function", "--", f"{it}:{it}")
            cost = [row["cost"] for row in json.loads(done.out)] if done.status == 0 else done
            found.append(None if cost == [100 + self.names.index(name)] else f"profhouse_history trend {it!r}: {cost}")
        return found

    def of_benches(self):
        """The benchmark and the builds of the labels, as a table of Markdown."""
        done = self.ran("profhouse_history", "benches", "--db", "s.db", "--event", "Ir", "--markdown")
        total = 2 * sum(range(100, 100 + len(self.names)))
        wanted = [f" {total // 2:,} ", f" {total:,} ", f" +{total // 2:,} ", " +100.00 % ", visible("\u202e|`\u009b31m\u2066")]
        row = cells(done.out.decode().split("\n")[4]) if done.status == 0 else []
        found = [*row[:4], content_of(row[5])] if len(row) == 6 else done
        return [None if found == wanted else f"profhouse_history benches: {found}", hidden_wrong("profhouse_history benches", done.out, "\n")]

    def of_callgrind(self, done):
        """The file that is written has the names as they are, and no other line for them."""
        self.tried.write("again.cg", done.out)
        self.tried.profhouse("import", "--db", "again.db", "again.cg")
        words = ("by", "--event", "Ir", "function")
        said, again = (self.tried.profhouse(words[0], "--db", it, *words[1:], *more) for it, more in (("s.db", ("--run", "1")), ("again.db", ())))
        return [None if said == again and done.status == 0 else "to_callgrind: its file says something else"]

    def results(self):
        found = [*self.of_costs(self.ran("fail_if_costlier", "s.db", "main", "2", "Ir", "1000%")),
                 *self.of_a_table(self.ran("markdown_difference", "--db", "s.db", "2", "main", "Ir", "--rows", "1000")),
                 *self.of_callgrind(self.ran("to_callgrind", "--db", "s.db", "1"))]
        found += self.of_history()
        with self.tried.serving("s.db") as address:
            found += self.of_a_terminal(address)
        made = {it for it in os.listdir(self.tried.folder) if not re.fullmatch(r"again\.cg|(?:s|again)\.db(?:-wal|-shm)?", it)}
        left = sorted([*made - set(self.before), *os.listdir(self.tried.path("tmp")), *os.listdir(self.tried.path("home"))])
        return [*found, f"there is {left}" if left else None]


def hidden_wrong(what, text, kept):
    return f"{what}: it prints {hidden_in(text, kept)}" if hidden_in(text, kept) else None


def cut(text):
    return text if len(text) <= LONGEST else text[:LONGEST] + "…"


def cells(row):
    """The cells of a row of a table."""
    return re.findall(r"\|((?:\\[!-/:-@\[-`{-~]|[^|])*)", row)[:-1]


def content_of(cell):
    """What a cell with one span of code shows, or None for another cell."""
    found = CODE.fullmatch(cell.strip(" ")) if cell.startswith(" ") and cell.endswith(" ") else None
    if not found:
        return None
    inside = found[0][len(found[1]):-len(found[1])].replace("\\|", "|")
    return inside[1:-1] if inside.startswith(" ") and inside.endswith(" ") and inside.strip(" ") else inside


# Words of a command line, for each script. Each has a hostile word W, a server A and a store D; and how it may end.
WORDS = {
    "same_paths": [(("W=/x",), (0, 2)), (("/x=W",), (0, 2))],
    "to_callgrind": [(("--db=W", "1"), (2,)), (("--db=D", "W"), (2,))],
    "fail_if_costlier": [(("--api=A", "W", "2", "Ir", "5%"), (2,)), (("--api=A", "main", "W", "Ir", "5%"), (2,)),
                         (("--api=A", "main", "2", "W", "5%"), (2,)), (("--api=A", "main", "2", "Ir", "W"), (2,)),
                         (("--db=W", "main", "2", "Ir", "5%"), (2,))],
    "markdown_difference": [(("--api=A", "W", "1", "Ir"), (2,)), (("--api=A", "2", "W", "Ir"), (2,)), (("--api=A", "2", "main", "W"), (2,)),
                            (("--api=W", "2", "main", "Ir"), (2,))],
    "profhouse_history": [(("trend", "--api=A", "--event=W"), (2,)), (("trend", "--api=A", "--event=Ir", "function", "W"), (2,)),
                          (("trend", "--api=A", "--event=Ir", "--group=W"), (2,)), (("trend", "--api=A", "--event=Ir", "--runs=W"), (2,)),
                          (("jumps", "--api=A", "--event=Ir", "--more=W"), (2,)), (("jumps", "--api=A", "--event=Ir", "W"), (2,)),
                          (("grew", "--api=A", "--event=Ir", "1", "W"), (2,)), (("grew", "--api=A", "--event=Ir", "W", "2", "file"), (2,)),
                          (("callers", "--api=A", "--event=Ir", "--run=1", "W"), (2,)), (("callees", "--api=A", "--run=W", "f"), (2,)),
                          (("trend", "--api=A", "--event=Ir", "--where=W"), (2,)), (("benches", "--api=A", "--event=W"), (2,)),
                          (("W", "--api=A"), (2,)), (("jumps", "--event=Ir", "--api=W"), (2,)), (("trend", "--event=Ir", "--db=W"), (2,))],
    "fleet_load": [(("--fleet=W", "--copy=D", "main"), (2,)), (("--fleet=A/x", "--copy=D", "W"), (2,)), (("--fleet=A/x", "--copy=W", "main"), (2,)),
                   (("--fleet=postgresql://h/W?host=/nowhere", "--copy=D", "main"), (2,)), (("--fleet=A/x", "--copy=D", "main", "--at=W"), (2,))],
    "fleet_ask": [(("by", "--fleet=W", "--event=Ir", "function"), (2,)), (("by", "--fleet=A/x", "--event=W", "function"), (2,)),
                  (("by", "--fleet=A/x", "--event=Ir", "W"), (2,)), (("W", "--fleet=A/x"), (2,)), (("runs", "--fleet=A/x", "--store=W", "--since=W"), (2,))],
    "fleet_nodes": [(("start", "W"), (2,)), (("stop", "W", "n1"), (2,)), (("make", "W", "--shards=W"), (2,))],
    "profhouse_remote": [(("by", "--api=A", "--event=Ir", "W"), (2,)), (("callers", "--api=A", "--event=W", "--object=W", "W"), (0,)),
                         (("callers", "--api=A", "--event=Ir", "W"), (0, 1)), (("group", "--api=A", "W"), (0,)), (("import", "--api=A", "W"), (0, 1)),
                         (("join", "--api=A", "main", "W"), (2,)), (("W", "--api=A"), (2,)), (("runs", "--api=W"), (2,))],
    "profhouse_web": [(("--db=W",), (2,)), (("--db=D", "--host=W"), (2,)), (("--db=D", "--program=W"), (2,))],
    "backup_store": [(("--db=W", "copies"), (2,)), (("--db=D", "W"), (0, 2)), (("--db=D", "copies", "--keep=W"), (2,))],
}


def word_of(chance, mark, is_name):
    """A hostile word of a command line. One that is a name stands in no folder, and is not too long."""
    word = "".join(chance.choice([*PIECES, *["\n", "a\n::error::b"] * 8]) for _ in range(chance.randrange(1, 3))).replace("MARK", mark).replace("\0", "\x01")
    word = f"w{word}" if word[:1] in ("-", "", " ") or is_name else word
    return word.replace("/", ":")[:60] if is_name else word


def tried_word(seed, script, number, top, port):
    """What is wrong with a script that gets a hostile word, or None."""
    chance = random.Random(f"{seed} {script} words {number}")
    form, statuses = WORDS[script][number % len(WORDS[script])]
    folder, mark = os.path.join(top, f"{script}{number}"), os.path.join(top, f"mark.{script}{number}")
    os.mkdir(folder)
    for name in ("tmp", "home"):
        os.mkdir(os.path.join(folder, name))
    word = word_of(chance, mark, chance.randrange(2) == 0 or script == "backup_store")
    put = {"W": word, "A": f"http://127.0.0.1:{port}/0", "D": f"{top}/s.db"}
    words = [re.sub(r"\b[WAD]\b(?!:)", lambda it: put[it[0]], one) for one in form]
    words += ["--wait=0"] if any("--api" in it for it in form) else []
    environment = {"PATH": os.environ["PATH"], "HOME": f"{folder}/home", "TMPDIR": f"{folder}/tmp", "LANG": "C.UTF-8",
                   "PROFHOUSE": f"{top}/none"}
    done = ran(script, *words, folder=folder, environment=environment)
    wrong = f"the status is {done.status}, and not {statuses}" if done.status not in statuses else hidden_wrong("it", done.out + done.err, "\n")
    wrong = wrong or (f"it prints {strange_lines(script, done.err)}" if strange_lines(script, done.err) else None)
    left = [it for it in os.listdir(folder) if not re.fullmatch(r"tmp|home", it) and script != "backup_store"]
    left += os.listdir(f"{folder}/tmp") + os.listdir(f"{folder}/home")
    wrong = wrong or (f"there is {left}" if left else f"it made {mark}" if os.path.exists(mark) else None)
    shutil.rmtree(folder)
    return wrong and f"{script} {form} with {word!r}: {wrong}\n   {done}"[:3000]


def tried_backup(seed, number, top):
    """What is wrong with a backup of a store with a hostile name, or None."""
    word = word_of(random.Random(f"{seed} stores {number}"), os.path.join(top, "mark"), True)
    folder = os.path.join(top, f"stores{number}")
    os.mkdir(folder)
    path = os.path.join(folder, word)
    shutil.copy(os.path.join(top, "s.db"), path)
    os.chmod(path, 0o640)
    environment = {"PATH": os.environ["PATH"], "HOME": folder, "TMPDIR": folder, "LANG": "C.UTF-8"}
    done = ran("backup_store", f"--db={word}", "copies", folder=folder, environment=environment)
    held = sorted(os.listdir(f"{folder}/copies")) if done.status == 0 else []
    copies = [it for it in held if it.startswith(f"{word}.20")]
    wrong = f"the status is {done.status}" if done.status else hidden_wrong("it", done.out + done.err, "\n")
    if not wrong and (len(copies) != 1 or held != sorted([*copies, f"{word}.origin"]) or done.out.decode() != f"{visible(copies[0])}: 1 runs\n"):
        wrong = f"there is {held}"
    if not wrong and os.stat(f"{folder}/copies/{copies[0]}").st_mode & 0o777 != 0o640:
        wrong = "the copy has other rights"
    wrong = wrong or (f"there is {os.listdir(folder)}" if sorted(os.listdir(folder)) != sorted(["copies", word]) else None)
    shutil.rmtree(folder)
    return wrong and f"backup_store of {word!r}: {wrong}\n   {done}"[:3000]


def results_of_words(seed, program):
    top = tempfile.mkdtemp(prefix="hostile.", dir=DISK)
    try:
        with trying.new_folder(program) as tried:
            tried.profhouse("import", "--db", "s.db", tried.write("a.cg", "events: Ir\nfn=f\n1 5\n"))
            with sqlite3.connect(tried.path("s.db")) as base:
                base.execute("PRAGMA wal_checkpoint(TRUNCATE)").fetchall()
            shutil.copy(tried.path("s.db"), top)
        before = sorted(os.listdir(top))
        with listening_for([Sound()]) as port:
            words = [(script, number) for script in WORDS for number in range(COUNT)]
            found = in_children(words, lambda it: tried_word(seed, *it, top, port))
        found += in_children(range(COUNT), lambda number: tried_backup(seed, number, top))
        left = sorted(set(os.listdir(top)) - set(before))
        return [*found, (1, f"there is {left} beside the cases" if left else None)]
    finally:
        shutil.rmtree(top)


def results(seed, program):
    """A pair for each case, with what is wrong or None."""
    with trying.new_folder(program) as tried:
        stored = [(1, it) for it in Stored(tried, seed).results()]
    return [*stored, *results_of_words(seed, program)]
