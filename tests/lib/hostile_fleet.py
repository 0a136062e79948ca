"""Hostile names through fleet_load and fleet_ask, and hostile answers of ClickHouse and PostgreSQL: what tests/hostile_words tries
third. Whatever comes, nothing hidden is printed, nothing is made, and the status is that of an answer or of a fault."""
import copy
import ctypes
import json
import os
import random
import struct
import tempfile

import fleet_listener
import fleet_protocol
import tried as trying
from forked import ran
from hostile import COMMANDS, CONTROLS, MARKUP, hidden_in, strange_lines
from hostile_answers import in_children
from hostile_names import COUNT, TWINS, as_printed, as_shown, names_of, profile
from tried import DISK

QUESTIONS = [("runs",), ("by", "--event=Ir", "function"), ("by", "--event=Ir", "file"), ("inclusive", "--event=Ir"), ("grew", "--event=Ir", "--last=2"),
             ("subtract", "--event=Ir", "--group=main", "line"), ("trend", "--event=Ir", "--object=o", "f"), ("callers", "--event=Ir", "--object=o", "f")]
FORMS = ("csv", "json", "text")
# The tables of a node into which the store was loaded.
LOADED = {}
PROFILE = b"events: Ir\nob=o\nfl=a.c\nfn=f\n1 5\ncob=o\ncfi=a.c\ncfn=f\ncalls=2 1\n1 3\n"


def word_of(chance):
    return chance.choice(COMMANDS + MARKUP + CONTROLS).replace("MARK", "mark").encode("utf-8", "surrogateescape")


def changed_answer(chance):
    """What a node says in place of one of its answers."""
    kind, which = chance.randrange(9), chance.randrange(9)
    word, state = word_of(chance), {"left": which}

    def changed(query, data):
        state["left"] -= 1
        if state["left"] != 0 and kind != 8:
            return 200, data
        at = chance.randrange(len(data) + 1)
        return [(500, b"Code: 60, e.displayText() = DB::Exception: " + word), (401, word), (200, word * 9), (200, data[:at]), (200, data + word), (200, b""),
                (200, data[:at] + word + data[at + len(word):]), (302, word), (200, with_word(data, word))][kind]
    return changed


def with_word(data, word):
    """An answer in which what may be a text is another one of the same length."""
    for old in (b"main", b"f" * 40):
        if old in data and len(word) >= 1:
            data = data.replace(old, (word * len(old))[:len(old)])
    return data


def outcome(name, done, folder, forms, wanted=(0, 2)):
    """What is wrong with what a script did, or None."""
    if done.status not in wanted or done.status == 2 and (done.out or not done.err):
        return f"{name}: {done}"[:2000]
    hidden = hidden_in(done.err) or (hidden_in(done.out) if forms != "text" else [])
    if hidden or strange_lines("fleet_ask", done.err) and strange_lines("fleet_load", done.err):
        return f"{name}: it prints {hidden}, {done}"[:2000]
    left = sorted(set(os.listdir(folder)) - {"one.db", "tmp"}) + os.listdir(os.path.join(folder, "tmp"))
    return f"{name}: there is {left}" if left else None


def environment(folder):
    return {"PATH": os.environ["PATH"], "HOME": folder, "TMPDIR": os.path.join(folder, "tmp"), "LANG": "C.UTF-8"}


def of_a_node(seed, number, folder):
    """A question to a node that answers one of its queries in a hostile way, or a load into it."""
    chance, wrong = random.Random(f"{seed} fleet {number}"), None
    with fleet_listener.listening() as (node, address):
        if not LOADED:
            done = ran("fleet_load", "--copy", "one.db", "main", "--fleet", address, folder=folder, environment=environment(folder))
            wrong = outcome("the load", done, folder, "csv", (0,))
            LOADED.update(tables=copy.deepcopy(node.tables), types=node.types)
        node.tables, node.types = copy.deepcopy(LOADED["tables"]), LOADED["types"]
        if number % 5 == 0:
            for table in node.tables:
                node.tables[table].clear() if chance.randrange(2) else None
        form = FORMS[number % len(FORMS)]
        node.changed = changed_answer(chance)
        words = chance.choice(QUESTIONS)
        done = ran("fleet_ask", words[0], "--fleet", address, "--format", form, *words[1:], folder=folder, environment=environment(folder))
    return wrong or outcome(f"fleet_ask {number} of seed {seed}, {words}", done, folder, form)


def of_a_database(seed, number, folder):
    """A question to a database, or a load into it, that answers with hostile rows, faults, notices or bytes."""
    chance = random.Random(f"{seed} base {number}")
    word = word_of(chance).replace(b"\0", b"\1")
    rows = [(b"\\x" + word.hex().encode(),) * 9, (word,) * 9, (b"1",) * 9, (None,) * 9, (b"9" * 5000,) * 9, (b"main", b"\\x6d61696e202d202d0a")]
    notice = b"SNOTICE\0C00000\0M" + word + b"\0\0"
    answers = [rows[chance.randrange(len(rows))][:chance.randrange(1, 10)]], "22000" + word.decode("latin-1"), word * 9, \
        b"N" + struct.pack(">i", len(notice) + 4) + notice
    fronts = ["SELECT store", "SELECT l.store", "SELECT e.load", "SELECT d.load", "SELECT s.", "SELECT id", "SELECT digest", "INSERT", "SELECT", "BEGIN"]
    first = [("SELECT version", [(b"1",)])] if number % 4 else []
    with fleet_protocol.listening([*first, (chance.choice(fronts), answers[chance.randrange(4)]), ("SELECT version", [(b"1",)])]) as (_, address):
        words = chance.choice(QUESTIONS)
        if number % 3:
            done = ran("fleet_ask", words[0], "--fleet", address, "--format", "csv", *words[1:], folder=folder, environment=environment(folder))
        else:
            done = ran("fleet_load", "--copy", "one.db", "main", "--fleet", address, folder=folder, environment=environment(folder))
    return outcome(f"a database, {number} of seed {seed}, {words}", done, folder, "csv")


def of_names(tried, seed):
    """Hostile names: the engine gets them to the byte, a file gets what profhouse says, and the other forms hide nothing."""
    names = [*names_of(random.Random(f"{seed} fleet names"), "mark"), *TWINS]
    tried.profhouse("import", "--db", "s.db", tried.write("s.cg", profile(names, 1)))
    with fleet_listener.listening() as (node, address):
        done = tried.script("fleet_load", "--copy", "s.db", "main", "--fleet", address)
        held = {it["bytes"] for it in node.tables["name"]}
        found = [None if done.err == b"" and done.status == 0 else f"fleet_load: {done}"]
        found += [None if it in held else f"fleet_load: {it} is not there" for it in names]
        said = tried.profhouse("by", "--db", "s.db", "--event", "Ir", "function")
        ask = lambda *more: ran("fleet_ask", "by", "--event=Ir", "--fleet", address, "function", *more, folder=tried.folder, environment=tried.environment)
        found.append(None if ask().out == said else "fleet_ask: a file gets other bytes than profhouse says")
        rows = json.loads(ask("--format", "json").out)["rows"]
        shown = {(it["object"], it["function"]) for it in rows}
        found += [None if (as_shown(it),) * 2 in shown else f"fleet_ask: {as_shown(it)!r} is not there" for it in names]
        for more in (("--format", "csv"), ("--format", "json")):
            found.append(None if not hidden_in(ask(*more).out) else f"fleet_ask {more}: something hidden is printed")
        seen = ran("fleet_ask", "by", "--event=Ir", "--fleet", address, "function", folder=tried.folder, environment=tried.environment, terminal=True)
        found.append(None if not hidden_in(seen.out) and seen.status == 0 else "fleet_ask: something hidden is on a terminal")
        found.append(None if all(b":" + as_printed(it) in said for it in names) else "profhouse has other names")
    return found


def results(seed, program):
    """A pair for each case, with what is wrong or None."""
    try:
        ctypes.CDLL("libpq.so.5")
        kinds = (of_a_node, of_a_database)
    except OSError:
        print("hostile answers of PostgreSQL are skipped, there is no libpq.so.5")
        kinds = (of_a_node,)
    with trying.new_folder(program) as tried:
        found = [(1, it) for it in of_names(tried, seed)]
        tried.profhouse("import", "--db", "one.db", tried.write("f" * 37 + ".cg", PROFILE), tried.write("two.cg", PROFILE + b"2 1\n"))
        tried.profhouse("group", "--db", "one.db", "main")
        tried.profhouse("join", "--db", "one.db", "main", "1")
        tried.profhouse("baseline", "--db", "one.db", "main", "2")
        store = tried.read("one.db")

        def one(it):
            kind, number = it
            with tempfile.TemporaryDirectory(prefix="hostile.", dir=DISK) as folder:
                os.mkdir(os.path.join(folder, "tmp"))
                with open(os.path.join(folder, "one.db"), "wb") as file:
                    file.write(store)
                return kind(seed, number, folder)
        return found + in_children([(kind, number) for kind in kinds for number in range(COUNT)], one)
