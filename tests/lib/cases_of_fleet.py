"""share/scripts/fleet_load, fleet_ask and fleet_nodes, as far as they need no server: what they send to the byte, what they print of
answers, words and refusals. tests/by_hand/fleet has the rest."""
import ctypes
import hashlib
import json
import os
import re
import sqlite3
import struct
import xml.etree.ElementTree

import fleet_listener
import fleet_protocol

PROFILE = b"events: Ir Dr\nevent: Both = Ir + 2 Dr\nob=o\nfl=a.c\nfn=f\n7 5 1\n8 3\ncfn=g\ncalls=2 1\n8 40 4\nfn=g\n1 40 4\n"
ODD = [b'a,"b"\\x09\t\\.', b"\xe9\xff\xfe", b"'; DROP TABLE x; --", b"{x:String}", b"\rx", b"nul\0l", b"\xe2\x80\xae", b"--", b"x" * 300, b"a:b", b"\x1b[2J"]


def name(text):
    return int.from_bytes(hashlib.sha256(text).digest()[:8], "little")


def shown(text):
    return re.sub(rb"[\x00-\x1f\x7f\\]", lambda it: b"\\\\" if it[0] == b"\\" else b"\\x%02x" % it[0][0], text)


def load(tried, store, address, *more):
    return tried.script("fleet_load", "--copy", f"{store}.db", store, "--at", "2026-11-05T10:00:00Z", "--fleet", address, *more)


def digest_of(tried, store):
    return bytes.fromhex(tried.profhouse("runs", "--db", f"{store}.db").split(b" ")[2].decode())


def column(title, kind, data):
    return bytes([len(title)]) + title.encode() + bytes([len(kind)]) + kind.encode() + data


def numbers(title, kind, *values):
    return column(title, kind, b"".join(struct.pack({"UInt32": "<I", "Int64": "<q", "UInt64": "<Q", "UInt8": "<B"}[kind], it) for it in values))


def cases_of_blocks(tried):
    """The blocks that a load sends, to the byte; and that its record is the last thing but the list of runs."""
    with fleet_listener.listening() as (node, address):
        tried.expect("a load", load(tried, "one", address), (0, b"run 1\n", b""))
        sent = {re.match(r"INSERT INTO fleet\.(\w+) FORMAT Native", it[0])[1]: it for it in node.asked if it[0].startswith("INSERT")}
        tried.expect("the order of tables", list(sent), ["cost", "by_function", "call", "event", "coef", "name", "load", "listed", "store"])
        number = node.tables["load"][0]["load"]
        ir, dr, both, o, f, g, a = map(name, (b"Ir", b"Dr", b"Both", b"o", b"f", b"g", b"a.c"))
        digest = digest_of(tried, "one")
        tried.expect("the block of the calls", sent["call"][1], b"\x0b\x03" + b"".join([
            numbers("month", "UInt32", *[202611] * 3), numbers("load", "UInt64", *[number] * 3), numbers("event", "UInt64", 0, ir, dr), numbers("object", "UInt64", o, o, o),
            numbers("file", "UInt64", a, a, a), numbers("function", "UInt64", f, f, f), numbers("line", "UInt64", 8, 8, 8), numbers("called_object", "UInt64", o, o, o),
            numbers("called_file", "UInt64", a, a, a), numbers("called_function", "UInt64", g, g, g), numbers("n", "Int64", 2, 40, 4)]))
        tried.expect("the block of the record", sent["load"][1], b"\x06\x01" + column("digest", "FixedString(32)", digest) + numbers("load", "UInt64", number)
                     + numbers("kind", "UInt8", 1) + numbers("at", "Int64", 1793872800) + numbers("month", "UInt32", 202611) + numbers("call_count", "Int64", 2))
        tried.expect("the block of the formulas", sent["coef"][1], b"\x04\x03" + numbers("load", "UInt64", *[number] * 3) + numbers("derived", "UInt64", both, both, both)
                     + numbers("event", "UInt64", ir, dr, 0) + numbers("n", "Int64", 1, 2, 0))
        rows = sorted((it["event"], it["function"], it["line"], it["cost"]) for it in node.tables["cost"])
        tried.expect("the costs", rows, sorted([(ir, f, 7, 5), (ir, f, 8, 3), (ir, g, 1, 40), (dr, f, 7, 1), (dr, g, 1, 4)]))
        marks = [it for it in node.tables["by_function"] if it["function"] == 0]
        tried.expect("a row of no function for each event", sorted(it["event"] for it in marks), sorted(it ^ 1 << 63 for it in (ir, dr)))
        rows = sorted((it["event"], it["function"], it["self"], it["called"]) for it in node.tables["by_function"] if it not in marks)
        tried.expect("the sums by function", rows, sorted([(ir, f, 8, 40), (ir, g, 40, 0), (dr, f, 1, 4), (dr, g, 4, 0)]))
        heads = {it[2].get("Authorization") for it in node.asked}
        tried.expect("the password is in the head", heads, {"Basic bG9hZGVyOnBhc3M="})
        before = len(node.asked)
        tried.expect("again", load(tried, "one", address), (0, b"", b""))
        tried.expect("nothing is written again", [it[0] for it in node.asked[before:] if it[0].startswith("INSERT")], [])


def cases_of_questions(tried):
    """What is asked for comes beside a query, to the byte, and never in it."""
    with fleet_listener.listening() as (node, address):
        load(tried, "one", address)
        del node.asked[:]
        done = tried.script("fleet_ask", "callers", "--event", "Ir", "--object", "o", "g", "--fleet", address)
        tried.expect("callers", done, (0, tried.profhouse("callers", "--db", "one.db", "--event", "Ir", "--object", "o", "g"), b""))
        query, body, head, words = next(it for it in node.asked if "FROM fleet.call WHERE event" in it[0] and name(b"Ir").to_bytes(8, "little") in it[1])
        boundary = head["Content-Type"].partition("boundary=")[2].encode()
        parts = [("e", name(b"Ir").to_bytes(8, "little")), ("l", node.tables["load"][0]["load"].to_bytes(8, "little")), ("m", (202611).to_bytes(4, "little")),
                 ("o", name(b"o").to_bytes(8, "little")), ("f", name(b"g").to_bytes(8, "little"))]
        tried.expect("a body of external tables", body, b"".join(
            b"--" + boundary + b'\r\nContent-Disposition: form-data; name="%s"; filename="x"\r\nContent-Type: application/octet-stream\r\n\r\n%s\r\n' % (it.encode(), rows)
            for it, rows in parts) + b"--" + boundary + b"--\r\n")
        tried.expect("their types", [words[f"{it}_structure"] for it in "elm"], [["x UInt64"], ["x UInt64"], ["x UInt32"]])
        tried.expect("no value is in a query", [it[0] for it in node.asked if re.search("Ir|202611|'|\"", it[0].replace("'profhouse'", ""))], [])


def cases_of_reports(tried):
    """Reports over odd names are those of the program, through blocks and external tables."""
    with fleet_listener.listening() as (node, address):
        tried.expect("loads", [load(tried, it, address).err for it in ("one", "odd", "stacks")], [b"", b"", b""])
        tried.expect("the names, to the byte", {it["bytes"] for it in node.tables["name"]} >= set(ODD), True)
        for store, event in (("one", "Ir"), ("one", "Both"), ("odd", "Ir"), ("odd", "Est"), ("stacks", "samples"), ("odd", "Nothing")):
            for words in (("by", "object"), ("by", "file"), ("by", "function"), ("by", "line"), ("by", "thread"), ("by", "function", "--limit", "2"),
                          ("by", "function", "--threshold", "50"), ("inclusive",), ("subtract", "function", "--group", "main"), ("subtract", "line", "--run", "1", "--less-run", "1"),
                          ("callees", "--object", "a:b", "--", "--"), ("callers", "f")):
                words = (words[0], "--event", event, *words[1:])
                said = tried.run(tried.program, words[0], "--db", f"{store}.db", *words[1:])
                done = tried.script("fleet_ask", words[0], "--store", store, "--fleet", address, *words[1:])
                tried.expect(f"{store}: {words}", done, (2, b"", said.out.replace(b"refused: ", b"fleet_ask: ")) if said.status else (0, said.out, b""))
        done = tried.script("fleet_ask", "trend", "--event", "Ir", "--object", "o", "f", "--fleet", address)
        tried.expect("the head of a trend", (done.err, done.out.partition(b"\n")[0]), (b"", b"trend Ir o:f"))
        rows = [it.split(b" ")[:4] for it in done.out.split(b"\n")[1:-1]]
        wanted = [[cost, store, b"1", b"2026-11-05T10:00:00Z"] for cost, store in ((b"0", b"odd"), (b"8", b"one"))]
        tried.expect("a trend is in the order of time and stores", rows, wanted)
        cases_of_forms(tried, address)


def cases_of_forms(tried, address):
    """CSV and JSON: nothing is hidden in them, and JSON has texts for numbers."""
    said = tried.profhouse("by", "--db", "odd.db", "--event", "Ir", "function").split(b"\n")[2:-2]
    done = tried.script("fleet_ask", "by", "--event", "Ir", "--store", "odd", "function", "--format", "json", "--fleet", address)
    found = json.loads(done.out)
    tried.expect("JSON", [(it["cost"], it["percent"]) for it in found["rows"]], [tuple(it.decode("latin-1").split(" ")[:2]) for it in said])
    names = {it["function"] for it in found["rows"]}
    tried.expect("names in JSON", ("\\xe9\\xff\\xfe" in names, "\\u202e" in names, "nul\\x00l" in names), (True, True, True))
    total = tried.profhouse("by", "--db", "odd.db", "--event", "Ir", "function").split(b"\n")[1].split(b" ")[0]
    tried.expect("the total in JSON", found["total"]["cost"], total.decode())
    done = tried.script("fleet_ask", "by", "--event", "Ir", "--store", "one", "line", "--format", "csv", "--fleet", address)
    tried.expect("CSV", done, (0, b"cost,percent,file,line\n40,83.33%,a.c,1\n5,10.41%,a.c,7\n3,6.25%,a.c,8\n", b""))


def cases_of_faults(tried):
    """Cuts, wrong sums, lost rows and other answers."""
    with fleet_listener.listening() as (node, address):
        node.cuts = [100]
        tried.expect("a load that was cut is tried again", load(tried, "one", address), (0, b"run 1\n", b""))
        tried.expect("one record", len(node.tables["load"]), 1)
        by = ("fleet_ask", "by", "--event", "Ir", "function", "--fleet", address)
        tried.expect("only what has the record counts", tried.script(*by).out.split(b"\n")[1], b"48 100.00% total")
        trend = ("fleet_ask", "trend", "--event", "Ir", "--object", "o", "f", "--fleet", address)
        tried.expect("a trend", tried.script(*trend).out.split(b" ")[2:4], [b"o:f\n8", b"one"])
        mark = next(it for it in node.tables["by_function"] if it["event"] == name(b"Ir") ^ 1 << 63)
        node.tables["by_function"].remove(mark)
        tried.expect_refusal("a trend of a lost part", tried.script(*trend), b"lost a part")
        node.tables["by_function"].append(mark)
        lost = node.tables["by_function"].pop(0)
        events = {it: tried.script("fleet_ask", "by", "--event", it, "function", "--fleet", address) for it in ("Ir", "Dr")}
        it = events["Ir" if lost["event"] == name(b"Ir") else "Dr"]
        tried.expect_refusal("a lost row", it, b"lost a part")
        node.tables["by_function"].append(lost)
        node.tables["name"].clear()
        tried.expect_refusal("lost names", tried.script(*by), b"is missing")
        node.tables["listed"].clear()
        tried.expect_refusal("a lost list", tried.script(*by), b"not whole")
        for status, data, has in ((500, b"Code: 60, Table does not exist", b"--create"), (401, b"wrong\x1b[2J password", b"wrong\\x1b[2J password"),
                                  (200, b"x", b"out of form")):
            node.changed = lambda query, own, it=(status, data): it if "FROM fleet." in query else (200, own)
            tried.expect_refusal(f"an answer of {status}", tried.script(*by), has)
    tried.expect_refusal("no node", tried.script(*by), b"no node answers")
    # Sums that differ once: the try has another number, and no record was written for the first.
    with fleet_listener.listening() as (node, address):
        wrong = [True]

        def changed(query, data):
            if "sum(toDecimal128(cost" in query and wrong and data:
                wrong.pop()
                return 200, data[:16] + bytes([data[16] ^ 1]) + data[17:]
            return 200, data
        node.changed = changed
        tried.expect("sums that differ once", load(tried, "one", address), (0, b"run 1\n", b""))
        tried.expect("two numbers, and one record", (len({it["load"] for it in node.tables["cost"]}), len(node.tables["load"])), (2, 1))


def cases_of_copies(tried):
    """The rows of COPY to the byte, and that no value is in a statement."""
    try:
        ctypes.CDLL("libpq.so.5")
    except OSError:
        print("fleet: what is sent to PostgreSQL is skipped, there is no libpq.so.5")
        return
    names = [b"o", b"a.c", b"f", b"g", b"Ir", b"Dr", b"Both"]
    known = [(b"%d" % (at + 1), b"\\x" + hashlib.sha256(it).hexdigest().encode()) for at, it in enumerate(names)]
    answers = [("SELECT version", [(b"1",)]), ("SELECT to_regclass", [(b"t",)]), ("INSERT INTO profhouse.load", [(b"77",)]), ("SELECT id, sha256", known),
               ("SELECT event, sum(cost)", [(b"0", b"48", b"3"), (b"1", b"5", b"2")]), ("SELECT event, sum(self)", [(b"0", b"48", b"40", b"2"), (b"1", b"5", b"4", b"2")]),
               ("SELECT part, sum", [(b"0", b"2", b"1"), (b"1", b"40", b"1"), (b"2", b"4", b"1")]), ("SELECT coalesce", [(b"0", b"0")]),
               ("INSERT INTO profhouse.store", [(b"t",)])]
    with fleet_protocol.listening(answers) as (base, address):
        tried.expect("a load", load(tried, "one", address), (0, b"run 1\n", b""))
        head, tail = b"PGCOPY\n\xff\r\n\0" + bytes(8), b"\xff\xff"
        copied = {re.match(r"COPY profhouse\.(\w+)", it)[1]: data for it, data in base.copied.items()}
        fields = lambda *its: struct.pack(">h", len(its)) + b"".join(struct.pack(">i", len(it)) + it for it in its)
        i, q, h = (lambda it, form=form: struct.pack(form, it) for form in (">i", ">q", ">h"))
        place = (i(77), i(202611), i(1), i(2), i(3), i(1), i(2), i(4))
        tried.expect("the calls", copied["call"], head + b"".join(fields(q(8), q(n), *place, h(part)) for part, n in enumerate((2, 40, 4))) + tail)
        rows = sorted(((7, 5, 3, 0), (7, 1, 3, 1), (8, 3, 3, 0), (1, 40, 4, 0), (1, 4, 4, 1)))
        found = copied["cost"][len(head):-len(tail)]
        size = len(fields(q(1), q(1), q(1), *place[:5], h(0)))
        tried.expect("the costs", sorted(found[at:at + size] for at in range(0, len(found), size)), sorted(
            fields(q(line), q(0), q(cost), i(77), i(202611), i(1), i(2), i(function), h(event)) for line, cost, function, event in rows))
        said = {it for it, _ in base.asked}
        tried.expect("no value is in a statement", [it for it in said if re.search(r"\bone\b|202611|a\.c|\bIr\b", it)], [])
        tried.expect("the digest is a parameter", any(digest_of(tried, "one") in values for _, values in base.asked), True)
        tried.expect("it is committed", [it for it, _ in base.asked].count("COMMIT"), 2)
    for answer, has in ((answers[:4] + [("SELECT event, sum(cost)", [(b"0", b"47", b"3")])] + answers[5:], b"differs in rows, costs"),
                        ([("INSERT INTO profhouse.load", "42501permission \x1b[2Jdenied"), *answers], b"permission \\x1b[2Jdenied"),
                        ([("SELECT version", "3F000no schema")], b"--create"), ([("SELECT version", [(b"9",)])], b"another version"),
                        ([("SELECT digest", b"X\0\0\0\x02"), *answers], b"PostgreSQL: ")):
        with fleet_protocol.listening(answer) as (base, address):
            tried.expect_refusal(f"an answer, {has}", load(tried, "one", address), has)
            tried.expect(f"nothing is written then, {has}", [it for it, _ in base.asked if it.startswith("INSERT INTO profhouse.store")], [])


def cases_of_words(tried):
    for script in ("fleet_load", "fleet_ask", "fleet_nodes"):
        tried.expect_help(script)
    for script, words, has in (
            ("fleet_load", (), b"required"), ("fleet_load", ("--db", "one.db"), b"the NAME of the store is missing"),
            ("fleet_load", ("--create", "x"), b"have no NAME"), ("fleet_load", ("--drop-before", "2026-13"), b"is no month"),
            ("fleet_load", ("--drop-before", "2026-01", "x"), b"have no NAME"),
            ("fleet_load", ("--copy", "one.db", "a b"), b"is no name"), ("fleet_load", ("--copy", "one.db", "x" * 65), b"is no name"),
            ("fleet_load", ("--copy", "one.db", "x", "--at", "yesterday"), b"is no time"), ("fleet_load", ("--copy", "one.db", "x", "--at", "2026-13-01"), b"is no time"),
            ("fleet_load", ("--copy", "one.db", "x", "--at", "1969-12-31"), b"is no time"),
            ("fleet_ask", (), b"required"), ("fleet_ask", ("by", "function"), b"--event"), ("fleet_ask", ("by", "--event", "Ir", "nothing"), b"invalid choice"),
            ("fleet_ask", ("by", "--event", "Ir", "--run", "1", "--last", "1", "function"), b"not allowed"), ("fleet_ask", ("by", "--event", "Ir", "--run", "0", "function"), b"is no number"),
            ("fleet_ask", ("by", "--event", "Ir", "--threshold", "101", "function"), b"is no number"), ("fleet_ask", ("runs", "--fleet", "ftp://x"), b"no address"),
            ("fleet_ask", ("runs", "--fleet", "http://u:secret@h"), b"no address"), ("fleet_ask", ("runs", "--fleet", "http://h/a b"), b"no address"),
            ("fleet_ask", ("runs", "--fleet", "http://h:99999/a"), b"no address"), ("fleet_nodes", (), b"required"), ("fleet_nodes", ("start", "none"), b"no cluster"),
            ("fleet_nodes", ("make", "c", "--shards", "0"), b"--shards is 1")):
        done = tried.script(script, *words)
        tried.expect_refusal(f"{script} {words}", done, has)
        tried.expect(f"{script} {words}: no password is said", b"secret" in done.err, False)
    tried.expect_refusal("no store", load(tried, "none", "http://127.0.0.1:1/x"), b"no node answers")


def cases_of_stores(tried):
    """Files that are no store of this version, and rows out of form: nothing is written."""
    with fleet_listener.listening() as (node, address):
        tried.write("text.db", b"a text\n" * 1000)
        tried.expect_refusal("a text", load(tried, "text", address), b"cannot be read")
        tried.expect_refusal("no store", load(tried, "none", address), b"there is no store")
        for what, change, has in (
                ("version", "UPDATE meta SET schema = 1", b"version 1"), ("view", "DROP TABLE stack; CREATE VIEW stack AS SELECT 1 AS run, x'61' AS frames, 1 AS n", b"is no store"),
                ("sum", "UPDATE run_event SET self_cost = self_cost + 1 WHERE pos = 0", b"costs"), ("digest", "UPDATE run SET digest = x'00'", b"out of form"),
                ("names", "DELETE FROM name WHERE bytes = CAST('g' AS BLOB)", b"out of form"), ("label", "UPDATE run SET label = 'a' || char(10)", b"label"),
                ("term", "UPDATE coef SET event = 9 WHERE event = 1", b"out of form"), ("group", "INSERT INTO grp VALUES ('a b', NULL)", b"out of form")):
            tried.write(f"{what}.db", tried.read("one.db"))
            with sqlite3.connect(tried.path(f"{what}.db")) as base:
                base.executescript(change)
            base.close()
            if what != "sum":
                tried.expect_refusal(f"{what}: {change}", load(tried, what, address), has)
        tried.expect("no record and no list", (node.tables["load"], node.tables["store"]), ([], []))
    with fleet_listener.listening() as (node, address):
        tried.expect_refusal("a store that a server may have open is copied", tried.script("fleet_load", "--db", "text.db", "x", "--fleet", address), b"not a database")
        tried.expect("by backup_store", tried.script("fleet_load", "--db", "one.db", "x", "--fleet", address), (0, b"run 1\n", b""))
        with tried.serving("odd.db"):
            tried.expect("while it is served", tried.script("fleet_load", "--db", "odd.db", "y", "--fleet", address), (0, b"run 1\n", b""))


def cases_of_nodes(tried):
    """The configuration of a cluster: its ports, shards, users and rights."""
    tried.expect("a cluster", tried.script("fleet_nodes", "make", "c", "--shards", "2", "--replicas", "2", "--port", "30000"), (0, b"", b""))
    tried.expect("its nodes", sorted(it for it in os.listdir(tried.path("c"))), ["loader.url", "n1", "n2", "n3", "n4", "nodes.json", "reader.url", "zk"])
    made = xml.etree.ElementTree.parse(tried.path("c/n3/config.xml")).getroot()
    tried.expect("node 3", [made.findtext(it) for it in ("http_port", "tcp_port", "interserver_http_port", "macros/shard", "macros/replica", "listen_host")],
                 ["30003", "30103", "30203", "2", "n3", "127.0.0.1"])
    ports = [[it.text for it in shard.iter("port")] for shard in made.iter("shard") if len(shard)]
    tried.expect("the shards", ports, [["30101", "30102"], ["30103", "30104"]])
    users = xml.etree.ElementTree.parse(tried.path("c/n1/users.xml")).getroot()
    tried.expect("who may only read", [(it.tag, it.findtext("profile")) for it in users.find("users")], [("loader", "default"), ("reader", "readonly"), ("nodes", "default")])
    hosts = ",".join(f"127.0.0.1:3000{it}" for it in range(1, 5))
    word = re.fullmatch(rf"http://reader:(\w{{32}})@{hosts}/profhouse\n", tried.read("c/reader.url").decode())[1]
    tried.expect("the password", users.findtext("users/reader/password_sha256_hex"), hashlib.sha256(word.encode()).hexdigest())
    tried.expect("who may read the files", {os.stat(tried.path(f"c/{it}")).st_mode & 0o777 for it in ("reader.url", "loader.url", "n1/config.xml", "n1/users.xml")}, {0o600})
    tried.expect_refusal("again", tried.script("fleet_nodes", "make", "c"), b"already")
    tried.expect_refusal("no such node", tried.script("fleet_nodes", "stop", "c", "n9"), b"there is no node")
    tried.expect("nothing runs", tried.script("fleet_nodes", "stop", "c"), (0, b"", b""))


def cases(tried):
    tried.profhouse("import", "--db", "one.db", tried.write("one.cg", PROFILE))
    form = b"ob=%s\nfl=%s\nfn=%s\n%d %d %d\ncob=%s\ncfn=%s\ncalls=%d 1\n%d %d %d\n"
    rows = b"".join(form % (it, it, it, at, at * 7, 8 * 10 ** 17, other, other, at, at, at, 10 ** 17)
                    for at, (it, other) in enumerate(zip(ODD, ODD[1:] + ODD[:1])))
    tried.profhouse("import", "--db", "odd.db", tried.write("odd.cg", b"event: Est = 999 Dr + Ir\nevents: Ir Dr\nthread: 9\n" + rows))
    tried.profhouse("import", "--db", "stacks.db", "--folded", tried.write("a.folded", b"a;b;a 3\na;;b 2\n\xe9;\\ 9\n"))
    for store in ("one", "odd"):
        tried.profhouse("group", "--db", f"{store}.db", "main")
        tried.profhouse("join", "--db", f"{store}.db", "main", "1")
        tried.profhouse("baseline", "--db", f"{store}.db", "main", "1")
    cases_of_blocks(tried)
    cases_of_questions(tried)
    cases_of_reports(tried)
    cases_of_faults(tried)
    cases_of_copies(tried)
    cases_of_words(tried)
    cases_of_stores(tried)
    cases_of_nodes(tried)
