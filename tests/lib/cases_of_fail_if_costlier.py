"""share/scripts/fail_if_costlier: every limit, on a store and on a server."""
import contextlib
import http.server
import os
import shutil
import socketserver
import sys
import threading
import time
from concurrent.futures import ThreadPoolExecutor

from tried import SCRIPTS

NAME = "fail_if_costlier"
# The self costs of each run in Ir and Bcm. Run 1 is the baseline; what each costs more than it stands behind it.
COSTS = [(1000, 0), (1020, 5), (1021, 0), (900, 0), (1005, 0), (1006, 0), (1100, 0), (1101, 0), (1000, 1)]
NO_BCM, EMPTY = 10, 11
# A limit, a run, and the status.
LIMITS = [
    ("20", 2, 0), ("19", 2, 1), ("020", 2, 0), ("0", 9, 0), ("0", 4, 0), ("0", 2, 1), ("99999999999999999999999999", 8, 0),
    ("2%", 2, 0), ("2%", 3, 1), ("2.0%", 2, 0), ("1.99%", 2, 1), ("2.099%", 3, 1), ("2.1%", 3, 0), ("0.5%", 5, 0),
    ("0.5%", 6, 1), ("0.4999999999999999999999%", 5, 1), ("10%", 7, 0), ("10%", 8, 1), ("010%", 7, 0), ("0%", 9, 0),
    ("0%", 2, 1), ("0%", 4, 0), ("0.%", 2, 2),
    # (as octal it would be 64)
    ("0100", 7, 0), ("0100", 8, 1), ("1000%", 8, 0),
    *((limit, 2, 2) for limit in ("1e6", "-1", "-1%", "", "%", " ", "20 ", "20\n", "2 %", "+20", "1,000", "1_000", ".5%",
                                  "5.%", "2.5", "2%%", "0x20", "nan", "inf", "twenty", "\u0662%", "9" * 5000, "--")),
]


def profile(ir, bcm):
    return f"events: Ir Bcm\nevent: Both = Ir + Bcm\nfn=f\n1 {ir} {bcm}\n"


def make_store(tried):
    files = [tried.write(f"{n}.cg", profile(*costs)) for n, costs in enumerate(COSTS, 1)]
    files.append(tried.write("no_bcm.cg", "events: Ir\nfn=f\n1 1000\n"))
    files.append(tried.write("empty.cg", "events: Ir Bcm\n"))
    tried.profhouse("import", "--db", "s.db", *files)
    for group, baseline in (("main", 1), ("bare", None), ("no_bcm", NO_BCM), ("empty", EMPTY)):
        tried.profhouse("group", "--db", "s.db", group)
        if baseline:
            tried.profhouse("baseline", "--db", "s.db", group, str(baseline))


def cases_of_limits(tried, where):
    # (a server answers many at a time, and a store is open in one program alone)
    with ThreadPoolExecutor(4 if "--api" in where else 1) as pool:
        rans = list(pool.map(lambda it: tried.script(NAME, *where, "main", str(it[1]), "Ir", it[0]), LIMITS))
    for (limit, run, status), ran in zip(LIMITS, rans):
        tried.expect(f"{where[0]}: limit {limit[:40]!r}, run {run}", (ran.status, ran.err == b""), (status, status == 0))
        tried.expect(f"{where[0]}: limit {limit[:40]!r}, run {run}: something is printed", ran.out != b"", status != 2)


def cases_of_texts(tried, where):
    ran = tried.script(NAME, *where, "main", "2", "Ir", "19")
    difference = b"subtract function Ir\n20 total\n20 ???:f\n"
    tried.expect("the texts of a number", ran, (1, difference, b"run 2 costs 20 more than run 1, and the limit is 19\n"))
    ran = tried.script(NAME, *where, "main", "+002", "Ir", "1.5%")
    tried.expect("the texts of a percentage", ran, (
        1, difference, b"run 2 costs 20 more than run 1, and the limit is 1.5% of 1000\n"))
    tried.expect("within", tried.script(NAME, *where, "main", "2", "Ir", "2%"), (0, difference, b""))
    tried.expect("a derived event", tried.script(NAME, *where, "main", "2", "Both", "25"), (
        0, b"subtract function Both\n25 total\n25 ???:f\n", b""))
    # A baseline that costs nothing of an event is compared by numbers alone.
    for limit, status in (("5", 0), ("4", 1), ("2%", 2), ("0%", 2)):
        tried.expect(f"a baseline of 0, {limit}", tried.script(NAME, *where, "main", "2", "Bcm", limit).status, status)
    tried.expect("0 and 0", tried.script(NAME, *where, "main", "3", "Bcm", "0").status, 0)


def cases_of_refusals(tried, where):
    for what, words, has in (
            ("a group that is not there", ("nightly", "2", "Ir", "1"), b"there is no group nightly"),
            ("a part of a group's name", ("mai", "2", "Ir", "1"), b"there is no group mai"),
            ("no group", ("", "2", "Ir", "1"), b"there is no group"),
            ("no baseline", ("bare", "2", "Ir", "1"), b"the group bare has no baseline"),
            ("a run that is not there", ("main", "99", "Ir", "1"), b"run 99: refused: no such run"),
            ("run 0", ("main", "0", "Ir", "1"), b"RUN is the number"),
            ("a run that is no number", ("main", "2x", "Ir", "1"), b"RUN is the number"),
            ("the last run", ("main", "last", "Ir", "1"), b"RUN is the number"),
            ("a run that is too great", ("main", "9999999999", "Ir", "1"), b"bad request"),
            ("an event that is not there", ("main", "2", "ir", "1"), b"run 1: refused: no such event"),
            # `subtract` takes an event of either side: the difference would be far below 0.
            ("an event that the run has not", ("main", str(NO_BCM), "Bcm", "1"), b"run 10: refused: no such event"),
            ("an event that the baseline has not", ("no_bcm", "2", "Bcm", "9"), b"run 10: refused: no such event"),
            ("an empty profile", ("main", str(EMPTY), "Ir", "1"), b"run 11 has no costs at all"),
            ("an empty baseline", ("empty", "2", "Ir", "9999"), b"run 11 has no costs at all"),
            ("a word too few", ("main", "2", "Ir"), b"are needed"),
            ("a word too many", ("main", "2", "Ir", "1", "2"), b"are needed"),
            ("an option that there is not", ("main", "2", "Ir", "1", "--percent"), b"unrecognized"),
            ("no words", (), b"are needed")):
        tried.expect_refusal(f"{where[0]}: {what}", tried.script(NAME, *where, *words), has)


# What functions cost in runs 1 to 5: run 1 is the baseline, and 1 to 4 are in the group. One goes up and down, one is new,
# one had grown before, and one is tiny.
EACH = {"same": (100000,) * 5, "grown": (200, 200, 200, 200, 211), "swings": (300, 340, 300, 340, 335), "new": (0, 0, 0, 0, 60),
        "before": (400, 400, 500, 500, 520), "tiny": (1, 1, 1, 1, 9)}


def cases_of_each(tried):
    """5 percent of 200 are 10, and 0.05 percent of the baseline's 100901 are 50.4; so 60 are enough, and 11 are not."""
    for number, costs in enumerate(zip(*EACH.values()), 1):
        rows = "".join(f"ob=/opt/{name}\nfl={'a' if name == 'same' else 'b'}.c\nfn={name}\n1 {cost}\n" for name, cost in zip(EACH, costs))
        tried.profhouse("import", "--db", "each.db", tried.write(f"each{number}.cg", f"events: Ir\n{rows}"))
    tried.profhouse("group", "--db", "each.db", "main")
    for number in ("1", "2", "3", "4"):
        tried.profhouse("join", "--db", "each.db", "main", number)
    tried.profhouse("baseline", "--db", "each.db", "main", "1")

    def said(*words):
        ran = tried.script(NAME, "each.db", "main", "5", "Ir", "1%", *words)
        return ran.status, ran.err.decode().split("\n")[:-1]
    new = "/opt/new:new costs 60 more than 0 in run 1, and the limit for each is "
    tried.expect("each function", said("--each", "5%"), (1, [new + "5%"]))
    tried.expect("without --each", said(), (0, []))
    # 0.0109 percent of 100901 are 10.998, and 0.011 are 11.1.
    grown = "/opt/grown:grown costs 11 more than 200 in run 1, and the limit for each is "
    tried.expect("a smaller limit", said("--each", "1.09%"), (1, [f"/opt/before:before costs 120 more than 400 in run 1, and the limit for each is 1.09%",
                                                                 new + "1.09%", grown + "1.09%"]))
    tried.expect("one that had grown is none by more", said("--each", "4%"), (1, [new + "4%"]))
    tried.expect("each object", said("--each", "5%", "--key", "object"), (1, ["/opt/new costs 60 more than 0 in run 1, and the limit for each is 5%"]))
    # The file b.c costs 901, 941, 1001, 1041 and 1135: more than 9 percent above 1041, and 234 more than the baseline.
    tried.expect("each file", said("--each", "9%", "--key", "file"), (1, ["b.c costs 234 more than 901 in run 1, and the limit for each is 9%"]))
    tried.expect("a file within", said("--each", "9.1%", "--key", "file"), (0, []))
    ran = tried.script(NAME, "each.db", "main", "5", "Ir", "0.1%", "--each", "5%")
    tried.expect("both limits", (ran.status, ran.err.decode().split("\n")[:-1]), (1, ["run 5 costs 234 more than run 1, and the limit is 0.1% of 100901", new + "5%"]))
    for word in ("5", "x%", "-1%", "%", ""):
        tried.expect_refusal(f"--each {word!r}", tried.script(NAME, "each.db", "main", "5", "Ir", "1%", f"--each={word}"), b"--each is")
    tried.expect_refusal("another key", tried.script(NAME, "each.db", "main", "5", "Ir", "1%", "--each=5%", "--key=line"), b"invalid choice")


def cases_of_paths(tried):
    """The program of run 2 has another folder than that of the baseline, and its library has another name."""
    for number, name in ((1, "/old/bench"), (2, "/src/bench"), (3, "/old/bench")):
        tried.write(f"path{number}.cg", f"pid: {number}\nevents: Ir\nob={name}\nfn=f\n1 100\nob=/lib/l.so.{number}\nfn=g\n1 5\n")
    tried.profhouse("import", "--db", "paths.db", "path1.cg", "path2.cg", "path3.cg")
    tried.profhouse("group", "--db", "paths.db", "main")
    tried.profhouse("baseline", "--db", "paths.db", "main", "1")
    said = (b"/old/bench of run 1 is /src/bench in run 2, so their functions are compared with nothing: "
            b"give both profiles the same paths before the import, by same_paths\n")
    ran = tried.script(NAME, "paths.db", "main", "2", "Ir", "0")
    tried.expect("another path of the program", (ran.status, ran.err), (0, said))
    ran = tried.script(NAME, "paths.db", "main", "3", "Ir", "0")
    tried.expect("the same path", (ran.status, ran.err), (0, b""))


def cases_of_stores(tried):
    words = ("main", "2", "Ir", "1")
    held = sorted(os.listdir(tried.folder))
    tried.expect_refusal("a store that is not there", tried.script(NAME, "none.db", *words), b"there is no store none.db")
    tried.expect_refusal("a store in no folder", tried.script(NAME, "--db", "no/s.db", *words), b"there is no store")
    tried.expect_refusal("a folder", tried.script(NAME, "--db", ".", *words), b"there is no store .")
    tried.expect_refusal("no name", tried.script(NAME, "", *words), b"needed")
    tried.expect("no store was made", sorted(os.listdir(tried.folder)), held)
    tried.write("zero.db", b"")
    tried.expect_refusal("a file without a byte", tried.script(NAME, "zero.db", *words), b"there is no store zero.db")
    tried.expect("it stays empty", tried.read("zero.db"), b"")
    tried.write("text.db", b"a text and no store\n" * 100)
    tried.expect_refusal("a text", tried.script(NAME, "text.db", *words), b"text.db cannot be opened: store: ")
    tried.expect_refusal("both options", tried.script(NAME, "--db", "s.db", "--api", "http://x", *words), b"not allowed")
    tried.expect_refusal("neither", tried.script(NAME, *words), b"needed")
    tried.expect("the options stand anywhere", tried.script(NAME, "main", "2", "--db=s.db", "Ir", "20").status, 0)
    tried.expect_refusal("no program", tried.script(NAME, "s.db", *words, PROFHOUSE="./no"), b"./no cannot be run")
    counter = tried.write("counter", '#!/bin/sh\necho "$1" >> opened\nexec profhouse "$@"\n', 0o755)
    tried.script(NAME, "s.db", "main", "2", "Ir", "2%", PROFHOUSE=counter)
    tried.expect("it is opened once", tried.read("opened"), b"serve\n")
    with open("/dev/full", "wb") as full:
        tried.expect_refusal("a full output", tried.script(NAME, "s.db", "main", "2", "Ir", "20", out=full), b"No space", out=None)
    closed = tried.run("sh", "-c", 'exec "$@" >&-', "run", sys.executable, os.path.join(SCRIPTS, NAME), "s.db", *words)
    tried.expect_refusal("a closed output", closed, b"the standard output is closed")
    os.mkdir(tried.path("without"))
    tried.write("without/ssl.py", "raise ImportError('no ssl of this Python', name='_ssl')\n")
    for name in ("fail_if_costlier", "markdown_difference", "profhouse_remote"):
        ran = tried.script(name, "--help", PYTHONPATH=tried.path("without"))
        tried.expect(f"{name} without a module of Python", (ran.status, ran.err), (2, f"{name}: no ssl of this Python\n".encode()))
    os.mkdir(tried.path("alone"))
    shutil.copy(os.path.join(os.path.dirname(__file__), "..", "..", "share", "scripts", NAME), tried.path("alone"))
    tried.expect_refusal("without its module", tried.run("alone/" + NAME, "s.db", *words), b"profhouse_http.py")


def cases_of_great_numbers(tried):
    # 10^6 times 4 10^18, and a cost of 1 more: the difference is 10^6, and 2.5 10^-17 percent of the baseline.
    head = "events: Ir\nevent: Huge = 1000000 Ir\nfn=f\n1 "
    files = [tried.write(f"great{n}.cg", f"{head}{4 * 10**18 + n}\n") for n in (0, 1)]
    tried.profhouse("import", "--db", "great.db", *files)
    tried.profhouse("group", "--db", "great.db", "main")
    tried.profhouse("baseline", "--db", "great.db", "main", "1")
    for event, limit, status in (
            ("Huge", "1000000", 0), ("Huge", "999999", 1), ("Ir", "0", 1), ("Ir", "1", 0),
            ("Huge", "0.000000000000000025%", 0), ("Huge", "0.000000000000000024999%", 1), ("Ir", "0.00000000000000001%", 1)):
        ran = tried.script(NAME, "great.db", "main", "2", event, limit)
        tried.expect(f"{event}, limit {limit}", ran.status, status)
    ran = tried.script(NAME, "great.db", "main", "2", "Huge", "0%")
    tried.expect("its text", ran.err, b"run 2 costs 1000000 more than run 1, and the limit is 0% of 4000000000000000000000000\n")


class Other(http.server.BaseHTTPRequestHandler):
    """A server of something else."""

    def do_GET(self):
        self.send_response(200)
        self.send_header("Content-Type", "text/html")
        self.end_headers()
        self.wfile.write(b"subtract function Ir\n0 total\n")

    def log_message(self, *_):
        pass


def cases_of_servers(tried, address):
    words = ("main", "2", "Ir", "20")
    tried.expect("the variable", tried.script(NAME, *words, PROFHOUSE_API=address).status, 0)
    tried.expect("a slash behind", tried.script(NAME, "--api", address + "/", *words).status, 0)
    tried.expect_refusal("a store that is served", tried.script(NAME, "s.db", *words), b"give --api")
    tried.expect_refusal("no server", tried.script(NAME, "--api", "http://127.0.0.1:9", "--wait", "0", *words), b"Connection refused")
    tried.expect_refusal("no address", tried.script(NAME, "--api", "s.db", *words), b"no address of a server")
    tried.expect_refusal("a path that is none", tried.script(NAME, "--api", address + "/x", *words), b"404: not found")
    with http.server.HTTPServer(("127.0.0.1", 0), Other) as other:
        threading.Thread(target=other.serve_forever, daemon=True).start()
        there = f"http://127.0.0.1:{other.server_port}"
        tried.expect_refusal("a server of something else", tried.script(NAME, "--api", there, *words), b"is no server of profhouse")
        other.shutdown()


# Asks a server that sends a byte now and then, within a second; and one whose list and whose export are long.
DEADLINE = """import sys
sys.path.insert(0, sys.argv[1])
import profhouse_http
server = profhouse_http.Server(sys.argv[2], wait=0, timeout=1)
profhouse_http.LONGEST_ANSWER, profhouse_http.LONGEST_EXPORT = 1000, 3000
for path in ("/head", "/body", "/runs", "/csv", "/folded"):
    try:
        print(path, len(server.text(path)), flush=True)
    except profhouse_http.Fault as fault:
        print(path, str(fault).partition(": ")[2] or fault, flush=True)
"""


class Trickling(socketserver.BaseRequestHandler):
    """Sends the head of an answer, or its body, byte by byte and without an end; or 2000 bytes at once."""

    def handle(self):
        path = self.request.recv(65536).split(b" ")[1]
        head = b"HTTP/1.1 200 OK\r\nContent-Type: text/plain\r\n"
        with contextlib.suppress(OSError):
            if path not in (b"/head", b"/body"):
                self.request.sendall(head + b"Content-Length: 2000\r\n\r\n" + b"x" * 2000)
                return
            self.request.sendall(head + (b"X: " if path == b"/head" else b"\r\n"))
            for _ in range(200):
                self.request.sendall(b"x")
                time.sleep(0.1)


def cases_of_deadlines(tried):
    with socketserver.ThreadingTCPServer(("127.0.0.1", 0), Trickling) as server:
        server.daemon_threads = True
        threading.Thread(target=server.serve_forever, daemon=True).start()
        begun = time.monotonic()
        ran = tried.run(sys.executable, "-c", DEADLINE, SCRIPTS, f"http://127.0.0.1:{server.server_address[1]}")
        tried.expect("a trickling server", (ran.status, ran.out.decode().splitlines()), (0, [
            *(f"{it} it took more than 1 s" for it in ("/head", "/body")), "/runs the answer has more than 1,000 bytes", "/csv 2000", "/folded 2000"]))
        tried.expect("it has an end", time.monotonic() - begun < 12, True)
        server.shutdown()


def cases(tried):
    tried.expect_help(NAME)
    cases_of_deadlines(tried)
    make_store(tried)
    store = tried.read("s.db")
    cases_of_limits(tried, ("s.db",))
    cases_of_texts(tried, ("--db", "s.db"))
    cases_of_refusals(tried, ("--db", "s.db"))
    cases_of_stores(tried)
    cases_of_each(tried)
    cases_of_paths(tried)
    cases_of_great_numbers(tried)
    with tried.serving("s.db") as address:
        cases_of_limits(tried, ("--api", address))
        cases_of_texts(tried, ("--api", address))
        cases_of_refusals(tried, ("--api", address))
        cases_of_servers(tried, address)
    tried.expect("the store is as it was", tried.read("s.db"), store)
