"""share/scripts/backup_store: copies of a store at rest, and of one that is served while it changes."""
import contextlib
import fcntl
import os
import re
import sqlite3
import subprocess
import sys
import threading
import time
import urllib.request

from tried import TOP

NAME = "backup_store"
NOBODY = 65534
# Runs the script as another user, who need not find this Python: all that it uses is loaded before.
AS_NOBODY = """import sys
sys.path.insert(0, sys.argv[1])
import forked
done = forked.ran("backup_store", *sys.argv[4:], folder=sys.argv[2], environment={"PATH": "/usr/bin:/bin"}, user=int(sys.argv[3]))
sys.stdout.buffer.write(done.out)
sys.stderr.buffer.write(done.err)
sys.exit(done.status)
"""


# Runs the script with a server that ends as soon as it is to be halted ("gone", or "anew" with another in its place), or
# while its log is copied ("late", with an import behind it, or "both", with another too): once, or each time. Says at each copy of a file how many
# programs have the store, and which of them are not halted.
CHANGING = """import os, shutil, signal, subprocess, sys, time
script, program, times, how = sys.argv[1], sys.argv[2], int(sys.argv[3]), sys.argv[4]
sys.argv = [script, *sys.argv[5:]]
sys.path.insert(0, os.path.dirname(script))
real_kill, real_copy, begun, held = os.kill, shutil.copyfileobj, [], {}

def holders():
    return [it for it in held["holders_of"]("t.db") if it != os.getpid()]

def end(process):
    global times
    times -= 1
    real_kill(process, signal.SIGKILL)
    while holders():
        time.sleep(0.01)
    if how in ("late", "both"):
        subprocess.run([program, "import", "--db", "t.db", f"{how}.cg"], stdout=subprocess.DEVNULL, check=True)
    if how in ("anew", "both"):
        begun.append(subprocess.Popen([program, "serve", "--db", "t.db", "--port", "0", "--requests", "9"], stdout=subprocess.PIPE))
        begun[-1].stdout.readline()

def kill(process, number):
    if number == signal.SIGSTOP and times > 0 and how in ("gone", "anew"):
        end(process)
    real_kill(process, number)

def copy(source, *words):
    print(len(holders()), [it for it in holders() if held["state_of"](it) != {"T"}], file=sys.stderr)
    if how in ("late", "both") and times > 0 and source.name.endswith("-wal"):
        end(holders()[0])
    real_copy(source, *words)

os.kill, shutil.copyfileobj, held["__name__"] = kill, copy, "__main__"
try:
    with open(script, encoding="utf-8") as file:
        exec(compile(file.read(), script, "exec"), held)
finally:
    for it in begun:
        it.kill()
        it.wait()
"""


def copies(tried, folder, name="s.db"):
    return sorted(it for it in os.listdir(tried.path(folder)) if it.startswith(f"{name}."))


def cases_at_rest(tried):
    tried.write("a.cg", "events: Ir\nfn=f\n1 5\n")
    tried.profhouse("import", "--db", "s.db", "a.cg")
    ran = tried.script(NAME, "--db", "s.db", "rest")
    tried.expect("a copy", (ran.status, ran.err, ran.out.endswith(b"Z: 1 runs\n")), (0, b"", True))
    tried.expect("one file, and whose it is", sorted(os.listdir(tried.path("rest"))), [ran.out.decode().partition(":")[0], "s.db.origin"])
    tried.expect("whose it is", tried.read("rest/s.db.origin"), os.fsencode(os.path.realpath(tried.path("s.db"))) + b"\n")
    tried.expect("what it says", tried.profhouse("csv", "--db", os.path.join("rest", copies(tried, "rest")[0])),
                 b"object,file,function,line,event,cost\n???,???,f,1,Ir,5\n")
    # Times that are made up, of copies of this store and of files that only look alike.
    others = ["s.db.20200101T000000", "s.db.20200101T000000Z.part", "s.db", "t.s.db.20200101T000000Z", "sxdb.20200101T000000Z"]
    for name in [*others, *(f"s.db.2020010{day}T000000Z" for day in range(1, 6))]:
        tried.write(os.path.join("rest", name), "")
    tried.write("rest/s.db.20200101T000000Z-wal", "")
    time.sleep(1)
    tried.expect("another copy", tried.script(NAME, "--db", "s.db", "rest", "--keep", "3").status, 0)
    tried.expect("a log beside an old copy goes with it", os.path.exists(tried.path("rest/s.db.20200101T000000Z-wal")), False)
    # (the first copy was opened, and so has a log)
    held = {it for it in os.listdir(tried.path("rest")) if not it.endswith(("-wal", ".origin"))}
    tried.expect("others are left", held >= set(others), True)
    tried.expect("the newest three are kept", [it[5:13] for it in sorted(held - set(others))][0], "20200105")
    tried.expect("and no more", len(held - set(others)), 3)


def cases_of_what_is_removed(tried):
    """The new copy stays, whatever else is there; what is not ours, and what cannot be removed, stays too."""
    os.mkdir(tried.path("later"))
    ahead = [f"s.db.999912{day}T000000Z" for day in range(10, 24)]
    for name in ahead:
        tried.write(f"later/{name}", "")
    ran = tried.script(NAME, "--db", "s.db", "later")
    new = ran.out.decode().partition(":")[0]
    tried.expect("copies of a wrong clock", (ran.status, ran.err, copies(tried, "later")), (0, b"", sorted([new, "s.db.origin", *ahead[1:]])))
    os.mkdir(tried.path("odd"))
    for name in ("s.db.20200101T000000Z", "s.db.20200102T000000Z", "s.db.20200101T000000Z-wal/x"):
        os.makedirs(os.path.dirname(tried.path(f"odd/{name}")), exist_ok=True)
        tried.write(f"odd/{name}", "")
    ran = tried.script(NAME, "--db", "s.db", "odd", "--keep", "1")
    new = ran.out.decode().partition(":")[0]
    tried.expect("what cannot be removed", (ran.status, ran.err.startswith(b"backup_store: an old copy cannot be removed: "), copies(tried, "odd")),
                 (0, True, ["s.db.20200101T000000Z-wal", new, "s.db.origin"]))
    if os.geteuid() != 0:
        print("backup_store: files of another user are skipped, since this is not root")
        return
    os.chmod(tried.folder, 0o755)
    os.mkdir(tried.path("sticky"))
    os.chmod(tried.path("sticky"), 0o1777)
    for name, owner in (("s.db.20200101T000000Z", 0), ("s.db.20200102T000000Z", NOBODY), ("s.db.99991231T000000Z", 0)):
        os.chown(tried.write(f"sticky/{name}", ""), owner, owner)
    os.mkdir(tried.path("of_nobody"))
    for it in (tried.path("of_nobody"), tried.write("of_nobody/s.db", tried.read("s.db"))):
        os.chown(it, NOBODY, NOBODY)
    ran = as_nobody(tried, "--db", "of_nobody/s.db", "sticky", "--keep", "1")
    new = ran.out.decode().partition(":")[0]
    tried.expect("old files of another user", (ran.status, ran.err, copies(tried, "sticky")),
                 (0, b"", ["s.db.20200101T000000Z", new, "s.db.99991231T000000Z", "s.db.origin"]))


def cases_of_owners(tried):
    """Root gives a copy the owner of its store, and removes such copies and its own ones."""
    if os.geteuid() != 0:
        return
    os.chown(tried.write("owned.db", tried.read("s.db"), 0o640), NOBODY, NOBODY)
    os.mkdir(tried.path("owned"))
    for day, owner in ((1, 0), (2, NOBODY), (3, NOBODY - 1)):
        os.chown(tried.write(f"owned/owned.db.2020010{day}T000000Z", ""), owner, owner)
    ran = tried.script(NAME, "--db", "owned.db", "owned", "--keep", "1")
    new = ran.out.decode().partition(":")[0]
    tried.expect("what root removes", copies(tried, "owned", "owned.db"), ["owned.db.20200103T000000Z", new, "owned.db.origin"])
    has = os.stat(tried.path(f"owned/{new}"))
    tried.expect("the owner of a copy", (has.st_uid, has.st_gid, has.st_mode & 0o7777), (NOBODY, NOBODY, 0o640))


def cases_of_a_changing_server(tried):
    """A server that ends before it is halted, or while it is copied, and one that takes its place: nothing is copied but a store whose
    programs are all halted, and a copy of another is thrown away."""
    script = os.path.join(TOP, "share", "scripts", NAME)
    tried.write("t.db", tried.read("s.db"))
    for name in ("late", "both"):
        tried.write(f"{name}.cg", f"events: Ir\nfn={name}\n1 7\n")

    def ran_with(times, how):
        with tried.serving("t.db"):
            ran = tried.run(sys.executable, "-c", CHANGING, script, tried.path("bin/profhouse"), str(times), how, "--db", "t.db", f"{how}{times}")
        return ran.status, ran.out[-10:], ran.err, len(os.listdir(tried.path(f"{how}{times}")))
    tried.expect("a server that ends before it is halted", ran_with(1, "gone"), (0, b"Z: 1 runs\n", b"", 2))
    tried.expect("another in its place", ran_with(1, "anew"), (0, b"Z: 1 runs\n", b"1 []\n1 []\n", 2))
    status, out, err, left = ran_with(9, "anew")
    tried.expect("another each time", (status, out, b"try again" in err, left), (2, b"", True, 0))
    tried.expect("a server that ends while it is copied, and an import", ran_with(1, "late"), (0, b"Z: 2 runs\n", b"1 []\n1 []\n", 2))
    tried.expect("and another server", ran_with(1, "both"), (0, b"Z: 3 runs\n", b"1 []\n" * 4, 2))


def as_nobody(tried, *words):
    return tried.run(sys.executable, "-c", AS_NOBODY, os.path.join(TOP, "tests", "lib"), tried.folder, str(NOBODY), *words)


def cases_of_refusals(tried):
    tried.write("empty.db", b"")
    tried.write("text.db", b"a text\n" * 1000)
    for what, words, has in (
            ("no store", ("--db", "none.db", "other"), b"there is no store none.db"), ("an empty file", ("--db", "empty.db", "other"), b"no store"),
            ("no folder given", ("--db", "s.db"), b"required"), ("no store given", ("other",), b"required"),
            ("none kept", ("--db", "s.db", "other", "--keep", "0"), b"1 or more"), ("a text", ("--db", "text.db", "other"), b"not a database"),
            ("a folder that is a file", ("--db", "s.db", "a.cg"), b"File exists")):
        tried.expect_refusal(what, tried.script(NAME, *words), has)
    tried.expect("no store is made, and no part is left", (os.path.exists(tried.path("none.db")), os.listdir(tried.path("other"))), (False, []))
    lock = os.open(tried.path("other"), os.O_RDONLY)
    fcntl.flock(lock, fcntl.LOCK_EX)
    tried.expect_refusal("two at a time", tried.script(NAME, "--db", "s.db", "other"), b"another backup")
    os.close(lock)
    # A store whose rows point to what is not there: the copy is no backup, and older ones stay.
    tried.write("broken.db", tried.read("s.db"))
    with contextlib.closing(sqlite3.connect(tried.path("broken.db"))) as base:
        base.execute("INSERT INTO member VALUES ('none', 77)")
        base.commit()
    tried.write("other/broken.db.20200101T000000Z", "")
    tried.expect_refusal("a store that is not sound", tried.script(NAME, "--db", "broken.db", "other", "--keep", "1"), b"not sound")
    tried.expect("the older copy stays", os.listdir(tried.path("other")), ["broken.db.20200101T000000Z"])
    base = sqlite3.connect(tried.path("s.db"))
    base.execute("SELECT count(*) FROM run").fetchall()
    tried.expect_refusal("open in another program", tried.script(NAME, "--db", "s.db", "other"), b"open in other programs: python")
    base.close()


def cases_of_rights(tried):
    """A copy has the rights of its store, whatever others get by default."""
    for mode in (0o600, 0o640, 0o644, 0o666):
        tried.write("rights.db", tried.read("s.db"), mode)
        script = os.path.join(TOP, "share", "scripts", NAME)
        ran = tried.run("bash", "-c", 'umask 022; exec "$@"', "run", sys.executable, script, "--db", "rights.db", f"r{mode:o}")
        name = ran.out.decode().partition(":")[0]
        tried.expect(f"the rights of a store of {mode:o}", os.stat(tried.path(f"r{mode:o}/{name}")).st_mode & 0o7777 if ran.status == 0 else ran.err, mode)


def cases_of_two_stores(tried):
    """Two stores of one name in one folder: the copies of each are counted apart, and others are as they were."""
    for number in (1, 2):
        os.mkdir(tried.path(f"p{number}"))
        tried.profhouse("import", "--db", f"p{number}/perf.db", tried.write(f"two{number}.cg", f"events: Ir\nfn=f\n1 {number}\n"))
    for _ in range(3):
        rans = [tried.script(NAME, "--db", f"p{number}/perf.db", "both", "--keep", "2") for number in (1, 2)]
        tried.expect("copies of two stores", [it.status for it in rans], [0, 0])
        time.sleep(1)
    held = os.listdir(tried.path("both"))
    first, second = ([it for it in held if re.fullmatch(form, it)] for form in (r"perf\.db\.\d{8}T\d{6}Z", r"perf\.db\.2\.\d{8}T\d{6}Z"))
    tried.expect("two of each", (len(first), len(second)), (2, 2))
    for names, cost in ((first, b"1"), (second, b"2")):
        for name in names:
            said = tried.profhouse("csv", "--db", f"both/{name}").splitlines()[1]
            tried.expect(f"{name} is of its own store", said, b"???,???,f,1,Ir," + cost)
    tried.expect("and they are noted", [tried.read(f"both/perf.db{it}.origin") for it in ("", ".2")],
                 [os.fsencode(tried.path(f"p{it}/perf.db")) + b"\n" for it in (1, 2)])


def cases_of_links(tried):
    """What stands in the folder already, as others who may write there may have it, is not written to."""
    victim = tried.write("victim", b"not ours\n")
    os.mkdir(tried.path("shared"))
    os.chmod(tried.path("shared"), 0o1777)
    now = time.time()
    names = [time.strftime("s.db.%Y%m%dT%H%M%SZ", time.gmtime(now + it)) for it in range(30)]
    for name in ["s.db.origin", "s.db.20200101T000000Z", *(f"{it}.part" for it in names), *(f"{it}.part-wal" for it in names)]:
        os.symlink(victim, tried.path(f"shared/{name}"))
    os.mkdir(tried.path("shared/s.db.20200102T000000Z"))
    os.mkfifo(tried.path("shared/s.db.2.origin"))
    ran = tried.script(NAME, "--db", "s.db", "shared", "--keep", "1")
    tried.expect("a folder with links", (ran.status, ran.err, ran.out[:9]), (0, b"", b"s.db.3.20"))
    tried.expect("what they point to is as it was", tried.read("victim"), b"not ours\n")
    tried.expect("and they are there", [os.path.lexists(tried.path(f"shared/{it}")) for it in ("s.db.20200101T000000Z", "s.db.20200102T000000Z")], [True, True])
    os.mkdir(tried.path("own"))
    os.symlink(victim, tried.path("own/s.db.20200101T000000Z"))
    os.mkdir(tried.path("own/s.db.20200102T000000Z"))
    tried.expect("a folder that has what is no copy", tried.script(NAME, "--db", "s.db", "own", "--keep", "1").status, 0)
    tried.expect("it is left", [os.path.lexists(tried.path(f"own/s.db.2020010{it}T000000Z")) for it in (1, 2)], [True, True])
    os.symlink(tried.path("else"), tried.path("dangling"))
    tried.expect_refusal("a folder that is a link to nothing", tried.script(NAME, "--db", "s.db", "dangling"), b"File exists")
    # What a backup that was killed left is removed, and what only looks alike is not.
    os.mkdir(tried.path("shared/.backup_store.left"))
    os.symlink(tried.path("p1"), tried.path("shared/.backup_store.link"))
    time.sleep(1)
    tried.expect("again", tried.script(NAME, "--db", "s.db", "shared").status, 0)
    tried.expect("what was left", [os.path.lexists(tried.path(f"shared/.backup_store.{it}")) for it in ("left", "link")], [False, True])
    tried.expect("what a link points to", os.path.exists(tried.path("p1/perf.db")), True)


def cases_of_another_user(tried):
    """Who may not halt the server, or another program that has the store, is told so at once, and keeps nothing locked."""
    if os.geteuid() != 0:
        print("backup_store: another user is skipped, since this is not root")
        return
    os.chmod(tried.folder, 0o755)
    os.chmod(tried.path("s.db"), 0o666)
    os.mkdir(tried.path("theirs"))
    os.chown(tried.path("theirs"), NOBODY, NOBODY)

    def asked():
        begun = time.monotonic()
        ran = as_nobody(tried, "--db", "s.db", "theirs")
        return ran, time.monotonic() - begun < 8
    with tried.serving("s.db") as address:
        os.chmod(tried.path("s.db-wal"), 0o666)
        ran, soon = asked()
        tried.expect_refusal("a server of another user", ran, b"cannot be halted")
        tried.expect("at once, and nothing is left", (soon, os.listdir(tried.path("theirs"))), (True, []))
        lock = os.open(tried.path("theirs"), os.O_RDONLY)
        fcntl.flock(lock, fcntl.LOCK_EX | fcntl.LOCK_NB)
        os.close(lock)
        with urllib.request.urlopen(f"{address}/runs", timeout=5) as answer:
            tried.expect("the server answers", answer.status, 200)
    base = sqlite3.connect(tried.path("s.db"))
    base.execute("PRAGMA locking_mode = EXCLUSIVE")
    base.execute("BEGIN EXCLUSIVE")
    ran, soon = asked()
    tried.expect_refusal("another program of another user", ran, b"open in")
    tried.expect("at once, and nothing is left", (soon, os.listdir(tried.path("theirs"))), (True, []))
    base.close()


def imported(address, numbers, answered):
    """Imports small files one after another, and keeps what was answered. No request is dropped."""
    for number in numbers:
        body = f"events: Ir\nfn=f{number}\n1 {number}\n".encode()
        request = urllib.request.Request(f"{address}/runs/callgrind?label=n{number}", data=body)
        with urllib.request.urlopen(request) as answer:
            answered.append(answer.read())


def cases_while_served(tried):
    """Copies while files are imported: each holds what was answered before it began, and no more than was sent."""
    answered = []
    with tried.serving("served.db") as address:
        client = threading.Thread(target=imported, args=(address, range(1, 301), answered))
        client.start()
        for _ in range(3):
            before = len(answered)
            ran = tried.script(NAME, "--db", "served.db", "copies")
            after = len(answered) + 1
            tried.expect("a copy while it is served", (ran.status, ran.err), (0, b""))
            runs = int(ran.out.split(b" ")[1]) if ran.status == 0 else -1
            tried.expect(f"{before} <= {runs} <= {after}", before <= runs <= after, True)
            name = ran.out.decode().partition(":")[0]
            tried.expect("it is one file", [it for it in os.listdir(tried.path("copies")) if it.startswith(name)], [name])
            said = tried.profhouse("runs", "--db", os.path.join("copies", name)).splitlines()
            tried.expect("its runs", [line.split(b" ")[-1] for line in said], [b"n%d" % it for it in range(1, runs + 1)])
            time.sleep(1)
        client.join()
        tried.expect("all were imported", answered, [b"run %d\n" % it for it in range(1, 301)])
        tried.expect("the last copy", tried.script(NAME, "--db", "served.db", "copies").out.split(b" ")[1], b"300")


def cases_of_a_halt(tried):
    """A server goes on after a copy that failed."""
    with tried.serving("s.db") as address:
        os.mkdir(tried.path("full"))
        ran = subprocess.run(["bash", "-c", 'ulimit -f 1; exec "$0" --db s.db full', os.path.join(os.path.dirname(__file__), "..", "..",
                              "share", "scripts", NAME)], cwd=tried.folder, capture_output=True, check=False)
        tried.expect("a copy that does not fit", (ran.returncode != 0, os.listdir(tried.path("full"))), (True, []))
        with urllib.request.urlopen(f"{address}/runs", timeout=5) as answer:
            tried.expect("it still answers", answer.status, 200)


def cases(tried):
    tried.expect_help(NAME)
    cases_at_rest(tried)
    cases_of_what_is_removed(tried)
    cases_of_owners(tried)
    cases_of_a_changing_server(tried)
    cases_of_refusals(tried)
    cases_of_rights(tried)
    cases_of_two_stores(tried)
    cases_of_links(tried)
    cases_of_another_user(tried)
    cases_while_served(tried)
    cases_of_a_halt(tried)
