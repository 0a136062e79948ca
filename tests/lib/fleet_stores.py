"""Twelve stores for tests/by_hand/fleet: real dumps with threads and derived events, folded stacks, odd names, great costs."""
import os
import random
import sqlite3
import subprocess

THREADS = """#include <pthread.h>
static long add(long n) { long s = 0; for (long i = 0; i < n; i++) s += i ^ n; return s; }
static long deep(long n) { return n < 2 ? add(9) : deep(n - 1) + deep(n - 2); }
static void *work(void *n) { return (void *)(add((long)n) + deep((long)n % 11)); }
int main(void) {
    pthread_t its[3];
    for (long i = 0; i < 3; i++) pthread_create(its + i, 0, work, (void *)(ROUNDS * (i + 1)));
    for (int i = 0; i < 3; i++) pthread_join(its[i], 0);
    return 0;
}
"""
ODD = [b'a,"b"\\x09\t\\.', b"\xe9\xff\xfe", b"caf\xc3\xa9", b"null\0byte", b"\r\r", b"'; DROP TABLE profhouse.load; --", b"$1", b"{x:String}",
       b"\xe2\x80\xae", b"--boundary\r", b" blanks ", b"template<" + b"x, " * 3000 + b">", b"a:b", b"\\\\", b"\x1b[2J", b"::", b"-dash", b"x" * 300]
PROGRAMS = {"perl": ("perl", "-e", "$h{$_ % 97} .= 'x' for 1..%d"), "bash": ("bash", "-c", "for i in {1..%d}; do x=$((x + i)); done"),
            "git": ("git", "--no-pager", "log", "-%d", "--oneline")}


def dumped(tried, name, words, *options):
    """The path of a dump of a real program."""
    path = tried.path(f"{name}.cg")
    subprocess.run(["valgrind", "-q", "--tool=callgrind", f"--callgrind-out-file={path}", *options, *words], check=True, cwd=os.path.dirname(__file__),
                   stdout=subprocess.DEVNULL, stderr=subprocess.DEVNULL)
    return path


def with_derived(tried, path):
    """A dump to which derived events were added, one of them over another."""
    text = tried.read(path)
    at = text.index(b"\nevents:") + 1
    tried.write(path, text[:at] + b"event: CEst = Ir + 10 Bcm + 10 Bim + 10 I1mr + 10 D1mr + 10 D1mw + 100 ILmr + 100 DLmr + 100 DLmw : estimate\n"
                b"event: Twice = 2 CEst + 3 Dr\nevent: None = 0 Ir\n" + text[at:])
    return path


def threaded(tried, rounds, *options):
    """A dump of a program with threads."""
    source = tried.write("threads.c", THREADS.replace("ROUNDS", str(rounds)))
    subprocess.run(["gcc", "-g", "-O0", "-pthread", "-o", tried.path("threads"), source], check=True)
    return dumped(tried, f"threads{rounds}", [tried.path("threads")], "--separate-threads=yes", "--combine-dumps=yes", *options)


def odd(tried, name, seed, most):
    """A file with odd names as objects, files and functions, calls among them, threads, a derived event, and great costs."""
    chance = random.Random(seed)
    lines = [b"event: Big = 999000 Huge + 7 Ir", b"events: Ir Huge Zero"]
    for thread in (0, 5, 9223372036854775807):
        lines += [b"thread: %d" % thread] if thread else []
        for _ in range(40):
            lines += [b"%s=%s" % (word, chance.choice(ODD)) for word in (b"ob", b"fl", b"fn")]
            lines.append(b"%d %d %d" % (chance.randrange(9), chance.randrange(1000), chance.randrange(most // 130)))
            lines += [b"%s=%s" % (word, chance.choice(ODD)) for word in (b"cob", b"cfi", b"cfn")]
            lines += [b"calls=%d 1" % chance.randrange(4), b"%d %d %d" % (chance.randrange(9), chance.randrange(1000), chance.randrange(most // 130))]
    # (a line of a profile ends where a name with a line feed would)
    return tried.write(f"{name}.cg", b"\n".join(lines) + b"\n")


def folded(tried, name, seed):
    """Folded stacks, with odd frames and empty ones."""
    chance = random.Random(seed)
    frames = [it.replace(b";", b",").replace(b"\r", b"_") for it in ODD] + [b"", b"main", b"main", b"f%d" % seed]
    stacks = {b";".join(chance.choice(frames) for _ in range(chance.randrange(1, 9))) or b"x" for _ in range(300)}
    return tried.write(f"{name}.folded", b"".join(b"%s %d\n" % (it, chance.randrange(1000)) for it in sorted(stacks)))


def store(tried, name, files, stacks=()):
    """A store of these files, with groups: one with a baseline, one without, and an empty one."""
    path = f"{name}.db"
    tried.profhouse("import", "--db", path, *files) if files else None
    tried.profhouse("import", "--db", path, "--folded", *stacks) if stacks else None
    for group in ("main", "bare", "empty"):
        tried.profhouse("group", "--db", path, group)
    count = len(files) + len(stacks)
    for run in range(1, count + 1):
        tried.profhouse("join", "--db", path, "main" if run % 2 else "bare", str(run))
    tried.profhouse("baseline", "--db", path, "main", str(count))
    return name


def stores(tried):
    """Makes the stores; their names."""
    every = ("--cache-sim=yes", "--branch-sim=yes")
    real = {it: [dumped(tried, f"{it}{n}", [word.replace("%d", str(n), 1) for word in words], *every) for n in (20, 300, 900)]
            for it, words in PROGRAMS.items()}
    for path in [*real["perl"], *real["git"][:2]]:
        with_derived(tried, path)
    thread = [threaded(tried, 100 * n, *(every if n > 2 else ("--cache-sim=yes",))) for n in range(1, 6)]
    compiled = [dumped(tried, f"compiler{level}", ["gcc", "-S", f"-O{level}", "-o", "/dev/null", tried.path("threads.c")], "--trace-children=no") for level in (0, 2)]
    wild = [odd(tried, f"odd{n}", n, 8 * 10 ** 18) for n in range(3)] + [odd(tried, f"small{n}", n, 10 ** 12) for n in range(10, 14)]
    stack = [folded(tried, f"stacks{n}", n) for n in range(6)]
    small = [it for it in (*real["perl"], *real["git"], *real["bash"], *thread, *compiled, *wild[5:])]
    store(tried, "merged", small, stack)
    return [store(tried, "perl", real["perl"]), store(tried, "git", real["git"]), store(tried, "bash", real["bash"]),
            store(tried, "threads", thread[:3]), store(tried, "workers", thread[3:]), store(tried, "compiler", compiled),
            store(tried, "stacks", [], stack[:3]), store(tried, "more.stacks", [], stack[2:5]),
            store(tried, "odd", wild[:1] + wild[3:5]), store(tried, "odd_too", wild[1:2] + wild[4:6]), store(tried, "huge", wild[2:3]),
            store(tried, "mixed", [real["perl"][1], thread[0], wild[5], wild[6]], stack[5:])]


def facts(path):
    """The runs of a store, the events of each, and its functions."""
    with sqlite3.connect(f"file:{path}?mode=ro&immutable=1", uri=True) as base:
        runs = [it for it, in base.execute("SELECT run FROM run ORDER BY run")]
        events = {run: [os.fsencode(it) if isinstance(it, str) else it for it, in base.execute(
            "SELECT name FROM run_event WHERE run = ?1 UNION SELECT name FROM derived WHERE run = ?1", (run,))] for run in runs}
        functions = base.execute("SELECT DISTINCT o.bytes, f.bytes FROM (SELECT ob, fn FROM thread_cell UNION SELECT ob, fn FROM arc UNION SELECT cob, cfn FROM arc)"
                                 " JOIN name o ON o.id = ob JOIN name f ON f.id = fn ORDER BY 1, 2").fetchall()
    return runs, events, functions
