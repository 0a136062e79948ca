"""What the benchmarks share: the program, its twins, times in turn, peak memory, and stores.

A benchmark times the program that the environment variable PROFHOUSE names, by default
crates/profhouse/out/profhouse. It proves and builds nothing but its twins. Its files stand under
out/bench and are made once. Times are those of the processor, in user and system together, since other
work beside does not count there; each is the least of RUNS runs (5, or the variable RUNS), and the
commands that are compared run in turn. Peak memory is asked of /usr/bin/time (Debian's package time).
With `--record NOTE` a benchmark appends its figures to bench/results.csv, with the day, the commit and NOTE,
which says what the machine was and what ran beside; bench/table makes the table of bench/README.md of them.
"""
import csv
import datetime
import importlib.machinery
import importlib.util
import itertools
import os
import re
import sqlite3
import subprocess
import sys
import tempfile
import time

TOP = os.path.dirname(os.path.dirname(os.path.abspath(__file__)))
OUT = os.path.join(TOP, "out", "bench")
TWINS = os.path.join(TOP, "bench", "twin")
RUNS = int(os.environ.get("RUNS", "5"))
RESULTS = os.path.join(TOP, "bench", "results.csv")


def taken_off(option):
    """The word behind an option, taken off the command line with it, so that no benchmark sees either."""
    if option not in sys.argv[1:]:
        return None
    at = sys.argv.index(option)
    if at + 1 == len(sys.argv):
        sys.exit(f"{option} has no word behind it")
    word = sys.argv[at + 1]
    del sys.argv[at:at + 2]
    return word


NOTE = taken_off("--record")


def record(case, ours, plain=None, unit="s", note=""):
    """Keeps a figure, if figures are to be kept: what the program took for a case, and its plain counterpart."""
    if NOTE is None:
        return
    ran = subprocess.run(["git", "rev-parse", "--short=8", "HEAD"], cwd=TOP, capture_output=True, text=True, check=False)
    ratio = f"{ours / plain:.2f}" if plain else ""
    row = [datetime.date.today(), ran.stdout.strip(), os.path.basename(sys.argv[0]), case, f"{ours:.4g}",
           f"{plain:.4g}" if plain is not None else "", ratio, unit, "; ".join(filter(None, [NOTE, note]))]
    with open(RESULTS, "a", newline="", encoding="utf-8") as file:
        csv.writer(file, lineterminator="\n").writerow(row)


def program():
    """The path of the program. Says when and where it is timed."""
    path = os.environ.get("PROFHOUSE", os.path.join(TOP, "crates", "profhouse", "out", "profhouse"))
    path = os.path.abspath(path)
    if not os.path.exists(path):
        sys.exit(f"{path} is not there: `rt run` in crates/profhouse makes it, or set PROFHOUSE")
    os.makedirs(OUT, exist_ok=True)
    print(f"{datetime.date.today()}, {os.cpu_count()} cores, load {os.getloadavg()[0]:.1f},"
          f" least of {RUNS} runs, seconds of the processor", flush=True)
    return path


def script(name):
    """Another benchmark, for the files that it makes."""
    loader = importlib.machinery.SourceFileLoader(name, os.path.join(TOP, "bench", name))
    sys.dont_write_bytecode = True
    module = importlib.util.module_from_spec(importlib.util.spec_from_loader(name, loader))
    loader.exec_module(module)
    return module


COUNTING = ["valgrind", "--tool=cachegrind", "--cache-sim=no", "--cachegrind-out-file=/dev/null"]


def count_told(text):
    """How many instructions a command took, by what valgrind said of it."""
    return int(re.search(r"I\s+refs:\s+([\d,]+)", text)[1].replace(",", ""))


def counted(command):
    """How many instructions a command takes."""
    return count_told(subprocess.run([*COUNTING, *command], check=True, capture_output=True, text=True).stderr)


def rust_twin(source, *options, name=None):
    """Builds bench/twin/SOURCE.rs, and returns the path of what it built."""
    path = os.path.join(OUT, f"{name or source}_twin")
    text = os.path.join(TWINS, f"{source}.rs")
    subprocess.run(["rustc", "--edition", "2021", "-O", *options, "-o", path, text], check=True)
    return path


def c_twin(name, *sources):
    """Builds a C program over libsqlite3, and returns the path of what it built."""
    path = os.path.join(OUT, f"{name}_twin")
    texts = [os.path.join(TWINS, source) for source in sources]
    subprocess.run(["gcc", "-std=gnu11", "-O2", "-o", path, *texts, "-lsqlite3"], check=True)
    return path


def import_twin():
    """Builds the C program that imports a Callgrind file by libsqlite3."""
    return c_twin("import", "import.c", "import_file.c", "import_rows.c")


def report_twin():
    """Builds the C program that prints reports by libsqlite3."""
    return c_twin("reports", "reports.c", "import_rows.c")


def made(name, write):
    """The path of a file that `write` writes, if it is not there yet."""
    path = os.path.join(OUT, name)
    if not os.path.exists(path):
        with open(path + ".part", "w") as file:
            write(file)
        os.rename(path + ".part", path)
    return path


def megabytes(path):
    return os.path.getsize(path) / 1e6


class Run:
    """One run of a command: its seconds, of the processor and by the clock, and its output."""

    def __init__(self, command, **options):
        start = time.perf_counter()
        process = subprocess.Popen(command, stdout=subprocess.PIPE, text=True, **options)
        with process.stdout:
            self.output = process.stdout.read()
        _, status, usage = os.wait4(process.pid, 0)
        self.clock = time.perf_counter() - start
        process.returncode = os.waitstatus_to_exitcode(status)
        if process.returncode != 0:
            sys.exit(f"{' '.join(command)}: status {process.returncode}\n{self.output}")
        self.processor = usage.ru_utime + usage.ru_stime


def least(*commands):
    """The run of each command that took the processor least, where all run in turn. A command is a
    function that readies it and returns its words."""
    turns = [[Run(command()) for command in commands] for _ in range(RUNS)]
    return [min(runs, key=lambda run: run.processor) for runs in zip(*turns)]


def peak(command):
    """The peak memory of one run in kilobytes. What the system itself tells of a child is never less
    than what its parent had when it was made, and this script has more than the program."""
    with tempfile.NamedTemporaryFile("r") as told:
        subprocess.run(["/usr/bin/time", "-f", "%M", "-o", told.name, *command()], check=True,
                       stdout=subprocess.DEVNULL)
        return int(told.read())


def fresh(name):
    """The path of a database that is not there."""
    path = os.path.join(OUT, name)
    for end in ("", "-wal", "-shm", "-journal"):
        if os.path.exists(path + end):
            os.remove(path + end)
    return path


def asked(name, *questions):
    """What each question finds in a database, by SQLite's own library: the values of one row."""
    base = sqlite3.connect(os.path.join(OUT, name))
    answers = [base.execute(question).fetchone() for question in questions]
    base.close()
    return [value for answer in answers for value in answer]


def asked_all(path, question):
    """All rows that a question finds in a database, by SQLite's own library."""
    base = sqlite3.connect(path)
    rows = base.execute(question).fetchall()
    base.close()
    return rows


def one_line():
    """The path of a file of one line."""
    return made("one.cg", lambda file: file.write("events: Ir\n"))


def comments():
    """The path of a file of 64 MB of comments."""
    return made("comments.cg", lambda file: file.write("events: Ir\n" + ("#" + "x" * 998 + "\n") * 64_000))


SCRIPT = "import json, decimal, email.parser, unittest, argparse; json.dumps(list(range(2000)))"
PYTHON = [sys.executable, "-c", SCRIPT]


def compiler():
    """rustc itself, not the program that chooses among toolchains, with this work."""
    root = subprocess.run(["rustc", "--print", "sysroot"], check=True, capture_output=True, text=True)
    return [os.path.join(root.stdout.strip(), "bin", "rustc"), "--edition", "2021", "-O", "-g",
            "--emit=obj", "-o", os.path.join(OUT, "rows.o"), os.path.join(TWINS, "rows.rs")]


# Of each dump of a real program what valgrind is told, and the program that it watches. Plain dumps of python3 are no
# longer than 1.5 MB; with the functions on the way to a function in its name they are 11 MB.
DUMPS = {
    "callers": (["--separate-callers=4"], lambda: PYTHON),
    "compiler": ([], compiler),
    "instr": (["--dump-instr=yes", "--cache-sim=yes", "--collect-jumps=yes", "--separate-callers=2"],
              lambda: PYTHON),
}


def dump(kind):
    """The path of a dump of a real program."""
    path = os.path.join(OUT, f"import.{kind}.cg")
    if not os.path.exists(path):
        options, program = DUMPS[kind]
        command = ["valgrind", "--tool=callgrind", *options, f"--callgrind-out-file={path}.part"]
        subprocess.run(command + program(), check=True,
                       stdout=subprocess.DEVNULL, stderr=subprocess.DEVNULL)
        os.rename(path + ".part", path)
    return path


def digest_commands(program):
    """Commands whose times tell what the program takes for a SHA-256: an import of one line, an import
    of comments, and `total` of these, which takes no digest."""
    def taken_in(path):
        return lambda: [program, "import", "--db", fresh("digest.db"), path]

    return [taken_in(one_line()), taken_in(comments()), lambda: [program, "total", comments()]]


def digest_rate(opened, taken, read):
    """The seconds that the program takes for the SHA-256 of a megabyte, by the runs of those commands."""
    seconds = taken.processor - opened.processor - read.processor
    print(f"  one line into a new store: {opened.processor:.3f} s, by the clock {opened.clock:.3f} s;"
          f" SHA-256 of {megabytes(comments()):.0f} MB: {seconds:.3f} s")
    return seconds / megabytes(comments())


def rows_told(name):
    """What a store says of its run of a Callgrind file, in the words of bench/twin/rows.rs."""
    values = asked(name, "SELECT lower(hex(digest)) FROM run",
                   "SELECT count(*), coalesce(sum(cost), 0) FROM thread_cell",
                   "SELECT count(*), coalesce(sum(n), 0) FROM arc WHERE part = 0",
                   "SELECT coalesce(sum(n), 0) FROM arc WHERE part > 0")
    return " ".join(map(str, values))


def rows_of(name):
    """All rows of a database, table by table, in the order of their rowids; none is kept."""
    base = sqlite3.connect(os.path.join(OUT, name))
    texts = base.execute("SELECT name, sql FROM sqlite_master WHERE type = 'table' ORDER BY name")
    for table, text in texts.fetchall():
        yield table, text
        yield from base.execute(f"SELECT * FROM {table} ORDER BY rowid")
    base.close()


def are_same(first, second):
    """Whether two databases have the same tables, of the same texts."""
    pairs = itertools.zip_longest(rows_of(first), rows_of(second))
    return all(row == wanted for row, wanted in pairs)


def report_import(program, twin, path):
    """Imports a Callgrind file into new databases by both, `program.db` and `twin.db`, and prints
    what that takes."""
    def ours():
        return [program, "import", "--db", fresh("program.db"), path]

    def plain():
        return [twin, fresh("twin.db"), path]

    run, other = least(ours, plain)
    names, cells, calls = asked("program.db", *(f"SELECT count(*) FROM {t}" for t in ("name", "thread_cell", "arc")))
    print(f"  {megabytes(path):.1f} MB: {names} names, {cells} cells, {calls} rows of calls;"
          f" same tables: {are_same('program.db', 'twin.db')}")
    print(f"    program {run.processor:.3f} s, twin {other.processor:.3f} s:"
          f" {run.processor / other.processor:.2f} times; by the clock {run.clock:.3f} s, {other.clock:.3f} s")
    memory = peak(ours), peak(plain)
    case = f"import of {os.path.basename(path)}"
    record(case, run.processor, other.processor)
    record(f"{case}, memory", memory[0] / 1e3, memory[1] / 1e3, "MB")
    print(f"    peak memory {memory[0]} KB, twin {memory[1]} KB;"
          f" database {megabytes(os.path.join(OUT, 'program.db')):.1f} MB,"
          f" twin {megabytes(os.path.join(OUT, 'twin.db')):.1f} MB")
    steps = [line.split() for line in other.output.splitlines()]
    print("    twin:", ", ".join(f"{step[0]} {step[1]} s" for step in steps if step[-1] == "s"), flush=True)
