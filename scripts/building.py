"""Builds the program: proves the crates that it stands on side by side, and then the program itself.

The prover is called as `rt ci` calls it: of a library it writes what other crates may cite, and not the proofs. A proof
over such libraries reads less than one over those of `rt lib`. They stand in out/statements of each crate, where rt
neither reads nor writes.

A crate begins when all below it are done. There are up to two jobs for each processor, and a crate on which a long chain
of others waits goes before the rest: it has more jobs, and those of the rest are nicer to others (nice). So no processor
waits, and the longest chain never does.
"""
import contextlib
import fcntl
import os
import shutil
import signal
import subprocess
import sys
import time

from sources import NAME, OUT, PROGRAM, TOP, Tree, command_rt, is_current, keep, kept_in, kit_of, look_of, read, stamp

PROVED = os.path.join(OUT, "proved.json")
# The memory that a proof takes, in GB, and what each further job of it takes.
FIRST_JOB, NEXT_JOB = 2.2, 0.7
GROUP = "/sys/fs/cgroup/memory"


def say(text, stays=True):
    """Prints a line; on a terminal one that does not stay is written over by the next."""
    begin = "\r\x1b[K" if sys.stderr.isatty() else ""
    if stays or not begin:
        print(f"{begin}{NAME}: {text}", file=sys.stderr, flush=True)
    else:
        width = shutil.get_terminal_size().columns + len(begin) - 1
        print(f"{begin}{NAME}: {text}"[:width], end="", file=sys.stderr, flush=True)


def folder_of(name):
    return os.path.join(TOP, "crates", name)


def library_of(name):
    """Where a library stands that is proved here."""
    return os.path.join(folder_of(name), "out", "statements", f"{name}.rlib")


def number_in(path, word=""):
    """The number after a word in a file, or None."""
    with contextlib.suppress(OSError, ValueError, IndexError):
        with open(path, encoding="utf-8") as file:
            return int(file.read().partition(word)[2].split()[0] if word else file.read())
    return None


def free_memory():
    """The GB of memory that are free here, under the limit of the control group too."""
    found = [1024 * (number_in("/proc/meminfo", "MemAvailable:") or 0)]
    limit, held = number_in(f"{GROUP}.max"), number_in(f"{GROUP}.current")
    if limit is not None and held is not None:
        found.append(limit - held)
    return min(found) / 1e9


def weight_of(tree, name):
    """About the seconds that a proof takes on one processor: its start, its code, and more where it knows a database or
    a command line. The program's are mostly those of its compilation. The numbers fit what such builds took."""
    if name == NAME:
        return 300
    lines = sum(read(os.path.join(TOP, path)).count(b"\n") for path in tree.files(name) if path.endswith(".rt"))
    of_databases = min(lines / 150, 1) * (50 + 1.5 * len(tree.below(name)))
    more = {"sqlite": of_databases, "clap": 380}
    return 12 + 0.085 * lines + sum(more[word] for word in tree.lines[name].split() if word in more)


def locked(folders):
    """Waits until no other command works in these folders, and returns what keeps others out until it is closed."""
    held, has_said = [], False
    for folder in sorted(map(os.path.realpath, folders)):
        held.append(os.open(folder, os.O_RDONLY))
        try:
            fcntl.flock(held[-1], fcntl.LOCK_EX | fcntl.LOCK_NB)
        except BlockingIOError:
            if not has_said:
                say(f"waiting for another build, or another rt, to end in {TOP}")
            has_said = True
            fcntl.flock(held[-1], fcntl.LOCK_EX)
        except OSError:
            pass  # (some file systems have no locks)
    return held


class Job:
    """A command in the folder of a crate, in a group of processes of its own. (In a session of its own it would have a
    share of the processors of its own on many kernels, however nice it is.)"""

    def __init__(self, name, words, jobs=1, nice=0, held=()):
        self.jobs = jobs
        self.log = os.path.join(folder_of(name), "out", "build.log")
        os.makedirs(os.path.dirname(self.log), exist_ok=True)
        with open(self.log, "wb") as log:
            # (held: where this program is killed, the locks stay until the prover has ended)
            self.process = subprocess.Popen(
                ["nice", "-n", str(nice), *words], cwd=folder_of(name), stdin=subprocess.DEVNULL, stdout=log,
                stderr=subprocess.STDOUT, preexec_fn=os.setpgrp, pass_fds=held)

    def stop(self):
        with contextlib.suppress(ProcessLookupError):
            os.killpg(self.process.pid, signal.SIGTERM)
        try:
            self.process.wait(10)
        except subprocess.TimeoutExpired:
            os.killpg(self.process.pid, signal.SIGKILL)
            self.process.wait()


class Build:
    def __init__(self, rt):
        import kit  # (without rt it cannot be read)
        self.kit, self.tree, self.rt, self.version = kit, Tree(), rt, kit_of(rt)
        self.looks = self.tree.looks()
        self.tree.sum(NAME, self.version)  # (all sums, before any text can change)
        program = kit.crate_in(TOP, NAME)
        self.crates = {it.name: it for it in [*program.below(), program]}
        for name, crate in self.crates.items():
            crate.rlib = library_of(name)
        self.cores, self.memory = len(os.sched_getaffinity(0)), free_memory()
        self.held, self.running, self.failed = [], {}, []
        known, self.proved = kept_in(PROVED), {}
        for it in self.tree.names:
            # (over a library that is proved anew all is)
            if it in known and known[it] == self.mark_of(it) and self.tree.below(it) <= self.proved.keys():
                self.proved[it] = known[it]
        self.todo = [it for it in self.tree.names if it not in self.proved]
        self.weight = {it: weight_of(self.tree, it) for it in self.todo}
        # The work of a crate and of the longest chain of crates that wait for it.
        self.chain = {}
        for it in reversed(self.todo):
            waiting = [self.chain[above] for above in self.chain if it in self.tree.below(above)]
            self.chain[it] = self.weight[it] + max(waiting, default=0)
        self.begun, self.ended = time.monotonic(), []

    def mark_of(self, name):
        """What tells that the library which stands there is that of the text."""
        return [self.tree.sum(name, self.version), look_of(os.path.join(library_of(name), "format"))]

    # -- one crate

    def start(self, name, jobs, nice):
        self.todo.remove(name)
        words = self.kit.words_of(self.crates[name], jobs)
        os.makedirs(os.path.dirname(library_of(name)), exist_ok=True)
        words = [self.kit.RATTLE, "build", *words, "--statements", "-o", library_of(name)]
        self.running[name] = Job(name, words, jobs, nice, self.held)

    def end(self, name):
        job = self.running.pop(name)
        if job.process.returncode == -signal.SIGKILL and (job.jobs > 1 or self.running):
            # (most likely for want of memory: once more, with less beside it)
            self.memory /= 2
            self.todo.append(name)
        elif job.process.returncode:
            self.failed.append(name)
            say(f"{name} is not proved. What the prover said:")
            sys.stderr.write(read(job.log).decode(errors="replace"))
        else:
            self.ended.append(name)
            self.proved[name] = self.mark_of(name)
            keep(PROVED, self.proved)

    # -- all of them

    def left(self):
        """The work that is left. Of a crate that runs, half is."""
        return sum(self.weight[it] for it in self.todo) + sum(self.weight[it] for it in self.running) / 2

    def jobs_that_fit(self, jobs):
        """As many of these jobs as memory allows, or none where even one must wait."""
        taken = sum(FIRST_JOB + NEXT_JOB * (it.jobs - 1) for it in self.running.values())
        fit = int((self.memory - taken - FIRST_JOB) // NEXT_JOB) + 1
        return min(jobs, fit if self.running else max(fit, 1))

    def start_ready(self):
        ready = [it for it in self.todo if it != NAME and self.tree.below(it) <= self.proved.keys()]
        ready.sort(key=lambda it: -self.chain[it])
        longest = max((self.chain[it] for it in [*ready, *self.running]), default=0)
        for at, name in enumerate(ready):
            idle = 2 * self.cores - sum(it.jobs for it in self.running.values())
            nice = min(19, int(60 * (1 - self.chain[name] / longest)))
            share = self.cores if nice < 3 else idle // (len(ready) - at)
            jobs = self.jobs_that_fit(min(idle, self.cores, max(share, 1)))
            if jobs < 1:
                break
            self.start(name, jobs, nice)

    def tell(self):
        """Says how far it is."""
        done = len(self.tree.names) - len(self.todo) - len(self.running)
        names = ", ".join(self.running)
        say(f"proving {names} .. {done} of {len(self.tree.names)} crates done, about {self.minutes()} left", stays=False)

    def minutes(self):
        """About how long the rest takes: by the speed so far, and no less than the longest chain, whose crates have most
        of the jobs."""
        done = sum(self.weight[it] for it in self.ended)
        clock = time.monotonic() - self.begun
        half_done = sum(self.weight[it] for it in self.running) / 2
        # (as if two minutes had gone by before, at the speed that is usual)
        all_at_once = (done + half_done + 120 * 0.8 * self.cores) / (clock + 120)
        rest = [self.chain[it] for it in self.todo] + [self.chain[it] - self.weight[it] / 2 for it in self.running]
        seconds = max(self.left() / all_at_once, max(rest, default=0) / 1.4)
        return f"{round(seconds / 60)} minutes" if seconds >= 90 else f"{round(seconds)} seconds"

    def run(self):
        """Proves all crates but the program. Gives whether all are proved."""
        while self.running or not self.failed and self.todo != [NAME] and self.todo:
            ended = [name for name, it in self.running.items() if it.process.poll() is not None]
            for name in ended:
                self.end(name)
            if not self.failed:
                self.start_ready()
            if self.running and (ended or sys.stderr.isatty()):
                self.tell()
            time.sleep(0 if ended else 0.2)
        return not self.failed

    def program(self):
        """Proves, compiles, links and tries the program. Gives whether that went well."""
        say(f"all {len(self.tree.names) - 1} crates below are proved; proving and compiling the program, "
            f"about {self.minutes()} left")
        for command in self.commands(f"{PROGRAM}.new", self.jobs_that_fit(self.cores)):
            job = self.running[NAME] = Job(NAME, command, held=self.held)
            status = job.process.wait()
            del self.running[NAME]
            if status:
                say("the program is not built. What the prover and the compiler said:")
                sys.stderr.write(read(job.log).decode(errors="replace"))
                return False
        os.replace(f"{PROGRAM}.new", PROGRAM)
        os.remove(f"{PROGRAM}.new.o")
        return True

    def commands(self, new, jobs):
        """What proves and compiles the program, links it, and tries it."""
        home, words = self.kit.KIT, self.kit.words_of(self.crates[NAME], jobs)
        tools = ["--toolchain", f"{home}/toolchain"]
        return ([self.kit.RATTLE, "build", *words, *tools, "--backend", "llvm", "-o", f"{new}.o"],
                [f"{home}/bin/rattle-link", "--target", "x86_64-unknown-linux-gnu", *tools, "-o", new,
                 f"{new}.o", f"{home}/c/libos_c.a", f"{home}/c/liblibc_c.a"],
                [new, "--version"])

    def stop(self):
        """Ends what runs."""
        for job in self.running.values():
            job.stop()
        while self.held:
            os.close(self.held.pop())


def stop_here(number, _):
    raise KeyboardInterrupt


def undisturbed(end):
    """Ends what is to be ended, without a second signal between: it would leave provers behind."""
    before = {it: signal.signal(it, signal.SIG_IGN) for it in (signal.SIGINT, signal.SIGTERM, signal.SIGHUP)}
    end()
    for it, handler in before.items():
        signal.signal(it, handler)


def build():
    """Builds the program. Gives 0, or 1 where that failed, or 130 where it was interrupted."""
    rt = command_rt()
    if rt is None:
        say("the program is not built from the sources as they are, and that needs the command rt of the Rattle kit")
        return 1
    for it in (signal.SIGTERM, signal.SIGHUP):
        if signal.getsignal(it) is signal.SIG_DFL:
            signal.signal(it, stop_here)
    work = None
    try:
        locked([TOP])  # (rt takes no lock of it, so it is ours until this program ends)
        if is_current():
            return 0  # (another ./profhouse has built it meanwhile)
        work = Build(rt)
        work.held = locked(map(folder_of, work.tree.names))
        return built(work)
    except KeyboardInterrupt:
        say("interrupted; what is proved is kept")
        return 130
    finally:
        if work:
            undisturbed(work.stop)


def built(work):
    is_there = os.path.exists(PROGRAM)
    count, what = len(work.todo), "is older than its sources, or was built elsewhere" if is_there else "is not built"
    say(f"the program {what}: {count} of {len(work.tree.names)} crates to prove, on {work.cores} processors, "
        f"about {work.minutes()} on a slow machine")
    if is_there:
        say(f"Ctrl-C ends this; {os.path.relpath(PROGRAM)} runs the program as it is")
    if not work.run() or not work.program():
        return 1
    if work.tree.looks() != work.looks:
        say("the sources changed while they were proved: run this again")
        return 1
    stamp(work.tree, work.looks, work.version, work.rt)
    minutes, seconds = divmod(round(time.monotonic() - work.begun), 60)
    say(f"built in {minutes} min {seconds} s")
    return 0
