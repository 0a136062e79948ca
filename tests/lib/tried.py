"""What the tests of share/scripts use: a folder, the program, the scripts, and what was found beside what is wanted."""
import contextlib
import os
import re
import shutil
import subprocess
import sys
import tempfile
from collections import namedtuple

TOP = os.path.dirname(os.path.dirname(os.path.dirname(os.path.abspath(__file__))))
SCRIPTS = os.path.join(TOP, "share", "scripts")
# A disk in memory, where there is one: the program waits for the disk in each command.
DISK = "/dev/shm" if os.access("/dev/shm", os.W_OK) else None
SECONDS = 30

Ran = namedtuple("Ran", "status out err")


class Tried:
    """A new folder in which scripts are tried, and what differed."""

    def __init__(self, program, folder):
        self.program, self.folder = os.path.abspath(program), folder
        self.passed, self.wrong = 0, []
        os.mkdir(self.path("bin"))
        os.symlink(self.program, self.path("bin/profhouse"))
        self.environment = {**os.environ, "PATH": f"{self.path('bin')}:{os.environ['PATH']}"}
        for name in ("PROFHOUSE", "PROFHOUSE_API"):
            self.environment.pop(name, None)

    def path(self, name):
        return os.path.join(self.folder, name)

    def write(self, name, text, mode=0o644):
        """Writes a file of the folder, and gives its path."""
        with open(self.path(name), "wb") as file:
            file.write(text if isinstance(text, bytes) else text.encode())
        os.chmod(self.path(name), mode)
        return self.path(name)

    def read(self, name):
        with open(self.path(name), "rb") as file:
            return file.read()

    def run(self, *words, given=b"", out=subprocess.PIPE, **environment):
        """Runs a command in the folder."""
        # (perf takes a pipe for its input)
        source = {"input": given} if given else {"stdin": subprocess.DEVNULL}
        done = subprocess.run(words, stdout=out, stderr=subprocess.PIPE, cwd=self.folder, check=False,
                              env={**self.environment, **environment}, timeout=SECONDS, **source)
        return Ran(done.returncode, done.stdout, done.stderr)

    def script(self, name, *words, **more):
        """Runs a script of share/scripts, by this Python: a search for another takes longer than most of them."""
        return self.run(sys.executable, os.path.join(SCRIPTS, name), *words, **more)

    def profhouse(self, *words):
        """What the program prints, which has to accept the words."""
        ran = self.run(self.program, *words)
        if ran.status != 0:
            raise AssertionError(f"profhouse {' '.join(words)}: {ran}")
        return ran.out

    def expect(self, what, found, wanted):
        """Counts whether something is as it is wanted."""
        if found == wanted:
            self.passed += 1
        else:
            self.wrong.append(f"{what}\n   found:  {shown(found)}\n   wanted: {shown(wanted)}")

    def expect_refusal(self, what, ran, has=b"", status=2, out=b""):
        """A refusal has this status, and on the standard error a line with `has`."""
        self.expect(what, (ran.status, ran.out, ran.err if has not in ran.err or not ran.err else b".."), (status, out, b".."))

    def expect_help(self, name):
        """--help ends with status 0 and has an example."""
        ran = self.script(name, "--help")
        self.expect(f"{name} --help", (ran.status, ran.err, b"Example: " + name.encode() in ran.out), (0, b"", True))

    @contextlib.contextmanager
    def serving(self, store):
        """The address of a server of a store."""
        words = [self.path("bin/profhouse"), "serve", "--db", self.path(store), "--port", "0", "--requests", "100000"]
        with subprocess.Popen(words, stdout=subprocess.PIPE) as server:
            try:
                said = server.stdout.readline()
                port = re.fullmatch(rb"listening 127\.0\.0\.1:(\d+)\n", said)
                if not port:
                    raise AssertionError(f"profhouse serve {store}: {said}")
                yield f"http://127.0.0.1:{port[1].decode()}"
            finally:
                server.terminate()


def shown(value):
    text = repr(value)
    return text if len(text) <= 1200 else f"{text[:900]} .. {text[-200:]}"


@contextlib.contextmanager
def new_folder(program):
    """A folder to try scripts in."""
    folder = tempfile.mkdtemp(prefix="scripts.", dir=DISK)
    try:
        yield Tried(program, folder)
    finally:
        shutil.rmtree(folder)
