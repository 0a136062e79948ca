"""Runs scripts of share/scripts in this process, or in a child of it, in which Python and their modules are loaded already:
for tests that run them thousands of times."""
import os
import pty
import signal
import sys
import threading
import traceback
from collections import namedtuple

from tried import SCRIPTS

sys.path.insert(0, SCRIPTS)
# (what they import, so that a child under another user finds it too)
import argparse, ctypes, csv, datetime, fcntl, heapq, http.client, http.server, pathlib, random, shutil, sqlite3  # noqa: E401, E402, F401
import ssl, subprocess, tempfile, urllib.parse  # noqa: E401, E402, F401
import encodings.ascii, encodings.idna, encodings.latin_1  # noqa: E401, E402, F401
import profhouse_http  # noqa: E402
import profhouse_script  # noqa: E402, F401

Ran = namedtuple("Ran", "status out err")
SECONDS = 20
# So much of an answer is taken, so that one without an end has one.
LONGEST_ANSWER = 1 << 20
programs = {}


def program(name):
    if name not in programs:
        path = os.path.join(SCRIPTS, name)
        with open(path, encoding="utf-8") as file:
            programs[name] = compile(file.read(), path, "exec")
    return programs[name]


def become(user):
    """Gives a child the rights of another user."""
    if user is not None:
        os.setgroups([])
        os.setgid(user)
        os.setuid(user)


class Late(BaseException):
    """A script takes too long."""


def late(*_):
    raise Late()


def run_here(name, words, folder, environment, files):
    """Runs a script in this process, which is as it was before but for these, and gives its status."""
    for number, file in enumerate(files):
        os.dup2(file, number)
    sys.stdin, sys.stdout = open(0, closefd=False), open(1, "w", encoding="utf-8", closefd=False)
    sys.stderr = open(2, "w", encoding="utf-8", errors="backslashreplace", closefd=False)
    os.chdir(folder)
    os.environ.clear()
    os.environ.update(environment)
    tempfile.tempdir = environment.get("TMPDIR")
    profhouse_http.LONGEST_ANSWER = profhouse_http.LONGEST_EXPORT = LONGEST_ANSWER
    sys.argv = [name, *map(os.fsdecode, words)]
    # (a script has the one timer of the system for its own requests)
    signal.signal(signal.SIGUSR1, late)
    timer = threading.Timer(SECONDS, os.kill, (os.getpid(), signal.SIGUSR1))
    timer.start()
    status = 0
    try:
        exec(program(name), {"__name__": "__main__", "__file__": os.path.join(SCRIPTS, name)})  # pylint: disable=exec-used
    except SystemExit as ended:
        status = ended.code if isinstance(ended.code, int) else 0 if ended.code is None else 1
    except BaseException:  # pylint: disable=broad-exception-caught
        traceback.print_exc()
        status = 99
    timer.cancel()
    timer.join()
    for file in (sys.stdout, sys.stderr):
        try:
            file.flush()
        except OSError:
            pass
    return status


def child(user, *words):
    """The rest of a child's life."""
    try:
        become(user)
        status = run_here(*words)
    finally:
        os._exit(status)


def kept(*words):
    """Runs a script in this process, which is then as it was before."""
    ends, streams = [os.dup(it) for it in range(3)], (sys.stdin, sys.stdout, sys.stderr)
    before, folder, place, most = dict(os.environ), os.getcwd(), tempfile.tempdir, (profhouse_http.LONGEST_ANSWER, profhouse_http.LONGEST_EXPORT)
    try:
        return run_here(*words)
    finally:
        for number, end in enumerate(ends):
            os.dup2(end, number)
            os.close(end)
        sys.stdin, sys.stdout, sys.stderr = streams
        os.chdir(folder)
        os.environ.clear()
        os.environ.update(before)
        tempfile.tempdir, (profhouse_http.LONGEST_ANSWER, profhouse_http.LONGEST_EXPORT) = place, most
        for number in (signal.SIGTERM, signal.SIGHUP):
            signal.signal(number, signal.SIG_DFL)


def all_of(terminal):
    """What comes out of a terminal until its other end is closed."""
    data = b""
    while True:
        try:
            piece = os.read(terminal, 65536)
        except OSError:
            return data
        if not piece:
            return data
        data += piece


def held(file):
    """What stands in a file in memory, which is closed."""
    os.lseek(file, 0, os.SEEK_SET)
    with open(file, "rb") as data:
        return data.read()


def in_child(files, user, above, words):
    """The status of a script in a child, and what a terminal shows of it; one that a signal ended has its number below 0."""
    sys.stdout.flush()
    process = os.fork()
    if process == 0:
        child(user, *words, files)
    printed = b""
    if above is not None:
        os.close(files[1])
        printed = all_of(above)
        os.close(above)
    status = os.waitpid(process, 0)[1]
    return os.WEXITSTATUS(status) if os.WIFEXITED(status) else -os.WTERMSIG(status), printed.replace(b"\r\n", b"\n")


def ran(name, *words, folder, environment, given=b"", user=None, terminal=False):
    """What a script prints, and its status."""
    program(name)
    source, out, err = (os.memfd_create(it) for it in ("in", "out", "err"))
    os.write(source, given)
    os.lseek(source, 0, os.SEEK_SET)
    above, below = pty.openpty() if terminal else (None, out)
    if terminal or user is not None:
        # (a terminal has to be read meanwhile, and rights do not come back)
        status, printed = in_child((source, below, err), user, above, (name, words, folder, environment))
    else:
        status, printed = kept(name, words, folder, environment, (source, out, err)), b""
    os.close(source)
    return Ran(status, (held(out), printed)[terminal], held(err))
