"""Hostile answers to each script that asks a server: what tests/hostile_words tries first."""
import contextlib
import csv
import io
import os
import pickle
import random
import re
import shutil
import socket
import subprocess
import sys
import tempfile
import threading
import traceback

from forked import ran
from hostile import COMMANDS, CONTROLS, MARKUP, SHA, SOUND, answer_of, filled, hidden_in, response, strange_lines, visible
from tried import DISK
from tried import SCRIPTS as SCRIPTS_AT

COUNT = 200
REPORTS = ("GET /reports/object?run=1&", "GET /reports/object?run=2&", "GET /subtract/")
FUNCTIONS = ("GET /reports/function?run=1&", "GET /reports/function?run=2&")
EXPORTS = ("GET /csv", "GET /folded", "POST /annotate")
# The words of each script, its status for a fault, what it asks, and which answers may have any bytes.
SCRIPTS = {
    "fail_if_costlier": [(("main", "2", "Ir", "5%"), 2, ("GET /groups", *REPORTS), ()),
                         (("main", "2", "Ir", "5%", "--each=99999%"), 2, ("GET /groups", *FUNCTIONS), ())],
    "markdown_difference": [(("2", "main", "Ir"), 2, ("GET /runs", "GET /groups", *REPORTS), ())],
    "profhouse_history": [
        (("trend", "--event", "Ir", "--top", "2", "--group", "main"), 2, ("GET /runs", "GET /groups", *FUNCTIONS), ()),
        (("jumps", "--event", "Ir", "--around", "1", "object"), 2, ("GET /runs", *REPORTS[:2]), ()),
        (("grew", "--event", "Ir", "1", "2"), 2, ("GET /runs", *FUNCTIONS), ()),
        (("grew", "--event", "Ir", "main@baseline", "2", "object"), 2, ("GET /groups", *REPORTS[:2]), ()),
        (("callers", "--event", "Ir", "--run", "1", "f"), 2, ("GET /runs",), ())],
    "profhouse_remote": [(words, 1, (asked,), EXPORTS) for words, asked in (
        (("runs",), "GET /runs"), (("groups",), "GET /groups"), (("verify",), "GET /verify"), (("csv",), "GET /csv"), (("folded",), "GET /folded"),
        (("by", "--event", "Ir", "object"), "GET /reports/"), (("inclusive", "--event", "Ir"), "GET /inclusive"),
        (("callers", "--event", "Ir", "--object", "/opt/app", "f"), "GET /call"),
        (("subtract", "--run", "2", "--less-run", "1", "--event", "Ir", "function"), "GET /subtract/"),
        (("annotate", "--event", "Ir", "--file", "a.c", "source.c"), "POST /annotate"), (("import", "source.c"), "POST /runs/"),
        (("group", "main"), "PUT /groups/"), (("remove", "1"), "DELETE /"), (("csv", "--run", "last"), "GET /runs"))],
}


BASE = {script: at * COUNT for at, script in enumerate(SCRIPTS)}
# The place of `csv --run last`, whose own answer is sound.
LAST = len(SCRIPTS["profhouse_remote"]) - 1
# The fields of a response of profhouse_web.
FIELDS = set("""Server Date Content-Type Content-Length Content-Security-Policy Cross-Origin-Resource-Policy Referrer-Policy
X-Content-Type-Options Cache-Control Allow Connection""".split())
# A span of code, which no sign in it ends.
CODE = re.compile(r"(?<!`)(`+)(?!`)(?:(?!(?<!`)\1(?!`)).)+(?<!`)\1(?!`)", re.S)


class Case:
    """One hostile answer to one script."""

    def __init__(self, seed, script, number):
        self.script, self.number, self.name = script, number, f"{script} {number} of seed {seed}"
        self.words, self.fault, asked, exports = SCRIPTS[script][number % len(SCRIPTS[script])]
        self.terminal = script == "profhouse_remote" and number % 3 == 0
        self.mark = f"/tmp/profhouse_mark_{os.getpid()}_{number}"
        self.answer = answer_of(f"{seed} {script} {number}", asked, self.mark, exports)

    def data_for(self, question):
        """What the server says to a question, and what it then goes on with."""
        if question.startswith(self.answer.asked):
            return self.answer.data, self.answer.endless
        return next(response(filled(text)) for asked, text in SOUND if question.startswith(asked)), b""


class Sound:
    """A server with nothing hostile."""

    def data_for(self, question):
        return next(response(filled(text)) for asked, text in SOUND if question.startswith(asked)), b""


def answered(peer, cases):
    """Answers one connection: the front of a path is the number of a case."""
    with contextlib.suppress(OSError, ValueError, IndexError), peer:
        head = b""
        while b"\r\n\r\n" not in head:
            head += peer.recv(65536) or b"\r\n\r\n"
        method, target = head.decode("latin-1").split(" ")[:2]
        number, _, path = target[1:].partition("/")
        data, endless = cases[int(number)].data_for(f"{method} /{path}")
        peer.sendall(data)
        while endless:
            peer.sendall(endless)
        peer.shutdown(socket.SHUT_WR)
        # (a body that is not read would reset what was sent)
        peer.settimeout(1)
        while peer.recv(65536):
            pass


def serve(listening, cases):
    """The server of all cases, in a process of its own."""
    while True:
        threading.Thread(target=answered, args=(listening.accept()[0], cases), daemon=True).start()


def table_wrong(text):
    """What a page of Markdown would make of a table beside its cells."""
    head, empty, *rows = text.split("\n")[:-1]
    bare = CODE.sub("CODE", head)
    if not re.fullmatch(r"\*\*CODE: \+20 \(\+[0-9.]+ %\)\*\*, run 2 \(CODE\) less run 1 \(CODE\)", bare) or empty:
        return f"the head is {head!r}"
    for row in rows[2:]:
        # (a backslash keeps the sign behind it, and all else but a | belongs to the cell)
        cells = re.findall(r"\|((?:\\[!-/:-@\[-`{-~]|[^|])*)", row)[:-1]
        if not re.fullmatch(r" [+-][0-9,]+ \| [+-][0-9.]+ % \| CODE \| CODE ", "|".join(CODE.sub("CODE", it) for it in cells)):
            return f"a row has the cells {cells}"
    return None


def outcome(case, done):
    """What is wrong with the status of a script and what it printed."""
    lie = (0, case.fault) if case.script == "profhouse_remote" else (case.fault,)
    statuses = {"refused": (case.fault,), "shown": (0,), "any": (0,), "lie": lie}[case.answer.wanted]
    if done.status not in statuses or (done.status == 0) != (done.err == b"") and done.out[:8] != b"refused:":
        return f"the status is {done.status}, and not {statuses}"
    pipe = case.script == "profhouse_remote" and not case.terminal
    hidden = hidden_in(done.err) or [] if pipe else hidden_in(done.out + done.err, "\n\t" if case.terminal else "\n")
    if hidden or strange_lines(case.script, done.err):
        return f"it prints {hidden or strange_lines(case.script, done.err)}"
    if pipe and done.status == 0 and case.number % len(SCRIPTS[case.script]) != LAST and done.out != case.answer.data.partition(b"\r\n\r\n")[2]:
        return "it prints another answer"
    if pipe and done.status and done.out and not re.fullmatch(rb"refused: [^\x00-\x1f\x7f]+\n", done.out):
        return "it prints an answer that it refuses"
    if case.script == "profhouse_history" and case.answer.wanted == "shown" and case.answer.asked in (*FUNCTIONS, *REPORTS):
        return None if visible(case.answer.word[1]) in done.out.decode() else "the name is not shown"
    if case.script == "fail_if_costlier" and case.answer.wanted == "shown" and case.answer.asked == "GET /subtract/":
        return None if visible(case.answer.word[1]) in done.out.decode() else "the name is not shown"
    return table_wrong(done.out.decode()) if case.script == "markdown_difference" and done.status == 0 else None


def tried_in(case, top, port):
    """What is wrong with what a case does, or None."""
    folder = os.path.join(top, f"{case.script}.{case.number}")
    os.mkdir(folder)
    with open(os.path.join(folder, "source.c"), "w", encoding="utf-8") as file:
        file.write("events: Ir\n")
    environment = {"PATH": os.environ["PATH"], "HOME": folder, "TMPDIR": f"{top}/tmp", "LANG": "C.UTF-8"}
    words = (*case.words[:1], "--api", f"http://127.0.0.1:{port}/{case.number + BASE[case.script]}", "--wait", "0", *case.words[1:])
    done = ran(case.script, *words, folder=folder, environment=environment, terminal=case.terminal)
    others = [it for it in os.listdir(folder) if it != "source.c"]
    wrong = f"there is {others}" if others else f"it made {case.mark}" if os.path.exists(case.mark) else outcome(case, done)
    shutil.rmtree(folder)
    return wrong and f"{case.name}, {' '.join(case.words[:1])}: {wrong}\n   {case.answer.asked} is {case.answer.data[:600]}\n   {done}"[:3000]


def in_children(cases, one):
    """What `one` says of each case: they are tried side by side, by children of this process."""
    count = os.cpu_count() or 1
    files = [tempfile.TemporaryFile() for _ in range(count)]
    children = []
    for part, file in enumerate(files):
        process = os.fork()
        if process == 0:
            status = 1
            try:
                pickle.dump([one(it) for it in cases[part::count]], file)
                file.flush()
                status = 0
            except BaseException:  # pylint: disable=broad-exception-caught
                traceback.print_exc()
            finally:
                os._exit(status)
        children.append(process)
    found = []
    for process, file in zip(children, files):
        if os.waitpid(process, 0)[1] != 0:
            found.append((1, "a child of the test has failed"))
            continue
        file.seek(0)
        found += [(1, why) for why in pickle.load(file)]
    return found


@contextlib.contextmanager
def listening_for(cases):
    """The port of a server of these cases."""
    with socket.create_server(("127.0.0.1", 0), backlog=256) as listening:
        server = os.fork()
        if server == 0:
            serve(listening, cases)
        try:
            yield listening.getsockname()[1]
        finally:
            os.kill(server, 9)
            os.waitpid(server, 0)


def web_cases(seed, top):
    """Answers of a server behind the page: all that HTTP has, and few that are no answer, since those begin it anew."""
    chance = random.Random(f"{seed} web")
    cases = [Sound() for _ in range(COUNT)]
    for number, case in enumerate(cases):
        word = chance.choice(COMMANDS + MARKUP + CONTROLS).replace("MARK", f"{top}/mark").encode("utf-8", "surrogateescape")
        line = word.replace(b"\r", b" ").replace(b"\n", b" ")
        bodies = [response(word), response(word, "404 " + line.decode("latin-1")),
                  response(word, "422 x", more="Allow: x\r\nSet-Cookie: a=b\r\nAccess-Control-Allow-Origin: *\r\n"),
                  response(word, kind="text/html"), b"HTTP/1.1 200 OK\r\nAllow: " + line + b"\r\nLocation: " + line + b"\r\nContent-Length: 1\r\n\r\nx",
                  b"HTTP/1.1 302 Found\r\nLocation: http://e/\r\nContent-Length: 3\r\n\r\nabc", b"HTTP/1.1 200 OK\r\nX: a\r\n b\r\nContent-Length: 0\r\n\r\n"]
        broken = [line * 9, b"HTTP/1.1 304 Not Modified\r\nContent-Length: 6\r\n\r\nHTTP/1", b"HTTP/1.1 101 x\r\n\r\nHTTP/1.1 200 OK\r\n\r\n", b"",
                  b"HTTP/1.1 204 x\r\nContent-Length: 38\r\n\r\nHTTP/1.1 200 OK\r\nContent-Length: 0\r\n\r\n",
                  b"HTTP/1.1 200 OK\r\nContent-Length: 99\r\n\r\nx", b"HTTP/1.1 -1\r\n\r\n"]
        data = chance.choice(broken if number % 10 == 0 else bodies)
        case.data_for = lambda _, data=data: (data, b"")
    return cases


def asked_of_page(port, number):
    """What is wrong with a response of the page."""
    method = "PUT" if number % 10 == 0 else "GET"
    with socket.create_connection(("127.0.0.1", port)) as peer:
        peer.sendall(f"{method} /api/{number}/runs HTTP/1.1\r\nHost: 127.0.0.1:{port}\r\nConnection: close\r\n\r\n".encode())
        came = b"".join(iter(lambda: peer.recv(65536), b""))
    head, _, body = came.partition(b"\r\n\r\n")
    status, *fields = head.decode("latin-1").split("\r\n")
    names = dict(it.split(": ", 1) if ": " in it else (it, "") for it in fields)
    code = status.split(" ")[1] if status.startswith("HTTP/1.1 ") else ""
    sound = re.fullmatch("[2-5][0-9][0-9]", code) and set(names) <= FIELDS and len(names) == len(fields) and len(body) == int(names["Content-Length"])
    sound = sound and re.fullmatch("[A-Z, ]+", names.get("Allow", "GET"))
    if not sound or names["Content-Type"] != "text/plain; charset=utf-8" or number % 10 == 0 and code not in ("502", "503"):
        return f"profhouse_web {number}: {came[:800]}"
    return None


def asked_oddly(port, word):
    """What is wrong with the response to a hostile request: it is refused, and what the log has of it is looked at then."""
    with socket.create_connection(("127.0.0.1", port)) as peer:
        peer.sendall(b"GET /x" + word + b" HTTP/1.1\r\nHost: 127.0.0.1:%d\r\nConnection: close\r\n\r\n" % port)
        peer.shutdown(socket.SHUT_WR)
        came = b"".join(iter(lambda: peer.recv(65536), b""))
    return None if re.match(rb"HTTP/1.1 4\d\d ", came) and not hidden_in(came, "\r\n") else f"profhouse_web: {word} is answered by {came[:800]}"


def results_of_page(seed):
    """A pair for each answer behind profhouse_web."""
    top = tempfile.mkdtemp(prefix="hostile.", dir=DISK)
    try:
        cases = web_cases(seed, top)
        with listening_for(cases) as port:
            with open(f"{top}/serve", "w", encoding="utf-8") as file:
                file.write(f"#!/bin/sh\necho 'listening 127.0.0.1:{port}'\nexec sleep 60\n")
            os.chmod(f"{top}/serve", 0o755)
            with open(f"{top}/s.db", "w", encoding="utf-8") as file:
                file.write("store")
            words = [sys.executable, os.path.join(SCRIPTS_AT, "profhouse_web"), "--db", f"{top}/s.db", "--port", "0", "--write", "--log",
                     "--program", f"{top}/serve"]
            with open(f"{top}/log", "w+b") as log, subprocess.Popen(words, stdout=subprocess.PIPE, stderr=log, cwd=top) as page:
                try:
                    at = int(re.search(rb":(\d+)/", page.stdout.readline())[1])
                    found = [(1, asked_of_page(at, number)) for number in range(COUNT)]
                    found += [(1, asked_oddly(at, word.encode("utf-8"))) for word in (*MARKUP, *CONTROLS) if "\n" not in word]
                finally:
                    page.terminate()
                    page.wait()
                log.seek(0)
                hidden = hidden_in(log.read())
        left = sorted(set(os.listdir(top)) - {"serve", "s.db", "log"})
        return [*found, (1, f"profhouse_web writes {hidden} to its log" if hidden else None), (1, f"profhouse_web leaves {left}" if left else None)]
    finally:
        shutil.rmtree(top)


def results(seed):
    """A pair for each case, with what is wrong or None."""
    cases = [Case(seed, script, number) for script in SCRIPTS for number in range(COUNT)]
    top = tempfile.mkdtemp(prefix="hostile.", dir=DISK)
    try:
        os.mkdir(os.path.join(top, "tmp"))
        with listening_for(cases) as port:
            found = in_children(cases, lambda case: tried_in(case, top, port))
        left = sorted({*os.listdir(top), *os.listdir(os.path.join(top, "tmp"))} - {"tmp"})
        return [*found, (1, f"there is {left} beside the cases" if left else None)]
    finally:
        shutil.rmtree(top)
