"""Trials of the page about lines: those of a function that differ, those of calls, and those that an edit moved."""
import contextlib
import threading
import urllib.request
from http.server import BaseHTTPRequestHandler, ThreadingHTTPServer

from pages import MINUS, at_lines, of_its_own, point_of, trial

# Two builds: the second has three lines more at the head of both files, and calls work five times more in one line of two.
MOVED = ["""events: Ir
event: Twice = 2 Ir
ob=/opt/app
fl=m.c
fn=main
3 100000
cfi=w.c
cfn=work
calls=2 1
10 300
cfi=w.c
cfn=work
calls=1 1
20 200
fl=w.c
fn=work
5 100
6 400
""", """events: Ir
event: Twice = 2 Ir
ob=/opt/app
fl=m.c
fn=main
6 100000
cfi=w.c
cfn=work
calls=2 1
13 300
cfi=w.c
cfn=work
calls=6 1
23 1200
fl=w.c
fn=work
8 100
9 1400
"""]


@trial
def three_clicks(it):
    """From the history to the line that costs more, over two builds of which the second has three lines more at its head."""
    with of_its_own(it, "moved", *MOVED) as address:
        it.page.open(f"{address}#view=history")
        it.page.click(point_of(0, 1))
        # Both cost 1000 more with all that they call, and main itself as much as before.
        it.cells("who calls comes behind what costs", "#content .rows tr", [".cost", "code"], [["+1000", "work"], ["+1000", "main"]])
        it.page.click("document.querySelector('#content .rows tr')")
        it.cells("its lines that differ", "#lines .rows tr", [".cost", "code", ".place"],
                 [["+1400", "w.c:9", ""], [f"{MINUS}400", "w.c:6", ""], ["0", "w.c:8", "moved from 5"]])
        it.text("how many", "#detail h3", "its lines (2 differ, 1 only moved)")
        it.value("the line of the call", at_lines("#detail > table .rows tr"), [f"line 13 moved from 10; line 20 {MINUS}200, {MINUS}1 call; line 23 +1200, +6 calls"])
        it.page.script("document.querySelector('#detail > table .at a:last-of-type').focus()")
        it.page.press("Enter")
        it.value("leads to its source", "['view', 'run', 'file', 'line'].map(it => new URLSearchParams(location.hash.slice(1)).get(it)).join()", "source,2,m.c,23")
        it.page.script("history.back()")
        it.page.click("document.querySelectorAll('#lines .leads')[1]")
        it.value("a line that is gone leads to the build that had it", "['view', 'run', 'file', 'line'].map(it => new URLSearchParams(location.hash.slice(1)).get(it)).join()", "source,1,w.c,6")
        it.page.open(f"{address}#run=2&fn=work&ob=%2fopt%2fapp")
        it.value("the lines of a call", at_lines("#detail .rows tr"), ["line 13 300, 2 calls; line 23 1200, 6 calls"])
        it.page.open(f"{address}#run=2&less=r1&view=difference&key=line")
        it.cells("lines that moved are last", "#content .rows tr", [".cost", "code", ".place"],
                 [["+1400", "w.c:9", ""], [f"{MINUS}400", "w.c:6", ""], ["0", "m.c:6", "moved from 3"], ["0", "w.c:8", "moved from 5"]])
        it.text("and counted apart", "#content .total td:last-child", "total; 2 lines differ, 2 others only moved")
        it.page.open(f"{address}#run=2&less=r1&view=difference&derived=Twice&fn=work&ob=%2fopt%2fapp")
        it.value("calls of a derived event have lines too", at_lines("#detail > table .rows tr"), [f"line 13 moved from 10; line 20 {MINUS}400, {MINUS}1 call; line 23 +2400, +6 calls"])
        it.quiet("three clicks")


@trial
def many_lines(it):
    """More lines than are shown at first."""
    builds = ["events: Ir\nfl=a.c\nfn=f\n" + "".join(f"{line} {line * times}\n" for line in range(1, 10)) +
              "fn=g\n1 1\n" + "".join(f"cfn=f\ncalls={times} 1\n{line} {times}\n" for line in range(2, 11)) for times in (1, 3)]
    with of_its_own(it, "lines", *builds) as address:
        it.page.open(f"{address}#run=2&less=r1&view=difference&fn=f&ob=%3f%3f%3f")
        wanted = [[f"+{2 * line}", f"a.c:{line}"] for line in range(9, 0, -1)]
        it.cells("the first ones", "#lines .rows tr", [".cost", "code"], wanted[:5])
        it.value("no others", "document.querySelectorAll('#lines .rows tr').length", 5)
        it.text("the first lines of the calls", "#detail > table .at", "; ".join(f"line {line} +2, +2 calls" for line in range(2, 7)) + "; 4 more")
        it.page.click("document.querySelector('#detail > table .at button')")
        it.text("all of these", "#detail > table .at", "; ".join(f"line {line} +2, +2 calls" for line in range(2, 11)))
        it.page.click("document.querySelector('#own-lines')")
        it.cells("all", "#lines .rows tr", [".cost", "code"], wanted)
        it.quiet("many lines")


@trial
def template_instances(it):
    """Where two instances of a template would be shown alike, what differs is seen."""
    string = "std::__cxx11::basic_string<char, std::char_traits<char> >"
    with of_its_own(it, "alike", "events: Ir\n" + "".join(f"fn=shop::Cache<{string}, {kind}>::get({string} const&)\n{at} {9 - at}\n" for at, kind in enumerate(("int", "long"), 1)) +
                    f"fn=shop::Alone<{string}>::put({string} const&)\n3 6\n") as address:
        it.page.open(address)
        it.cells("names in short", "#content .rows tr", ["code"], [["shop::Cache<\u2026int>::get(\u2026)"], ["shop::Cache<\u2026long>::get(\u2026)"], ["shop::Alone<\u2026>::put(\u2026)"]])
        it.quiet("template instances")


# Two builds of three threads: in the second, thread 2 costs 500 more in `read`, and thread 3 is as it was.
THREADS = ["""events: Ir
thread: 2
fn=read
1 {read}
fn=main
2 30
thread: 3
fn=read
1 700
""".format(read=it) for it in (100, 600)]


@trial
def threads(it):
    """A thread leads to its functions, alone and in a difference."""
    with of_its_own(it, "threads", *THREADS) as address:
        it.page.open(f"{address}#run=2&view=thread")
        it.cells("threads", "#content .rows tr", [".cost", "code"], [["700", "3"], ["630", "2"]])
        it.page.click("document.querySelectorAll('#content .rows tr')[1]")
        it.cells("the functions of one", "#content .rows tr", [".cost", ".share", "code"], [["600", "95.23 %", "read"], ["30", "4.76 %", "main"]])
        it.text("which one", "#content .chip", "in thread 2 \u00d7")
        it.page.click("document.querySelector('#content .rows tr')")
        it.text("calls know no threads", "#detail > .note", "All costs here are of all threads.")
        it.page.click("document.querySelector('#content .chip a')")
        it.cells("those of all", "#content .rows tr", [".cost", "code"], [["1300", "read"], ["30", "main"]])
        it.page.open(f"{address}#run=2&less=r1&view=difference&key=thread")
        it.cells("threads that differ", "#content .rows tr", [".cost", "code"], [["+500", "2"]])
        it.page.click("document.querySelector('#content .rows tr')")
        it.cells("the functions of one that differ", "#content .rows tr", [".cost", "code"], [["+500", "read"]])
        it.text("which thread that is", "#content .chip", "in thread 2 \u00d7")
        it.page.open(f"{address}#run=2&less=r1&view=difference&thread=3")
        it.text("one that does not differ", "#content .note", "No difference.")
        it.quiet("threads")


class Other(BaseHTTPRequestHandler):
    """Stands for a server that has the page and the store, but nothing of profhouse_web itself."""

    def do_GET(self):
        if self.path.startswith("/scripts/"):
            return self.send_error(404)
        with urllib.request.urlopen(self.server.behind + self.path[1:]) as answer:
            self.send_response(200)
            self.send_header("Content-Type", answer.headers["Content-Type"])
            self.end_headers()
            return self.wfile.write(answer.read())

    def log_message(self, *_):
        pass


@contextlib.contextmanager
def other_server(behind):
    with ThreadingHTTPServer(("127.0.0.1", 0), Other) as server:
        server.behind = behind
        threading.Thread(target=server.serve_forever, daemon=True).start()
        yield f"http://127.0.0.1:{server.server_port}/"
        server.shutdown()


@trial
def another_server(it):
    """Where nobody tells lines, those of a function are taken from all costs, and calls have none."""
    with of_its_own(it, "other", *MOVED) as behind, other_server(behind) as address:
        it.page.open(f"{address}#run=2&less=r1&view=difference&fn=work&ob=%2fopt%2fapp")
        it.cells("lines from all costs", "#lines .rows tr", [".cost", "code", ".place"],
                 [["+1400", "w.c:9", ""], [f"{MINUS}400", "w.c:6", ""], ["0", "w.c:8", "moved from 5"]])
        it.cells("calls without lines", "#detail > table .rows tr", [".cost", ".count", "code", ".at"], [["+1000", "+5", "main", ""]])
        it.value("nothing is said of that", "document.querySelectorAll('#detail > .note').length", 1)
        it.page.open(f"{address}#run=2&less=r1&view=difference&derived=Twice&fn=work&ob=%2fopt%2fapp")
        it.text("a derived event has no lines", "#lines", "A derived event is in no export.")
        it.page.open(f"{address}#run=2&view=function&thread=0")
        it.text("nor has a thread functions", "#content .fault", "Only profhouse_web tells the functions of a thread.")
        it.expect("the browser says which were not found", [one for one in it.page.errors if "404" not in one], [])
        it.page.errors.clear()
