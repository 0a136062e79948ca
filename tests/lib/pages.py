"""What tests of the page use: the page over a store, what is seen of it beside what is wanted, and the list of trials."""
import json
import os
import re
import subprocess

TOP = os.path.dirname(os.path.dirname(os.path.dirname(os.path.abspath(__file__))))
SCRIPT = os.path.join(TOP, "share", "scripts", "profhouse_web")
THIN, MINUS = "\u2009", "\u2212"

# The text of cells: of each row the texts of these parts.
CELLS = """((rows, parts, count) => [...document.querySelectorAll(rows)].slice(0, count).map(row =>
    parts.map(part => row.querySelector(part)?.textContent ?? "")))"""

# The numbers of which a part is hidden, or stands in another line. (A range has a box for each line.)
CUT = """[...document.querySelectorAll("main .cost, main .share, main .count, .cards .big, .cards .small")].filter(it => {
    if (!it.offsetWidth || it.closest("thead, .source")) return false;
    const all = document.createRange();
    all.selectNodeContents(it);
    const tops = [...all.getClientRects()].map(box => box.top);
    return it.scrollWidth > it.clientWidth || Math.max(...tops) > Math.min(...tops) + 8; }).map(it => it.textContent)"""

# Whether an element is what is seen along its middle.
SEEN = """(it => { const box = it.getBoundingClientRect(), found = [];
    for (let y = box.top + 1; y < box.bottom; y += 5) found.push(document.elementFromPoint(box.left + box.width / 2, y));
    return found.length > 3 && found.every(other => it.contains(other)); })(document.querySelector(%s))"""


def signed(cost):
    return ("+" if cost > 0 else MINUS) + str(abs(cost))


def spaced(number):
    return f"{number:,}".replace(",", THIN)


def share(cost, total):
    """A share of a total, cut to two decimals."""
    return f"{cost * 10000 // total / 100:.2f} %"


def point_of(number, which):
    """The point of a run of the line of this number, from its left, as an expression."""
    return f"document.querySelectorAll('#history svg')[{number}].querySelectorAll('circle:not(.marker)')[{which}]"


def at_lines(rows):
    """What stands beside calls of their lines, as an expression."""
    return f"[...document.querySelectorAll({json.dumps(rows)})].map(it => it.querySelector('.at')?.textContent.replaceAll('{THIN}', '') ?? '')"


class Trial:
    """The page, the browser, and what was found."""

    def __init__(self, page, address, program, folder, pictures):
        self.page, self.address, self.program, self.folder, self.pictures = page, address, program, folder, pictures
        self.passed = self.failed = 0

    def expect(self, what, came, wanted):
        if came == wanted:
            self.passed += 1
        else:
            self.failed += 1
            print(f"{what}\n   came:   {came!r:.600}\n   wanted: {wanted!r:.600}")

    def open(self, view="", **words):
        self.page.open(f"{self.address}#{view}", **words)

    def value(self, what, text, wanted):
        self.expect(what, self.page.value(text, wanted, 5), wanted)

    def text(self, what, selector, wanted):
        self.value(what, f"document.querySelector({json.dumps(selector)})?.textContent ?? null", wanted)

    def cells(self, what, rows, parts, wanted):
        """Compares parts of the first rows; thin spaces between digits are left out."""
        text = f"JSON.stringify({CELLS}({json.dumps(rows)}, {json.dumps(parts)}, {len(wanted)})).replaceAll('{THIN}', '')"
        came = self.page.value(text, json.dumps(wanted, ensure_ascii=False, separators=(",", ":")), 5)
        self.expect(what, json.loads(came), wanted)

    def rows(self, what, wanted):
        self.cells(what, "#content .rows tr", [".cost", ".share", ".name code", ".place"][:len(wanted[0])], wanted)

    def row(self, name, inside="#content"):
        """The row of a name, as an expression."""
        return (f"[...document.querySelectorAll({json.dumps(inside + ' .rows tr')})]"
                f".find(it => it.querySelector('code')?.textContent === {json.dumps(name)})")

    def quiet(self, what):
        """Numbers are seen whole, and the console has no error."""
        self.value(f"{what}: numbers that are cut", CUT, [])
        self.expect(f"{what}: the console", self.page.errors, [])
        self.page.errors.clear()

    def picture(self, name):
        if self.pictures:
            self.page.picture(os.path.join(self.pictures, f"{name}.png"))


TRIALS = []


def trial(function):
    TRIALS.append(function)
    return function


def of_its_own(it, name, *profiles, kind=()):
    """The page over a store of a few profiles."""
    paths, store = [os.path.join(it.folder, f"{name}{at}.profile") for at, _ in enumerate(profiles, 1)], os.path.join(it.folder, f"{name}.db")
    for path, profile in zip(paths, profiles):
        with open(path, "w", encoding="utf-8") as made:
            made.write(profile)
    subprocess.run([it.program, "import", "--db", store, *kind, *paths], check=True, stdout=subprocess.DEVNULL)
    return Served(it.program, store)


class Served:
    """profhouse_web over a store."""

    def __init__(self, program, store):
        self.process = subprocess.Popen([SCRIPT, "--db", store, "--port", "0", "--program", program], stdin=subprocess.DEVNULL,
                                        stdout=subprocess.PIPE, text=True)

    def __enter__(self):
        return re.fullmatch(r"open (http://127\.0\.0\.1:\d+/)\n", self.process.stdout.readline())[1]

    def __exit__(self, *_):
        self.process.terminate()
        self.process.wait(60)
        self.process.stdout.close()
