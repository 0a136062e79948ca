"""What scripts beside this file share: how figures are printed, as a text, as CSV, as JSON or as a table of Markdown.

Costs are whole numbers in all of them. Names have the form in which `shown` of profhouse_script.py has them. It is imported,
not run. A script that is copied elsewhere needs this file beside it.
"""
import csv
import io
import json
import re
import shutil
import sys
from collections import namedtuple

from profhouse_names import shortened
from profhouse_script import shown

LONGEST = 160
# What a name has at least of the width of a terminal.
NARROWEST = 24
LEVELS = "▁▂▃▄▅▆▇█"

# A column: its name in data, its head for people, and what its cells are: a `number` of a run, a `cost`, a `change` of one,
# a `share` in percent, or a `name`. A `label` is in data alone.
Column = namedtuple("Column", "key head kind")


class Said(namedtuple("Said", "front name back")):
    """A line that has a name in it, as it is shown."""

    def __str__(self):
        return "".join(self)

    def short(self, names, most):
        """The line in so many characters, where its name is one of these."""
        room = max(NARROWEST, most - len(self.front) - len(self.back))
        return cut(self.front + shortened(names, room)[self.name] + self.back, most)


def short_lines(lines, most):
    """Lines as a text has them; with `most` in so many characters."""
    names = [it.name for it in lines if isinstance(it, Said)]
    return [it.short(names, most) if most and isinstance(it, Said) else cut(str(it), most) for it in lines]


def add_formats(words):
    """Adds the options that say in which form a table is printed."""
    of = words.add_mutually_exclusive_group()
    for name, what in (("csv", "as CSV"), ("json", "as JSON"), ("markdown", "as a table of Markdown")):
        of.add_argument(f"--{name}", dest="form", action="store_const", const=name, default="text", help=what)


# Markdown.

def code(words):
    """Words as they stand, of which none is Markdown."""
    text = str(words._replace(name=cut(words.name, LONGEST))) if isinstance(words, Said) else cut(shown(words), LONGEST)
    ticks = "`" * (1 + max(map(len, re.findall("`+", text)), default=0))
    pad = " " if text.strip("`") != text or text == "" else ""
    return f"{ticks}{pad}{text}{pad}{ticks}"


def cell(name):
    """A name within a table. (A backslash before the | keeps the cell together: those of a name are doubled in reports.)"""
    return code(name).replace("|", "\\|")


def percent(text):
    return f"{text} %" if text else ""


# Bars.

def bars(series):
    """A bar for each cost, from the least to the greatest of them, and a blank for none."""
    known = [it for it in series if it is not None]
    if not known:
        return ""
    least, most = min(known), max(known)
    level = (lambda it: (it - least) * (len(LEVELS) - 1) // (most - least)) if most > least else (lambda it: 0)
    return "".join(" " if it is None else LEVELS[level(it)] for it in series)


def has_bars():
    """Whether the output is a terminal that has the signs of bars."""
    try:
        return sys.stdout.isatty() and bool(LEVELS.encode(sys.stdout.encoding))
    except (LookupError, UnicodeError):
        return False


def width():
    """The width of the terminal, or None for another output."""
    return shutil.get_terminal_size().columns if sys.stdout.isatty() else None


def cut(text, most):
    return text if most is None or len(text) <= most else text[:most] + "…"


# Tables.

def text_of(value, kind):
    """A cell as people read it."""
    if value is None:
        return "-" if kind in ("cost", "change") else ""
    if kind in ("cost", "number"):
        return f"{value:,}" if kind == "cost" else str(value)
    return f"{value:+,}" if kind == "change" else percent(value) if kind == "share" else shown(value)


def datum(value, kind):
    """A cell as a program reads it."""
    return value if value is None or kind in ("number", "cost", "change") else (value or None) if kind == "share" else shown(value)


class Table:
    """Rows, which have values by the names of the columns. The last column is a name. Below a row stand its `lines`, which
    data has as a list, and below the table the `notes`, which data has not; both are texts or `Said`."""

    def __init__(self, title, columns):
        self.title, self.columns = title, columns
        self.shown = [it for it in columns if it.kind != "label"]
        self.rows, self.notes = [], []

    def add(self, values, lines=()):
        self.rows.append((values, list(lines)))

    def cells(self):
        return [([text_of(values.get(it.key), it.kind) for it in self.shown], lines) for values, lines in self.rows]

    def text(self):
        """Lines for people. In a terminal names are as short as it is wide."""
        rows = [([it.head for it in self.shown], []), *self.cells()]
        widths = [max(len(cells[at]) for cells, _ in rows) for at in range(len(self.shown) - 1)]
        # (a line that is cut has a sign more)
        most, room = width() and width() - 1, sum(widths) + 2 * len(widths)
        last = most and max(NARROWEST, most - room)
        names = shortened([cells[-1] for cells, _ in rows], last) if last else None
        below = iter(short_lines([it for _, lines in rows for it in lines], last and max(NARROWEST, last - 2)))
        yield cut(self.title, most)
        for cells, lines in rows:
            yield "  ".join([*(it.rjust(wide) for it, wide in zip(cells, widths)), names[cells[-1]] if names else cells[-1]]).rstrip()
            yield from (f"{'':{room}}  {next(below)}" for _ in lines)
        yield from short_lines(self.notes, most)

    def markdown(self):
        yield f"**{code(self.title)}**"
        yield ""
        yield f"| {' | '.join(it.head for it in self.shown)} |"
        yield f"|{'|'.join('---' if it.kind == 'name' else '--:' for it in self.shown)}|"
        for cells, lines in self.cells():
            named = [cell(it) if of.kind == "name" and it else it for it, of in zip(cells, self.shown)]
            yield f"| {' | '.join([*named[:-1], '<br>'.join([named[-1], *map(cell, lines)])])} |"
        yield from (f"\n{code(it)}" for it in self.notes)

    def data(self):
        """Each row by the names of its columns."""
        for values, lines in self.rows:
            row = {it.key: datum(values.get(it.key), it.kind) for it in self.columns}
            yield row, [str(it).strip() for it in lines]

    def csv(self):
        text = io.StringIO()
        writer = csv.writer(text, lineterminator="\n")
        has_lines = any(lines for _, lines in self.rows)
        # (the name of a column may be bytes of a label)
        writer.writerow([*(shown(it.key) for it in self.columns), *(["calls"] if has_lines else [])])
        for row, lines in self.data():
            writer.writerow([*("" if it is None else it for it in row.values()), *(["; ".join(lines)] if has_lines else [])])
        return text.getvalue().split("\n")[:-1]

    def json(self):
        rows = [{**row, **({"calls": lines} if lines else {})} for row, lines in self.data()]
        return json.dumps(rows, indent=1, ensure_ascii=False).split("\n")

    def print(self, form):
        """Prints the table in a form."""
        lines = {"text": self.text, "csv": self.csv, "json": self.json, "markdown": self.markdown}[form]()
        print("\n".join(lines))
