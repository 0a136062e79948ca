"""The edits of tests/edits and of tests/must-fail: whether each applies, and in which function it stands."""
import os
import re
from glob import glob

TOP = os.path.dirname(os.path.dirname(os.path.dirname(os.path.abspath(__file__))))
# An item that begins at a line of a source file, and what it is called.
ITEM = re.compile(r"( *)(?:pub(?:\([a-z]+\))? )?(?:(fn)|const|static|struct|enum|type|trait) (\w+)")
# The head of an `impl`: the type that it is of stands behind `for`, if there is one.
IMPL = re.compile(r"impl(?:<.*?>)? (?:.* for )?&?(?:'\w+ )?(?:\w+::)*(\w+)")
# A definition of specs/ or proofs/, and a field of a record, which is none.
DEFINITION = re.compile(r" *(?:(?:abbrev|unfoldable) )?(?:pub )?(?:(?:record|data) (\S+)|(\S+) :(?: |$))")
FIELD = re.compile(r" +pub \S+ :")


class BadEdit(Exception):
    """Why an edit cannot be applied."""


def read(path):
    with open(path, encoding="utf-8") as file:
        return file.read()


class Edit:
    """A wrong body that the prover has to refuse: lines `file: PATH`, and pairs of `old: TEXT` and `new: TEXT`."""

    def __init__(self, path):
        self.path = path
        parts = path.split(os.sep)
        self.in_gate, self.crate = parts[1] == "must-fail", parts[2]
        self.name = f"{self.crate}/{os.path.basename(path)[:-len('.edit')]}"

    def pairs(self):
        """The file, the old and the new text of each pair, in turn."""
        path, old = None, None
        for line in read(self.path).split("\n"):
            word, _, text = line.partition(":")
            text = text.removeprefix(" ")
            if word == "file":
                path = text.strip()
            elif word == "old":
                old = text
            elif word == "new":
                if not path or not old:
                    raise BadEdit("a `new:` line stands before any `file:` or `old:` line")
                yield path, old, text
                old = None
            elif line.strip() and not line.startswith(("#", "--", "//")):
                raise BadEdit(f"a line is not read: {line[:60]}")

    def apply(self):
        """The place of the edit, `module::function` or `Type::method`; BadEdit where it cannot be applied."""
        texts, before, place = {}, {}, None
        for path, old, new in self.pairs():
            if path not in texts:
                file = os.path.join("crates", self.crate, path)
                if not path.startswith(("src/", "specs/", "proofs/")) or not os.path.isfile(file):
                    raise BadEdit(f"there is no file {path}")
                texts[path] = before[path] = read(file)
            count = texts[path].count(old)
            if count != 1:
                raise BadEdit(f"an `old:` text stands {count} times in {path}, and not once: {old[:60]}")
            # an import that an edit needs says nothing of what it changes
            place = place or place_of(path, texts[path], texts[path].find(old))
            texts[path] = texts[path].replace(old, new)
        if texts == before:
            raise BadEdit("it changes nothing")
        return place or module_of(path)


def all_edits():
    return [Edit(path) for path in sorted(glob("tests/edits/*/*.edit") + glob("tests/must-fail/*/*.edit"))]


def module_of(path):
    return os.path.splitext(path.split("/", 1)[1])[0].replace("/", "::")


def place_of(path, text, at):
    """The item in which a place of a file stands, or None for its imports."""
    lines, number = text.split("\n"), text.count("\n", 0, at)
    if lines[number].lstrip().startswith(("use ", "ghost use ")):
        return None
    found = definition_at(lines, number) if path.endswith(".antt") else item_at(lines, number)
    return found and (found if "::" in found else f"{module_of(path)}::{found}")


def definition_at(lines, number):
    """The definition or lemma in which a line stands."""
    for line in reversed(lines[:number + 1]):
        found = None if FIELD.match(line) or line.lstrip().startswith("--") else DEFINITION.match(line)
        if found:
            return found[1] or found[2]
    return None


def item_at(lines, number):
    """The function, or else the constant or type, in which a line stands; a method with its type in front."""
    for at in range(number, -1, -1):
        found = ITEM.match(lines[at])
        # what is closed before the line does not hold it
        if found and not any(it.startswith(found[1] + "}") for it in lines[at + 1:number]):
            owner = owner_at(lines, at) if found[1] else None
            return f"{owner}::{found[3]}" if owner else found[3]
    return None


def owner_at(lines, number):
    """The type or the trait whose block holds a method."""
    for at in range(number, -1, -1):
        if lines[at].startswith(("impl", "trait", "pub trait")):
            head = " ".join(lines[at:number]).split("{")[0]
            found = IMPL.match(head) or re.match(r"(?:pub )?trait (\w+)", head)
            return found and found[1]
    return None
