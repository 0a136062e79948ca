"""What the program is made from, and whether the one that is there was made from that.

The sources are the line of crates.txt and the files in src/, specs/ and proofs/ of crates/profhouse and of each crate
below it, and the Rattle kit. A stamp beside the program holds their sum. ./profhouse asks at each call, so the times
and sizes of the files are compared first, and their contents only where those differ.
"""
import functools
import hashlib
import json
import os

TOP = os.path.dirname(os.path.dirname(os.path.realpath(__file__)))
NAME = "profhouse"
OUT = os.path.join(TOP, "crates", NAME, "out")
PROGRAM = os.path.join(OUT, NAME)
STAMP = os.path.join(OUT, "built.json")
PARTS = ("src", "specs", "proofs")


def read(path):
    with open(path, "rb") as file:
        return file.read()


def look_of(path):
    """The time and the size of a file, or None where it is missing."""
    try:
        found = os.stat(path)
    except OSError:
        return None
    return [found.st_mtime_ns, found.st_size]


def kept_in(path):
    """What a file of ours holds, or nothing where it is missing or damaged: then all is built anew."""
    try:
        found = json.loads(read(path))
    except (OSError, ValueError):
        return {}
    return found if isinstance(found, dict) else {}


def keep(path, value):
    """Writes a file of ours whole or not at all."""
    os.makedirs(os.path.dirname(path), exist_ok=True)
    with open(f"{path}.new", "w", encoding="utf-8") as file:
        json.dump(value, file)
    os.replace(f"{path}.new", path)


def command_rt():
    """The file that the command rt is, or None."""
    for folder in os.environ.get("PATH", os.defpath).split(os.pathsep):
        path = os.path.join(folder, "rt")
        if os.path.isfile(path) and os.access(path, os.X_OK):
            return os.path.realpath(path)
    return None


def kit_of(rt):
    """The line by which the kit names itself."""
    import subprocess  # (most calls do not come here, and its import takes as long as all else)
    ran = subprocess.run([rt, "version"], stdout=subprocess.PIPE, stderr=subprocess.STDOUT, text=True, check=False)
    return ran.stdout.strip()


class Tree:
    """The crates that the program stands on, each after those below it."""

    def __init__(self):
        self.lines, self.names = {}, []
        with open(os.path.join(TOP, "crates.txt"), encoding="utf-8") as file:
            for line in file:
                words = line.partition("#")[0].split()
                if words:
                    self.lines[words[0].rstrip(":")] = " ".join(words)
        self.take(NAME)

    def take(self, name):
        if name not in self.names:
            for it in self.uses(name):
                self.take(it)
            self.names.append(name)

    def uses(self, name):
        """The crates on its line; the other words there are libraries of the kit."""
        return [it for it in self.lines[name].partition(":")[2].split() if it in self.lines]

    @functools.lru_cache(maxsize=None)
    def below(self, name):
        """All crates that it stands on."""
        return frozenset(self.uses(name)).union(*map(self.below, self.uses(name)))

    @functools.lru_cache(maxsize=None)
    def files(self, name):
        found = []
        for part in PARTS:
            for at, _, names in os.walk(os.path.join(TOP, "crates", name, part)):
                found += [f"{at[len(TOP) + 1:]}/{it}" for it in names]
        return sorted(found)

    def looks(self):
        """The time and the size of each source."""
        paths = ["crates.txt", *(it for name in self.names for it in self.files(name))]
        return {it: look_of(os.path.join(TOP, it)) for it in paths}

    @functools.lru_cache(maxsize=None)
    def sum(self, name, kit):
        """A sum of all that the proof of a crate rests on."""
        found = hashlib.sha256(repr((kit, self.lines[name])).encode())
        for it in self.files(name):
            found.update(repr((it, read(os.path.join(TOP, it)))).encode())
        found.update(repr([self.sum(it, kit) for it in self.uses(name)]).encode())
        return found.hexdigest()


def stamp(tree, looks, kit, rt):
    """Notes what the program that is there was made from."""
    keep(STAMP, {"sum": tree.sum(NAME, kit), "kit": kit, "rt": [rt, look_of(rt)], "files": looks,
                 "program": look_of(PROGRAM)})


def is_current():
    """Whether the program is there, and made from the sources and by the kit as they are now."""
    stamped, rt = kept_in(STAMP), command_rt()
    if not {"sum", "kit", "rt", "files", "program"} <= stamped.keys():
        return False
    if look_of(PROGRAM) is None or look_of(PROGRAM) != stamped["program"]:
        return False
    tree, kit = Tree(), stamped["kit"]
    looks, is_same_rt = tree.looks(), rt is None or [rt, look_of(rt)] == stamped["rt"]
    if looks == stamped["files"] and is_same_rt:
        return True
    if not is_same_rt and kit_of(rt) != kit or tree.sum(NAME, kit) != stamped["sum"]:
        return False
    try:
        stamp(tree, looks, kit, rt or stamped["rt"][0])
    except OSError:
        pass  # (a clone that this user may only read: all is compared again at the next call)
    return True
