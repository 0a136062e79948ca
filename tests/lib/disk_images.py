"""What a disk may hold of files when the power fails, built from what was done to them (a LOG of faults.c).

A file has at each point what was synced of it, and steps since, of which any part may be on the disk: each write whole,
not at all, or by sectors, front, back or single bytes; each length, the one before, or one between. Where a file grew
and nothing came, stand zeros, noise, or what it had there earlier. Each name may stand, by itself, for what it stood for
at the last sync of the folder or at any moment since: a file, which may have two names, or none.
"""
import hashlib
import itertools
from typing import NamedTuple

SECTOR = 512
TEARS = ("sectors", "front", "back", "bytes")
FILLS = ("zeros", "noise", "stale")

# How many single steps are lost, or kept, alone at a point.
SINGLE = 12


class Part(NamedTuple):
    """A file at a point: what was synced of it, what was done since, and what stood in it so far, also behind its end."""
    synced: bytes
    steps: tuple
    stale: bytes


class Point(NamedTuple):
    """The files, each under the first name that it had; what each name may stand for on the disk, the last of which it
    stands for now: a file, or None; and how many answers were given."""
    parts: dict
    names: dict
    answered: int


class Same(str):
    """A further name of a file: the name that it has too."""


def now(part):
    return left(None, part, ["keep"] * len(part.steps), zeros)


def zeros(_, count):
    return bytes(count)


def fill_of(rng, part, name):
    """What stands in so many bytes at a place where a file grew."""
    if name == "noise":
        return lambda _, count: rng.randbytes(count)
    return zeros if name == "zeros" else lambda at, count: part.stale[at:at + count].ljust(count, b"\0")


def kept_of(rng, how, at, count):
    """Which bytes of a write are kept: a byte of ones or of zeros for each."""
    if how == "bytes":
        return rng.randbytes(count).translate(bytes(128) + b"\xff" * 128)
    first, end = at // SECTOR, (at + count - 1) // SECTOR + 1
    edge = rng.randint(first, end)
    sectors = [{"front": n < edge, "back": n >= edge, "sectors": rng.random() < 0.5}[how] for n in range(first, end)]
    whole = b"".join((b"\xff" if is_kept else b"\0") * SECTOR for is_kept in sectors)
    return whole[at - first * SECTOR:][:count]


def left(rng, part, hows, fill):
    """What is left of a file: each step since its last sync is kept, lost, or torn in one way."""
    data = bytearray(part.synced)
    for (place, content), how in zip(part.steps, hows):
        if how == "lose":
            continue
        end = place + len(content or b"")
        is_part = how != "keep" and (content is None or rng.random() < 0.3)
        if is_part and (end > len(data) or content is None):
            end = rng.randint(*sorted((len(data), end)))
        data.extend(fill(len(data), max(0, end - len(data))))
        if content is None:
            del data[end:]
        elif how == "keep":
            data[place:end] = content
        elif content := content[:max(0, end - place)]:
            kept = int.from_bytes(kept_of(rng, how, place, len(content)), "big")
            old = int.from_bytes(data[place:place + len(content)], "big")
            mixed = old & ~kept | int.from_bytes(content, "big") & kept
            data[place:place + len(content)] = mixed.to_bytes(len(content), "big")
    return bytes(data)


def files_of(contents, names):
    """The files that have names: the bytes of each, or the name that it has too."""
    files, named = {}, {}
    for name, it in names.items():
        if it is not None:
            files[name] = Same(named[it]) if it in named else contents[it]
            named.setdefault(it, name)
    return files


def files_now(point):
    """The files as they are."""
    return files_of({it: now(part) for it, part in point.parts.items()}, {name: may[-1] for name, may in point.names.items()})


def changed(point, change):
    """The parts and names after a change."""
    what, name, place, _, content, _ = change
    parts, names = dict(point.parts), dict(point.names)
    may = names.get(name, (None,))
    it = may[-1]
    if what == "make":
        it = name if name not in parts else f"{name} again {len(parts)}"
        parts[it], names[name] = Part(b"", (), b""), (*may, it)
    elif what == "link":
        names[name] = (*may, names[content.decode()][-1])
    elif what == "unlink":
        names[name] = (*may, None)
    elif what == "folder":
        names = {name: may[-1:] for name, may in names.items()}
    elif what == "sync":
        parts[it] = parts[it]._replace(synced=now(parts[it]), steps=())
    else:
        part = parts[it]
        part = part._replace(steps=(*part.steps, (place, content if what == "write" else None)))
        data = now(part)
        parts[it] = part._replace(stale=data + part.stale[len(data):])
    return point._replace(parts=parts, names=names)


def points_of(before, changes, answer=None):
    """The files at each point between changes, with how many answers were given: a change, and bytes that stand in it
    once for each."""
    whole = {name: data for name, data in before.items() if not isinstance(data, Same)}
    points = [Point({name: Part(data, (), data) for name, data in whole.items()},
                    {name: (str(data) if isinstance(data, Same) else name,) for name, data in before.items()}, 0)]
    for change in changes:
        if change[0] in ("print", "send"):
            more = change[4].count(answer[1]) if answer and answer[0] == change[0] else 0
            points.append(points[-1]._replace(answered=points[-1].answered + more))
        else:
            points.append(changed(points[-1], change))
    return points


def parts_kept(rng, parts, count):
    """What may be kept of the steps of each file at a point, with words for it. A byte is not torn."""
    sizes = {name: len(part.steps) for name, part in parts.items()}
    steps = [(name, number) for name, size in sizes.items() for number in range(size)]

    def all_but(rest, **more):
        return {**{name: [rest] * size for name, size in sizes.items()}, **more}

    yield "nothing kept", all_but("lose")
    if not steps:
        return
    yield "all kept", all_but("keep")
    for name, size in sizes.items():
        if size:
            yield f"{name} alone kept", all_but("lose", **{name: ["keep"] * size})
            is_byte = len(parts[name].steps[-1][1] or b"..") == 1
            for how, rest in itertools.product(() if is_byte else TEARS, ("keep", "lose")):
                hows = {name: ["keep"] * (size - 1) + [how]}
                yield f"last of {name} in part ({how}, {rest})", all_but(rest, **hows)
    for name, number in rng.sample(steps, min(SINGLE, len(steps))):
        for one, rest in (("lose", "keep"), ("keep", "lose")):
            hows = all_but(rest)
            hows[name][number] = one
            yield f"{one} {number} of {name} alone", hows
    for number in range(count):
        chance, torn = rng.random(), rng.choice((0, 0.1, 0.5))
        yield f"by chance {number}", {name: [
            rng.choice(TEARS) if rng.random() < torn else "keep" if rng.random() < chance else "lose"
            for _ in range(size)] for name, size in sizes.items()}


def grows(part):
    """Whether a file may have bytes in which nothing was written."""
    least = min([len(part.synced), *(place for place, content in part.steps if content is None)])
    return any(place + len(content or b"") > least for place, content in part.steps)


def names_left(names):
    """All that names may stand for; what each stands for now comes first."""
    return [dict(zip(names, stand)) for stand in itertools.product(*(dict.fromkeys(reversed(may)) for may in names.values()))]


def choices(rng, point, count):
    """All that may be left at a point: what is kept, what stands where a file grew, and what the names stand for. What
    was synced alone comes last."""
    fills = FILLS if any(map(grows, point.parts.values())) else FILLS[:1]
    nothing, *found = itertools.product(parts_kept(rng, point.parts, count), fills, names_left(point.names))
    rng.shuffle(found)
    return [*found, nothing]


class Image(NamedTuple):
    """What a disk may hold, of which files something is lost, and how many answers were given."""
    what: str
    files: dict
    lost: tuple
    answered: int


def built(rng, number, point, choice):
    (what, hows), fill, names = choice
    files = files_of({it: left(rng, part, hows[it], fill_of(rng, part, fill)) for it, part in point.parts.items()}, names)
    lost = tuple(it for it in point.parts if it not in names.values() or set(hows[it]) - {"keep"})
    told = "".join(f", {name} is {it or 'gone'}" for name, it in names.items() if it != point.names[name][-1])
    return Image(f"power fails at {number}, {what}, {fill}{told}", files, lost, point.answered)


def images(rng, points, count, most):
    """Different images, one of each point in turn: those where an answer was just given come first, and at each point
    what was synced alone."""
    turns = [(number, point, choices(rng, point, count)) for number, point in enumerate(points)]
    rng.shuffle(turns)
    turns.sort(key=lambda turn: turn[0] == 0 or turn[1].answered == points[turn[0] - 1].answered)
    known, drawn = set(), 0
    while turns:
        for number, point, open_choices in turns:
            while open_choices:
                image = built(rng, number, point, open_choices.pop())
                key = hashlib.sha256(repr((image.answered, sorted(
                    (name, data if isinstance(data, Same) else hashlib.sha256(data).digest())
                    for name, data in image.files.items()))).encode()).digest()
                if key not in known:
                    known.add(key)
                    yield image
                    drawn += 1
                    if drawn == most:
                        return
                    break
        turns = [turn for turn in turns if turn[2]]
