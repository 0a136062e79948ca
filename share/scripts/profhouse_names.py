"""What scripts beside this file share: the names that people type, of functions above all.

A report has a function as OBJECT:FUNCTION. Who types one gives a part of it that fits one alone, without the object. It
is imported, not run. A script that is copied elsewhere needs this file beside it.
"""
import os
import re
from collections import namedtuple

from profhouse_http import escaped
from profhouse_script import WordFault, shown

# So many names are listed where a word fits several.
LISTED = 20
# Names of operators have the signs that are brackets elsewhere. share/web/texts.js has the same ones.
WHOLE = r"operator\s*(?:\(\)|\[\]|->\*?|<=>|<<=?|>>=?|[-+*/%^&|~!=<>]=?)|\(anonymous namespace\)"
BRACKET = re.compile(rf"{WHOLE}|[(<)>]")
# What is shown of brackets, and of the ends of texts, where they are short.
SHORT, FEW = 20, 4

# A name of a report, as it is printed: a function has an object, and other keys have none.
Name = namedtuple("Name", "key object name")


def names_of(keys, objects=None):
    """The names of the rows of a report. Both sides of OBJECT:FUNCTION may have colons, so a function is cut behind the
    longest object that is known; `objects` is None where the keys are no functions."""
    if objects is None:
        return {key: Name(key, None, key) for key in keys}
    known = sorted(objects, key=len, reverse=True)
    return {key: split(key, known) for key in keys}


def split(key, known):
    """The object and the function of a row OBJECT:FUNCTION; of the objects that are known the longest comes first."""
    found = next((it for it in known if key.startswith(it + b":")), None)
    of = key.partition(b":")[0] if found is None else found
    return Name(key, of, key[len(of) + 1:])


def last_part(path):
    return path.rpartition(b"/")[2] or path


# What of a path counts where runs are compared.
PLACES = {"path": lambda path: path, "last": last_part, "name": lambda path: b""}


def matched(name, key, how):
    """A name as it is compared: builds in two folders have two paths for one object or file."""
    if how == "path" or key == "thread":
        return name
    if name.object is None:
        file, colon, line = name.key.rpartition(b":") if key == "line" else (name.key, b"", b"")
        short = last_part(file) + colon + line
        return Name(short, None, short)
    place = PLACES[how](name.object)
    return Name(place + b":" + name.name if place else name.name, place, name.name)


def pieces_of(name):
    """A name cut at its outermost brackets: what stands outside of them, and in turn what stands in them, with them."""
    cuts, depth = [0], 0
    for found in BRACKET.finditer(name):
        it, at = found[0], found.start()
        # (a name of Rust may begin with the type in brackets)
        opens = it in ("(", "<") and at > 0
        closes = depth > 0 and it in (")", ">") and name[at - 1] != "-"
        if opens and depth == 0:
            cuts.append(at)
        depth += opens - closes
        if closes and depth == 0:
            cuts.append(at + 1)
    return [name] if depth else [name[one:other] for one, other in zip(cuts, [*cuts[1:], len(name)])]


def bare(name):
    """A name without what stands in its brackets: ns::Cache<int, long>::get(int) is ns::Cache::get."""
    return "".join(pieces_of(name)[::2])


def fitting(names, word):
    """The names that a word fits best: those that it is, else those that it is but for brackets and what stands before
    a `::`, else those of which it is a part, and last without regard to capitals. A word has the bytes of a name, or what
    a script shows in place of them."""
    raw, small = escaped(os.fsencode(word)), word.lower()
    texts = {it: shown(it.name) for it in names}
    plainly = [lambda it: it.key == raw or shown(it.key) == word, lambda it: it.name == raw or texts[it] == word]
    for fits in plainly:
        if found := [it for it in names if fits(it)]:
            return found
    if not word:
        return []
    bares = {it: bare(text) for it, text in texts.items()}
    for fits in (lambda it: bares[it] == word or bares[it].endswith("::" + word), lambda it: word in texts[it] or word in bares[it] or raw in it.name,
                 lambda it: small in texts[it].lower() or small in bares[it].lower()):
        if found := [it for it in names if fits(it)]:
            return found
    return []


def one_of(names, word, what="function", hint=""):
    """The name that a word fits alone. Where it fits several, they are listed, with a hint where they differ in the object."""
    found = fitting(names, word)
    if not found:
        raise WordFault(f"no {what} fits {shown(word)}")
    if len(found) > 1:
        more = "" if len(found) <= LISTED else f"\n  .. and {len(found) - LISTED} more"
        listed = "".join(f"\n  {shown(it.key)}" for it in sorted(found)[:LISTED])
        told = hint if len({it.name for it in found}) == 1 else ""
        raise WordFault(f"{len(found)} {what}s fit {shown(word)}; give more of the name, or a whole line{told}:{listed}{more}")
    return found[0]


# Names in short.

def common(texts):
    """How many characters all texts begin with."""
    return len(os.path.commonprefix(list(texts)))


def apart(texts):
    """Texts that differ, each without the front and the end in which all agree, where these are long. No word is cut."""
    front = re.sub(r"\w+$", "", texts[0][:common(texts)])
    least = min(map(len, texts)) - len(front)
    end = texts[0][len(texts[0]) - min(least, common(it[::-1] for it in texts)):]
    end = re.sub(r"^\w+", "", end)
    whole = max(map(len, texts)) <= SHORT
    ends = [it if whole or len(it) <= FEW else "…" for it in (front, end)]
    return [ends[0] + it[len(front):len(it) - len(end)] + ends[1] for it in texts]


def briefs(texts):
    """Texts that are names, by what is shown of each: brackets have `…`, but for where names that are then alike differ."""
    alike, found = {}, {}
    for text in dict.fromkeys(texts):
        pieces = pieces_of(text)
        alike.setdefault("…".join(pieces[::2]), []).append(pieces)
    for names in alike.values():
        shows = [[] for _ in names]
        for place, at_place in enumerate(zip(*names)):
            inside = [it[1:-1] for it in at_place] if place % 2 else []
            several = dict(zip(sorted({*inside}), apart(sorted({*inside})))) if len({*inside}) > 1 else {}
            for text, it in zip(shows, at_place):
                text.append(it if place % 2 == 0 or len(it) == 2 else it[0] + several.get(it[1:-1], "…") + it[-1])
        found.update(("".join(it), "".join(text)) for it, text in zip(names, shows))
    return found


def cut_within(texts, room):
    """Texts by what is shown of each in so many characters: the middle is left out, but for where texts that are then
    alike differ."""
    found = {it: it for it in texts if len(it) <= room}
    ends, front, back = {}, room // 3, room - 1 - room // 3
    for it in dict.fromkeys(it for it in texts if len(it) > room):
        ends.setdefault((it[:front], it[-back:]), []).append(it)
    for alike in ends.values():
        found.update(seen_apart(alike, room) if len(alike) > 1 else {it: f"{it[:front]}…{it[-back:]}" for it in alike})
    return found


def seen_apart(alike, room):
    """The same of texts whose fronts and ends are alike: their first difference is shown."""
    third = (room - 2) // 3
    wide, at = room - 2 - 2 * third, common(alike)
    begin = max(third, at - min(wide // 2, len(re.search(r"\w*$", alike[0][:at])[0])))
    shows, found = {}, {}
    for it in alike:
        shows.setdefault(f"{it[:third]}…{it[begin:begin + wide]}…{it[-third:]}", []).append(it)
    for text, same in shows.items():
        found.update(seen_apart(same, room) if len(same) > 1 else {same[0]: text})
    return found


def shortened(texts, room):
    """Texts that are names, by what is shown of each in so many characters."""
    forms = {it: it for it in texts if len(it) <= room}
    forms.update(briefs(it for it in texts if len(it) > room))
    cut = cut_within(forms.values(), room)
    return {it: cut[form] for it, form in forms.items()}
