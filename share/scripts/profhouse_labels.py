"""What scripts beside this file share: what the labels of runs say, as `bench=sort commit=1a2b branch=main date=2026-11-29`.

A word of a label that is NAME=VALUE is a field of the run: NAME has small letters, digits, - and _, VALUE all but blanks.
Other words say nothing here, and neither does a folder before the first name. It is imported, not run. A script that is
copied elsewhere needs this file beside it.
"""
import os
import re

from profhouse_http import escaped
from profhouse_script import WordFault, shown

# The fields that tell a benchmark, and the build of which it was run.
BENCH, BUILD = "bench", "commit"
NAME = re.compile(r"[a-z][a-z0-9_-]*")


def fields_of(label):
    """The fields of a label by their names; of two of one name the first counts."""
    fields = {}
    for word in label.split(b" "):
        front, equals, value = word.partition(b"=")
        name = os.fsdecode(front.rpartition(b"/")[2])
        if equals and value and NAME.fullmatch(name):
            fields.setdefault(name, value)
    return fields


def wanted(words):
    """The fields that are asked for, each as NAME=VALUE."""
    pairs = []
    for word in words:
        name, equals, value = word.partition("=")
        if not equals or not value or not NAME.fullmatch(name) or " " in value:
            raise WordFault(f"a field of labels is NAME=VALUE, as branch=main, and not '{shown(word)}'")
        pairs.append((name, escaped(os.fsencode(value))))
    return pairs


def has_all(label, pairs):
    """Whether a label has all of these fields."""
    fields = fields_of(label)
    return all(fields.get(name) == value for name, value in pairs)
