"""The commands that docs/RECIPES.md shows, for the tests that run them as they stand there."""
import os
import re

import tried as trying

PAGE = os.path.join(trying.TOP, "docs", "RECIPES.md")


def text():
    with open(PAGE, encoding="utf-8") as file:
        return file.read()


def commands():
    """The commands of "From your profiler": what stands in the first backticks of each row, by the row's first column."""
    section = text().split("## From your profiler\n")[1].split("\n## ")[0]
    rows = re.findall(r"^\|([^|`]+)\|`(.+?)`\|", section, re.M)
    return {name.strip(): command.replace("\\|", "|") for name, command in rows}


def front():
    """What "Profiles that compare" sets before a profiler."""
    return re.search(r"`(env -i .+? )valgrind \.\.`", text())[1]


def totals(profile):
    """The events of a Callgrind file with the sums of its `totals:` lines."""
    events = re.search(r"^events: (.*)$", profile, re.M)[1].split()
    lines = [list(map(int, it.split())) for it in re.findall(r"^totals: (.*)$", profile, re.M)]
    return {event: sum(line[at] for line in lines if at < len(line)) for at, event in enumerate(events)}
