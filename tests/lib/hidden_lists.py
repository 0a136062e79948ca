"""The hidden characters of the scripts and of the page are the same ones, and each is shown as one text: for tests/hostile_words."""
import json
import os
import re
import shutil
import subprocess

import forked  # noqa: F401  pylint: disable=unused-import  (with it Python finds the module of the scripts)
import profhouse_script
from hostile import is_hidden
from tried import TOP

PAGE = os.path.join(TOP, "share", "web", "texts.js")
# What Python alone has, for bytes that are no UTF-8; and what cannot be seen though Unicode has it among letters and signs.
BYTES = range(0xd800, 0xe000)
OF_PAGE = re.compile(r'const HIDDEN = new RegExp\(("[^;]*"), "gu"\);')
# Bytes of a name, and what it is shown as.
SHOWN = [(b"a\x9bb", "a\\x9bb"), (b"a\xc2\x9bb", "a\\u009bb"), (b"a\xadb", "a\\xadb"), (b"a\xc2\xadb", "a\\u00adb"), (b"a\x1bb\x7f", "a\\x1bb\\x7f"),
         (b"a\xc2\xa0b", "a\\u00a0b"), (b"a\xe2\x80\xaeb", "a\\u202eb"), (b"\xf3\xa0\x81\x81", "\\U000e0041"), (b"caf\xc3\xa9 x", "caf\u00e9 x")]


def characters_of_page():
    """The characters of the list of share/web/texts.js."""
    with open(PAGE, encoding="utf-8") as file:
        pieces = re.findall('"([^"]*)"', OF_PAGE.search(file.read())[1])
    form = "".join(pieces).replace("\\\\", "\\")
    form = re.sub(r"\\u\{([0-9a-f]+)\}", lambda it: f"\\U{it[1]:0>8}", form)
    return {it for it in range(0x110000) if re.fullmatch(form, chr(it))}


def of_lists():
    """What differs between the lists, and what a list lacks."""
    script = {it for it in range(0x110000) if profhouse_script.HIDDEN.fullmatch(chr(it))}
    page = characters_of_page()
    lacking = [it for it in range(0x110000) if is_hidden(chr(it)) and it not in script]
    for what, found in (("the page and the scripts differ in", page ^ script - set(BYTES)), ("the scripts lack", lacking)):
        yield f"{what} {[f'{it:04x}' for it in sorted(found)][:40]}" if found else None


def of_texts():
    """What is wrong with how names are shown by the scripts, and by the page where there is node to ask it."""
    given, wanted = [it for it, _ in SHOWN], [it for _, it in SHOWN]
    found = [profhouse_script.shown(it) for it in given]
    yield None if found == wanted else f"the scripts show {found}, and not {wanted}"
    if not shutil.which("node"):
        print("hostile_words: how the page shows names is skipped, there is no node")
        return
    text = f"const it = await import('data:text/javascript,' + encodeURIComponent(require('fs').readFileSync({json.dumps(PAGE)}, 'utf8')));" \
           f"console.log(JSON.stringify({json.dumps([it.decode('latin-1') for it in given])}.map(it.shown)));"
    done = subprocess.run(["node", "-e", f"(async () => {{ {text} }})();"], capture_output=True, check=False, timeout=60)
    found = json.loads(done.stdout) if done.returncode == 0 else done.stderr
    # (a name that is no UTF-8 is Latin-1 to the page)
    yield None if found == wanted else f"the page shows {found}, and not {wanted}"


def results():
    """A pair for each comparison, with what is wrong or None."""
    return [(1, it) for it in (*of_lists(), *of_texts())]
