"""share/completions/profhouse.bash: the events, groups and runs of a store. What the help has, tests/words_of_help tries."""
import contextlib
import os
import shutil
import sqlite3
import time

from tried import TOP

COMPLETIONS = os.path.join(TOP, "share", "completions", "profhouse.bash")
# Bash would run the last name if it were offered as it stands.
NAME = "$(touch${IFS}made)"
PROFILE = f"event: Sum = Ir\nevents: Ir I1mr {NAME}\nfn=f\n1 5\n"
OFFER = 'source "$1"; shift; COMP_WORDS=("$@") COMP_CWORD=$(($# - 1)); _profhouse; printf "%s\\n" "${COMPREPLY[@]}"'


def cases(tried):
    if not shutil.which("sqlite3"):
        print("completions: skipped, there is no sqlite3")
        return
    tried.profhouse("import", "--db", "s.db", tried.write("a.cg", PROFILE), tried.write("b.cg", "events: Dr\nfn=f\n1 5\n"))
    for group in ("main", "nightly"):
        tried.profhouse("group", "--db", "s.db", group)
    store = tried.read("s.db")

    def offered(*words):
        ran = tried.run("bash", "--norc", "-c", OFFER, "offer", COMPLETIONS, "profhouse", *words, HOME=tried.folder)
        return ran.out.decode().split(), ran.err
    for words, wanted in (
            (("by", "--db", "s.db", "--event", ""), ["\\$\\(touch\\$\\{IFS\\}made\\)", "Dr", "I1mr", "Ir", "Sum"]),
            (("by", "--db", "s.db", "--event", "I"), ["I1mr", "Ir"]), (("by", "--db", "=", "s.db", "--event", "=", "S"), ["Sum"]),
            (("csv", "--db", "s.db", "--group", ""), ["main", "nightly"]), (("csv", "--db", "~/s.db", "--group", "n"), ["nightly"]),
            (("subtract", "--db", "s.db", "--less-run", ""), ["1", "2"]), (("csv", "--run", ""), []),
            (("csv", "--db", "none.db", "--run", ""), []), (("csv", "--db", "a.cg", "--run", ""), [])):
        tried.expect(" ".join(words), offered(*words), (wanted, b""))
    # What a terminal would obey is offered in the form in which bash reads it again.
    hidden = "a\u202eb\u009bc"
    tried.profhouse("import", "--db", "odd.db", tried.write("odd.cg", f"events: {hidden}\nfn=f\n1 5\n"))
    tried.expect("a hidden character", offered("by", "--db", "odd.db", "--event", "a"), (["$'a\\342\\200\\256b\\302\\233c'"], b""))
    with contextlib.closing(sqlite3.connect(tried.path("views.db"))) as base:
        base.execute("CREATE VIEW run_event AS SELECT edit('x', 'touch made; true') AS name")
        base.execute("CREATE TABLE derived(name)")
        base.commit()
    tried.expect("a view that runs a command", offered("by", "--db", "views.db", "--event", ""), ([], b""))
    with contextlib.closing(sqlite3.connect(tried.path("endless.db"))) as base:
        base.execute("CREATE VIEW run AS WITH RECURSIVE r(n) AS (SELECT 1 UNION ALL SELECT n FROM r) SELECT n AS run FROM r WHERE n = 0")
        base.commit()
    if shutil.which("timeout"):
        begun = time.monotonic()
        found = offered("csv", "--db", "endless.db", "--run", "")
        tried.expect("a view without an end", (found, time.monotonic() - begun < 15), (([], b""), True))
    shutil.copy(tried.path("s.db"), tried.path("-s.db"))
    tried.expect("a store that looks like an option", offered("csv", "--db", "-s.db", "--group", "m"), (["main"], b""))
    with tried.serving("s.db"):
        tried.expect("a store that is served", offered("csv", "--db", "s.db", "--run", ""), ([], b""))
    tried.expect("nothing is made", [os.path.exists(tried.path(it)) for it in ("made", "none.db")], [False, False])
    tried.expect("the store is as it was", tried.read("s.db"), store)
