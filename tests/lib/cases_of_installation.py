"""make install, scripts/man_pages and scripts/release: what stands where, what runs there, and that an archive is made twice
of the same bytes."""
import hashlib
import importlib.machinery
import importlib.util
import os
import re
import shutil
import stat
import sys

from tried import TOP

PROFILE = "events: Ir\nob=/src/bench\nfn=main\n1 100\n"
# How the scripts are called where they are installed.
COMMANDS = {"backup_store": "profhouse-backup-store", "fail_if_costlier": "profhouse-fail-if-costlier", "fleet_ask": "profhouse-fleet-ask",
            "fleet_load": "profhouse-fleet-load", "fleet_nodes": "profhouse-fleet-nodes", "markdown_difference": "profhouse-markdown-difference",
            "profhouse_history": "profhouse-history", "profhouse_remote": "profhouse-remote", "profhouse_web": "profhouse-web",
            "same_paths": "profhouse-same-paths", "to_callgrind": "profhouse-to-callgrind"}
COMPLETIONS = {"bash-completion/completions/profhouse": "profhouse.bash", "zsh/site-functions/_profhouse": "_profhouse",
               "fish/vendor_completions.d/profhouse.fish": "profhouse.fish"}
TEXTS = ("README.md", "CHANGELOG.md", "SECURITY.md", "LICENSE-APACHE", "LICENSE-MIT")


def make(tried, target, *words):
    return tried.run("make", "-C", TOP, "--silent", target, f"PROGRAM={tried.program}", f"DESTDIR={tried.path('root')}", *words)


def files_in(folder):
    """The files below a folder of the repository, by their paths there."""
    found = [os.path.relpath(os.path.join(at, it), os.path.join(TOP, folder)) for at, _, names in os.walk(os.path.join(TOP, folder)) for it in names]
    return [it for it in found if "__pycache__" not in it]


def wanted_files():
    """Where each file of the repository has to be below the prefix."""
    share, doc = "share/profhouse", "share/doc/profhouse"
    wanted = {f"{share}/{it}": f"share/scripts/{it}" for it in files_in("share/scripts")}
    wanted.update({f"{share}/web/{it}": f"share/web/{it}" for it in files_in("share/web")})
    wanted.update({f"share/{to}": f"share/completions/{it}" for to, it in COMPLETIONS.items()})
    wanted.update({f"{doc}/{it}": it for it in TEXTS})
    wanted.update({f"{doc}/docs/{it}": f"docs/{it}" for it in files_in("docs")})
    wanted.update({f"{doc}/examples/{it}": f"{folder}/{it}" for folder in ("examples", "share/examples") for it in files_in(folder)})
    return {**wanted, "share/man/man1/profhouse.1": "share/man/man1/profhouse.1"}


def found_in(folder):
    """What stands below a folder: of a file its rights and its bytes, and of a link where it leads."""
    found = {}
    for at, _, names in os.walk(folder):
        for it in names:
            path = os.path.join(at, it)
            if os.path.islink(path):
                found[os.path.relpath(path, folder)] = os.readlink(path)
            else:
                with open(path, "rb") as file:
                    found[os.path.relpath(path, folder)] = stat.S_IMODE(os.stat(path).st_mode), file.read()
    return found


def rights_and_bytes(path):
    with open(os.path.join(TOP, path), "rb") as file:
        return 0o755 if os.access(os.path.join(TOP, path), os.X_OK) else 0o644, file.read()


def cases_of_places(tried):
    ran = make(tried, "install", "prefix=/usr")
    tried.expect("make install", (ran.status, ran.err), (0, b""))
    found = found_in(tried.path("root/usr"))
    tried.expect("the scripts", sorted(it for it in files_in("share/scripts") if not it.endswith(".py")), sorted(COMMANDS))
    links = {f"bin/{called}": f"../share/profhouse/{name}" for name, called in COMMANDS.items()}
    pages = {f"share/man/man1/{called}.1" for called in COMMANDS.values()}
    wanted = wanted_files()
    tried.expect("what is installed", sorted(found), sorted([*wanted, *links, *pages, "bin/profhouse"]))
    tried.expect("which of it differs", [to for to, path in wanted.items() if found.get(to) != rights_and_bytes(path)], [])
    tried.expect("which command leads elsewhere", [it for it, to in links.items() if found.get(it) != to], [])
    tried.expect("the rights of the pages", {found[it][0] for it in pages if it in found}, {0o644})
    tried.expect("the program has no symbols", b".symtab" in tried.run("readelf", "--section-headers", "--wide", tried.path("root/usr/bin/profhouse")).out, False)
    kept = tried.run("make", "-C", TOP, "--silent", "install", f"PROGRAM={tried.program}", f"DESTDIR={tried.path('kept')}", "PREFIX=/opt", "STRIP=:")
    with open(tried.program, "rb") as file:
        tried.expect("with its symbols", (kept.status, found_in(tried.path("kept/opt/bin"))["profhouse"]), (0, (0o755, file.read())))


def cases_of_commands(tried):
    """They find their modules and the program, and the help of each has the name by which it was called."""
    path = f"{tried.path('root/usr/bin')}:{os.path.dirname(sys.executable)}:/usr/bin:/bin"
    tried.profhouse("import", "--db", "s.db", tried.write("a.cg", PROFILE))

    def ran(*words, **more):
        return tried.run("env", *words, PATH=path, **more)
    tried.expect("profhouse-history", ran("profhouse-history", "trend", "--db", "s.db", "--event", "Ir", "--csv").out.splitlines()[1:], [
        f"1,100,,,0,+0.00,{tried.path('a.cg')}".encode()])
    tried.expect("profhouse-same-paths", ran("profhouse-same-paths", "/src=/x", given=PROFILE.encode()).out, PROFILE.replace("/src", "/x").encode())
    for words, said in ((("profhouse-history", "jumps", "--db", "none.db", "--event", "Ir"), "there is no store none.db"),
                        (("profhouse-web", "--db", "none.db"), "there is no store none.db"), (("profhouse-backup-store", "--db", "none.db", "x"), "there is no store none.db")):
        tried.expect(f"{words[0]} complains by this name", ran(*words).err.startswith(f"{words[0]}: {said}".encode()), True)
    for words in (("profhouse-history", "trend"), ("profhouse-same-paths",), ("profhouse-web",)):
        help_of = ran(*words, "--help")
        tried.expect(f"{words} --help", (help_of.status, help_of.out.startswith(f"usage: {' '.join(words)} ".encode())), (0, True))


def cases_of_pages(tried):
    """Each page has the options that the help has, and what roff takes for commands are only those of manual pages."""
    for name, called in COMMANDS.items():
        page = tried.read(f"root/usr/share/man/man1/{called}.1").decode().replace("\\-", "-")
        heads = re.findall(r"^\.SH (.*)$", page, re.M)
        tried.expect(f"{called}: the sections", [it for it in ("NAME", "SYNOPSIS", "DESCRIPTION", "EXAMPLES", "SEE ALSO") if it not in heads], [])
        tried.expect(f"{called}: commands of roff", set(re.findall(r"^\.(\S+)|^(')", page, re.M)) - {(it, "") for it in (
            "TH", "SH", "SS", "PP", "TP", "B", "BR", "nf", "fi")}, set())
        tried.expect(f"{called}: the name of the script", re.findall(rf"\b{name}\b(?!\.py)", page), [])
        words = ("trend",) if name == "profhouse_history" else ()
        options = re.findall(r"^  (?:-\w, )?(--[a-z-]+)", tried.script(name, *words, "--help").out.decode().partition("\noptions:")[2], re.M)
        tried.expect(f"{called}: options that are missing", [it for it in options if it != "--help" and not re.search(rf"^\.B .*{it}\b", page, re.M)], [])
    if shutil.which("groff"):
        said = tried.run("groff", "-man", "-Tutf8", "-ww", *(tried.path(f"root/usr/share/man/man1/{it}.1") for it in COMMANDS.values())).err
        tried.expect("what groff warns of", said, b"")


def release_script():
    """scripts/release as a module."""
    sys.path.insert(0, os.path.join(TOP, "scripts"))
    loader = importlib.machinery.SourceFileLoader("release", os.path.join(TOP, "scripts", "release"))
    module = importlib.util.module_from_spec(importlib.util.spec_from_loader("release", loader))
    loader.exec_module(module)
    return module


MAKE_ARCHIVE = """import os, sys
sys.dont_write_bytecode = True
sys.path.insert(0, os.path.join(sys.argv[1], "tests", "lib"))
import cases_of_installation
os.umask(int(sys.argv[2], 8))
os.chdir(sys.argv[1])
sys.stdout.buffer.write(cases_of_installation.release_script().archive(sys.argv[3], "0.1.0", "c0ffee", "the kit", 1700000000))
"""


def made(tried, umask, program, **environment):
    """An archive that was made by a process of its own."""
    ran = tried.run(sys.executable, "-c", MAKE_ARCHIVE, TOP, umask, program, **environment)
    tried.expect(f"an archive with umask {umask}", (ran.status, ran.err), (0, b""))
    return ran.out


def cases_of_release(tried):
    one = made(tried, "022", tried.program, TZ="UTC", PYTHONHASHSEED="1")
    tried.expect("the same bytes twice", made(tried, "077", tried.program, TZ="Asia/Tokyo", PYTHONHASHSEED="2", LC_ALL="C") == one, True)
    tried.write("one.tar.gz", one)
    tried.run("tar", "-xzf", "one.tar.gz")
    folder = "profhouse-0.1.0-x86_64-linux"
    tried.expect("what is in it, beside what is installed", sorted(os.listdir(tried.path(folder))), ["PROVED", "SHA256SUMS", "bin", "share"])
    installed, unpacked = found_in(tried.path("root/usr")), found_in(tried.path(folder))
    tried.expect("it is what make install installs", sorted(set(unpacked.items()) ^ set(installed.items())),
                 sorted((it, unpacked[it]) for it in ("PROVED", "SHA256SUMS")))
    sums = tried.run("env", "-C", tried.path(folder), "sha256sum", "--check", "--strict", "--quiet", "SHA256SUMS")
    tried.expect("the sums", (sums.status, sums.out, sums.err), (0, b"", b""))
    listed = {it.split("  ", 1)[1] for it in tried.read(f"{folder}/SHA256SUMS").decode().splitlines()}
    tried.expect("what has a sum", listed, {it for it in unpacked if isinstance(unpacked[it], tuple)} - {"SHA256SUMS"})
    total = tried.run(tried.path(f"{folder}/bin/profhouse"), "total", f"{folder}/share/doc/profhouse/examples/manual_calls.cg")
    tried.expect("it runs", total.out, b"Instructions 820\n")
    with open(tried.program, "rb") as file:
        built = hashlib.sha256(file.read()).hexdigest()
    said = tried.read(f"{folder}/PROVED").decode()
    tried.expect("what it says of the proof", [it for it in (
        "profhouse 0.1.0, commit c0ffee\n", " the program last: the kit\n", f"as it was built: {built}\n", "For every input each function is safe",
        f"bin/profhouse: {hashlib.sha256(unpacked['bin/profhouse'][1]).hexdigest()}\n") if it not in said], [])
    files = sorted(it for it in files_in("crates/byte_io") if it.startswith(("src/", "specs/", "proofs/")))
    summed = tried.run("env", "-C", TOP, "sha256sum", *(f"crates/byte_io/{it}" for it in files)).out
    tried.expect("the sum of a crate", f"\n{hashlib.sha256(summed).hexdigest()}  byte_io\n" in said, True)


def cases(tried):
    if not all(map(shutil.which, ("make", "strip", "readelf"))):
        print("installation: skipped, there is no make or no binutils")
        return
    cases_of_places(tried)
    cases_of_commands(tried)
    cases_of_pages(tried)
    cases_of_release(tried)
    ran = make(tried, "uninstall", "prefix=/usr")
    left = [it for it in found_in(tried.path("root"))]
    tried.expect("make uninstall", (ran.status, left, os.listdir(tried.path("root/usr/share/doc"))), (0, [], []))
