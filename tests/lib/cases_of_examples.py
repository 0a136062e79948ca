"""share/examples: the steps of the CI files and of the bisection are run, with stand-ins for make and valgrind."""
import os
import re
import shutil

from tried import SCRIPTS, TOP

EXAMPLES = os.path.join(TOP, "share", "examples")
# Builds ./bench of the file `source`, which holds what the program costs, and what its `main` does; `broken` cannot be built.
MAKE = "#!/bin/sh\n! grep -q broken source && cp source bench\n"
# Writes a profile of ./bench, with paths of the folder that it was built in.
VALGRIND = r"""#!/bin/bash
[[ -z ${HOME-} ]] || exit 9
for word; do [[ $word == --callgrind-out-file=* ]] && out=${word#*=}; done
read -r work main < bench
printf 'pid: %s\nevents: Ir\nob=%s\nfl=%s\nfn=main\n1 %s\nfn=work\n2 %s\n' \
    "$$" "$PWD/bench" "$PWD/a.c" "${main:-100}" "$work" > "$out"
"""


def prepare(tried):
    tried.write("bin/make", MAKE, 0o755)
    tried.write("bin/valgrind", VALGRIND, 0o755)
    for name in ("same_paths", "fail_if_costlier"):
        os.symlink(os.path.join(SCRIPTS, name), tried.path(f"bin/profhouse-{name.replace('_', '-')}"))


def steps_of_github():
    """The steps that are run behind the installation, as one script each."""
    with open(os.path.join(EXAMPLES, "github.yml"), encoding="utf-8") as file:
        text = file.read()
    blocks = re.findall(r"^      - run: (.*)\n|^        run: \|\n((?:          .*\n)+)", text, re.M)
    return [one or re.sub("(?m)^ {10}", "", several) for one, several in blocks if not one.startswith("sudo")]


def steps_of_gitlab():
    """The lines of `script`, as one script."""
    with open(os.path.join(EXAMPLES, "gitlab.yml"), encoding="utf-8") as file:
        lines = re.search(r"^  script:\n((?:    - .*\n)+)", file.read(), re.M)[1]
    return [re.sub("(?m)^    - ", "", lines)]


def build(tried, name, cost, steps, **environment):
    """Runs the steps in a new folder, as CI does; the first that fails is the last."""
    folder = tried.path(name)
    os.makedirs(os.path.join(folder, "tools"))
    shutil.copytree(SCRIPTS, os.path.join(folder, "tools", "profhouse"))
    tried.write(os.path.join(name, "source"), f"{cost}\n")
    for step in steps:
        ran = tried.run("bash", "-e", "-c", 'cd "$1" && . "$2"', "step", folder, tried.write("step", step), **environment)
        if ran.status != 0:
            break
    return ran


def cases_of_ci(tried, address, kind, steps, environment):
    def run(name, cost, **more):
        return build(tried, f"{kind}.{name}", cost, steps, PROFHOUSE_API=address, CI_PROJECT_DIR=tried.path(f"{kind}.{name}"),
                     GITHUB_STEP_SUMMARY=tried.path(f"{kind}.{name}.md"), **{**environment, **more})
    # The baseline costs 100 + 900. Two percent more are 1020.
    ran = run("within", 920)
    tried.expect(f"{kind}: within", (ran.status, ran.out.splitlines()[-3:]), (0, [
        b"subtract function Ir", b"20 total", b"20 /src/bench:work"]))
    ran = run("above", 921)
    tried.expect(f"{kind}: above", (ran.status, b"and the limit is 2% of 1000" in ran.err), (1, True))
    shown = tried.read("github.above.md" if kind == "github" else "gitlab.above/difference.md").decode()
    tried.expect(f"{kind}: the table", "| +21 | +2.10 % | `work` | `bench` |" in shown, True)
    tried.expect(f"{kind}: the last runs", re.search(r"`bench` \| `▁.*█`( \*\*jump\*\*)? \|\n", shown) is not None, True)
    ran = run("each", "900 106", GITHUB_REF_NAME="pull", CI_COMMIT_BRANCH="pull", CI_COMMIT_REF_SLUG="pull")
    tried.expect(f"{kind}: a function above", (ran.status, ran.err.splitlines()[-1:]), (
        1, [b"/src/bench:main costs 6 more than 100 in run 1, and the limit for each is 5%"]))
    tried.expect(f"{kind}: no program", run("broken", "broken").status != 0, True)
    ran = run("other", 900, GITHUB_REF_NAME="my/branch", CI_COMMIT_BRANCH="my/branch", CI_COMMIT_REF_SLUG="my-branch")
    tried.expect(f"{kind}: another branch", ran.status, 0)
    groups = tried.script("profhouse_remote", "groups", PROFHOUSE_API=address).out
    return groups


def cases_of_both(tried):
    """The first run is the baseline; each kind of CI then adds two of the branch `main` to the group, and one of another to none."""
    tried.write("first.cg", "events: Ir\nob=/src/bench\nfl=/src/a.c\nfn=main\n1 100\nfn=work\n2 900\n")
    tried.profhouse("import", "--db", "ci.db", "first.cg")
    tried.profhouse("group", "--db", "ci.db", "main")
    tried.profhouse("baseline", "--db", "ci.db", "main", "1")
    with tried.serving("ci.db") as address:
        groups = cases_of_ci(tried, address, "github", steps_of_github(), {"GITHUB_REF_NAME": "main", "GITHUB_SHA": "0a1b"})
        tried.expect("the group of github", groups, b"main 1 2,3\n")
        groups = cases_of_ci(tried, address, "gitlab", steps_of_gitlab(), {
            "CI_COMMIT_BRANCH": "main", "CI_COMMIT_REF_SLUG": "main", "CI_COMMIT_SHA": "0a1b"})
        tried.expect("the group of gitlab", groups, b"main 1 2,3,6,7\n")
        labels = [line.split(b" ", 3)[3] for line in tried.script("profhouse_remote", "runs", PROFHOUSE_API=address).out.splitlines()]
        day = re.compile(rb" date=\d{4}-\d\d-\d\d$")
        tried.expect("the labels", [day.sub(b"", it) for it in labels[1:] if day.search(it)], [b"bench=all commit=0a1b branch=%s" % it for it in (
            b"main", b"main", b"pull", b"my/branch", b"main", b"main", b"pull", b"my-branch")])


def cases_of_bisection(tried):
    """Twelve commits: the ninth costs too much, and the seventh cannot be built."""
    costs = [900, 901, 902, 899, 900, 910, "broken", 905, 960, 970, 965, 980]
    os.mkdir(tried.path("repository"))
    git = ("git", "-C", "repository", "-c", "user.name=a", "-c", "user.email=a@b", "-c", "init.defaultBranch=main")
    tried.run(*git, "init")
    hashes = []
    for cost in costs:
        tried.write("repository/source", f"{cost}\n")
        tried.run(*git, "add", "source")
        tried.run(*git, "commit", "-m", f"costs {cost}")
        hashes.append(tried.run(*git, "rev-parse", "HEAD").out.decode().strip())
    tried.profhouse("import", "--db", "bisect.db", "first.cg")
    tried.profhouse("group", "--db", "bisect.db", "main")
    tried.profhouse("baseline", "--db", "bisect.db", "main", "1")
    tried.run(*git, "bisect", "start", hashes[-1], hashes[0])
    ran = tried.run(*git, "bisect", "run", os.path.join(EXAMPLES, "bisect_run"), tried.path("bisect.db"), "main", "Ir", "2%")
    tried.expect("the commit that is found", (ran.status, f"{hashes[8]} is the first bad commit" in ran.out.decode()), (0, True))
    labels = [line.split(b" ")[3].decode() for line in tried.profhouse("runs", "--db", "bisect.db").splitlines()[1:]]
    tried.expect("profiles are kept under their commits", (len(labels) > 2, [it for it in labels if not any(
        f"commit={whole}".startswith(it) for whole in hashes)]), (True, []))
    tried.expect("the paths are those of the baseline", b"same_paths" in ran.err + ran.out, False)
    tried.profhouse("import", "--db", "unlike.db", tried.write("unlike.cg", tried.read("first.cg").replace(b"/src/bench", b"/old/bench")))
    tried.profhouse("group", "--db", "unlike.db", "main")
    tried.profhouse("baseline", "--db", "unlike.db", "main", "1")
    ran = tried.run("env", "-C", "repository", os.path.join(EXAMPLES, "bisect_run"), tried.path("unlike.db"), "main", "Ir", "2%")
    tried.expect("a baseline with other paths", b"/old/bench of run 1 is /src/bench in run 2, " in ran.err and b"by same_paths\n" in ran.err, True)
    ran = tried.run(os.path.join(EXAMPLES, "bisect_run"), "bisect.db", "main", "Ir")
    tried.expect_refusal("a word is missing", ran, b"usage: bisect_run", status=128)
    tried.expect_refusal("no store", tried.run(os.path.join(EXAMPLES, "bisect_run"), "none.db", "main", "Ir", "2%"), b"no store", status=128)
    tried.expect("none is made", os.path.exists(tried.path("none.db")), False)
    # What cannot be compared is skipped, and never taken for bad or good.
    for words in (("none", "Ir", "2%"), ("main", "Ir", "1e6"), ("main", "ir", "1")):
        ran = tried.run("bash", "-c", 'cd repository && "$@"', "run", os.path.join(EXAMPLES, "bisect_run"), tried.path("bisect.db"), *words)
        tried.expect(f"skipped: {words}", ran.status, 125)


def cases(tried):
    prepare(tried)
    cases_of_both(tried)
    cases_of_bisection(tried)
