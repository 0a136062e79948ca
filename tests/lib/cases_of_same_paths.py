"""share/scripts/same_paths: which paths change, and that nothing else does."""
NAME = "same_paths"
# A line, and what becomes of it where /builds/7 is /src, /builds/7/deep is /deep, and /a=b is /c.
LINES = [
    (b"ob=/builds/7/app\n", b"ob=/src/app\n"),
    (b"fl=(1) /builds/7/a.c\n", b"fl=(1) /src/a.c\n"),
    (b"fi=(0x1f)/builds/7/b.h\r\n", b"fi=(0x1f)/src/b.h\r\n"),
    (b" \tfe= (2)  /builds/7/c.h \t\n", b" \tfe= (2)  /src/c.h \t\n"),
    (b"cob=(3) /builds/7/deep/l.so\n", b"cob=(3) /deep/l.so\n"),
    (b"cfi=/builds/7/deep\n", b"cfi=/deep\n"),
    (b"cfl=/builds/7\r\n", b"cfl=/src\r\n"),
    (b"jfi=(9) /builds/7/x y.c\n", b"jfi=(9) /src/x y.c\n"),
    (b"fl=/a=b/x.c\n", b"fl=/c/x.c\n"),
    (b"ob=(4) /builds/7/caf\xe9\n", b"ob=(4) /src/caf\xe9\n"),
    # Not below it, not at the front, no path of a file, or no name at all.
    *((line, line) for line in (
        b"ob=/builds/77/app\n", b"ob=/builds/7x\n", b"ob=/other/builds/7/app\n", b"ob=builds/7/app\n", b"fl=(1)\n",
        b"fl=(x) /builds/7/a.c\n", b"fl=(1\n", b"fl=\n", b"fl =/builds/7/a.c\n", b"fn=/builds/7/app\n", b"cfn=(2) /builds/7/f\n",
        b"jfn=/builds/7/f\n", b"cmd: /builds/7/app\n", b"# fl=/builds/7/a.c\n", b"desc: fl=/builds/7/a.c\n", b"16 4\n", b"\n",
        b"calls=1 16\n", b"xfl=/builds/7/a.c\n", b"\x00\xff\n", b"\r\r\n")),
    # (the last line of a file, without its end)
    (b"fl=/builds/7/z.c", b"fl=/src/z.c"),
]
PAIRS = ("/builds/7=/src", "/builds/7/deep/=/deep/", "/a=b=/c")
BEFORE = "events: Ir\nob=/builds/1/app\nfl=/builds/1/a.c\nfn=main\n1 5\ncfi=/builds/1/b.c\ncfn=work\ncalls=1 1\n1 90\nfl=/builds/1/b.c\nfn=work\n7 90\n"


def cases_of_lines(tried):
    before, after = (b"".join(it) for it in zip(*LINES))
    tried.expect("all lines", tried.script(NAME, *PAIRS, given=before), (0, after, b""))
    tried.expect("in another order", tried.script(NAME, *reversed(PAIRS), given=before).out, after)
    for line, wanted in LINES:
        tried.expect(repr(line), tried.script(NAME, *PAIRS, given=line).out, wanted)
    tried.expect("an empty file", tried.script(NAME, "/a=/b", given=b"").out, b"")


def cases_of_words(tried):
    ran = tried.script(NAME, "/x=/y", "/z=/y", given=b"fl=/x/a.c\n")
    tried.expect("a front that no path has", ran, (0, b"fl=/y/a.c\n", b"same_paths: no path is /z or lies below it\n"))
    for words in ((), ("/a",), ("=/b",), ("/a=",), ("/=/b",), ("/a=/",), ("/a=(1) b",), ("/a= b",), ("/a=b\nc",), ("/a=/b", "/a/=/c")):
        tried.expect_refusal(repr(words), tried.script(NAME, *words, given=b"fl=/a/a.c\n"), b"same_paths")
    with open("/dev/full", "wb") as full:
        tried.expect_refusal("a full output", tried.script(NAME, "/a=/b", given=b"1\n", out=full), b"No space", out=None)


def cases_of_builds(tried):
    """Two builds of two folders, which differ in one function alone once their paths are the same."""
    tried.write("one.cg", BEFORE)
    tried.write("two.cg", BEFORE.replace("/builds/1/", "/builds/22/").replace("7 90", "7 95").replace("1 90", "1 95"))
    tried.profhouse("import", "--db", "s.db", "one.cg", "two.cg")
    question = ("subtract", "--db", "s.db", "--event", "Ir", "function")
    wanted = (b"subtract function Ir\n5 total\n95 /builds/22/app:work\n-90 /builds/1/app:work\n-5 /builds/1/app:main\n"
              b"5 /builds/22/app:main\n")
    tried.expect("as they are", tried.profhouse(*question, "--run", "2", "--less-run", "1"), wanted)
    for number, name in ((1, "one"), (22, "two")):
        tried.write(f"{name}.same.cg", tried.script(NAME, f"/builds/{number}=/src", given=tried.read(f"{name}.cg")).out)
    tried.profhouse("import", "--db", "s.db", "one.same.cg", "two.same.cg")
    tried.expect("with the same paths", tried.profhouse(*question, "--run", "4", "--less-run", "3"),
                 b"subtract function Ir\n5 total\n5 /src/app:work\n")


def cases(tried):
    tried.expect_help(NAME)
    cases_of_lines(tried)
    cases_of_words(tried)
    cases_of_builds(tried)
