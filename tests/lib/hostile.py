"""Hostile words, and the answers of a server that has them: for tests/hostile_words."""
import csv
import io
import random
import re
import unicodedata

# Signs of numbers that stand in front of digits are seen, though Unicode has them among what formats.
SEEN = {*range(0x600, 0x606), 0x6dd, 0x70f, 0x890, 0x891, 0x8e2, 0x110bd, 0x110cd}
SHA = "0123456789abcdef" * 4
# What is tried in place of a number, a digest or a kind; MARK is a file that nobody may make.
COMMANDS = ["$(touch MARK)", "`touch MARK`", ";touch MARK;", "|touch MARK", "\\! touch MARK", "\n\\.\n\\! touch MARK\n", "1\n\\! touch MARK",
            "1\t\\!\ttouch\tMARK", "\\o MARK", "\\g MARK", "\\copy x to MARK", "1);COPY(SELECT 1)TO/**/PROGRAM'touch MARK';--",
            "4,1::text)/**/RETURNING/**/id)SELECT/**/1;--", "'; DROP TABLE profhouse_run; --", ":'label'", ":label", "$$;\\! touch MARK",
            "--help", "-h", "--api=http://127.0.0.1:1", "--db=MARK", "-v", "MARK", "../../../MARK", "%s%n%p", "{0.__class__}", "\\x", "\\u202e"]
NUMBERS = ["", " ", "1_000", "+1", "1 ", "0x1", "1e3", "1.5", "nan", "\uff11", "\u0661", "\u00b2", "9" * 5000, "--1", "1,2", "None", "1\u202e2"]
# What is tried in place of a name, and is shown.
MARKUP = ["|x|", "a\u202eb", "\u009b31mred", "\u009d0;title\u009c", "\u200bnothing", "\ufeffmark", "\U000e0041tag", "\u2066left\u2069", "a\u2028b",
          "<img src=x onerror=alert(1)>", "<script>alert(1)</script>", "[x](javascript:alert(1))", "![x](http://e/x.png)", "``` x", "`", "``|`",
          "~~~", "@everyone #1", "**b** _i_", "]]>", "&lt;b&gt;", "=HYPERLINK(\"http://e\")", "+1+cmd|' /C calc'!A0", "-1", "@SUM(1)",
          "::set-output name=x::1", "##[set-output name=x]1", "caf\u00e9", "\U0001f525", "\u05d0\u05d1", "a;b", "$HOME", "x" * 3000, "%0a", "#", ":", "a:b:c",
          "\u034f", "\u3164", "\U0001d173", "\U00013430", "\u180e",
          "a\u00a0b", "a\u1680b", "a\u2003b", "a\u202fb", "a\u205fb", "a\u3000b", "a\u2800b"]
CONTROLS = ["\x1b[2J", "\x1b]0;title\x07", "\x07", "\x08\x08x", "\r", "\x00", "\x7f", "a\rb", "\x0e", "\x1bc", "\n", "\n\n", "\t", "1\n2 3"]


def is_hidden(sign):
    kind = unicodedata.category(sign)
    return kind in ("Cc", "Zl", "Zp", "Cs") or kind == "Zs" and sign != " " or kind == "Cf" and ord(sign) not in SEEN


def hidden_in(text, kept="\n"):
    """The characters of a text that a terminal would not show as they are; bytes that are no UTF-8 are such."""
    return sorted({it for it in text.decode("utf-8", "surrogateescape") if is_hidden(it) and it not in kept})


def strange_lines(script, err):
    """The lines on the standard error that begin with words which are not the script's own."""
    own = re.compile(rb"(?:%s(?: [a-z]+)?: |usage: |no answer from |  ).*" % script.encode(), re.S)
    return [it for it in err.split(b"\n")[:-1] if not own.fullmatch(it)]


def visible(text):
    """A text as it has to be shown, but for what cannot be seen for another reason than that it is hidden."""
    def one(sign):
        number = ord(sign)
        if not is_hidden(sign) and sign not in "\u034f\u2800\u3164":
            return sign
        return f"\\x{number:02x}" if number < 128 else f"\\u{number:04x}" if number < 65536 else f"\\U{number:08x}"
    return "".join(map(one, text))


def quoted(text):
    """A field of CSV in quotes."""
    out = io.StringIO()
    csv.writer(out, quoting=csv.QUOTE_ALL, lineterminator="").writerow([text])
    return out.getvalue()


# The answers of a sound server, by the start of what is asked. {S:TEXT} is a number, a digest or a kind, and {N:TEXT} a
# name; of CSV, {D:TEXT} and {Q:TEXT} are.
SOUND = [
    ("GET /runs", "{S:1} {S:callgrind} {S:%s} {N:one}\n{S:2} {S:folded} {S:%s} {N:two}\n" % (SHA, SHA[::-1])),
    ("GET /groups", "{S:main} {S:1} {S:1},{S:2}\nother {S:-} {S:-}\n"),
    ("GET /reports/object?run=1&", "{S:by} {S:object} {S:Ir}\n{S:1000} {S:100.00%} {S:total}\n{S:600} {S:60.00%} {N:/opt/app}\n400 40.00% /lib/x\n0 0.00% (rest)\n"),
    ("GET /reports/object?run=2&", "{S:by} object {S:Ir}\n{S:1020} {S:100.00%} {S:total}\n{S:620} 60.78% {N:/opt/app}\n400 39.21% /lib/x\n0 0.00% (rest)\n"),
    ("GET /reports/function?run=1&", "{S:by} {S:function} {S:Ir}\n{S:1000} {S:100.00%} {S:total}\n{S:600} {S:60.00%} {N:/opt/app:f}\n400 40.00% /lib/x:g\n{S:0} 0.00% (rest)\n"),
    ("GET /reports/function?run=2&", "by function Ir\n{S:1020} 100.00% total\n{S:1000} 98.03% {N:/opt/app:f}\n20 1.96% /lib/x:g\n0 0.00% {S:(rest)}\n"),
    ("GET /reports/", "by object {N:Ir}\n{S:1000} {S:100.00%} {N:total}\n1000 100.00% {N:/opt/app}\n"),
    ("GET /subtract/", "subtract function Ir\n{S:20} total\n{S:30} {N:/opt/app:f}\n{S:-10} {N:/lib/x:g}\n"),
    ("GET /verify", "{S:1} Ir {S:1000} {S:1000} {S:ok}\n"),
    ("GET /csv", "object,file,function,line,event,cost\n{Q:/opt/app},{Q:a.c},{Q:f},{D:1},{Q:Ir},{D:600}\n/lib/x,b.c,g,2,Ir,{D:400}\n"),
    ("GET /folded", "{N:a;b} 2\n"),
    ("GET /inclusive", "inclusive Ir\n1000 100.00% total\n{S:1000} {S:100.00%} {N:/opt/app:f}\n"),
    ("GET /call", "callers Ir {N:/opt/app:f}\n5 2 total\n{S:5} {S:2} {N:/lib/x:g}\n"),
    ("POST /annotate", "annotate a.c Ir\n100 total\n100 1: {N:int x;}\n0 (outside)\n"),
    ("POST /runs/", "{S:run} {S:3}\n"),
    ("PUT /groups/", "{S:done}\n"),
    ("DELETE /", "{S:done}\n"),
]


def places_in(text):
    """Where the words stand that may be others: start, end, kind and word."""
    found, at = [], 0
    while (at := text.find("{", at)) >= 0:
        end = text.index("}", at)
        found.append((at, end + 1, text[at + 1], text[at + 3:end]))
        at = end
    return found


def filled(text, chosen=None, word=None):
    """An answer with its own words, and one other."""
    out, last = [], 0
    for number, (start, end, kind, own) in enumerate(places_in(text)):
        put = word if number == chosen else own
        out += [text[last:start], quoted(put) if kind in "QD" and number == chosen else put]
        last = end
    return "".join([*out, text[last:]]).encode("utf-8", "surrogateescape")


def response(body, status="200 OK", kind="text/plain", more=""):
    return f"HTTP/1.1 {status}\r\nContent-Type: {kind}\r\nContent-Length: {len(body)}\r\n{more}Connection: close\r\n\r\n".encode() + body


class Answer:
    """What a server says to one question, and what is wanted of a script then: that it is `refused`, or `shown` with its
    word; `any` bytes are taken, and a `lie`, whose numbers do not fit, is refused by those who reckon with it."""

    def __init__(self, asked, data, wanted, word=None, endless=b""):
        self.asked, self.data, self.wanted, self.word, self.endless = asked, data, wanted, word, endless


# What may stand in place of a number or a word all the same.
FITS = re.compile(r"-?[0-9]{1,4000}|[0-9,]{1,99}|[A-Za-z0-9._-]{1,64}")


def word_for(chance, strict, mark):
    while True:
        word = chance.choice(COMMANDS + NUMBERS + MARKUP + CONTROLS if strict else COMMANDS + MARKUP + MARKUP + CONTROLS)
        if word and (not strict or not FITS.fullmatch(word)):
            return word.replace("MARK", mark)


def of_a_word(chance, asked, text, mark, exported):
    """An answer with a hostile word in place of its own."""
    places = places_in(text)
    chosen = chance.randrange(len(places))
    kind = places[chosen][2]
    word = word_for(chance, kind in "SD", mark)
    if kind == "N" and not exported and not asked.startswith("GET /runs"):
        # (reports double the backslash of a name; one alone would let a | end the cell of a table)
        if chance.randrange(8) == 0:
            return Answer(asked, response(filled(text, chosen, "f\\|[x](http://e)")), "refused")
        word = word.replace("\\", "\\\\")
    if kind == "Q":
        word = word.replace("\0", "\1")
    controls = any(ord(it) < 32 or ord(it) == 127 for it in word)
    wanted = "any" if exported else "refused" if kind in "SD" or controls and kind == "N" else "shown"
    return Answer(asked, response(filled(text, chosen, word)), wanted, (kind, word))


def of_lines(chance, asked, text, *_):
    """An answer that is sound but for its lines."""
    body = filled(text)
    noise = bytes(chance.randrange(256) for _ in range(chance.randrange(20, 2000)))
    if asked == "GET /csv":
        bodies = [body[:-1], b"\x1b[2J" + body, b"", b"object\n", b'"' + body, body + b"a,b\n", body + b'"', b"\n" + body, noise]
    else:
        bodies = [body[:-1], body.replace(b"\n", b"\r\n"), b"\x1b[2J" + body, b"\n" + body, body + b"\n", body + b"\x00\n", body[:-1] + b"\x1b\n",
                  b"\t" + body, body + b"::error::x\n\xc2\x9b", noise]
    return Answer(asked, response(chance.choice(bodies)), "refused")


# Numbers that are such, and do not fit: what is put in place of what.
LIES = {"GET /subtract/": [(b"20 total", b"21 total"), (b"-10 ", b"-11 "), (b"30 ", b"1 /lib/x:h\n30 ")],
        "GET /reports/function?run=2&": [(b"1020 ", b"1021 "), (b"\n20 ", b"\n19 "), (b"\n0 ", b"\n1 "), (b"by function Ir", b"by function Dr"), (b"(rest)", b"rest")],
        "GET /runs": [(b"\n2 ", b"\n1 "), (b"1 callgrind", b"3 callgrind")]}


def of_lies(chance, asked, text, *_):
    """An answer in its form that cannot be so."""
    return Answer(asked, response(filled(text).replace(*chance.choice(LIES[asked]))), "lie")


def of_http(chance, asked, text, mark, _):
    """An answer that HTTP does not know, or of something else."""
    body, word = filled(text), chance.choice(COMMANDS + MARKUP + CONTROLS).replace("MARK", mark).encode("utf-8", "surrogateescape")
    line = word.replace(b"\r", b"").replace(b"\n", b"")
    return Answer(asked, *chance.choice([
        (word * 50, "refused"), (b"", "refused"), (b"HTTP/1.1 " + line + b"\r\n\r\n", "refused"), (b"HTTP/1.1 999 x\r\n\r\n", "refused"),
        (response(body, kind="text/html"), "refused"), (response(word, "404 Not Found"), "refused"),
        (response(word, "500 " + line.decode("latin-1")), "refused"),
        (b"HTTP/1.1 302 Found\r\nLocation: " + line + b"\r\nContent-Length: 0\r\n\r\n", "refused"), (response(word, "401 Unauthorized"), "refused"),
        (b"HTTP/1.1 200 OK\r\nContent-Type: " + line + b"\r\nContent-Length: 0\r\n\r\n", "refused"),
        (response(b"refused: " + word + b"\n", "422 Unprocessable Entity"), "refused"), (response(b"refused: no such run\n", "422 x"), "refused"),
        (b"HTTP/1.1 200 OK\r\nContent-Type: text/plain\r\nContent-Length: %d\r\n\r\n" % (len(body) + 9) + body, "refused"),
        (b"HTTP/1.1 200 OK\r\nContent-Type: text/plain\r\nTransfer-Encoding: chunked\r\n\r\nzz\r\n" + body, "refused"),
        (b"HTTP/1.1 200 OK\r\nContent-Type: text/plain\r\nTransfer-Encoding: chunked\r\n\r\nffff\r\n" + body, "refused"),
        (b"HTTP/1.1 200 OK\r\n" + b"".join(b"X%d: 1\r\n" % it for it in range(300)) + b"\r\n" + body, "refused"),
        (b"HTTP/1.1 200 OK\r\nX: " + b"x" * 70000 + b"\r\n\r\n" + body, "refused"),
        (b"HTTP/1.1 200 OK\r\nContent-Type: text/plain\r\n\r\n" + body, "refused", None, b"1 1\n" * 10000)]))


def answer_of(seed, asked_by, mark, exports):
    """A hostile answer to one of the questions that a script asks."""
    chance = random.Random(seed)
    asked, text = chance.choice([it for it in SOUND if it[0] in asked_by])
    exported = asked in exports
    kinds = [of_a_word] * 5 + ([of_http] if exported else [of_http] * 2 + [of_lines]) + [of_lies] * (asked in LIES)
    return chance.choice(kinds)(chance, asked, text, mark, exported)
