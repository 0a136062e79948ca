"""What the scripts beside this file share: how words of others are shown, and how a script ends.

It is imported, not run. A script that is copied elsewhere needs this file beside it.
"""
import argparse
import os
import re
import signal
import sys

# Characters that a terminal obeys, that change the order of those around them, or that cannot be seen, as all blanks but
# U+0020; and what Python has for a byte that is no UTF-8. share/web/texts.js has the same ones.
HIDDEN = re.compile("[\0-\x1f\x7f-\xa0\xad\u034f\u061c\u115f\u1160\u1680\u17b4\u17b5\u180b-\u180f\u2000-\u200f\u2028-\u202f\u205f-\u206f"
                    "\u2800\u3000\u3164\ud800-\udfff\ufe00-\ufe0f\ufeff\uffa0\ufff0-\ufffb\U00013430-\U0001343f\U0001bca0-\U0001bca3\U0001d173-\U0001d17a"
                    "\U000e0000-\U000e0fff]")


class Fault(Exception):
    """What cannot be done, in one line."""


class WordFault(Fault):
    """What is wrong with the words of the command line."""


def code(found):
    """A hidden character as a backslash and its number. A control code of ASCII and a byte that is no UTF-8 alone are \\x and
    two digits: U+009B is \\u009b, so that it and the byte 9B are two."""
    number = ord(found[0])
    if 0xdc80 <= number <= 0xdcff:
        return f"\\x{number - 0xdc00:02x}"
    return f"\\x{number:02x}" if number < 0x80 else f"\\u{number:04x}" if number < 0x10000 else f"\\U{number:08x}"


def shown(words, kept=""):
    """Words of a server, a file or a name, as a terminal or a page may have them: one line, in which nothing is hidden
    but the characters of `kept`. What was shown before stays as it is."""
    text = words.decode("utf-8", "backslashreplace") if isinstance(words, bytes) else str(words)
    return HIDDEN.sub(lambda found: found[0] if found[0] in kept else code(found), text)


class Words(argparse.ArgumentParser):
    """The words of a command line. A fault of them is said in one line, whatever they have."""

    def error(self, message):
        super().error(shown(message))


def installed(name):
    """The name by which a script is called where it is installed: profhouse_history is profhouse-history there."""
    return "profhouse-" + re.sub("^profhouse_", "", name).replace("_", "-")


def called(script, text):
    """A text about a script, with the name by which that was called."""
    return text.replace(script, installed(script)) if os.path.basename(sys.argv[0]) == installed(script) else text


def words_of(name, about, **more):
    """What reads the words of a script, of which `about` is the help. Both have the name by which it was called."""
    script = name.split(" ")[0]
    name, about = called(script, name), called(script, about)
    more = {it: called(script, text) for it, text in more.items()}
    return Words(prog=name, description=about, allow_abbrev=False, formatter_class=argparse.RawDescriptionHelpFormatter, **more)


def reason_of(error):
    """Why something failed, in words."""
    name = getattr(error, "filename", None)
    named = f": {os.fsdecode(name)}" if isinstance(name, (str, bytes)) else ""
    return shown(f"{getattr(error, 'strerror', None) or error or type(error).__name__}{named}")


def complain(name, why):
    """Says on the standard error what cannot be done. A line that begins with two blanks goes on with the one before."""
    if sys.stderr is not None:  # (where it is closed, print would take the standard output)
        print("\n".join(shown(line) for line in f"{called(name, name)}: {why}".split("\n")), file=sys.stderr)


def run(name, main, fault=2):
    """Runs a script. What it cannot do is said in one line, and ends it with the status `fault`."""
    def ended(number, _):
        sys.exit(128 + number)
    signal.signal(signal.SIGTERM, ended)
    try:
        if sys.stdout is None:
            raise Fault("the standard output is closed")
        # (a name may have what the coding of the terminal has not)
        sys.stdout.reconfigure(errors="backslashreplace")
        status = main()
        sys.stdout.flush()
    except KeyboardInterrupt:
        status = 128 + signal.SIGINT
    except Exception as error:  # (of one that is not caught Python would end with 1, which says something else to who asked)
        named = error if isinstance(error, Fault) else reason_of(error) if isinstance(error, OSError) \
            else f"{type(error).__name__}: {shown(error)}"
        complain(name, named)
        status = 2 if isinstance(error, WordFault) else fault
        # What is not yet written is not, or cannot be, and Python would try again at its end.
        nowhere = os.open(os.devnull, os.O_WRONLY)
        os.dup2(nowhere, 1)
        if nowhere != 1:
            os.close(nowhere)
    sys.exit(status)
