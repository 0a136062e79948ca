"""The command rt of the Rattle kit as a module, for the scripts that call its prover by themselves: it knows with which
words the prover is called for a crate, and where the parts of the kit are."""
import contextlib
import importlib.machinery
import importlib.util
import io
import os
import shutil
import sys


def command_rt():
    path = os.path.realpath(shutil.which("rt") or sys.exit("rt is not on the path"))
    sys.path.insert(0, os.path.dirname(path))
    loader = importlib.machinery.SourceFileLoader("command_rt", path)
    module = importlib.util.module_from_spec(importlib.util.spec_from_loader("command_rt", loader))
    loader.exec_module(module)
    return module


RT = command_rt()
RATTLE, KIT = RT.rtlib.RATTLE, RT.KIT


def crate_in(tree, name):
    return RT.Crate(os.path.join(tree, "crates", name), tree, {})


def words_of(crate, jobs=1):
    """The words that a check of a crate by so many jobs has."""
    with contextlib.redirect_stdout(io.StringIO()):
        return crate.words(["--jobs", str(jobs)], keeps=False)
