"""The Rattle kit's own program `rt` as a module, for the tools beside this file."""
import importlib.machinery
import importlib.util
import os
import shutil
import sys


def load_kit():
    """`rt` itself as a module: it knows how an edit is applied, how a crate is checked over kept work, and how the gate judges an edit."""
    path = os.path.realpath(shutil.which("rt") or sys.exit(f"{os.path.basename(sys.argv[0])}: there is no `rt` on the path; the Rattle kit is needed"))
    loader = importlib.machinery.SourceFileLoader("rt", path)
    module = importlib.util.module_from_spec(importlib.util.spec_from_loader("rt", loader))
    sys.modules["rt"] = module
    loader.exec_module(module)
    return module


def gate_remembers():
    """Whether this kit's gate remembers what passed on this machine: some kits' gates do all anew each time."""
    with open(shutil.which("rt"), encoding="utf-8", errors="replace") as rt:
        return "class Kept" in rt.read()
