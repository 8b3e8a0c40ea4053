"""The Rattle kit's own module behind `rt`, for the tools here."""
import importlib.machinery
import importlib.util
import os
import shutil
import sys
import threading


def load_kit(tool):
    """The module, which knows a crate's libraries, its kept work and how it is built. (`rt` itself would hold all libraries below a crate while it
    proves it, so that two crates could not be proved side by side; and it throws away what it builds without proof.)"""
    rt = shutil.which("rt") or sys.exit(f"{tool}: there is no `rt` on the path; the Rattle kit is needed")
    sys.dont_write_bytecode = True
    loader = importlib.machinery.SourceFileLoader("rtlib", f"{os.path.dirname(os.path.realpath(rt))}/rtlib.py")
    module = importlib.util.module_from_spec(importlib.util.spec_from_loader("rtlib", loader))
    sys.modules["rtlib"] = module
    loader.exec_module(module)
    module.Crate.stamp = once_a_call(module.Crate.stamp)
    module.guarded()  # before any thread: what is started through it ends with this run, however that ends
    return module


def once_a_call(stamp):
    """The sum of all that a crate is made from, where each crate below is read once a call, and not once for each way down to it."""
    seen = threading.local()

    def stamp_once(crate):
        is_outer = getattr(seen, "sums", None) is None
        if is_outer:
            seen.sums = {}
        try:
            if crate not in seen.sums:
                seen.sums[crate] = stamp(crate)
            return seen.sums[crate]
        finally:
            if is_outer:
                seen.sums = None

    return stamp_once
