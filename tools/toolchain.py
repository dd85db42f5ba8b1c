"""The toolchain's `rt` as a module, in less time.

What rt says and does is the same. A crate's stamp is made of its sources and the stamps of those that it stands
on, and rt makes it anew along each path of crates.txt: for a program over many crates that is minutes of reading,
several times. Here the sources of a crate are summed once. And the prover's allocator is told how it is quicker.
"""
import importlib.machinery
import importlib.util
import os
import shutil
import sys
import time

# For how many seconds it is taken that no source of a crate has changed. A proof takes longer.
FRESH = 5
# The prover's allocator, mimalloc, keeps what is given up: a proof takes a twentieth less.
ALLOCATOR = {"MIMALLOC_PURGE_DELAY": "-1"}


def load():
    """The toolchain's command as a module, with stamps that are remembered."""
    os.environ.update(ALLOCATOR | os.environ)
    path = os.path.realpath(shutil.which("rt") or sys.exit("rt lacks: put bin/ of the Rattle toolchain on your PATH"))
    loader = importlib.machinery.SourceFileLoader("toolchain_rt", path)
    rt = importlib.util.module_from_spec(importlib.util.spec_from_loader("toolchain_rt", loader))
    loader.exec_module(rt)
    remember_stamps(rt.rtlib.Crate)
    return rt


def remember_stamps(crates):
    """Makes no stamp of a crate that was made just now."""
    made, found = crates.stamp, {}

    def stamp(crate):
        now = time.monotonic()
        if crate.folder not in found or now - found[crate.folder][0] > FRESH:
            found[crate.folder] = now, made(crate)
        return found[crate.folder][1]

    crates.stamp = stamp
