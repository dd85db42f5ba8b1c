"""Gives the program query files that a stranger may have changed.

Four files of queries, and their forms of the first version. Each proper prefix must be refused by V3
at its own length. Where one byte is changed, to each other value in turn, the file must be refused by one
of V1 to V18 at a place in it, or accepted and then run on a ledger of lots, with rows or with M1. It also
prints what came of the files.

These are some 160,000 runs: the program is loaded once for some two thousand of them, and forked before it
has begun (`changes.c`).
"""
import collections
import multiprocessing
import os
import pathlib
import re
import struct
import subprocess
import sys
import tempfile

from books import LEDGER, compiled
from program import PROGRAM, Answer, refused, run

QUERIES = {
    "count": "SELECT count(*)",
    "sums": "SELECT account, sum(position)",
    "journal": "JOURNAL 'CASH'",
    "order": "SELECT date, narration WHERE payee = NULL OR number > 10.5 ORDER BY date DESC LIMIT 5",
}
VERSION = slice(4, 6)
POSTINGS = slice(6, 10)
FIRST_VERSION = (1).to_bytes(2, "big")
MOST_OF_FIRST_VERSION = (1_000_000).to_bytes(4, "big")
REFUSED = re.compile(rb"bq: (V(?:1[0-8]|[1-9])) at ([0-9]+)\n")
ACCEPTED = re.compile(rb"accepted depth [0-9]+ filter [0-9]+ row [0-9]+ last [0-9]+\n")
# How many places of a file one process changes.
PLACES = 8
# As `changes.c` takes a change and tells of a run: the status of one that a signal ended is above this.
CHANGE = struct.Struct("=IB")
TOLD = struct.Struct("=III")
SIGNALS = 256
LONGEST = 600


def built_changer(folder):
    """A shared object that runs the program for each change of a file."""
    source = pathlib.Path(__file__).with_name("changes.c")
    library = f"{folder}/changes.so"
    subprocess.run(["cc", "-shared", "-fPIC", "-O2", "-o", library, source], check=True)
    return library


def of_first_version(file):
    changed = bytearray(file)
    changed[VERSION] = FIRST_VERSION
    changed[POSTINGS] = MOST_OF_FIRST_VERSION
    return bytes(changed)


def files(folder):
    found = {name: compiled(folder, text, "compiled") for name, text in QUERIES.items()}
    return found | {f"{name} of the first version": of_first_version(file) for name, file in found.items()}


def told(text):
    """The answers that the shared object tells, one after the other."""
    place = 0
    while place < len(text):
        status, *lengths = TOLD.unpack_from(text, place)
        place += TOLD.size
        printed = []
        for length in lengths:
            printed.append(text[place:place + length])
            place += length
        yield Answer(SIGNALS - status if status > SIGNALS else status, *printed)


def answers(folder, words, path, changes):
    """What the program answers to words that name a file, for each change of the file."""
    done = subprocess.run(
        [PROGRAM, *words], input=b"".join(CHANGE.pack(*change) for change in changes), check=True,
        stdout=subprocess.PIPE, timeout=LONGEST,
        env=os.environ | {"LD_PRELOAD": f"{folder}/changes.so", "CHANGED": path})
    found = list(told(done.stdout))
    assert len(found) == len(changes), f"{len(changes)} changes, {len(found)} answers"
    return found


def verdict(file, got):
    """What is said of a file: the number of a refusal with its place, `accepted`, or None."""
    why = REFUSED.fullmatch(got.err)
    if why and got.status == 2 and not got.out and int(why[2]) <= len(file):
        return why[1].decode(), int(why[2])
    if ACCEPTED.fullmatch(got.out) and got.status == 0 and not got.err:
        return "accepted", None
    return None, None


def table(got):
    """How an accepted file ran: with rows or M1, or None."""
    if got.status == 0 and b"\n-" in got.out and not got.err:
        return "rows"
    return "M1" if got == refused("M1") else None


def of_prefix(folder, name, file):
    path = f"{folder}/{os.getpid()}"
    pathlib.Path(path).write_bytes(file)
    got = run(["verify", path])
    found = verdict(file, got)
    wanted = "V3", len(file)
    return [found[0]], [] if found == wanted else [f"{name}, its first {len(file)} bytes: {got}"]


def of_changes(folder, name, file, places):
    """What becomes of a file of which each of these bytes is changed to each other value."""
    path = f"{folder}/{os.getpid()}"
    pathlib.Path(path).write_bytes(file)
    changes = [(place, value) for place in places for value in range(256) if value != file[place]]
    verified = answers(folder, ["verify", path], path, changes)
    kinds = [verdict(file, got)[0] for got in verified]
    accepted = [change for change, kind in zip(changes, kinds) if kind == "accepted"]
    ran = answers(folder, ["run", path, f"{folder}/ledger"], path, accepted) if accepted else []
    tables = [table(got) for got in ran]
    faults = [(change, got) for change, kind, got in zip(changes, kinds, verified) if kind is None]
    faults += [(change, got) for change, kind, got in zip(accepted, tables, ran) if kind is None]
    counted = [kind for kind in kinds if kind != "accepted"] + [f"accepted, {kind}" for kind in tables]
    return counted, [f"{name}, byte {place} is {value}: {got}" for (place, value), got in faults]


def attempts(folder):
    for name, file in files(folder).items():
        for first in range(0, len(file), PLACES):
            yield of_changes, folder, name, file, range(first, min(first + PLACES, len(file)))
        for length in range(len(file)):
            yield of_prefix, folder, name, file[:length]


def made(attempt):
    function, *arguments = attempt
    return function(*arguments)


def main():
    counts = collections.Counter()
    failures = []
    with tempfile.TemporaryDirectory() as folder, multiprocessing.Pool() as pool:
        pathlib.Path(f"{folder}/ledger").write_text(LEDGER)
        built_changer(folder)
        for kinds, faults in pool.imap_unordered(made, list(attempts(folder))):
            counts.update(kinds)
            failures += faults
    for failure in failures:
        print(f"FAILED {failure}")
    print(", ".join(f"{count} {kind}" for kind, count in sorted(counts.items(), key=str)))
    print(f"{sum(counts.values()) - len(failures)} passed, {len(failures)} failed")
    return 1 if failures else 0


if __name__ == "__main__":
    sys.exit(main())
