"""Runs the built program on cases that were made before: native.py BQ FOLDER [KIND-SEED ..] [--most N]

    python3 native.py crates/bq/out/bq c2 ledgers-11 narrow-11 spoiled-11
    python3 native.py BQ c3          (all of a folder: c2, c2a, c3, c4, c5)

A process for each question, on as many processors as there are (set JOBS for fewer). Steps and groups
are no part of what bq prints, so the line that tells them is left out of what is wanted.
"""
import collections
import multiprocessing
import os
import pickle
import subprocess
import sys
import tempfile

BQ = sys.argv[1]
FOLDER = sys.argv[2]
NAMES = [a for a in sys.argv[3:] if not a.startswith("--") and not a.isdigit()]
MOST = int(sys.argv[sys.argv.index("--most") + 1]) if "--most" in sys.argv else 10 ** 9


def run(words):
    done = subprocess.run([BQ, *words], stdin=subprocess.DEVNULL, capture_output=True, timeout=120)
    return done.returncode, done.stdout, done.stderr


def read(path):
    try:
        with open(path, "rb") as f:
            return f.read()
    except OSError:
        return None


def is_refusal(w):
    return len(w) < 40 and w[:1] in b"QYVCM" and (b" at " in w or len(w) == 2)


def wanted_of(command, w):
    if command == "check":
        lines = w.decode().splitlines()
        return (1 if any(not l.endswith(": F5 ignored") for l in lines) else 0), w, b""
    if is_refusal(w):
        return 2, b"", b"bq: " + w + b"\n"
    if command in ("query", "run", "turns1", "turns7", "narrow"):
        return 0, w[w.index(b"\n") + 1:], b""
    return 0, w + b"\n" if command == "verify" else w, b""


def one(task):
    command, data, ledger, w = task
    if w is None:
        return "unknown", None
    want = wanted_of(command, w)
    with tempfile.TemporaryDirectory() as folder:
        os.chdir(folder)
        open("l", "wb").write(ledger)
        if command == "check":
            got = run(["check", "l"])
        elif command in ("query", "compile", "narrow"):
            if b"\0" in data or data[:1] == b"-":
                return "skipped", None
            text = data.decode()
            if command == "query":
                got = run(["query", "l", text])
            elif command == "compile":
                got = run(["compile", text, "f"])
                got = (got[0], got[1] + (read("f") or b""), got[2])
            else:
                n, d, e, text = text.split(" ", 3)
                got = run(["compile", text, "f", "--postings", n, "--digits", d, "--value-digits", e])
                if got == (0, b"", b""):
                    got = run(["run", "f", "l"])
        else:
            open("f", "wb").write(data)
            if command in ("turns1", "turns7"):
                command = "run"
            words = {"run": ["run", "f", "l"], "verify": ["verify", "f"], "show": ["show", "f"], "upgrade": ["upgrade", "f", "g"]}[command]
            got = run(words)
            if command == "upgrade":
                got = (got[0], got[1] + (read("g") or b""), got[2])
        os.chdir("/")
    return ("same", None) if got == want else ("differs", (command, data[:300], want, got, ledger))


def tasks():
    n = 0
    for f in sorted(os.listdir(FOLDER + "-w")):
        if not f.endswith(".pickle") or (NAMES and not any(name in f for name in NAMES)):
            continue
        for block in pickle.load(open(f"{FOLDER}-w/{f}", "rb")).values():
            for task in block:
                if n >= MOST:
                    return
                n += 1
                yield task


if __name__ == "__main__":
    counts = collections.Counter()
    with multiprocessing.Pool(int(os.environ.get("JOBS", "0")) or None) as pool:
        for kind, more in pool.imap_unordered(one, tasks(), 32):
            counts[kind] += 1
            if more and counts["differs"] <= 10:
                print("DIFFERS", *more[:4], sep="\n  ")
                open(f"/tmp/differs-{counts['differs']}.bean", "wb").write(more[4])
    print(dict(counts))
