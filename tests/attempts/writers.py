"""Writers that stop: after each count of bytes below the answer's, pipes that nobody reads, devices that are
full, streams that are closed. It is P1, whatever was written; and the status stands where the line of a refusal
can't be written. Readers too: standard input that ends early or waits, and signals in the midst.
"""
import os
import pathlib
import resource
import signal
import subprocess
import sys
import tempfile
import time

from books import LEDGER, PRINTING, write_books
from program import LONGEST, PROGRAM, Answer, differences, refused, report, run

NOT_WRITTEN = refused("P1")
# More than a pipe holds.
LARGE = "2014-01-01 open Assets:A\n2014-01-02 *\n" + "  Assets:A  1 X\n" * 10_000
READ = 0, 1, 100, 4_096, 65_536, 200_000
# A text with a long name and a fault on each line: of the lines that tell them few wait before they are written.
FAULTY = "/".join(["d" * 200] * 5 + ["faulty"])
FAULTS = 300
LINES = "".join(f"{FAULTY}:{number}: F2 not a directive\n" for number in range(1, FAULTS + 1)).encode()
WRITTEN = 0, 1, 1_010, 1_011, 4_096, 16_383, 16_384, 16_385, 32_768, 65_536, 100_000, len(LINES) - 1


# The signals that end a run.
ENDING = signal.SIGHUP, signal.SIGINT, signal.SIGTERM


def heed():
    """What is ignored here, as under nohup, isn't in a run."""
    for number in ENDING:
        signal.signal(number, signal.SIG_DFL)


def begin(folder, words, **streams):
    """A run that goes on beside this one."""
    return subprocess.Popen([PROGRAM, *words], cwd=folder, preexec_fn=heed, **streams)


def stops_after(folder, words, text, most):
    """A file that may have so many bytes, of which the answer has more."""
    with tempfile.TemporaryFile() as out:
        got = run(words, folder, out=out, limits=[(resource.RLIMIT_FSIZE, most)])
        out.seek(0)
        written = out.read()
    name = f"{words[0]} that may write {most} of {len(text)} bytes"
    return differences(name, NOT_WRITTEN, got) + differences(name, text[:most], written)


def is_full(folder, command):
    with open("/dev/full", "wb") as out:
        return differences(f"{command} to a full device", NOT_WRITTEN, run(PRINTING[command], folder, out=out))


def nobody_reads(folder, command):
    reader, writer = os.pipe()
    os.close(reader)
    got = run(PRINTING[command], folder, out=writer)
    os.close(writer)
    return differences(f"{command} to a pipe that nobody reads", NOT_WRITTEN, got)


def is_closed(folder, command):
    words = ["-c", 'exec "$@" >&-', "sh", PROGRAM, *PRINTING[command]]
    return differences(f"{command} to no output", NOT_WRITTEN, run(words, folder, program="sh"))


def tells_all(folder):
    """Lines of faults that are written in pieces."""
    return differences("check of many faults", Answer(1, LINES), run(["check", FAULTY], folder))


def stops_reading(folder, words, most):
    """A pipe whose reader stops after so many bytes of an answer that is longer than what a pipe holds."""
    child = begin(folder, words, stdout=subprocess.PIPE, stderr=subprocess.PIPE)
    front = child.stdout.read(most)
    child.stdout.close()
    err = child.stderr.read()
    child.stderr.close()
    got = Answer(child.wait(LONGEST), b"", err)
    name = f"a reader of {words[0]} that stops after {most} bytes"
    return differences(name, NOT_WRITTEN, got) + differences(name, most, len(front))


def cannot_tell(folder, words, status, err):
    """A refusal whose line can't be written, or of it so many bytes: the status stands."""
    with open("/dev/full", "wb") as full:
        done = subprocess.run([PROGRAM, *words], cwd=folder, stdout=subprocess.PIPE, stderr=full)
    found = differences(f"{words} with a full standard error", (status, b""), (done.returncode, done.stdout))
    closed = run(["-c", 'exec "$@" 2>&-', "sh", PROGRAM, *words], folder, program="sh")
    found += differences(f"{words} with no standard error", Answer(status), closed)
    for most in range(len(err)):
        with tempfile.TemporaryFile() as file:
            done = subprocess.run(
                [PROGRAM, *words], cwd=folder, stdout=subprocess.PIPE, stderr=file, restore_signals=False,
                preexec_fn=lambda: resource.setrlimit(resource.RLIMIT_FSIZE, (most, most)))
            file.seek(0)
            found += differences(f"{words} that may tell {most} bytes", (status, b"", err[:most]),
                                 (done.returncode, done.stdout, file.read()))
    return found


def ends_early(folder, front):
    """Standard input that ends early: what came is the text. Within a letter it is no UTF-8."""
    try:
        front.decode()
    except UnicodeDecodeError:
        got = run(["check", "-"], folder, stdin=front)
        return differences(f"check of {len(front)} bytes", refused("L2"), got)
    path = pathlib.Path(folder) / f"front_{len(front)}"
    path.write_bytes(front)
    of_file = run(["check", path.name], folder)
    of_input = run(["check", "-"], folder, stdin=front)
    found = [] if of_file.status in (0, 1) and not of_file.err else [f"check of {len(front)} bytes: {of_file}"]
    wanted = Answer(of_file.status, of_file.out.replace(path.name.encode(), b"-"))
    return found + differences(f"check of standard input of {len(front)} bytes", wanted, of_input)


def waits(folder, words, front):
    """A run that has read the front of its standard input and waits for more."""
    child = begin(folder, words, stdin=subprocess.PIPE, stdout=subprocess.PIPE, stderr=subprocess.PIPE)
    child.stdin.write(front)
    child.stdin.flush()
    time.sleep(0.2)
    return child


def is_ended(folder, words, number):
    """A signal while standard input is read: it ends the program, and nothing was printed or kept."""
    child = waits(folder, words, LEDGER.encode()[:40])
    child.send_signal(number)
    out, err = child.communicate(timeout=LONGEST)
    name = f"{words} and the signal {number}"
    found = differences(name, Answer(-number), Answer(child.returncode, out, err))
    return found + ([f"{name}: a file was made"] if (pathlib.Path(folder) / "new").exists() else [])


def goes_on(folder):
    """A run that is stopped and continued while it reads, and one that ignores that its terminal is gone."""
    text = LEDGER.encode()
    wanted = run(["list", "-"], folder, stdin=text)
    child = waits(folder, ["list", "-"], text[:40])
    for number in (signal.SIGSTOP, signal.SIGCONT, signal.SIGWINCH, signal.SIGCHLD):
        child.send_signal(number)
        time.sleep(0.05)
    out, err = child.communicate(text[40:], timeout=LONGEST)
    found = differences("a run that is stopped and goes on", wanted, Answer(child.returncode, out, err))
    words = ["-c", 'trap "" HUP; kill -HUP $$; exec "$@"', "sh", PROGRAM, "list", "-"]
    return found + differences("a run that ignores SIGHUP", wanted, run(words, folder, stdin=text, program="sh"))


def attempts(folder):
    for command, words in PRINTING.items():
        text = run(words, folder).out
        yield from ((stops_after, folder, words, text, most) for most in range(len(text)))
        yield from ((stops, folder, command) for stops in (is_full, nobody_reads, is_closed))
    yield tells_all, folder
    yield from ((stops_after, folder, ["check", FAULTY], LINES, most) for most in WRITTEN)
    for words in (["list", "large"], ["check", FAULTY]):
        yield from ((stops_reading, folder, words, most) for most in READ)
    yield cannot_tell, folder, ["query", "ledger", "SELECT foo"], 2, b"bq: Q2 at 7\n"
    yield cannot_tell, folder, ["list", "missing"], 3, b"bq: L1\n"
    yield cannot_tell, folder, ["nothing"], 2, b"bq: words\n"
    text = LEDGER.encode()
    yield from ((ends_early, folder, text[:length]) for length in range(len(text) + 1))
    for words in (["list", "-"], ["check", "-"], ["run", "-", "ledger"], ["upgrade", "-", "new"]):
        for number in ENDING:
            yield is_ended, folder, words, number
    yield goes_on, folder


def main():
    with tempfile.TemporaryDirectory() as folder:
        write_books(folder)
        (pathlib.Path(folder) / "large").write_text(LARGE)
        faulty = pathlib.Path(folder) / FAULTY
        faulty.parent.mkdir(parents=True)
        faulty.write_text("open\n" * FAULTS)
        return report(list(attempts(folder)))


if __name__ == "__main__":
    sys.exit(main())
