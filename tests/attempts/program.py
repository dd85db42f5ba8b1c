"""What all attempts share: how the built program is run, and how it is told what came of them.

An attempt is a function with its arguments, `(function, argument, ..)`, which gives the faults that it found,
none where all was as wanted. `report` makes all of them, several at once, prints each fault and at the end
`N passed, M failed`.
"""
import dataclasses
import multiprocessing
import os
import pathlib
import pwd
import resource
import shutil
import subprocess

PROGRAM = pathlib.Path(__file__).resolve().parents[2] / "crates" / "bq" / "out" / "bq"
# A run that takes as long has failed.
LONGEST = 120


@dataclasses.dataclass(frozen=True)
class Answer:
    """What came of a run: a status below 0 is a signal's."""
    status: int
    out: bytes = b""
    err: bytes = b""

    def __str__(self):
        return f"status {self.status}, out {self.out[:200]!r}, err {self.err[:200]!r}"


def refused(code, place=None):
    """The answer of a refusal."""
    status = 3 if code in ("L1", "P1") else 4 if code == "M2" else 2
    return Answer(status, err=f"bq: {code}{'' if place is None else f' at {place}'}\n".encode())


def run(words, folder=None, *, stdin=b"", out=subprocess.PIPE, limits=(), user=None, program=PROGRAM,
        signals=False):
    """Runs the program in a folder. `limits` are pairs of a resource and how much of it there is. With
    `signals` a file that may not grow ends the program, else its write fails."""
    def narrow():
        for what, most in limits:
            resource.setrlimit(what, (most, most))

    given = {"input": stdin} if isinstance(stdin, bytes) else {"stdin": stdin}
    who = {"user": user, "group": pwd.getpwnam(user).pw_gid, "extra_groups": []} if user else {}
    done = subprocess.run(
        [program, *words], cwd=folder, stdout=out, stderr=subprocess.PIPE, timeout=LONGEST,
        preexec_fn=narrow if limits else None, restore_signals=signals, **given, **who)
    return Answer(done.returncode, done.stdout or b"", done.stderr)


def differences(name, wanted, got):
    """The fault that something isn't as wanted."""
    return [] if got == wanted else [f"{name}: wanted {wanted}, got {got}"]


def files_in(folder):
    """What stands in a folder: of each file its bytes, else its kind."""
    return {path.name: path.lstat().st_mode if path.is_symlink() or not path.is_file() else path.read_bytes()
            for path in pathlib.Path(folder).iterdir()}


def stranger():
    """A user who may not do all, and the words for who that is: None where we are such a user."""
    return "nobody" if os.geteuid() == 0 else None


def program_for_all(folder):
    """A copy of the program in a folder that every user may look into."""
    os.chmod(folder, 0o755)
    return shutil.copy(PROGRAM, folder)


def make(attempt):
    function, *arguments = attempt
    try:
        return function(*arguments)
    except Exception as error:
        return [f"{function.__name__}{tuple(str(argument)[:80] for argument in arguments)}: {error!r}"]


def report(attempts, side_by_side=None):
    """Makes the attempts and tells what came of them; the status is 1 where one failed."""
    passed = failed = 0
    with multiprocessing.Pool(side_by_side) as pool:
        for faults in pool.imap_unordered(make, attempts, 8 if side_by_side is None else 1):
            passed, failed = passed + (not faults), failed + bool(faults)
            for fault in faults:
                print(f"FAILED {fault}")
    print(f"{passed} passed, {failed} failed")
    return 1 if failed else 0
