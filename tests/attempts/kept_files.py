"""Files that `compile` and `upgrade` keep: where it fails, by a full disk, a folder or a file that may not be
written to or a device, it is P1, what stood under the name is as it was, and no other file is left. Where it
succeeds, the file is whole, and permissions, links and devices are what they were.
"""
import contextlib
import os
import pathlib
import resource
import signal
import subprocess
import sys
import tempfile

from books import QUERY, compiled
from program import PROGRAM, Answer, differences, files_in, program_for_all, refused, report, run, stranger

OLD = b"what stood there"
NOT_KEPT = refused("P1")
KEPT = Answer(0)


@contextlib.contextmanager
def a_folder(source):
    """A folder with a query file, `source`, in which everybody may write."""
    with tempfile.TemporaryDirectory() as name:
        folder = pathlib.Path(name)
        os.chmod(folder, 0o777)
        (folder / "source").write_bytes(source)
        yield folder


def words_of(command, name):
    return ["compile", QUERY, name] if command == "compile" else ["upgrade", "source", name]


def keeps_nothing(name, folder, words, **how):
    """A run that fails to keep a file, and changes nothing in its folder."""
    before = files_in(folder)
    got = run(words, folder, **how)
    return differences(name, NOT_KEPT, got) + differences(f"{name}, files", before, files_in(folder))


def keeps(name, folder, words, file, path, **how):
    """A run that keeps the file under a path, and leaves no other."""
    before = files_in(folder)
    got = run(words, folder, **how)
    found = differences(name, KEPT, got) + differences(name, file, path.read_bytes())
    return found + differences(f"{name}, files", before.keys() | {path.name}, files_in(folder).keys() | {path.name})


# ---- what fails

def stops_after(source, command, most):
    """A disk that takes so many bytes of the file, which is longer."""
    limits = [(resource.RLIMIT_FSIZE, most)]
    with a_folder(source) as folder:
        (folder / "kept").write_bytes(OLD)
        name = f"{command} that may write {most} bytes"
        found = keeps_nothing(f"{name} over a file", folder, words_of(command, "kept"), limits=limits)
        return found + keeps_nothing(f"{name} of a new file", folder, words_of(command, "new"), limits=limits)


def is_ended(source, command, most):
    """A run that a signal ends while it writes: what stood there is as it was."""
    with a_folder(source) as folder:
        (folder / "kept").write_bytes(OLD)
        limits = [(resource.RLIMIT_FSIZE, most), (resource.RLIMIT_CORE, 0)]
        got = run(words_of(command, "kept"), folder, limits=limits, signals=True)
        name = f"{command} that is ended after {most} bytes"
        return differences(name, -signal.SIGXFSZ, got.status) + differences(name, OLD, (folder / "kept").read_bytes())


def fills_a_disk(source, command, options):
    """A small disk of its own, which is full; where none can be mounted nothing is tried."""
    with a_folder(source) as folder:
        disk = folder / "disk"
        disk.mkdir()
        mount = ["mount", "-t", "tmpfs", "-o", options, "none", disk]
        if subprocess.run(mount, stderr=subprocess.DEVNULL).returncode:
            return []
        try:
            (disk / "kept").write_bytes(OLD)
            name = f"{command} to a disk with {options}"
            found = keeps_nothing_on(disk, name, folder, words_of(command, "disk/kept"))
            return found + keeps_nothing_on(disk, name, folder, words_of(command, "disk/new"))
        finally:
            subprocess.run(["umount", disk], check=True)


def keeps_nothing_on(disk, name, folder, words):
    before = files_in(disk)
    return keeps_nothing(name, folder, words) + differences(f"{name}, its files", before, files_in(disk))


def has_no_place(source, command, program):
    """Names under which nothing can be kept."""
    found = []
    with a_folder(source) as folder:
        (folder / "folder").mkdir()
        (folder / "kept").write_bytes(OLD)
        (folder / "loop").symlink_to("loop")
        for name in ("missing/new", "folder", "folder/", "new/", "kept/new", "kept/", "", "loop", "/dev/full",
                     "n" * 256, "m/" * 2100 + "f", "/proc/new", "."):
            found += keeps_nothing(f"{command} to {name[:40]!r}", folder, words_of(command, name))
    with a_folder(source) as folder:
        (folder / "kept").write_bytes(OLD)
        os.chmod(folder / "kept", 0o444)
        found += keeps_nothing(f"{command} over a file that may only be read", folder, words_of(command, "kept"),
                               user=stranger(), program=program)
        os.chmod(folder / "kept", 0o666)
        os.chmod(folder, 0o555)
        for name in ("kept", "new"):
            found += keeps_nothing(f"{command} to {name} in a folder that may only be read", folder,
                                   words_of(command, name), user=stranger(), program=program)
        os.chmod(folder, 0o777)
    return found


def is_refused(source):
    """A query and a file that are refused: what stood there is as it was."""
    found = []
    with a_folder(source[:-1]) as folder:
        (folder / "kept").write_bytes(OLD)
        before = files_in(folder)
        for words, why in ((["compile", "SELECT foo", "kept"], refused("Q2", 7)),
                           (["upgrade", "source", "kept"], refused("V3", len(source) - 1))):
            found += differences(f"{words}", why, run(words, folder))
            found += differences(f"{words}, files", before, files_in(folder))
    return found


# ---- what is kept

def keeps_permissions(source, command, mode):
    with a_folder(source) as folder:
        path = folder / "kept"
        path.write_bytes(OLD)
        os.chmod(path, mode)
        found = keeps(f"{command} over a file of mode {mode:o}", folder, words_of(command, "kept"), source, path)
        return found + differences(f"{command} over a file of mode {mode:o}", mode, path.stat().st_mode & 0o7777)


def keeps_under(source, command, name, others=()):
    """A name, beside files of other names."""
    with a_folder(source) as folder:
        (folder / "folder").mkdir()
        for other in others:
            (folder / other).write_bytes(OLD)
        found = keeps(f"{command} to {name[:40]!r}", folder, words_of(command, name), source, folder / name)
        left = [other for other in others if other != name and (folder / other).read_bytes() != OLD]
        return found + differences(f"{command} to {name!r}, others", [], left)


def writes_through(source, command):
    """Links, a pipe, standard output: they stay, and what they lead to has the file."""
    with a_folder(source) as folder:
        (folder / "target").write_bytes(OLD)
        (folder / "link").symlink_to("target")
        (folder / "to_nothing").symlink_to("made")
        os.link(folder / "target", folder / "same")
        os.mkfifo(folder / "pipe")
        found = keeps(f"{command} to a link", folder, words_of(command, "link"), source, folder / "target")
        found += differences("the link", "target", os.readlink(folder / "link"))
        found += differences("another name of the file", source, (folder / "same").read_bytes())
        name = f"{command} to a link to nothing"
        found += keeps(name, folder, words_of(command, "to_nothing"), source, folder / "made")
        reader = subprocess.Popen(["cat", "pipe"], cwd=folder, stdout=subprocess.PIPE)
        found += differences(f"{command} to a pipe", KEPT, run(words_of(command, "pipe"), folder))
        found += differences("what came through the pipe", source, reader.communicate(timeout=20)[0])
        got = run(words_of(command, "/dev/stdout"), folder)
        return found + differences(f"{command} to standard output", Answer(0, source), got)


def one_is_kept(source):
    """Many runs at once that keep a file under one name: it is one of theirs, whole, and no other is left."""
    with a_folder(source) as folder:
        texts = [f"SELECT count(*) AS c{number}" for number in range(16)]
        wanted = [compiled(folder, text, "kept") for text in texts]
        before = files_in(folder).keys()
        children = [subprocess.Popen([PROGRAM, "compile", text, "kept"], cwd=folder) for text in texts]
        statuses = [child.wait() for child in children]
        found = differences("many at once", [0] * len(texts), statuses)
        found += differences("files of many at once", before, files_in(folder).keys())
        return found + ([] if (folder / "kept").read_bytes() in wanted else ["many at once: none of theirs"])


def attempts(source, program):
    for command in ("compile", "upgrade"):
        for most in range(len(source)):
            yield stops_after, source, command, most
        for most in (0, 1, len(source) - 1):
            yield is_ended, source, command, most
        for options in ("size=4k", "nr_inodes=2"):
            yield fills_a_disk, source, command, options
        yield has_no_place, source, command, program
        for mode in (0o600, 0o640, 0o666, 0o755, 0o200):
            yield keeps_permissions, source, command, mode
        for name in ("new", "n" * 255, "folder/new", "./new", ".bq-0.new", "-", "ü"):
            yield keeps_under, source, command, name
        yield keeps_under, source, command, "kept", ["kept", ".bq-0.new", ".bq-1.new"]
        yield keeps_under, source, command, ".bq-0.new", [".bq-0.new"]
        yield writes_through, source, command
    yield is_refused, source
    yield one_is_kept, source


def main():
    with tempfile.TemporaryDirectory() as folder:
        source = compiled(folder, QUERY, "source")
        return report(list(attempts(source, program_for_all(folder))))


if __name__ == "__main__":
    sys.exit(main())
