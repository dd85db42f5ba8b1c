"""Sources that fail: files that aren't there, folders in the place of files, files that may not be read, at
each place of a command's words and in includes. A file that words name is L1, one that is included F22.
"""
import os
import pathlib
import sys
import tempfile

from books import LEDGER, QUERY, write_books
from program import PROGRAM, Answer, differences, program_for_all, refused, report, run, stranger

# Each place of a name in the words of each command.
PLACES = [
    ["list", None], ["check", None], ["query", None, QUERY], ["verify", None], ["show", None],
    ["upgrade", None, "new"], ["run", None, "ledger"], ["run", "query", None], ["batch", "1", None, "query"],
    ["batch", "1", "ledger", None], ["batch", "1", "ledger", "query", None, "other"],
]
# Names under which nothing can be read, and why.
NAMES = {
    "missing": "there is none", "folder": "a folder", "folder/": "a folder", "ledger/file": "a file is no folder",
    "unreadable": "it may not be read", "locked/file": "its folder may not be looked into",
    "loop": "a link to itself", "dangling": "a link to nothing", "n" * 256: "a name that is too long",
    "m/" * 2100 + "f": "a path that is too long", "": "no name",
}


def prepare(folder):
    write_books(folder)
    path = pathlib.Path(folder)
    (path / "folder").mkdir()
    (path / "locked").mkdir()
    (path / "locked" / "file").write_text(LEDGER)
    (path / "unreadable").write_text(LEDGER)
    (path / "loop").symlink_to("loop")
    (path / "dangling").symlink_to("missing")
    os.chmod(path / "unreadable", 0)
    os.chmod(path / "locked", 0)


def of_words(folder, program, words, name):
    """A name in the place of None: L1, and nothing is written."""
    got = run([name if word is None else word for word in words], folder, user=stranger(), program=program)
    found = differences(f"{words} with {name[:40]!r} ({NAMES[name]})", refused("L1"), got)
    return found + ([f"{words}: a file was made"] if (pathlib.Path(folder) / "new").exists() else [])


def of_include(folder, program, name):
    """An include of a name: F22 at its line, and the rest is read."""
    top = f"including_{list(NAMES).index(name)}"
    (pathlib.Path(folder) / top).write_text(f'plugin "x"\ninclude "{name}"\n' + LEDGER)
    faults = f"{top}:1: F5 ignored\n{top}:2: F22 include fault\n{top}:16: F5 ignored\n{top}:17: F18 unbalanced\n"
    got = run(["check", top], folder, user=stranger(), program=program)
    found = differences(f"check with an include of {name[:40]!r}", Answer(1, faults.encode()), got)
    wanted = run(["list", "ledger"], folder)
    got = run(["list", top], folder, user=stranger(), program=program)
    return found + differences(f"list with an include of {name[:40]!r}", wanted, got)


def of_standard_input(folder, words):
    """Standard input that is a folder, and one that is closed, which is either no text or an empty one."""
    words = ["-" if word is None else word for word in words]
    root = os.open("/", os.O_RDONLY)
    of_folder = run(words, folder, stdin=root)
    os.close(root)
    empty = run(words, folder)
    closed = run(["-c", 'exec "$@" <&-', "sh", PROGRAM, *words], folder, program="sh")
    return differences(f"{words} with a folder as standard input", refused("L1"), of_folder) + (
        [] if closed in (empty, refused("L1")) else [f"{words} without standard input: {closed}"])


def attempts(folder, program):
    for words in PLACES:
        for name in NAMES:
            yield of_words, folder, program, words, name
        yield of_standard_input, folder, words
    for name in NAMES:
        yield of_include, folder, program, name


def main():
    with tempfile.TemporaryDirectory() as folder:
        prepare(folder)
        status = report(list(attempts(folder, program_for_all(folder))))
        os.chmod(pathlib.Path(folder) / "locked", 0o755)
        return status


if __name__ == "__main__":
    sys.exit(main())
