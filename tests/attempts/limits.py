"""Each limit of the pages at its edge and past it, where tests/cli has no case of it: such cases want many
files or large ones. With `all` also as many postings as a ledger may have, for the commands that ask it.
"""
import pathlib
import sys
import tempfile

from books import compiled, write_books
from program import Answer, differences, refused, report, run

LARGEST = 16 << 20
MOST_FILES = 1_000
MOST_POSTINGS = 4_000_000
EMPTY_TABLE = b"date  flag  account  position\n----  ----  -------  --------\n"
# The place of the bounds in a query file, of which each is a number of so many bytes.
BOUNDS = 6


def answers(name, folder, words, wanted):
    return differences(name, wanted, run(words, folder))


# ---- sizes

def sizes(folder):
    """Files of 16 MiB, and of one byte more, in each place of each command."""
    path = pathlib.Path(folder)
    (path / "largest").write_bytes(b" " * LARGEST)
    (path / "larger").write_bytes(b" " * (LARGEST + 1))
    text = "SELECT count(*)"
    for words in (["list", "larger"], ["check", "larger"], ["query", "larger", text], ["run", "query", "larger"],
                  ["batch", "1", "larger", "query"], ["run", "larger", "ledger"], ["verify", "larger"],
                  ["show", "larger"], ["upgrade", "larger", "new"], ["batch", "1", "ledger", "query", "larger"]):
        yield answers, f"a file that is too large: {words}", folder, words, refused("L3")
    count = b"count(*)\n--------\n"
    for words, wanted in (
            (["list", "largest"], Answer(0, EMPTY_TABLE)), (["check", "largest"], Answer(0)),
            (["query", "largest", text], Answer(0, count)), (["run", "count", "largest"], Answer(0, count)),
            (["verify", "largest"], refused("V1", 0)), (["show", "largest"], refused("V1", 0)),
            (["run", "largest", "ledger"], refused("V1", 0)), (["upgrade", "largest", "new"], refused("V1", 0))):
        yield answers, f"a file of 16 MiB: {words}", folder, words, wanted


# ---- files

def includes(folder, top, names):
    path = pathlib.Path(folder) / top
    path.write_text("".join(f'include "{name}"\n' for name in names))
    return ["check", top]


def counts_of_files(folder):
    """As many files as there may be, there or not, and one more."""
    for name in range(MOST_FILES):
        (pathlib.Path(folder) / f"f{name}").write_text("")
    there = [f"f{name}" for name in range(MOST_FILES)]
    missing = [f"m{name}" for name in range(MOST_FILES)]
    most = MOST_FILES - 1
    words = includes(folder, "there", there[:most])
    yield answers, "1,000 files", folder, words, Answer(0)
    words = includes(folder, "one_more", there)
    yield answers, "1,001 files", folder, words, refused("L3")
    words = includes(folder, "missing", missing[:most])
    faults = b"".join(b"missing:%d: F22 include fault\n" % line for line in range(1, MOST_FILES))
    yield answers, "1,000 names, of which one is there", folder, words, Answer(1, faults)
    words = includes(folder, "missing_more", missing)
    yield answers, "1,001 names, of which one is there", folder, words, refused("L3")
    words = includes(folder, "again", ["f0"] * (2 * MOST_FILES))
    faults = b"".join(b"again:%d: F22 include fault\n" % line for line in range(2, 2 * MOST_FILES + 1))
    yield answers, "one file 2,000 times", folder, words, Answer(1, faults)


def parts(folder):
    """A ledger of more parts, each behind an include line, than are told by short numbers: it is arranged as
    one without these lines, also where the last parts are of the first days."""
    path = pathlib.Path(folder)
    (path / "f0").write_text("")
    opens = "2014-01-01 open Assets:A\n2014-01-01 open Assets:B\n"
    blocks = [f'2014-{12 - n // 10:02}-{28 - n % 10:02} * "{n}"\n  Assets:A  {n + 1} X\n  Assets:B\n'
              for n in range(70)]
    (path / "few_parts").write_text(opens + "".join(blocks))
    (path / "many_parts").write_text(opens + "".join(block + 'include "f0"\n' * 1_000 for block in blocks))
    wanted = run(["list", "few_parts"], folder)
    assert wanted.out.count(b"\n") == 142 and wanted.status == 0
    yield answers, "70,000 parts", folder, ["list", "many_parts"], wanted


# ---- numbers

# Where a number stands, each a ledger whose fourth line begins the block that has it.
PLACES = {
    "units": "  Assets:A  {} X\n  Assets:B  0 Y\n",
    "a cost": "  Assets:A  1 X {{{} USD}}\n  Assets:B\n",
    "a price": "  Assets:A  1 X @ {} USD\n  Assets:B\n",
    "a total price": "  Assets:A  1 X @@ {} USD\n  Assets:B\n",
    "an entry of metadata": "  key: {}\n",
    "a part of a sum": "  Assets:A  {} - 1 X\n  Assets:B\n",
}
DATED = {
    "a balance": "2014-01-02 balance Assets:A  {} X\n",
    "a tolerance": "2014-01-02 balance Assets:A  0 ~ {} X\n",
    "a price of a day": "2014-01-02 price X {} USD\n",
    "a custom value": '2014-01-02 custom "x" {}\n',
}
# 12 digits and 8 decimals are held, one more isn't; zeros in front don't count.
HELD = "999999999999", "0.00000001", "000000000000000000000999999999999", "999,999,999,999.99999999"
TOO_WIDE = "1000000000000", "0.000000001", "1.000000000", "-1000000000000", "1,000,000,000,000"


def has_fault(name, folder, file, text, wanted):
    """Whether `check` tells F3 at line 4 of a text."""
    (pathlib.Path(folder) / file).write_text(text)
    got = run(["check", file], folder)
    line = f"{file}:4: F3 value out of range\n".encode()
    return [] if (line in got.out) == wanted and got.status in (0, 1) and not got.err else [f"{name}: {got}"]


def numbers(folder):
    opens = "2014-01-01 open Assets:A\n2014-01-01 open Assets:B\n; here:\n"
    blocks = {where: '2014-01-02 * "x"\n' + lines for where, lines in PLACES.items()} | DATED
    for at, (where, block) in enumerate(blocks.items()):
        for number in HELD + TOO_WIDE:
            # A tolerance below 0 is F2, however long it is.
            wanted = number in TOO_WIDE and not (where == "a tolerance" and number.startswith("-"))
            yield has_fault, f"{where} of {number}", folder, f"n{at}_{number}", opens + block.format(number), wanted


# ---- queries

def nested(words, leaf, times):
    return f"SELECT {words * times}{leaf}"


def queries(folder):
    """Queries at their limits over a ledger, of which the height is 200; what is past them is in tests/cli."""
    truth = b"x\n----\nTRUE\n"
    one = Answer(0, b"x\n-\n1\n")
    for name, text, wanted in (
            ("199 parentheses", "SELECT " + "(" * 199 + "1" + ")" * 199 + " AS x LIMIT 1", one),
            ("199 signs", nested("- ", "1 AS x LIMIT 1", 199), Answer(0, b" x\n--\n-1\n")),
            ("199 NOT", nested("NOT ", "FALSE AS x LIMIT 1", 199), Answer(0, truth)),
            ("199 OR", "SELECT " + "FALSE OR " * 199 + "TRUE AS x LIMIT 1", Answer(0, truth)),
            ("a text of 65,535 bytes", "SELECT 1 AS x LIMIT 1" + " " * (65_535 - 21), one),
            ("the greatest LIMIT", "SELECT 1 AS x WHERE lineno = 5 LIMIT 4294967295", one)):
        yield answers, name, folder, ["query", "ledger", text], wanted
    targets = ", ".join(["1"] * 255)
    words = ["query", "ledger", f"SELECT {targets} LIMIT 1"]
    line = b"  ".join([b"1"] * 255) + b"\n"
    yield answers, "255 targets", folder, words, Answer(0, line + b"  ".join([b"-"] * 255) + b"\n" + line)


# ---- bounds and turns

def with_bounds(file, postings, digits, value_digits, version=2):
    return (file[:4] + version.to_bytes(2, "big") + postings.to_bytes(4, "big")
            + bytes([digits, value_digits]) + file[BOUNDS + 6:])


def bounds(folder):
    file = compiled(folder, "SELECT count(*)", "count")
    accepted = Answer(0, b"accepted depth 1 filter 1 row 0 last 1\n")
    outside = refused("V17", BOUNDS)
    for *what, wanted in (
            (1, 1, 1, accepted), (MOST_POSTINGS, 20, 28, accepted), (1_000_000, 20, 28, 1, accepted),
            (0, 20, 28, outside), (MOST_POSTINGS + 1, 20, 28, outside), (1, 0, 28, outside), (1, 21, 28, outside),
            (1, 20, 0, outside), (1, 20, 29, outside), (1_000_001, 20, 28, 1, outside),
            ((1 << 32) - 1, 255, 255, outside)):
        name = "_".join(map(str, what))
        (pathlib.Path(folder) / name).write_bytes(with_bounds(file, *what))
        yield answers, f"bounds {what}", folder, ["verify", name], wanted


def turns(folder):
    words = ["ledger", "query", "other"]
    alone = run(["batch", "1000000", *words], folder)
    for steps in (1, 2, 3, 7, 1 << 32, (1 << 63) - 1, (1 << 64) - 1):
        yield answers, f"turns of {steps}", folder, ["batch", str(steps), *words], alone
    for steps in ("0", str(1 << 64), "-1", "", " 1", "1.0", "1e3", "0x1", "9" * 1000):
        yield answers, f"turns of {steps!r}", folder, ["batch", steps, *words], refused("words")


# ---- postings

def books_of(folder, name, count):
    """Transactions of so many postings together, in four files of their own."""
    head = "2014-01-01 open Assets:A\n" + "".join(f'include "{name}{part}"\n' for part in range(1, 4))
    each, more = divmod(count, 4)
    for part in range(4):
        text = (head if part == 0 else "") + "2014-01-02 *\n" + " Assets:A 1 X\n" * (each + (more if part == 3 else 0))
        (pathlib.Path(folder) / (f"{name}{part}" if part else name)).write_text(text)


def postings(folder):
    books_of(folder, "most", MOST_POSTINGS)
    books_of(folder, "more", MOST_POSTINGS + 1)
    count = b"count(*)\n--------\n 4000000\n"
    yield answers, "4,000,000 postings", folder, ["query", "most", "SELECT count(*)"], Answer(0, count)
    yield answers, "4,000,000 postings", folder, ["run", "count", "most"], Answer(0, count)
    yield (answers, "4,000,000 postings", folder, ["batch", "1000", "most", "count", "count"],
           Answer(0, b"".join([b"== count\n", count]) * 2))
    for words in (["query", "more", "SELECT count(*)"], ["run", "count", "more"],
                  ["batch", "1000", "more", "count"]):
        yield answers, f"4,000,001 postings: {words}", folder, words, refused("B1")


def main(everything):
    with tempfile.TemporaryDirectory() as folder:
        write_books(folder)
        attempts = [attempt for part in (bounds, sizes, counts_of_files, parts, numbers, queries, turns)
                    for attempt in part(folder)]
        if everything:
            attempts += postings(folder)
        return report(attempts)


if __name__ == "__main__":
    sys.exit(main(sys.argv[1:] == ["all"]))
