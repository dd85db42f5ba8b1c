"""A queue of a stranger's ledgers and query files, each through the commands that read it, with as much memory
and time as a careful host would give: 4 GiB and some seconds. Each run must end by itself: with its answer, with
a refusal, or for want of memory with M2. Prints the memory and the time of the greatest runs.

With `all` also what takes long: a pool of as many patterns as a file may have, and ledgers of 16 MiB of faults.
"""
import os
import pathlib
import re
import resource
import subprocess
import sys
import tempfile
import time

import query_files as files
from books import LEDGER, compiled
from program import PROGRAM, report

MEMORY = 4 << 30
SECONDS = 100
LARGEST = files.LARGEST
LINES = re.compile(rb"(bq: ([A-Z][0-9]+( at [0-9]+)?|words)\n)?")


def run_measured(words, folder):
    """The status, the front of the output, standard error, and MiB and seconds of a run within limits."""
    def narrow():
        resource.setrlimit(resource.RLIMIT_AS, (MEMORY, MEMORY))
        resource.setrlimit(resource.RLIMIT_CPU, (SECONDS, SECONDS))

    with tempfile.TemporaryFile() as out, tempfile.TemporaryFile() as err:
        child = subprocess.Popen(
            [PROGRAM, *words], cwd=folder, stdin=subprocess.DEVNULL, stdout=out, stderr=err, preexec_fn=narrow)
        _, ended, used = os.wait4(child.pid, 0)
        child.returncode = os.waitstatus_to_exitcode(ended)
        size = os.fstat(out.fileno()).st_size
        err.seek(0)
        return child.returncode, size, err.read(), used.ru_maxrss / 1024, used.ru_utime + used.ru_stime


def is_answer(words, status, size, line):
    """Whether that is an answer, a refusal, or want of memory."""
    if not LINES.fullmatch(line):
        return False
    if status in (0, 1):
        return not line and (status == 0 or words[0] == "check")
    if words[0] == "batch" and size:
        return status in (2, 4) and not line
    return size == 0 and (line == b"bq: M2\n" if status == 4 else status == 2 and line != b"bq: M2\n")


def ends(folder, name, words, wanted):
    """A run that ends as it should: with one of these statuses."""
    status, size, line, memory, seconds = run_measured(words, folder)
    told = f"{name}: {words[0]} ends with {status}, {line.decode(errors='replace').strip()}"
    if len(line) < 100 and (memory > 300 or seconds > 3):
        print(f"{told} {memory:.0f} MiB, {seconds:.1f} s", flush=True)
    good = status in wanted and is_answer(words, status, size, line)
    return [] if good else [f"{told} ({memory:.0f} MiB, {seconds:.1f} s)"]


# ---- ledgers

def filled(part, head="", tail="", size=LARGEST):
    """A text of a head, as many of a part as it has room for, and a tail."""
    part, head, tail = (text if isinstance(text, bytes) else text.encode() for text in (part, head, tail))
    return head + part * ((size - len(head) - len(tail)) // len(part)) + tail


OPEN = "2014-01-01 open Assets:A\n"
SALE = OPEN + '2014-01-02 *\n  Assets:A  1 X {1 USD}\n'


def ledgers(everything):
    """Texts that want much of a reader: one token, one line, one block, one lot, one name."""
    deep = '2014-01-02 *\n  Assets:A  '
    yield "one text", filled("x", 'option "title" "', '"\n')
    yield "a text of escapes", filled('\\n', 'option "title" "', '"\n')
    yield "a text that isn't closed", filled("x", '"')
    yield "one comment", filled("x", ";")
    yield "spaces", filled(" ")
    yield "line feeds", filled("\n")
    yield "small letters", filled("a")
    yield "zeros", bytes(LARGEST)
    yield "no UTF-8", b"\xff" * LARGEST
    yield "one number", filled("9", "2014-01-01 price X ", " USD\n")
    yield "a tolerance", filled("9", OPEN + "2014-01-02 balance Assets:A  1 ~ 1 - ", " X\n")
    yield "one account", filled(":A", "2014-01-01 open Assets", "\n")
    yield "one currency", filled("A", OPEN + deep + "1 ", "\n")
    yield "one tag", filled("a", "pushtag #", "\n")
    yield "tags", filled(" #a", "2014-01-02 * ", "\n")
    yield "signs", filled("-", OPEN + deep, "1 X\n")
    yield "parentheses", filled("(", OPEN + deep, "\n")
    yield "a sum", filled("1+", OPEN + deep, "1 X\n")
    yield "a product", filled("1*", OPEN + deep, "1 X\n")
    yield "braces", filled("{", OPEN + deep + "1 X ", "\n")
    yield "one include", filled('include "a"\n')
    yield "metadata of one transaction", filled("  k: 1\n", "2014-01-02 *\n")
    yield "open currencies", filled(",X", "2014-01-01 open Assets:A X", "\n")
    yield "opens of one account", filled(OPEN)
    yield "lots of a cost", filled("  Assets:A  1 X {1 USD}\n", SALE)
    yield "a sale of each lot", filled("2014-01-03 *\n  Assets:A  -1 X {}\n", OPEN.replace("A\n", 'A X "FIFO"\n'))
    yield "pads", filled("2014-01-01 pad Assets:A Assets:A\n", OPEN)
    yield "balances", filled("2014-01-01 balance Assets:A 1 X\n", OPEN)
    yield "pushes", filled("pushmeta k: 1\n")
    if everything:
        yield "faults", filled("x\n")
        yield "bad tokens", filled("?\n ")


def lots(count, price):
    """Lots of one account, each of a cost of its own."""
    return (OPEN + "2014-01-02 *\n" + "".join(f"  Assets:A  1 X {{{price(at)} USD}}\n" for at in range(count))).encode()


def write_ledgers(folder, everything):
    named = dict(ledgers(everything))
    named["100,000 lots"] = lots(100_000, lambda at: at)
    for at, (name, text) in enumerate(named.items()):
        (pathlib.Path(folder) / f"ledger{at}").write_bytes(text)
        yield name, f"ledger{at}"


# ---- query files

def programs(everything):
    """The largest files, and of patterns and pools those that are accepted and those that are not."""
    yield "full sections", files.full_sections(), (0,)
    yield "waiting states", files.with_filter(files.waiting_states()), (0,)
    matching = [files.load_column(9), files.match(0)]
    for name, pattern, wanted in (
            ("a pattern of 65,535 letters", b"a" * 65_535, (0, 2)),
            ("a nested pattern", b"(" * 32_767 + b")" * 32_767, (0, 2)),
            ("a pattern of counts", b"(((a{99}){99}){99}){99}", (2,)), ("a pattern of classes", rb"\w{900}", (0, 2)),
            ("alternatives", b"|".join([b"ab"] * 21_000), (0, 2)), ("stars", b"(a*)*" * 13_000, (0, 2, 4))):
        yield name, files.with_filter(matching, [files.pattern_entry(pattern)]), wanted
    yield "a pool of texts", files.with_filter([files.TRUE], files.pool_of(files.text_entry(b"x" * 65_535))), (0,)
    yield "a pool of short texts", files.with_filter([files.TRUE], files.pool_of(files.text_entry(b""))), (0,)
    yield "a pool of short patterns", files.with_filter([files.TRUE], files.pool_of(files.pattern_entry(b"a"))), (0, 4)
    if everything:
        yield "a pool of long patterns", files.with_filter(
            [files.TRUE], files.pool_of(files.pattern_entry(b"a" * 65_535))), (0, 4)
        yield "a pool of wide patterns", files.with_filter(
            [files.TRUE], files.pool_of(files.pattern_entry(rb"\w{200}"))), (0, 4)


def write_programs(folder, everything):
    for at, (name, file, wanted) in enumerate(programs(everything)):
        (pathlib.Path(folder) / f"file{at}").write_bytes(file)
        yield name, f"file{at}", wanted


# ---- queries

def queries():
    """Texts of 65,535 bytes."""
    most = 65_535
    for name, head, part, tail in (
            ("parentheses", "SELECT ", "(", ""), ("NOT", "SELECT ", "NOT ", "TRUE"), ("signs", "SELECT ", "-", "1"),
            ("a sum", "SELECT 1", "+1", ""), ("a text", "SELECT '", "x", "'"), ("a number", "SELECT ", "9", ""),
            ("a name", "SELECT ", "a", ""), ("a list", "SELECT 1 IN (1", ",1", ")"), ("spaces", "SELECT 1", " ", ""),
            ("a pattern", "SELECT account ~ '", "a", "'"), ("stars", "SELECT account ~ '", "(a*)*", "'"),
            ("wide classes", "SELECT account ~ '", r"\w", "'"), ("alternatives", "SELECT account ~ 'a", "|ab", "'")):
        yield name, filled(part, head, tail, most).decode()


def attempts(folder, everything):
    (pathlib.Path(folder) / "ledger").write_text(LEDGER)
    compiled(folder, "SELECT account, sum(position)", "query")
    for name, ledger in write_ledgers(folder, everything):
        for words in (["list", ledger], ["check", ledger], ["run", "query", ledger],
                      ["batch", "1000", ledger, "query", "query"]):
            yield ends, folder, f"a ledger of {name}", words, (0, 1, 2, 4)
    for name, file, wanted in write_programs(folder, everything):
        for words in (["verify", file], ["run", file, "ledger"], ["batch", "1", "ledger", file, "query"],
                      ["show", file], ["upgrade", file, f"new_{file}"]):
            yield ends, folder, f"a file of {name}", words, (0, 2) if words[0] == "show" else wanted
    for name, text in queries():
        yield ends, folder, f"a query of {name}", ["query", "ledger", text], (0, 2, 4)
        yield ends, folder, f"a query of {name}", ["compile", text, f"new {name}"], (0, 2, 4)


def main(everything):
    with tempfile.TemporaryDirectory() as folder:
        begun = time.monotonic()
        made = list(attempts(folder, everything))
        print(f"{len(made)} runs, made ready in {time.monotonic() - begun:.0f} s", flush=True)
        return report(made, min(os.cpu_count(), 4))


if __name__ == "__main__":
    sys.exit(main(sys.argv[1:] == ["all"]))
