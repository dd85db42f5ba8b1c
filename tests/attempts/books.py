"""The books and queries that attempts ask the program about, and the commands with the words for each."""
import pathlib
import subprocess

from program import PROGRAM

# Lots, a pad, a note with letters outside ASCII, and a fault that is told (F18) and one that isn't (F5).
LEDGER = """2014-01-01 open Assets:Inv HOOL "FIFO"
2014-01-01 open Assets:Cash
2014-01-01 open Income:Gain
2014-01-02 * "Buy" "für später"
  Assets:Inv  10 HOOL {100 USD}
  Assets:Cash
2014-01-03 * "Buy"
  Assets:Inv  5 HOOL {110 USD}
  Assets:Cash
2014-02-01 * "Sell"
  Assets:Inv  -12 HOOL {}
  Assets:Cash  1300.00 USD
  Income:Gain
plugin "x"
2014-02-02 * "Lost"
  Assets:Cash  1.00 USD
"""
QUERY = "SELECT account, sum(position)"
# The words of each command that prints, with the names of the files that it is given.
PRINTING = {
    "list": ["list", "ledger"],
    "check": ["check", "ledger"],
    "query": ["query", "ledger", QUERY],
    "show": ["show", "query"],
    "verify": ["verify", "query"],
    "run": ["run", "query", "ledger"],
    "batch": ["batch", "3", "ledger", "query", "other"],
}


def compiled(folder, text, name, *bounds):
    """Compiles a text in a folder, and gives the file's bytes."""
    subprocess.run([PROGRAM, "compile", text, name, *bounds], cwd=folder, check=True)
    return (pathlib.Path(folder) / name).read_bytes()


def write_books(folder):
    """Writes the ledger and the query files that the commands name."""
    (pathlib.Path(folder) / "ledger").write_text(LEDGER)
    compiled(folder, QUERY, "query")
    compiled(folder, "JOURNAL 'Cash'", "other")
