#!/usr/bin/env python3
"""Prints a ledger, the same one for the same words: a plain one, or one full of lots.

generate.py POSTINGS SEED                 so many postings of amounts alone
generate.py --unlisted POSTINGS SEED      the same, but each transaction is of a 31 June: it is read whole
                                          and then left out, so that `list` has no row to print
generate.py --missing POSTINGS SEED       the same, but the last posting of each transaction has no
                                          amount, which booking fills in
generate.py --short POSTINGS SEED         so many postings in short lines, eight a transaction, so that four
                                          million of them fit in what a ledger's texts may have together
generate.py --opens BYTES SEED            about so many bytes of `open` lines, which give no row either
generate.py --lots POSTINGS SEED          about so many postings, with lots, prices and metadata, and
                                          every other kind of directive between them
generate.py --lots-dense POSTINGS SEED    the same without the transactions of amounts alone
generate.py --hoard ACCOUNTS LOTS SEED    so many accounts that each buy so many lots of one unit and sell
                                          them one by one; the seed changes nothing
generate.py --hoard ACCOUNTS --lifo LOTS SEED   the same, the latest first

Booked, they have no fault, but for the days of `--unlisted`.

With `--files N FOLDER` before these words, a plain ledger (`--missing`, `--short` or not) or one of `--hoard` stands in N
files of that folder: main.beancount has the first of its blocks and includes the others at its end, so that
the blocks are read in the same order.
"""
import argparse
import datetime
import pathlib
import random
import string
import sys

import lots

FIRST_DAY = datetime.date(2005, 1, 1)
DAYS = 7000
# Transactions may be late by so many days, and are of no day before their accounts are opened.
LATEST = 30
ROOTS = {
    "Assets": ["Bank", "Cash", "Fund", "Loan"],
    "Liabilities": ["Card", "Tax"],
    "Equity": ["Open"],
    "Income": ["Pay", "Rent", "Gift"],
    "Expenses": ["Food", "Home", "Car", "Fun", "Tax", "Kids", "Bank", "Shoes"],
}
# Each currency with its weight and the decimals that are written for it.
CURRENCIES = {"EUR": (70, 2), "USD": (20, 2), "JPY": (5, 0), "VTI": (4, 3), "BTC": (1, 6)}
PAYEES = ["Market", "Baker", "Landlord", "Employer", "Railway", "Book shop", "Chemist", "Town hall"]
NARRATIONS = ["Weekly shopping", "Rent", "Salary", "Tickets", "Bread", "A gift; see the card", "Fee", "Two books"]


def accounts(count, pick, first=0):
    """So many names, told apart by their numbers, which go on from the first."""
    names = []
    for number in range(first, first + count):
        root = pick.choices(list(ROOTS), weights=[20, 10, 2, 10, 58])[0]
        group = pick.choice(ROOTS[root])
        names.append(f"{root}:{group}{number}" if number % 8 else f"{root}:{group}:P{number}")
    return names


def opens(names, day):
    return "".join(f"{day} open {name}\n" for name in names)


def number(count, places):
    sign, magnitude = "-" if count < 0 else "", abs(count)
    if places == 0:
        return f"{sign}{magnitude}"
    whole, decimals = divmod(magnitude, 10 ** places)
    return f"{sign}{whole}.{decimals:0{places}}"


def first_line(day, pick):
    flag = pick.choices(["*", "!", "txn"], weights=[90, 5, 5])[0]
    texts = pick.choices([0, 1, 2], weights=[10, 70, 20])[0]
    words = [pick.choice(PAYEES), pick.choice(NARRATIONS)][2 - texts:]
    return " ".join([str(day), flag, *(f'"{word}"' for word in words)]) + "\n"


def transaction(day, size, names, missing, pick):
    """A transaction whose postings are of one currency and come to 0."""
    currency = pick.choices(list(CURRENCIES), weights=[w for w, _ in CURRENCIES.values()])[0]
    places = CURRENCIES[currency][1]
    counts = [pick.randint(1, 10 ** pick.randint(3, 5)) for _ in range(size - 1)]
    lines = [f"  {pick.choice(names)}  {number(count, places)} {currency}\n" for count in [*counts, -sum(counts)]]
    if missing:
        lines[-1] = lines[-1].rsplit(maxsplit=2)[0] + "\n"
    return first_line(day, pick) + "".join(lines)


def day_at(done, postings, pick):
    """Days go forward; one of fifty transactions is up to LATEST days late in the text."""
    late = pick.randint(1, LATEST) if pick.randrange(50) == 0 else 0
    return FIRST_DAY + datetime.timedelta(days=done * DAYS // postings - late)


def size_of_next(left, pick):
    """Two to four postings, so that not one alone is left for the last transaction."""
    size = min(pick.choices([2, 3, 4], weights=[60, 25, 15])[0], left)
    if left - size == 1:
        return size + 1 if size == 2 else size - 1
    return size


def ledger(postings, seed, unlisted, missing):
    pick = random.Random(seed)
    names = accounts(min(300, max(30, postings // 300)), pick)
    yield opens(names, FIRST_DAY - datetime.timedelta(days=LATEST))
    done = 0
    while done < postings:
        size = size_of_next(postings - done, pick)
        day = day_at(done, postings, pick)
        yield transaction(f"{day.year}-06-31" if unlisted else day, size, names, missing, pick)
        done += size


def short_transaction(day, size, names, pick):
    counts = [pick.randint(1, 9) for _ in range(size - 1)]
    lines = [f" {pick.choice(names)} {count} X\n" for count in [*counts, -sum(counts)]]
    return f"{day} *\n" + "".join(lines)


def short_ledger(postings, seed):
    pick = random.Random(seed)
    names = [f"Assets:{sign}" for sign in string.ascii_uppercase + string.digits]
    yield opens(names, FIRST_DAY)
    for done in range(0, postings, 8):
        day = FIRST_DAY + datetime.timedelta(days=done * DAYS // postings)
        yield short_transaction(day, min(8, postings - done), names, pick)


def write_files(blocks, count, folder):
    """Writes blocks to so many files of about as many blocks each; the first includes the others."""
    folder.mkdir(parents=True, exist_ok=True)
    parts = ["".join(blocks[len(blocks) * i // count:len(blocks) * (i + 1) // count]) for i in range(count)]
    names = [f"part-{number}.beancount" for number in range(1, count)]
    includes = "".join(f'include "{name}"\n' for name in names)
    for name, text in zip(["main.beancount", *names], [parts[0] + includes, *parts[1:]]):
        (folder / name).write_text(text)


def only_opens(size, seed):
    pick = random.Random(seed)
    done = opened = 0
    while done < size:
        text = opens(accounts(300, pick, opened), FIRST_DAY + datetime.timedelta(days=done * DAYS // size))
        done += len(text)
        opened += 300
        yield text


def main():
    words = argparse.ArgumentParser(description=__doc__, formatter_class=argparse.RawDescriptionHelpFormatter)
    words.add_argument("size", type=int, metavar="POSTINGS|BYTES|LOTS")
    words.add_argument("seed", type=int)
    kinds = words.add_mutually_exclusive_group()
    for kind in ["--unlisted", "--missing", "--short", "--opens", "--lots", "--lots-dense"]:
        kinds.add_argument(kind, action="store_true")
    kinds.add_argument("--hoard", type=int, metavar="ACCOUNTS")
    words.add_argument("--lifo", action="store_true")
    words.add_argument("--files", nargs=2, metavar=("N", "FOLDER"))
    given = words.parse_args()
    hoard = given.hoard and lots.hoard(given.hoard, given.size, "LIFO" if given.lifo else "FIFO")
    short = given.short and short_ledger(given.size, given.seed)
    if given.files:
        count, folder = given.files
        blocks = hoard or short or ledger(given.size, given.seed, given.unlisted, given.missing)
        write_files(list(blocks), int(count), pathlib.Path(folder))
    elif given.opens:
        sys.stdout.writelines(only_opens(given.size, given.seed))
    elif given.lots or given.lots_dense:
        sys.stdout.writelines(lots.ledger(given.size, random.Random(given.seed), given.lots_dense))
    elif hoard or short:
        sys.stdout.writelines(hoard or short)
    else:
        sys.stdout.writelines(ledger(given.size, given.seed, given.unlisted, given.missing))


if __name__ == "__main__":
    main()
