"""Ledgers full of lots, prices and metadata, with every kind of directive between the transactions.

Each line is of the ledger language and in range, and booking finds no fault: accounts are open, transactions
balance, what is sold was bought before, and balances are those of the accounts, where pads don't make them so.
"""
import datetime
from decimal import Decimal

FIRST_DAY = datetime.date(2005, 1, 1)
DAYS = 7000
CASH = ["Assets:Bank:Checking", "Assets:Bank:Savings", "Assets:Cash", "Liabilities:Card:Blue",
        "Liabilities:Card:Gold"]
BROKERS = ["Assets:Broker:Main", "Assets:Broker:Pension", "Assets:US:Vest", "Assets:Wallet"]
SPENT = ["Food:Groceries", "Food:Restaurant", "Home:Rent", "Home:Power", "Car:Fuel", "Car:Repair", "Fun:Books",
         "Fun:Trips", "Kids:School", "Kids:Clothes", "Health:Chemist", "Health:Dentist", "Bank:Fees",
         "Tax:Income"]
EXPENSES = [f"Expenses:{name}" for name in SPENT]
GAINS, PAY, FEES = "Income:Gains", "Income:Pay:Hooli", "Expenses:Broker:Fees"
MONEY = ["USD", "EUR", "GBP"]
HELD = ["VTI", "GOOG", "VBMPX", "AAPL.O", "BTC"]
NAMES = ["Market", "Baker", "Landlord", "Railway", "Book shop", "Chemist", "Town hall", "Café Zürich"]
NOTES = ["Weekly shopping", "Rent", "Tickets", "Bread", "A gift; see the card", "The \\\"blue\\\" one", "Fee",
         "Two books"]
TAGS = ["trip-2014", "tax", "shared", "to/check", "family"]


def draw(pick, weighted):
    return pick.choices(list(weighted), weights=weighted.values())[0]


def amount_of(pick, places):
    return Decimal(pick.randint(1, 10 ** pick.randint(3, 5))).scaleb(-places)


def number(value, pick):
    """A number, or now and then an expression of the same value."""
    form = pick.randrange(40)
    if form == 0:
        part = Decimal(pick.randint(1, 99))
        return f"({value - part} + {part})"
    if form == 1:
        part = amount_of(pick, 2)
        return f"{value + part} - {part}"
    if form == 2:
        return f"{value * 3} - 2 * {value}" if value > 0 else f"-({-value})"
    return f"{value:,}" if form < 6 else f"{value}"


def amount(value, currency, pick):
    return f"{number(value, pick)} {currency}"


def value(day, pick):
    kind = pick.randrange(10)
    if kind < 3:
        return f' "{pick.choice(NOTES)}"'
    return [
        f" {pick.choice(CASH)}",
        f" {day}",
        f" {pick.choice(HELD)}",
        f" #{pick.choice(TAGS)}",
        f" {amount_of(pick, 2)}",
        f" {amount(amount_of(pick, 2), 'USD', pick)}",
        pick.choice([" TRUE", " FALSE", ""]),
    ][kind - 3]


KEYS = ["invoice", "checked", "due", "share-of", "ref_no", "location"]


def entries(day, indent, pick, weights):
    """Metadata lines: none, one, two or three."""
    count = pick.choices(range(len(weights)), weights=weights)[0]
    return "".join(f"{indent}{key}:{value(day, pick)}\n" for key in pick.sample(KEYS, count))


def marks(pick):
    some = [f"#{tag}" for tag in TAGS if pick.randrange(16) == 0]
    if pick.randrange(10) == 0:
        some.append(f"^invoice-{pick.randrange(10_000)}")
    return some


def posting(day, account, rest, pick):
    flag = pick.choice(["! ", "* "]) if pick.randrange(40) == 0 else ""
    comment = "  ; as agreed" if pick.randrange(50) == 0 else ""
    return f"  {flag}{account}{'  ' + rest if rest else ''}{comment}\n" + entries(day, "    ", pick, [85, 11, 4])


class Lots:
    """What is held: by account and currency the units of each lot, which is its price, its day and its label."""

    def __init__(self):
        self.units = {}
        # All lots, of which one is picked, and the place of each among them.
        self.all = []
        self.places = {}

    def buy(self, account, currency, lot, units):
        held = self.units.setdefault((account, currency), {})
        if lot not in held:
            self.places[account, currency, lot] = len(self.all)
            self.all.append((account, currency, lot))
        held[lot] = held.get(lot, 0) + units

    def sell(self, account, currency, price, day, label, units):
        """Takes units under FIFO of the lots that agree with what is given."""
        held = self.units[account, currency]
        agree = [lot for lot in held
                 if (price is None or lot[0] == price) and (day is None or lot[1] == day)
                 and (label is None or lot[2] == label)]
        for lot in sorted(agree, key=lambda lot: lot[1]):
            take = min(units, held[lot])
            units -= take
            held[lot] -= take
            if held[lot] == 0:
                del held[lot]
                self.forget((account, currency, lot))
            if units == 0:
                return

    def forget(self, key):
        place, last = self.places.pop(key), self.all.pop()
        if last != key:
            self.all[place] = last
            self.places[last] = place


class Ledger:
    """The lots and the cash that are held, and the tags and entries that are pushed."""

    def __init__(self, pick, dense):
        self.pick = pick
        self.dense = dense
        self.lots = Lots()
        self.cash = {(account, currency): Decimal(0) for account in CASH for currency in MONEY}
        # The cash at the beginning of the day, which balances ask for.
        self.day = FIRST_DAY
        self.at_first = dict(self.cash)
        # The accounts that were padded on this day, which the next day's first balances serve.
        self.padded = []
        self.pushed = []
        self.closed = 0

    def begin(self, day):
        """The balances of what was padded on the day before: not what there is but for the pads."""
        text = ""
        if day != self.day:
            for account in self.padded:
                self.cash[account, "USD"] += 1 + amount_of(self.pick, 2)
                text += f"{self.day + datetime.timedelta(1)} balance {account} {self.cash[account, 'USD']} USD\n"
            self.padded.clear()
            self.at_first = dict(self.cash)
            self.day = day
        return text

    def pays(self, value, currency, account=None):
        """The account to which so much cash goes."""
        account = account or self.pick.choice(CASH)
        self.cash[account, currency] += value
        return account

    def first_line(self, day):
        pick = self.pick
        flag = draw(pick, {"*": 90, "!": 5, "txn": 5})
        texts = draw(pick, {0: 5, 1: 45, 2: 50})
        words = [pick.choice(NAMES), pick.choice(NOTES)][2 - texts:]
        line = " ".join([str(day), flag, *(f'"{word}"' for word in words), *marks(pick)]) + "\n"
        if pick.randrange(40) == 0:
            line += f"  #{pick.choice(TAGS)} ^ref-{pick.randrange(10_000)}\n"
        return line + entries(day, "  ", pick, [70, 18, 8, 4])

    # The kinds of transactions: the postings of each, as account and what stands behind it. What they buy, sell
    # and pay is counted.

    def spends(self, day):
        """Amounts only."""
        pick = self.pick
        currency = pick.choice(MONEY)
        spent = [amount_of(pick, 2) for _ in range(pick.choice([1, 1, 1, 2, 3]))]
        of_cash = (self.pays(-sum(spent), currency), amount(-sum(spent), currency, pick))
        return [*((pick.choice(EXPENSES), amount(value, currency, pick)) for value in spent), of_cash]

    def spends_the_rest(self, day):
        *spent, (account, _) = self.spends(day)
        return [*spent, (account, "")]

    def buys(self, day):
        pick = self.pick
        account, currency, price = pick.choice(BROKERS), pick.choice(HELD), amount_of(pick, 2)
        units = Decimal(pick.randint(1, 200)) if pick.randrange(2) else amount_of(pick, 3)
        label = f"lot-{pick.randrange(1000)}" if pick.randrange(5) == 0 else None
        self.lots.buy(account, currency, (price, day, label), units)
        parts = [f"{number(price, pick)} USD"]
        if pick.randrange(4) == 0:
            parts.append(str(day))
        if label is not None:
            parts.append(f'"{label}"')
        return [(account, f"{amount(units, currency, pick)} {{{', '.join(parts)}}}"),
                (self.pays(-units * price, "USD"), "")]

    def sells(self, day):
        """Sells what a lot holds or less, by some of its parts; so other lots may be taken in its place."""
        pick = self.pick
        if not self.lots.all:
            return self.buys(day)
        account, currency, lot = pick.choice(self.lots.all)
        price, bought, label = lot
        units = self.lots.units[account, currency][lot]
        part = units if pick.randrange(2) else min(units, Decimal(1))
        has_price, has_day = pick.choices([(True, True), (False, True), (True, False), (False, False)],
                                          weights=[7, 1, 1, 1])[0]
        parts = [f"{price} USD"] * has_price + [str(bought)] * has_day
        has_label = label is not None and pick.randrange(2) == 0
        if has_label:
            parts.append(f'"{label}"')
        self.lots.sell(account, currency, price if has_price else None, bought if has_day else None,
                       label if has_label else None, part)
        at = amount_of(pick, 2)
        gained = part * at - Decimal("9.95")
        return [
            (account, f"{amount(-part, currency, pick)} {{{', '.join(parts)}}} @ {number(at, pick)} USD"),
            (FEES, "9.95 USD"),
            (self.pays(gained, "USD"), amount(gained, "USD", pick)),
            (GAINS, ""),
        ]

    def exchanges(self, day):
        pick = self.pick
        given, taken = pick.sample(MONEY, 2)
        units, rate = amount_of(pick, 2), Decimal(pick.randint(5_000, 20_000)).scaleb(-4)
        worth = units * rate
        price = f"@ {rate} {taken}" if pick.randrange(3) else f"@@ {worth} {taken}"
        return [
            (self.pays(-units, given), f"{amount(-units, given, pick)} {price}"),
            (self.pays(worth, taken), amount(worth, taken, pick)),
        ]

    def is_paid(self, day):
        pick = self.pick
        pay = amount_of(pick, 2)
        return [(PAY, amount(-pay, "USD", pick)), (self.pays(pay, "USD", "Assets:Bank:Checking"), "USD")]

    def transaction(self, day):
        kinds = {Ledger.spends: 0 if self.dense else 35, Ledger.spends_the_rest: 20, Ledger.buys: 18,
                 Ledger.sells: 12, Ledger.exchanges: 12, Ledger.is_paid: 3}
        postings = draw(self.pick, kinds)(self, day)
        lines = [posting(day, account, rest, self.pick) for account, rest in postings]
        return self.first_line(day) + "".join(lines), len(postings)

    # What stands between transactions.

    def price(self, day):
        pick = self.pick
        return f"{day} price {pick.choice(HELD)} {amount(amount_of(pick, 2), 'USD', pick)}\n"

    def balance(self, day):
        """What is held, or off by as much as is tolerated."""
        pick = self.pick
        account, currency = pick.choice(CASH), pick.choice(MONEY)
        held, tolerance = self.at_first[account, currency], ""
        if pick.randrange(3) == 0:
            off = amount_of(pick, 4)
            held, tolerance = held + off, f" ~ {off}"
        return f"{day} balance {account} {number(held, pick)}{tolerance} {currency}\n"

    def pad(self, day):
        """A pad, of an account that has none on that day yet."""
        account = self.pick.choice(CASH)
        if account in self.padded:
            return self.balance(day)
        self.padded.append(account)
        return f"{day} pad {account} Equity:Opening-Balances\n"

    def note(self, day):
        return f'{day} note {self.pick.choice(CASH)} "Called about the card\\nand again on {day}"\n'

    def document(self, day):
        words = [f'"statements/{day}.pdf"', *marks(self.pick)]
        return f"{day} document {self.pick.choice(CASH)} {' '.join(words)}\n"

    def event(self, day):
        return f'{day} event "location" "{self.pick.choice(["Bern", "Paris, France", "New York"])}"\n'

    def custom(self, day):
        return f'{day} custom "budget"{"".join(value(day, self.pick) for _ in range(self.pick.randint(0, 3)))}\n'

    def query(self, day):
        return f'{day} query "cash-{day}" "SELECT account, sum(position)\n  WHERE account ~ \'Cash\'"\n'

    def opens_and_closes(self, day):
        self.closed += 1
        name = f"Assets:Deposit:D{self.closed}"
        end = day + datetime.timedelta(365)
        return f"{day} open {name} USD, EUR\n" + entries(day, "  ", self.pick, [50, 50]) + f"{end} close {name}\n"

    def push(self, day):
        tag = self.pick.choice(TAGS)
        push, pop = self.pick.choice([(f"pushtag #{tag}\n", f"poptag #{tag}\n"),
                                      (f'pushmeta trip: "{tag}"\n', "popmeta trip:\n")])
        self.pushed.append(pop)
        return push

    def pop(self):
        """Takes back the latest push."""
        return self.pushed.pop()

    def between(self, day):
        kinds = {Ledger.price: 40, Ledger.balance: 25, Ledger.note: 8, Ledger.document: 8, Ledger.event: 6,
                 Ledger.custom: 5, Ledger.pad: 3, Ledger.opens_and_closes: 3, Ledger.query: 1, Ledger.push: 2}
        kind = draw(self.pick, kinds)
        text = kind(self, day)
        if kind in (Ledger.price, Ledger.note, Ledger.event) and self.pick.randrange(10) == 0:
            text += entries(day, "  ", self.pick, [0, 80, 20])
        return text


def front(pick):
    yield 'option "title" "A ledger of lots"\noption "operating_currency" "USD"\n\n* Accounts\n\n'
    for currency in [*MONEY, *HELD]:
        entries_of = f'  name: "{currency} of some exchange"\n  decimals: {pick.randint(0, 6)}\n'
        yield f"{FIRST_DAY} commodity {currency}\n{entries_of}"
    for account in [*CASH, *EXPENSES, GAINS, PAY, FEES]:
        currencies = "" if pick.randrange(3) else f" {', '.join(MONEY)}"
        yield f"{FIRST_DAY} open {account}{currencies}\n"
    for account in BROKERS:
        yield f'{FIRST_DAY} open {account} {",".join(HELD)} "FIFO"\n  broker: "Hooli Trust"\n'
    yield f"{FIRST_DAY} open Equity:Opening-Balances\n\n* Transactions\n\n"


def ledger(postings, pick, dense):
    """A ledger of at least so many postings; where it is dense, no transaction has amounts alone."""
    yield from front(pick)
    book = Ledger(pick, dense)
    done = 0
    while done < postings:
        day = FIRST_DAY + datetime.timedelta(days=done * DAYS // postings)
        yield book.begin(day)
        while pick.randrange(4) == 0:
            yield book.between(day)
        if book.pushed and pick.randrange(12) == 0:
            yield book.pop()
        if pick.randrange(100) == 0:
            yield f"; checked up to here on {day}\n"
        text, count = book.transaction(day)
        yield text + "\n"
        done += count
    yield book.begin(book.day + datetime.timedelta(1))
    while book.pushed:
        yield book.pop()


def hoard(accounts, lots, method):
    """So many accounts, each of which buys so many lots of one unit, one a day, and then sells them one by one
    by a booking method."""
    names = [f"Assets:Hoard:H{number}" for number in range(accounts)]
    first, last = datetime.date(1700, 1, 1), datetime.date(2000, 1, 1)
    yield "".join(f'{first} open {name} VTI "{method}"\n' for name in names)
    yield f"{first} open Assets:Cash\n{first} open {GAINS}\n"
    for number in range(lots):
        day, cost = first + datetime.timedelta(number), 100 + number % 997
        for name in names:
            yield f"{day} *\n  {name}  1 VTI {{{cost} USD}}\n  Assets:Cash\n"
    for _ in range(lots):
        for name in names:
            yield f"{last} *\n  {name}  -1 VTI {{}} @ 99 USD\n  Assets:Cash  99 USD\n  {GAINS}\n"
