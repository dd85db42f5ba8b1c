"""Random ledgers: most of it right, some of it wrong."""
import random

ACCOUNTS = ["Assets:Cash", "Assets:Cash:Purse", "Assets:Inv", "Assets:Inv:A-1", "Liabilities:Card", "Equity:Open",
            "Income:Gain", "Income:Pay:2014", "Expenses:Food", "Expenses:Food:Öl", "Expenses:Rent", "Assets:1Bank"]
PLAIN = ["USD", "EUR", "CAD", "X", "A.B'C-D_E9"]
UNITS = ["HOOL", "ACME", "X", "USD"]
TEXTS = ["", "Buy", "Sell", "Market", "a b", "Überweisung", "漢字 ok", "x'y", "quote \\\" in", "tab\\tin", "back\\\\slash",
         "two\\nlines", "ＷＩＤＥ", "e\u0301", "cash", "CASH", "ß", "K", "ſ"]
TAGS = ["#a", "#trip", "#b-1", "#Z/9", "#x_y", "#a.b"]
LINKS = ["^l1", "^inv-9", "^a.b"]
KEYS = ["k", "key", "k-1", "note_x", "kK"]


def number(r, small=False):
    kind = r.random()
    if kind < .5:
        t = str(r.randint(0, 100))
    elif kind < .75:
        t = f"{r.randint(0, 1000)}.{r.randint(0, 99):02d}"
    elif kind < .85:
        t = f"{r.randint(0, 9)}.{r.randint(0, 10**8 - 1):08d}"
    elif kind < .9:
        t = f"{r.randint(1, 999)},{r.randint(0, 999):03d}.5"
    elif kind < .93:
        t = str(r.randint(0, 10 ** 12 - 1))
    elif kind < .95:
        t = f"{r.randint(1, 20)}."
    elif kind < .97:
        t = "0." + "0" * r.randint(0, 6) + "5"
    else:
        t = f"({r.randint(0, 9)} + {r.randint(0, 9)}.{r.randint(0, 9)} * 2 - 1)"
    return t


def signed(r):
    return ("-" if r.random() < .45 else "") + number(r)


def value(r):
    return r.choice(["", '"' + r.choice(TEXTS) + '"', r.choice(ACCOUNTS), "2014-03-0" + str(r.randint(1, 9)),
                     r.choice(PLAIN), r.choice(TAGS), signed(r), signed(r) + " " + r.choice(PLAIN), "TRUE", "FALSE"])


def meta(r, indent):
    return f"{indent}{r.choice(KEYS)}: {value(r)}\n"


class Maker:
    def __init__(self, r):
        self.r = r
        self.day = 2
        self.month = 1
        self.lots = []

    def date(self):
        r = self.r
        if r.random() < .3:
            self.day += r.randint(0, 3)
        if self.day > 28:
            self.day, self.month = 1, min(12, self.month + 1)
        if r.random() < .05:
            return f"2013-{r.randint(1, 12):02d}-{r.randint(1, 28):02d}"
        sep = "/" if r.random() < .05 else "-"
        return f"2014{sep}{self.month:02d}{sep}{self.day:02d}"

    def head(self):
        r = self.r
        t = f"{self.date()} {r.choice(['*', '*', '*', '!', 'txn'])}"
        k = r.random()
        if k < .5:
            t += f' "{r.choice(TEXTS)}"'
        elif k < .85:
            t += f' "{r.choice(TEXTS)}" "{r.choice(TEXTS)}"'
        for tag in r.sample(TAGS, r.choice([0, 0, 0, 1, 2])):
            t += " " + tag
        for link in r.sample(LINKS, r.choice([0, 0, 0, 1])):
            t += " " + link
        return t + "\n"

    def braces(self, account):
        r = self.r
        held = [l for l in self.lots if l[0] == account]
        if held and r.random() < .6:
            _, cur, cost, ccur, day, label = r.choice(held)
            parts = r.choice([[], [], [f"{cost} {ccur}"], [day], [f"{cost} {ccur}", day]])
            if label and r.random() < .3:
                parts = parts + [f'"{label}"']
            return cur, parts, True
        cur = r.choice(UNITS)
        cost, ccur = number(r), r.choice(PLAIN[:3])
        parts = [f"{cost} {ccur}"]
        day = f"2014-{self.month:02d}-{min(self.day, 28):02d}"
        if r.random() < .2:
            day = f"2013-{r.randint(1, 12):02d}-05"
            parts.append(day)
        label = r.choice(["lot1", "B"]) if r.random() < .2 else None
        if label:
            parts.append(f'"{label}"')
        self.lots.append((account, cur, cost, ccur, day, label))
        r.shuffle(parts)
        return cur, parts, False

    def posting(self):
        r = self.r
        account = r.choice(ACCOUNTS)
        t = "  " + r.choice(["", "", "", "", "", "! ", "* "]) + account
        k = r.random()
        if k < .25:
            account = r.choice(["Assets:Inv", "Assets:Inv:A-1"])
            cur, parts, sells = self.braces(account)
            sign = "-" if (sells and r.random() < .9) else ("-" if r.random() < .05 else "")
            t = f"  {account}  {sign}{r.randint(0, 12)} {cur} {{{', '.join(parts)}}}"
            if r.random() < .3:
                t += f" @ {number(r)} {r.choice(PLAIN[:3])}"
        elif k < .85:
            t += f"  {signed(r)} {r.choice(PLAIN)}"
            if r.random() < .2:
                t += f" {r.choice(['@', '@@'])} {signed(r) if r.random() < .1 else number(r)} {r.choice(PLAIN[:3])}"
        elif k < .9:
            t += f"  {r.choice(PLAIN)}"
        if r.random() < .05:
            t += "  ; a comment"
        t += "\n"
        while r.random() < .15:
            t += meta(r, "    ")
        return t

    def balanced(self):
        """A transaction that comes to 0."""
        r = self.r
        t = self.head()
        cur, n = r.choice(PLAIN[:3]), number(r)
        a, b = r.sample(ACCOUNTS, 2)
        while r.random() < .15:
            t += meta(r, "  ")
        t += f"  {a}  {n} {cur}\n"
        while r.random() < .15:
            t += meta(r, "    ")
        t += f"  {b}" + (f"  -({n}) {cur}" if r.random() < .5 else "") + "\n"
        return t

    def wild(self):
        r = self.r
        t = self.head()
        while r.random() < .2:
            t += meta(r, "  ")
        if r.random() < .05:
            t += f"  {r.choice(TAGS)} {r.choice(LINKS)}\n"
        for _ in range(r.choice([1, 2, 2, 2, 3, 3, 4])):
            t += self.posting()
        if r.random() < .4:
            t += f"  {r.choice(ACCOUNTS)}\n"
        return t

    def other(self):
        r = self.r
        a, b = r.choice(ACCOUNTS), r.choice(ACCOUNTS)
        return self.date() + " " + r.choice([
            f"balance {a} {signed(r)} {r.choice(PLAIN)}",
            f"balance {a} {signed(r)} ~ 10.5 {r.choice(PLAIN)}",
            f"pad {a} {b}\n{self.date()} balance {a} {signed(r)} {r.choice(PLAIN)}",
            f"pad {a} {b}", f"close {a}", f"open {r.choice(ACCOUNTS)}", f'note {a} "n"',
            f"price HOOL {number(r)} USD", f'event "a" "b"', f'document {a} "d.pdf" #t ^l', f'query "q" "SELECT 1"',
            f'custom "c" "x" TRUE 1 USD', f"commodity {r.choice(PLAIN)}"]) + "\n"

    def bad(self):
        r = self.r
        return r.choice(['plugin "x"\n', 'option "title" "T"\n', 'option "booking_method" "FIFO"\n', "poptag #zz\n",
                         "2014-02-30 note Assets:Cash \"x\"\n", "@@@\n", "* a skipped line\n", "   Assets:Cash 1 USD\n",
                         "2014-01-01 opem Assets:Cash\n", "pushtag #p\n", "poptag #p\n", "pushmeta k: 1 USD\n", "popmeta k:\n",
                         "\n", "; comment\n", '2014-01-01 * "a\nb"\n  Assets:Cash 1 USD\n  Equity:Open\n', 'include "l"\n'])


def ledger(r, size=None, kind=None):
    m = Maker(r)
    out = []
    kind = kind or r.choice(["calm", "calm", "mixed", "wild"])
    missing = .02 if kind == "calm" else .1
    for a in ACCOUNTS:
        if r.random() < missing:
            continue
        tail = ""
        if r.random() < .2 and not a.startswith("Assets:Inv"):
            tail += " " + ",".join(r.sample(PLAIN, 3))
        if a.startswith("Assets:Inv"):
            tail += f' "{r.choice(["STRICT", "FIFO", "FIFO", "LIFO", "NONE", "FIFO"])}"'
        elif r.random() < .03:
            tail += ' "AVERAGE"'
        out.append(f"2013-01-01 open {a}{tail}\n")
    n = size if size is not None else r.choice([0, 1, 3, 8, 8, 15, 25])
    for _ in range(n):
        k = r.random()
        if kind == "calm":
            out.append(m.balanced() if k < .55 else m.wild() if k < .9 else m.other())
        elif kind == "mixed":
            out.append(m.balanced() if k < .3 else m.wild() if k < .75 else m.other() if k < .95 else m.bad())
        else:
            out.append(m.wild() if k < .5 else m.other() if k < .75 else m.bad())
        if r.random() < .3:
            out.append("\n")
    return "".join(out).encode()
