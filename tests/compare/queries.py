"""Random queries: typed ones by their kind, and others."""
import random
import ledgers

TEXTS = ["'cash'", "'a'", "'Assets:Cash'", "'USD'", "\"x'y\"", "''", "'Buy'", "'2014-01-02'", "'漢'", "'Assets'", "'*'"]
PATTERNS = ["cash", "^assets", "A|B", "[a-z]+:gain", "\\.", "", "(food|rent)$", "ö", ".", "^.$", "a{2}", "[^:]+:[^:]+:", "\\d+",
            "k", "ss", "\\bcash\\b", "u+s?d", "é", "x*y"]
NUMBERS = ["0", "1", "10.5", "100", "0.005", "2", "3.25", "12345678901234567890", "1.00000001", "255", "7.5000", "00", "-1"]
DAYS = ["2014-01-02", "2013-05-05", "2014-02-01", "0001-01-01", "9999-12-31"]
CURRENCIES = ["'USD'", "'EUR'", "'HOOL'", "'X'"]


class Gen:
    """Expressions of a kind; where `aggregated` only aggregates and keys."""

    odd = 0

    def __init__(self, r, place="target", keys=()):
        self.r = r
        self.place = place          # target, grouped, where, from, inside
        self.keys = list(keys)      # (kind, text)

    def sub(self, place):
        return Gen(self.r, place, self.keys)

    def pick(self, *options):
        return self.r.choice(options)

    def expr(self, kind, d):
        r = self.r
        if Gen.odd and r.random() < Gen.odd:
            kind = r.choice("TXDNSAPB")
            if r.random() < .4:
                return r.choice(["NULL", "balance", "count(*)", "sum(number)", "first(account)", "account", "1", "position", "number * number * number * number",
                                 "10000000000000000000 * number", "foo", "avg(number)", "has_account('a')", "meta(account)", "root(account, 0)", "root(account)", "length(account, account)",
                                 "sum(*)", "1.0 + 0.0000000000000000000000000000000000001", "number IN (1, 'a')", "account ~ account", "number / 2", "cost(cost(sum(position)))", "sum(cost(position))",
                                 "170141183460469231731687303715884105728", "abs(-170141183460469231731687303715884105727)", "number IN (0.000000000000000000001)", "x", "2", "price", "currency(balance)"])
        if self.place == "grouped":
            own = [t for k, t in self.keys if k == kind]
            if own and r.random() < .4:
                return r.choice(own)
            if r.random() < (.6 if d > 0 else .9) or kind in "SPB":
                found = self.aggregate(kind, d)
                if found:
                    return found
            if d <= 0 or kind in "SAP":
                leaf = self.literal(kind)
                if leaf:
                    return leaf
                if own:
                    return r.choice(own)
                return self.aggregate(kind, d) or self.literal("N")
        text = getattr(self, kind)(d)
        if r.random() < .04:
            text = f"({text})"
        elif r.random() < .01:
            text = f"+{text}" if not text.startswith("NOT") else f"+({text})"
        return text

    def literal(self, kind):
        r = self.r
        return {"T": r.choice(["TRUE", "FALSE", "true"]), "X": r.choice(TEXTS), "D": r.choice(DAYS),
                "N": r.choice(NUMBERS)}.get(kind)

    def aggregate(self, kind, d):
        g = self.sub("inside")
        r = self.r
        if kind == "N":
            k = r.random()
            if k < .35:
                return r.choice(["count(*)", "COUNT( * )"])
            if k < .6:
                return f"count({g.expr(r.choice('TXDSNAP'), d - 1)})"
            if k < .8:
                return f"sum({g.expr('N', d - 1)})"
            return f"{r.choice(['first', 'last', 'min', 'max'])}({g.expr('N', d - 1)})"
        if kind == "B":
            k = r.random()
            if d > 0 and k < .3:
                return f"{r.choice(['units', 'cost'])}({self.aggregate('B', d - 1)})"
            if d > 0 and k < .35:
                return f"-{self.aggregate('B', d - 1)}"
            return f"sum({g.expr(r.choice('PPA'), d - 1)})"
        if kind in "XD":
            return f"{r.choice(['first', 'last', 'min', 'max'])}({g.expr(kind, d - 1)})"
        if kind in "TSAP":
            return f"{r.choice(['first', 'last'])}({g.expr(kind, d - 1)})"
        return None

    # -- kinds

    def T(self, d):
        r = self.r
        if d <= 0:
            return self.pick("TRUE", "FALSE", self.cmp(0), self.match(0))
        k = r.random()
        if k < .2:
            return f"{self.boolean(d - 1)} {self.pick('AND', 'and', 'OR', 'OR')} {self.boolean(d - 1)}"
        if k < .3:
            return f"NOT {self.boolean(d - 1)}"
        if k < .45:
            return self.match(d)
        if k < .6:
            return self.contained(d)
        if k < .68 and self.place != "grouped":
            return f"{self.expr(r.choice('TXDNSAP'), d - 1)} {self.pick('=', '!=')} NULL" if r.random() < .8 else \
                f"NULL {self.pick('=', '!=')} {self.expr(r.choice('XDN'), d - 1)}"
        if k < .72 and self.place == "from":
            return f"has_account('{r.choice(PATTERNS)}')"
        return self.cmp(d)

    def boolean(self, d):
        t = self.expr("T", d)
        return f"({t})" if self.r.random() < .6 else t

    def cmp(self, d):
        r = self.r
        kind = r.choice("XDNNNNT")
        op = r.choice(["=", "!="]) if kind == "T" else r.choice(["=", "!=", "<", "<=", ">", ">="])
        a, b = self.expr(kind, d - 1), self.expr(kind, d - 1)
        if kind == "T":
            a, b = f"({a})", f"({b})"
        return f"{a}{r.choice([' ', ''])}{op}{r.choice([' ', ''])}{b}"

    def match(self, d):
        q = self.pick("'", '"')
        return f"{self.expr('X', d - 1)} ~ {q}{self.r.choice(PATTERNS)}{q}"

    def contained(self, d):
        r = self.r
        k = r.random()
        if k < .3:
            return f"{self.expr('X', d - 1)} IN {self.expr('S', d - 1)}"
        kind = r.choice("XDN")
        items = [self.literal(kind).replace("-1", "1") if kind == "N" else self.literal(kind) for _ in range(r.choice([1, 2, 3]))]
        return f"{self.expr(kind, d - 1)} IN ({', '.join(items)})"

    def X(self, d):
        r = self.r
        if self.place == "grouped":
            return self.pick(self.literal("X"), f"parent({self.expr('X', d - 1)})", f"root({self.expr('X', d - 1)}, {r.randint(1, 3)})",
                             f"leaf({self.expr('X', d - 1)})")
        if d <= 0 or r.random() < .5:
            if self.place == "from":
                return self.pick("flag", "payee", "narration", self.pick(*TEXTS), f"entry_meta('{r.choice(ledgers.KEYS)}')")
            return self.pick("account", "account", "payee", "narration", "flag", "posting_flag", "currency", "cost_currency",
                             "cost_label", self.pick(*TEXTS), f"{self.pick('meta', 'entry_meta', 'any_meta', 'META')}('{r.choice(ledgers.KEYS)}')")
        if self.place == "from":
            return self.pick(f"leaf({self.X(d - 1)})", f"parent({self.X(d - 1)})", f"root({self.X(d - 1)}, {r.randint(1, 4)})")
        return self.pick(f"root({self.expr('X', d - 1)}, {r.choice([1, 2, 3, 255])})", f"parent({self.expr('X', d - 1)})",
                         f"leaf({self.expr('X', d - 1)})", f"currency({self.expr(r.choice('AP'), d - 1)})")

    def D(self, d):
        if self.place == "grouped":
            return self.literal("D")
        if self.place == "from":
            return self.pick("date", self.pick(*DAYS))
        return self.pick("date", "date", "cost_date", self.pick(*DAYS))

    def N(self, d):
        r = self.r
        if d <= 0 or r.random() < .4:
            if self.place == "grouped":
                return self.literal("N")
            if self.place == "from":
                return self.pick("year", "month", "day", self.pick(*NUMBERS))
            return self.pick("number", "number", "cost_number", "year", "month", "day", "lineno", self.pick(*NUMBERS))
        k = r.random()
        if k < .5:
            a, b = self.expr("N", d - 1), self.expr("N", d - 1)
            if r.random() < .5:
                b = f"({b})"
            return f"{a} {self.pick('+', '-', '*')} {b}"
        if k < .6:
            return f"-{self.expr('N', d - 1)}" if r.random() < .8 else f"-({self.expr('N', d - 1)})"
        if k < .7:
            return f"abs({self.expr('N', d - 1)})"
        if k < .8:
            return f"length({self.expr(r.choice('XS'), d - 1)})"
        if k < .9 and self.place not in ("from",):
            return f"number({self.expr(r.choice('AP'), d - 1)})"
        return f"{self.pick('year', 'month', 'day')}({self.expr('D', d - 1)})"

    def S(self, d):
        return self.pick("tags", "links")

    def A(self, d):
        r = self.r
        if d > 0 and r.random() < .5:
            return self.pick(f"units({self.expr('P', d - 1)})", f"cost({self.expr('P', d - 1)})", f"-{self.A(d - 1)}")
        return self.pick("weight", "price", "units(position)")

    def P(self, d):
        if d > 0 and self.r.random() < .15:
            return f"-{self.P(d - 1)}"
        return "position"

    def B(self, d):
        if self.place == "grouped":
            return self.aggregate("B", d)
        if d > 0 and self.r.random() < .4:
            return f"{self.pick('units', 'cost')}({self.B(d - 1)})"
        return "balance"


def filters(r, out, where=True):
    if r.random() < .25:
        out.append("FROM " + Gen(r, "from").expr("T", r.choice([1, 2, 2])))
    if where and r.random() < .4:
        out.append("WHERE " + Gen(r, "where").expr("T", r.choice([1, 2, 3])))


def select(r):
    out = [r.choice(["SELECT", "select", "SELECT"])]
    if r.random() < .2:
        out.append("DISTINCT")
    depth = r.choice([0, 1, 1, 2, 3])
    mode = r.choice(["plain", "plain", "implicit", "group"])
    keys = []
    names = []
    targets = []
    if mode == "plain":
        kinds = [r.choice("TXXDNNNSAPPB") for _ in range(r.choice([1, 2, 3, 4]))]
        targets = [(k, Gen(r).expr(k, depth)) for k in kinds]
        if r.random() < .05:
            targets = [("*", "*")]
    else:
        kinds = [r.choice("TXXXDNSAP") for _ in range(r.choice([0, 1, 1, 2]) if mode == "implicit" else r.choice([1, 1, 2]))]
        keys = [(k, Gen(r, "inside").expr(k, min(depth, r.choice([0, 1])))) for k in kinds]
        g = Gen(r, "grouped", keys)
        aggs = [(k, g.aggregate(k, depth) if mode == "implicit" else g.expr(k, depth)) for k in
                (r.choice("NNNBBXDT") for _ in range(r.choice([1, 1, 2, 3])))]
        targets = ([t for t in keys if mode == "implicit" or r.random() < .8] + aggs)
        if r.random() < .3:
            r.shuffle(targets)
    written = []
    for k, t in targets:
        if t != "*" and r.random() < .2:
            name = r.choice(["x", "y", "Total", "number", "account", "k_1"])
            names.append((k, name))
            t = f"{t} AS {name}"
        else:
            names.append((k, None))
        written.append(t)
    out.append(r.choice([", ", ","]).join(written))
    filters(r, out)
    if mode == "group":
        items = []
        for k, t in keys:
            place = next((i for i, (_, u) in enumerate(targets) if u == t), None)
            if place is not None and names[place][1] and r.random() < .5:
                items.append(names[place][1])
            elif place is not None and r.random() < .4:
                items.append(str(place + 1))
            else:
                items.append(t)
        out.append("GROUP BY " + ", ".join(items))
    if r.random() < .45:
        items = []
        for _ in range(r.choice([1, 1, 2])):
            good = [i for i, (k, _) in enumerate(targets) if k in "NXD"]
            k = r.random()
            if good and k < .5:
                i = r.choice(good)
                items.append(r.choice([str(i + 1), names[i][1] or targets[i][1]]))
            elif mode == "plain":
                items.append(Gen(r).expr(r.choice("NXD"), r.choice([0, 1, 2])))
            else:
                items.append(Gen(r, "grouped", keys).expr(r.choice("NXD"), r.choice([0, 1])))
        out.append("ORDER BY " + ", ".join(items) + r.choice(["", "", " ASC", " DESC", " desc"]))
    if r.random() < .2:
        out.append(f"LIMIT {r.choice([0, 1, 2, 3, 10, 4294967295])}")
    return " ".join(out)


def query(r):
    k = r.random()
    if k < .08:
        out = ["JOURNAL"] + ([f"'{r.choice(PATTERNS)}'"] if r.random() < .6 else []) + \
            ([f"AT {r.choice(['units', 'cost', 'COST'])}"] if r.random() < .5 else [])
        filters(r, out, where=False)
        t = " ".join(out)
    elif k < .16:
        out = ["BALANCES"] + ([f"AT {r.choice(['units', 'cost'])}"] if r.random() < .5 else [])
        filters(r, out)
        t = " ".join(out)
    else:
        t = select(r)
    if r.random() < .05:
        t += ";"
    return t


WORDS = ["SELECT", "FROM", "WHERE", "GROUP", "BY", "ORDER", "LIMIT", "AS", "NULL", "NOT", "AND", "OR", "IN", "~", "(", ")", ",",
         "*", "/", "1", "2014-01-02", "2014-02-30", "'x'", "account", "balance", "sum", "count(*)", "foo", "price", "avg", "HAVING",
         "CLOSE", "ON", "-", "+", "=", "!=", "<", "TRUE", "1.", "'", "é", "position", "meta('k')", "root", "tags", "DESC", "AT", ";",
         "JOURNAL", "BALANCES", "DISTINCT", "cost", "length", "number", "999999999999999999999999999999999999999", "0.0000000000000000000000000000001"]


def odd(r):
    """A query of the grammar, with an expression of another kind here and there."""
    Gen.odd = r.choice([.02, .05, .1, .2])
    try:
        t = query(r)
    finally:
        Gen.odd = 0
    if r.random() < .1:
        t = t.replace("GROUP BY", "GROUP BY " + r.choice(["1, ", "7, ", "x, ", "count(*), ", "year, "]))
    if r.random() < .1:
        t = t.replace("ORDER BY", "ORDER BY " + r.choice(["1, ", "7, ", "x, ", "position, ", "balance, ", "tags, ", "TRUE, ", "count(*), "]))
    return t


def spoiled(r):
    """A query that is changed somewhere, mostly no longer right."""
    t = query(r)
    import re
    for _ in range(r.choice([1, 1, 1, 2, 3])):
        pieces = re.findall(r"'[^']*'|\"[^\"]*\"|[A-Za-z_0-9.]+|\s+|.", t)
        if not pieces:
            break
        i = r.randrange(len(pieces))
        k = r.random()
        if k < .3:
            pieces[i] = r.choice(WORDS)
        elif k < .5:
            del pieces[i]
        elif k < .8:
            pieces.insert(i, " " + r.choice(WORDS) + " ")
        elif k < .9:
            j = r.randrange(len(pieces))
            pieces[i], pieces[j] = pieces[j], pieces[i]
        else:
            t2 = "".join(pieces)
            j = r.randrange(len(t2) + 1)
            pieces = [t2[:j] + r.choice("'\"()*,;é/.\x00\t\n~!<>=+-0a") + t2[j:]]
        t = "".join(pieces)
    return t
