"""Random programs, well shaped for the most part, and changes of files."""
import os
import random
import sys
HERE = os.path.dirname(os.path.abspath(__file__))
sys.path[:0] = [os.environ["ORACLE"], HERE]
import code as files
from values import Num, Day
import verifier
from verifier import *  # noqa

T, X, D, S = ("T",), ("X",), ("D",), ("S",)


def pool(r):
    out = []
    for _ in range(r.choice([0, 3, 6, 10])):
        k = r.random()
        if k < .2:
            out.append(("text", r.choice(["k", "key", "k-1", "a", "", "Assets:Cash", "USD", "漢", "\x00b"])))
        elif k < .5:
            places = r.choice([0, 0, 1, 2, 8, 8, 16, 31, 32])
            count = r.choice([0, 1, -1, 5, 100, r.randint(-10**6, 10**6), r.randint(-10**20, 10**20), 2**127 - 1, -(2**127 - 1), 2**126])
            out.append(("number", Num(count, places)))
        elif k < .6:
            out.append(("day", Day(r.choice([1, 2013, 2014, 9999]), r.randint(1, 12), r.randint(1, 28))))
        elif k < .75:
            out.append(("pattern", r.choice(["cash", "^a", "a|b", "", "[a-z]+", "\\.", "k", "(food|rent)$", "[^:]+"] * 4 + ["(", "a{2,1}", "["])))
        elif k < .85:
            out.append(("texts", tuple(r.choice(["a", "USD", "Assets:Cash", "", "Buy"]) for _ in range(r.randint(1, 3)))))
        elif k < .95:
            out.append(("numbers", r.choice([0, 2, 8, 8]), tuple(r.choice([0, 1, 100, 2 * 10**8, -(10**9), 2**127 - 1]) for _ in range(r.randint(1, 3)))))
        else:
            out.append(("days", tuple(Day(2014, r.randint(1, 12), r.randint(1, 28)) for _ in range(r.randint(1, 3)))))
    return out


class Coder:
    """Writes a section by what stands on its stack."""

    def __init__(self, r, p, name, keys=(), aggs=(), wrong=.02):
        self.r, self.p, self.name, self.keys, self.aggs = r, p, name, list(keys), list(aggs)
        self.b = verifier.Bounds(p.postings, p.digits, p.value_digits, p.version)
        self.code, self.stack, self.slots = [], [], {}
        self.wrong = wrong
        self.base = 0
        self.open = []          # jumps whose target is still to be found: (place, stack, slots)

    def put(self, op, operand=None):
        self.code.append((op, operand))

    def entries(self, *kinds):
        return [i for i, e in enumerate(self.p.pool) if e[0] in kinds]

    def step(self):
        r = self.r
        k = r.random()
        s = self.stack
        if r.random() < self.wrong:
            op = r.choice(list(files.CODES))
            form = files.CODES[op][1]
            operand = None if form is None else r.choice([0, 1, 2, 5, 9, 11, 17, 19, 22, 63, 64, 200, 255, len(self.code), len(self.code) + 1, len(self.code) + 3])
            if op == "ROOT" and operand == 0:
                operand = 1
            self.put(op, operand)
            return
        if k < .3 or not s:
            return self.load()
        if k < .36 and r.random() < .7:
            return self.slot()
        if k < .5 and s[-1] == T and r.random() < .7:
            s.pop()
            self.put("JUMP_IF_FALSE", len(self.code))
            self.open.append((len(self.code) - 1, list(s), dict(self.slots)))
            return
        if k < .53:
            return self.meet(jump=True)
        self.operate()

    def load(self):
        r = self.r
        options = ["truth"]
        if self.name == "last":
            options += ["key"] * bool(self.keys) + ["agg"] * 3 * bool(self.aggs)
        else:
            options += ["col"] * 4 + (["meta"] if self.entries("text") else [])
        if self.entries("number", "text", "day"):
            options.append("const")
        if self.slots:
            options.append("slot")
        k = r.choice(options)
        if k == "truth":
            self.put(r.choice(["TRUE", "FALSE"]))
            self.stack.append(T)
        elif k == "col":
            c = r.choice([0, 1, 2, 3, 4, 5, 6, 7, 8, 9, 9, 10, 11, 11, 11, 12, 13, 14, 15, 16, 17, 17, 18, 18, 20, 21] + [22] * 2 * (self.p.version == 2)
                         + [19] * 2 * (self.name == "row" and not self.p.grouped))
            self.put("LOAD_COL", c)
            self.stack.append(verifier.column_shape(c, self.b))
        elif k == "meta":
            self.put(r.choice(["META", "ENTRY_META", "ANY_META"]), r.choice(self.entries("text")))
            self.stack.append(X)
        elif k == "const":
            i = r.choice(self.entries("number", "text", "day"))
            e = self.p.pool[i]
            self.put("CONST", i)
            self.stack.append(X if e[0] == "text" else D if e[0] == "day" else ("N", e[1].places, abs(e[1].count)))
        elif k == "key":
            i = r.randrange(len(self.keys))
            self.put("LOAD_KEY", i)
            self.stack.append(self.keys[i])
        elif k == "agg":
            i = r.randrange(len(self.aggs))
            self.put("LOAD_AGG", i)
            self.stack.append(self.aggs[i])
        else:
            i = r.choice(list(self.slots))
            self.put("LOAD_SLOT", i)
            self.stack.append(self.slots[i])

    def slot(self):
        i = self.r.choice([0, 1, 5, 63])
        self.put("STORE_SLOT", i)
        self.slots[i] = self.stack.pop()

    def apply(self, op, taken, operand=None, entry=None):
        args = tuple(self.stack[len(self.stack) - taken:])
        try:
            shape = verifier.result(op, operand, args, entry)
            verifier.checked_shape(shape)
        except verifier.Bad:
            if self.r.random() > self.wrong / 4:
                return False
            shape = T
        self.put(op, operand)
        del self.stack[len(self.stack) - taken:]
        self.stack.append(shape)
        return True

    def operate(self):
        r, s = self.r, self.stack
        top = s[-1]
        one = [("IS_NULL", None)]
        if top[0] == "N":
            one += [("NEG", None), ("ABS", None), ("ALIGN", r.randint(top[1], 32))]
            one += [("IN_LIST", i) for i in self.entries("numbers")]
        if top[0] in "APB":
            one += [("NEG", None)]
        if top[0] in "PB":
            one += [("UNITS", None), ("COST", None)] * 2
        if top[0] in "AP":
            one += [("NUMBER", None), ("CURRENCY", None)]
        if top == X:
            one += [("ROOT", r.choice([1, 2, 255])), ("PARENT", None), ("LEAF", None), ("LENGTH", None), ("ROOT_RANK", None)]
            one += [("MATCH", i) for i in self.entries("pattern")] + [("IN_LIST", i) for i in self.entries("texts")]
        if top == S:
            one += [("LENGTH", None)] + [("MATCH_ANY", i) for i in self.entries("pattern")]
        if top == D:
            one += [("YEAR", None), ("MONTH", None), ("DAY", None)] + [("IN_LIST", i) for i in self.entries("days")]
        if top == T:
            one += [("NOT", None)] * 2
        if len(s) > self.base + 1 and r.random() < .6:
            a = s[-2]
            two = []
            if a[0] == "N" and top[0] == "N":
                two += ["ADD", "SUB", "MUL", "EQ", "NE", "LT", "LE", "GT", "GE"]
                if top[1] < a[1]:
                    self.apply("ALIGN", 1, a[1])
            elif a == top and a[0] in "XD":
                two += ["EQ", "NE", "LT", "LE", "GT", "GE"]
            elif a == top == T:
                two += ["EQ", "NE"]
            elif a == X and top == S:
                two += ["IN_SET"]
            if two:
                self.apply(r.choice(two), 2)
                return
        op, operand = r.choice(one)
        self.apply(op, 1, operand, self.p.pool[operand] if op in ("IN_LIST", "MATCH", "MATCH_ANY") else None)

    def meet(self, jump=False):
        """Lets open jumps land here, where the stacks agree."""
        here = len(self.code)
        if not self.open:
            return
        place, stack, slots = self.open[-1]
        want = [s[:2] if s[0] in "NAB" else s[:1] for s in stack]
        # bring this path to the same depth and kinds
        while len(self.stack) > len(stack):
            if self.stack[-1] == T and self.r.random() < .5:
                self.put("JUMP_IF_FALSE", len(self.code) + 1)
            else:
                self.put("STORE_SLOT", 7)
                self.slots[7] = self.stack[-1]
            self.stack.pop()
        have = [s[:2] if s[0] in "NAB" else s[:1] for s in self.stack]
        if have != want and self.r.random() > self.wrong:
            return
        if jump and self.r.random() < .5:
            # this path goes on behind a detour of the other one
            self.put("JUMP", 0)
            mine = (len(self.code) - 1, list(self.stack), dict(self.slots))
            self.code[place] = (self.code[place][0], len(self.code))
            self.open.pop()
            self.stack, self.slots = list(stack), dict(slots)
            self.open.append(mine)
            return
        self.code[place] = (self.code[place][0], len(self.code))
        self.open.pop()
        if len(stack) == len(self.stack):
            self.stack = [max(a, b) if a[0] == b[0] else a for a, b in zip(self.stack, stack)]
        self.slots = {i: max(s, slots[i]) for i, s in self.slots.items() if i in slots and slots[i][0] == s[0] and (s[0] not in "NAB" or s[1] == slots[i][1])}

    def end(self, want):
        """Leaves a stack of what is wanted: a function of a shape for each."""
        for _ in range(60):
            if not self.open:
                break
            self.meet()
            if self.open and self.r.random() < .3:
                place = self.open[-1][0]
                if self.code[place][0] == "JUMP_IF_FALSE":
                    self.code[place] = ("JUMP_IF_FALSE", place + 1)
                    self.open.pop()
        for place, _, _ in self.open:
            self.code[place] = (self.code[place][0], max(place + 1, len(self.code)))
        self.open = []
        while self.stack:
            self.put("STORE_SLOT", 9)
            self.stack.pop()
        for done, test in enumerate(want):
            self.base = done
            for _ in range(30):
                self.load()
                for _ in range(self.r.choice([0, 0, 1, 2])):
                    self.operate()
                if test(self.stack[-1]):
                    break
                self.put("STORE_SLOT", 8)
                self.slots[8] = self.stack.pop()

    def section(self, length, want):
        for _ in range(length):
            self.step()
        self.end(want)
        return self.code, list(self.stack)


def program(r):
    p = files.Program()
    p.version = r.choice([1, 2])
    most = 1_000_000 if p.version == 1 else 4_000_000
    p.postings = r.choice([most] * 20 + [3, 1, 100])
    p.digits = r.choice([20] * 20 + [10, 12, 15])
    p.value_digits = r.choice([28] * 20 + [18, 20, 25])
    p.grouped = r.random() < .5
    p.distinct = r.random() < .3
    p.descending = r.random() < .4
    p.limit = r.choice([None, None, None, 0, 1, 2, 5, 2**32 - 1])
    p.targets = [r.choice(["a", "account", "sum(x)", "漢", "", "a\x07b", "e\u0301"]) for _ in range(r.choice([1, 1, 2, 3]))]
    p.hidden = r.choice([0, 0, 1])
    width = len(p.targets) + p.hidden
    p.order = [r.randrange(width) for _ in range(r.choice([0, 0, 1, 2]))]
    p.pool = pool(r)
    wrong = r.choice([0, 0, 0, 0, .03])
    f = Coder(r, p, "filter", wrong=wrong)
    p.filter, _ = f.section(r.choice([0, 0, 2, 5, 10]), [lambda s: s == T]) if r.random() < .35 else ([("TRUE", None)], None)
    ordered = [(lambda s: s[0] in "NXD") if i in p.order else (lambda s: True) for i in range(width)]
    length = lambda: r.choice([0, 0, 1, 3, 8, 15])  # noqa: E731
    if not p.grouped:
        p.row, _ = Coder(r, p, "row", wrong=wrong).section(length(), ordered)
        return p
    p.keys = r.choice([0, 0, 1, 1, 2])
    kinds = [r.choice(files.AGGREGATE_NAMES) for _ in range(r.choice([0, 1, 1, 2, 3]))]
    fed = [k for k in kinds if k != "COUNT(*)"]
    tests = {"SUM": lambda s: s[0] == "N", "SUM_INVENTORY": lambda s: s[0] in "AP", "MIN": lambda s: s[0] in "NXD", "MAX": lambda s: s[0] in "NXD"}
    c = Coder(r, p, "row", wrong=wrong)
    p.row, stack = c.section(length(), [lambda s: True] * p.keys + [tests.get(k, lambda s: True) for k in fed])
    inputs = iter(stack[p.keys:])
    shapes = []
    for k in kinds:
        s = None if k == "COUNT(*)" else next(inputs, T)
        places = (s[1] if s[0] in "NA" else 8 if s[0] == "P" else 0) if k in ("SUM", "SUM_INVENTORY") else None
        p.aggregates.append((k, places))
        try:
            shapes.append(verifier.aggregate_shape(k, s, p.postings))
        except Exception:
            shapes.append(T)
    p.last, _ = Coder(r, p, "last", stack[:p.keys], shapes, wrong=wrong).section(r.choice([0, 0, 1, 3, 8]), ordered)
    return p


def changed(r, data):
    """The bytes with something else somewhere."""
    data = bytearray(data)
    for _ in range(r.choice([1, 1, 1, 2, 4])):
        k = r.random()
        i = r.randrange(len(data)) if data else 0
        if not data or k < .1:
            data[i:i] = bytes([r.randrange(256)])
        elif k < .2:
            del data[i]
        elif k < .3:
            j = r.randrange(len(data))
            data[i:i] = data[j:j + r.randint(1, 6)]
        elif k < .35:
            del data[i:]
        elif k < .6:
            data[i] = r.choice([0, 1, 2, 3, 8, 0xff, 0x7f, 0x80, 0x10, 0x30, 0x31])
        elif k < .8:
            data[i] = (data[i] + r.choice([-1, 1])) % 256
        else:
            data[i] = r.randrange(256)
    return bytes(data)
