"""Writes cases of tests/cli; what is wanted comes from the oracle. cases.py OUT [--print]"""
import os
import sys
HERE = os.path.dirname(os.path.abspath(__file__))
sys.path[:0] = [os.environ["ORACLE"], HERE]
from cli import run_words, MemoryStore

OUT = sys.argv[1]
PRINT = "--print" in sys.argv
LOTS = """2014-01-01 open Assets:Inv HOOL "FIFO"
2014-01-01 open Assets:Cash
2014-01-01 open Income:Gain
2014-01-02 * "Buy"
  Assets:Inv  10 HOOL {100 USD}
  Assets:Cash
2014-01-03 * "Buy"
  Assets:Inv  5 HOOL {110 USD}
  Assets:Cash
2014-02-01 * "Sell"
  Assets:Inv  -12 HOOL {}
  Assets:Cash  1300.00 USD
  Income:Gain
"""
START = """2014-01-01 open Assets:Cash
2014-01-01 open Equity:Open
2014-01-02 * "Start"
  Assets:Cash  100.00 USD
  Equity:Open  -100.00 USD
"""
PRICE = """2014-01-01 open Assets:Inv
2014-01-01 open Assets:Cash
2014-01-01 open Equity:Open
2014-01-02 * "Price"
  Assets:Inv  3 X @ 0.335 USD
  Assets:Cash  0.00 USD
  Equity:Open
"""
BOUGHT = """2014-01-01 open Assets:Inv
2014-01-01 open Assets:Cash
2014-01-02 * "Buy"
  Assets:Inv  2 HOOL @ 10.50 USD
  Assets:Cash  -21.00 USD
"""
EXCHANGED = """2014-01-01 open Assets:Cash
2014-01-02 * "Exchange"
  Assets:Cash  -400.00 USD @@ 436.01 CAD
  Assets:Cash  436.01 CAD
"""
META = """2014-01-01 open Assets:Cash
2014-01-01 open Equity:Open
2014-01-02 * "Start"
  k: 1.50 USD
  Assets:Cash  100.00 USD
    k: #t
  Equity:Open  -100.00 USD
"""
COUNT1 = bytes.fromhex("42514c430001000f4240141c01000000010008636f756e74282a29000000" "01000000000100000000010700")
COUNT2 = bytes.fromhex("42514c430002003d0900141c01000000010008636f756e74282a29000000" "01000000000100000000010700")


def compiled(text, *options):
    store = MemoryStore({})
    out, err, status = run_words(["compile", text, "f", *options], store, 2)
    assert (err, status) == (b"", 0), err
    return store.texts["f"]


def first_version(data):
    data = bytearray(data)
    data[5] = 1
    if data[6:10] == b"\x00\x3d\x09\x00":
        data[6:10] = b"\x00\x0f\x42\x40"
    return bytes(data)


def hexed(data):
    t = data.hex()
    return "".join(t[i:i + 60] + "\n" for i in range(0, len(t), 60))


def is_plain(data):
    try:
        t = data.decode("ascii")
    except UnicodeDecodeError:
        try:
            t = data.decode()
        except UnicodeDecodeError:
            return False
    return all(c == "\n" or c >= " " for c in t) and (not t or t.endswith("\n")) and "\n== " not in "\n" + t


made = {}


def case(name, what, words, files=None, stdin=None, kept=(), memory=False, full=False, want=None, status=None, err=None):
    assert name not in made, name
    files = {k: v.encode() if isinstance(v, str) else v for k, v in (files or {}).items()}
    texts = dict(files)
    if stdin is not None:
        texts["-"] = stdin.encode() if isinstance(stdin, str) else stdin

    class Store(MemoryStore):
        def put(self, name, data):
            if "/" in name:
                return False
            return super().put(name, data)
    store = Store(texts)
    out, error, code = run_words(words, store, 2)
    if full:
        out, error, code = b"", b"bq: P1\n", 3
    if want is not None:
        assert out.decode() == want, (name, out.decode(), want)
    if status is not None:
        assert code == status, (name, code, error)
    if err is not None:
        assert error.decode() == f"bq: {err}\n", (name, error)
        assert code != 0
    elif want is not None:
        assert error == b""
    made[name] = 1
    t = what.rstrip("\n") + "\n== words\n" + "".join(w + "\n" for w in words)

    def part(head, data):
        if is_plain(data):
            return f"== {head}\n{data.decode()}"
        return f"== {head} hex\n{hexed(data)}"
    for f, data in files.items():
        t += part(f"file {f}", data)
    if stdin is not None:
        t += part("stdin", texts["-"])
    if out:
        t += part("stdout", out)
    if error:
        t += part("stderr", error)
    for f in kept:
        t += part(f"kept {f}", store.texts[f])
    if code:
        t += f"== status {code}\n"
    if full:
        t += "== full device\n"
    if memory:
        t += "== refuse memory\n"
    with open(f"{OUT}/{name}.case", "w") as f:
        f.write(t)
    if PRINT:
        print("=====", name, code, words if len(str(words)) < 300 else "")
        print(out.decode() + error.decode() + "".join(f"kept {k}: {store.texts[k].hex()[:200]}\n" for k in kept))


def query(name, what, text, ledger=LOTS, **more):
    case(name, what, ["query", "l", text], {"l": ledger}, **more)


def asked(name, what, text, err):
    """A query that is refused before the ledger is asked for: there is none."""
    case(name, what, ["query", "l", text], err=err)


os.makedirs(OUT, exist_ok=True)
exec(open(HERE + "/case_list.py").read())
print(len(made), "cases")
