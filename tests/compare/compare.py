"""Random cases, what the oracle answers to them, and the comparison with what the trial program answered.

    compare.py make FOLDER KIND COUNT SEED     case files and FOLDER/wanted.pickle
    compare.py judge FOLDER OUTPUT             OUTPUT: what `rt try --cases` printed, or FOLDER/NAME.out files where it is -
"""
import os
import pickle
import random
import sys
import collections
HERE = os.path.dirname(os.path.abspath(__file__))
sys.path[:0] = [os.environ["ORACLE"], HERE]
import ledgers
import queries
import programs
import pushes
from code import Refusal, decode, encode, show, upgrade
from compiler import CompileFault, compile_query
from ledger import book_texts
from machine import OutsideBounds, Fault, run
from meaning import *  # noqa
from patterns import PatternUnsupported
from query_parse import QueryFault, parse_query
from query_types import Bounds, TypeFault, default_bounds, type_query
from table import print_table
from verifier import check_file
from cli_ledger import FAULT_TEXTS

BOUNDS = default_bounds(2)


def faults_of(text):
    ledger, faults = book_texts({"l": text}.get, "l", 4_000_000)
    return ledger, "".join(f"l:{f.line}: F{f.kind} {FAULT_TEXTS[f.kind]}\n" for f in faults).encode()


def compiled(text, bounds=BOUNDS):
    return encode(compile_query(type_query(parse_query(text, 2), bounds)))


def table(answer, ledger):
    return f"steps {answer.steps} groups {answer.groups}\n".encode() + print_table(answer.headers, answer.rows, ledger.display)


def answer(command, data, ledger):
    """What is wanted, or None where the oracle can't say."""
    try:
        if command == "query":
            data = compiled(data.decode())
            command = "run"
        if command == "narrow":
            n, d, e, text = data.decode().split(" ", 3)
            data = compiled(text, Bounds(int(n), int(d), int(e), 2))
            command = "run"
        if command == "compile":
            return compiled(data.decode())
        if command in ("run", "turns1", "turns7"):
            return table(run(check_file(data, (1, 2)), ledger), ledger)
        if command == "verify":
            c = check_file(data, (1, 2))
            p = c.program
            return f"accepted depth {c.depth} filter {len(p.filter)} row {len(p.row)} last {len(p.last)}".encode()
        if command == "show":
            return show(decode(data, (1, 2))).encode()
        if command == "upgrade":
            return encode(upgrade(check_file(data, (1, 2)).program))
    except (QueryFault, TypeFault, Refusal) as f:
        return f"{f.code} at {f.place}".encode()
    except CompileFault as f:
        return f.code.encode()
    except OutsideBounds:
        return b"M1"
    except PatternUnsupported:
        return None
    except Fault as f:
        return b"oracle's machine faults: " + str(f).encode()
    raise ValueError(command)


def a_program(r):
    for _ in range(100):
        try:
            return encode(programs.program(r))
        except Exception as e:  # a wrong operand that has no bytes
            why = e
    raise why


def a_file(r):
    k = r.random()
    if k < .5:
        return a_program(r)
    for _ in range(50):
        try:
            data = bytearray(compiled(queries.query(r)))
            if k < .75:
                data[5] = 1
                if data[6:10] == b"\x00\x3d\x09\x00":
                    data[6:10] = b"\x00\x0f\x42\x40"
            return bytes(data)
        except (QueryFault, TypeFault, CompileFault, PatternUnsupported):
            pass
    return a_program(r)


def jobs(r, kind):
    if kind == "queries":
        return [("query", queries.query(r).encode()) for _ in range(6)]
    if kind == "spoiled":
        return [("query" if r.random() < .5 else "compile", queries.spoiled(r).encode()) for _ in range(40)]
    if kind == "odd":
        return [("query" if r.random() < .5 else "compile", queries.odd(r).encode()) for _ in range(40)]
    if kind == "narrow":
        return [("narrow", f"{r.choice([1, 5, 30, 1000000, 4000000])} {r.choice([1, 8, 10, 12, 14, 20])} {r.choice([1, 16, 18, 20, 24, 28])} {queries.query(r)}".encode()) for _ in range(8)]
    if kind == "programs":
        return [(r.choice(["run", "run", "turns1", "turns7"]), a_program(r)) for _ in range(8)]
    if kind == "files":
        return [(r.choice(["verify", "verify", "verify", "verify", "show", "upgrade", "run"]), programs.changed(r, a_file(r))) for _ in range(40)]
    if kind == "verify":
        return [("verify", a_program(r) if r.random() < .5 else programs.changed(r, a_program(r))) for _ in range(40)]
    if kind == "mutants":
        return [("verify" if r.random() < .6 else "run", mutant(r)) for _ in range(20)]
    if kind == "pushes":
        return [("query", pushes.query(r).encode()) for _ in range(2)]
    if kind == "ledgers":
        return [("query", b"SELECT date, flag, account, position"), ("query", b"SELECT payee, narration, tags, links, posting_flag, weight, price, lineno, cost_date, cost_label, meta('k'), entry_meta('key'), any_meta('note_x')")]
    raise ValueError(kind)


HOSTILE = ["SELECT count(*)", "SELECT account, sum(position)", "JOURNAL 'CASH'", "SELECT date, narration WHERE payee = NULL OR number > 10.5 ORDER BY date DESC LIMIT 5"]
LOTS = open(HERE + "/lots.bean", "rb").read()


def hostile(number):
    """All prefixes and all changes of one byte of a file, 0 to 7."""
    data = bytearray(compiled(HOSTILE[number % 4]))
    if number >= 4:
        data[5] = 1
        data[6:10] = b"\x00\x0f\x42\x40"
    data = bytes(data)
    yield from (("run", data[:n]) for n in range(len(data)))
    for i, b in enumerate(data):
        yield from (("run", data[:i] + bytes([v]) + data[i + 1:]) for v in range(256) if v != b)


def mutant(r):
    for _ in range(100):
        try:
            p = decode(a_program(r), (1, 2))
            for _ in range(r.choice([1, 1, 2, 3])):
                part = r.choice([p.filter, p.row, p.last, p.row, p.last])
                k = r.random()
                i = r.randrange(len(part) + 1)
                op = r.choice(list(programs.files.CODES)) if r.random() < .7 else r.choice(["JUMP", "JUMP_IF_FALSE", "TRUE"])
                form = programs.files.CODES[op][1]
                operand = None if form is None else r.choice([1, 0, 2, 3, 5, 9, 11, 17, 19, 20, 21, 22, 23, 63, 64, 255, len(part), len(part) + 1, i + 1, i + 2, i + 4])
                if op == "ROOT":
                    operand = operand or 1
                if k < .3:
                    part.insert(i, (op, operand))
                elif k < .6 and part:
                    part[i % len(part)] = (op, operand)
                elif k < .75 and part:
                    del part[i % len(part)]
                elif k < .85 and part:
                    j = i % len(part)
                    if part[j][1] is not None:
                        part[j] = (part[j][0], max(1, min(255, part[j][1] + r.choice([-1, 1, 2]))))
                elif k < .9 and part:
                    part.insert(i, part[r.randrange(len(part))])
                elif k < .93:
                    p.keys = max(0, p.keys + r.choice([-1, 1])) if p.grouped else 0
                elif k < .96:
                    p.hidden += 1
                else:
                    p.postings = r.choice([0, 1, 1000000, 1000001, 4000000, 4000001])
            return encode(p)
        except Exception as e:
            why = e
    raise why


def make_edges(folder):
    import edges
    os.makedirs(folder, exist_ok=True)
    os.makedirs(folder + "-w", exist_ok=True)
    ledger, faults = faults_of(LOTS)
    case, lines = [("check", LOTS, LOTS, faults)], [f"ledger {LOTS.hex()}"]
    c = collections.Counter()
    for text in edges.edges():
        for command in ("compile", "query") if len(text) < 2000 else ("compile",):
            data = text.encode()
            try:
                w = answer(command, data, ledger)
            except Exception as e:
                print("the oracle fails:", type(e), str(e)[:100], text[:100], len(text))
                w = None
            c["unknown" if w is None else w.split(b" ")[0].decode() if w[:1] in b"QYVCM" and len(w) < 100 else "answer"] += 1
            case.append((command, data, LOTS, w))
            lines.append(f"{command} {data.hex()}")
    with open(f"{folder}/edges", "w") as f:
        f.write("\n".join(lines) + "\n\n")
    pickle.dump({"edges": case}, open(f"{folder}-w/wanted-edges.pickle", "wb"))
    print("edges", len(lines), dict(c))


def make_hostile(folder, number):
    os.makedirs(folder, exist_ok=True)
    os.makedirs(folder + "-w", exist_ok=True)
    ledger, faults = faults_of(LOTS)
    wanted, case, lines, size, n = {}, [], [], 0, 0

    def flush():
        nonlocal case, lines, size, n
        name = f"hostile{number}x{n:04d}"
        with open(f"{folder}/{name}", "w") as f:
            f.write("\n".join([f"ledger {LOTS.hex()}", *lines]) + "\n\n")
        wanted[name] = [("check", LOTS, LOTS, faults), *case]
        case, lines, size = [], [], 0
        n += 1
    c = collections.Counter()
    for command, data in hostile(number):
        w = answer(command, data, ledger)
        c["unknown" if w is None else w.split(b" ")[0].decode() if w[:1] in b"VMo" else "answer"] += 1
        case.append((command, data, LOTS, w))
        lines.append(f"{command} {data.hex()}")
        size += 10 + len(w or b"") + (0 if w else 1000)
        if size > 800_000:
            flush()
    flush()
    pickle.dump(wanted, open(f"{folder}-w/wanted-hostile-{number}.pickle", "wb"))
    print("hostile", number, dict(c), flush=True)


def make(folder, kind, count, seed):
    os.makedirs(folder, exist_ok=True)
    os.makedirs(folder + "-w", exist_ok=True)
    r = random.Random(f"{kind} {seed}")
    wanted = {}
    case, text, size, number, done = [], [], 0, 0, 0

    def flush():
        nonlocal case, text, size, number
        if case:
            name = f"{kind}{seed}x{number:04d}"
            with open(f"{folder}/{name}", "w") as f:
                f.write("\n\n".join(text) + "\n\n")
            wanted[name] = case
            number += 1
        case, text, size = [], [], 0

    while done < count:
        if kind in ("ledgers", "queries"):
            l = ledgers.ledger(r)
        elif kind == "pushes":
            l = pushes.ledger(r)
        else:
            l = ledgers.ledger(r, r.choice([0, 2, 5, 10]), "calm")
        try:
            ledger, faults = faults_of(l)
        except Exception as e:
            print("the oracle fails on a ledger:", type(e), e)
            with open("oracle-fails.bean", "wb") as f:
                f.write(l)
            continue
        lines, block = [f"ledger {l.hex()}"], [("check", l, l, faults)]
        for command, data in jobs(r, kind):
            try:
                w = answer(command, data, ledger)
            except Exception as e:
                print("the oracle fails:", type(e), e, command, data[:300])
                w = None
            lines.append(f"{command} {data.hex()}")
            block.append((command, data, l, w))
            done += command != "check"
            size += 30 + (len(w) if w else 2000)
        if kind == "ledgers":
            done -= 1
        size += len(faults)
        case += block
        text.append("\n".join(lines))
        if size > 500_000:
            flush()
    flush()
    pickle.dump(wanted, open(f"{folder}-w/wanted-{kind}-{seed}.pickle", "wb"))
    c = collections.Counter()
    for block in wanted.values():
        for command, _, _, w in block:
            c[("unknown" if w is None else w.split(b" ")[0].decode() if w[:1] in b"QYVCMo" and len(w) < 100 else "answer")] += command != "check"
    print(kind, seed, dict(c), len(wanted), "cases")


def read_answers(data):
    out, at = [], 0
    while at < len(data):
        end = data.find(b"\n", at)
        try:
            n = int(data[at:end])
        except ValueError:
            return out, data[at:at + 100]
        out.append(data[end + 1:end + 1 + n])
        at = end + 1 + n + 1
    return out, b""


def judge(folder, outputs):
    total = differ = unknown = missing = 0
    shown = 0
    for f in sorted(os.listdir(folder + "-w")):
        if not (f.startswith("wanted-") and f.endswith(".pickle")):
            continue
        for name, block in pickle.load(open(f"{folder}-w/{f}", "rb")).items():
            answers, rest = read_answers(outputs.get(name, b""))
            if len(answers) != len(block):
                print("COUNT", name, len(answers), len(block), rest)
            for i, (command, data, l, w) in enumerate(block):
                if i >= len(answers):
                    missing += 1
                    continue
                total += 1
                if w is None:
                    unknown += 1
                elif answers[i] != w:
                    differ += 1
                    if shown < 12:
                        shown += 1
                        print("DIFFERS", name, command, data if len(data) < 400 or command != "check" else "ledger")
                        print("  bq    ", answers[i][:600])
                        print("  oracle", w[:600])
                        with open(f"differ-{shown}.bean", "wb") as o:
                            o.write(l)
                        with open(f"differ-{shown}.data", "wb") as o:
                            o.write(data)
    print(total, "compared,", differ, "differ,", unknown, "unknown to the oracle,", missing, "missing")


def split_outputs(path):
    data = open(path, "rb").read()
    return data


if __name__ == "__main__":
    if sys.argv[1] == "edges":
        make_edges(sys.argv[2])
    elif sys.argv[1] == "hostile":
        make_hostile(sys.argv[2], int(sys.argv[3]))
    elif sys.argv[1] == "make":
        make(sys.argv[2], sys.argv[3], int(sys.argv[4]), sys.argv[5])
    else:
        folder = sys.argv[2]
        outputs = {}
        for name in os.listdir(folder + "-w"):
            if name.endswith(".out"):
                outputs[name[:-4]] = open(f"{folder}-w/{name}", "rb").read()
        judge(folder, outputs)
