"""Random ledgers of pushes and pops, and queries of what these give: some push a few tags and keys over the
transactions between them, others far more than there are directives."""
VALUES = ["1", "2.50", '"x"', "TRUE", "USD", "2014-01-01", "#g", "Assets:A", "3 USD", ""]
OTHERS = ["2014-01-01 open Assets:A", '2014-01-05 note Assets:A "x"', "2014-01-09 balance Assets:A 0 USD"]
KEYS = [f"k{i}" for i in range(12)]


def push(r, tags, keys):
    """A push, and the pop that takes it back."""
    if r.random() < .5:
        tag = r.choice(tags)
        return f"pushtag #{tag}", f"poptag #{tag}"
    key = r.choice(keys)
    return f"pushmeta {key}: {r.choice(VALUES)}", f"popmeta {key}:"


def transaction(r, tags, keys, line):
    marks = "".join(f" #{r.choice([*tags, 'own'])}" for _ in range(r.choice([0, 0, 1, 2]))) + r.choice(["", " ^l1"])
    lines = [f'2014-01-0{r.randint(1, 9)} * "n{line}"{marks}']
    if r.random() < .3:
        lines.append(f"  {r.choice(keys)}: {r.randint(1, 9)}")
    for _ in range(r.choice([0, 1, 1, 2])):
        lines.append("  Assets:A  0 USD")
        if r.random() < .3:
            lines.append(f'    {r.choice(keys)}: "p"')
    return lines + ["  #late"] * (r.random() < .1)


def ledger(r):
    names = r.choice([2, 5, 12])
    tags, keys = [f"t{i}" for i in range(names)], KEYS[:names]
    lines, pops = [], []
    for _ in range(r.choice([10, 30, 60])):
        k = r.random()
        if k < .45:
            line, pop = push(r, tags, keys)
            lines.append(line)
            pops.append(pop)
        elif k < .65 and pops:
            lines.append(pops.pop(r.randrange(len(pops))))
        elif k < .68:
            lines.append(push(r, tags, keys)[1])
        elif k < .9:
            lines += transaction(r, tags, keys, len(lines))
        else:
            lines.append(r.choice(OTHERS))
    if r.random() < .8:
        r.shuffle(pops)
        lines += pops
    if r.random() < .3:
        lines += transaction(r, tags, keys, len(lines))
    return ("\n".join(lines) + "\n").encode()


def query(r):
    cells = [f"entry_meta('{k}') AS e{k}, any_meta('{k}') AS a{k}" for k in r.sample(KEYS, 4)]
    return f"SELECT narration, tags, links, {', '.join(cells)}"
