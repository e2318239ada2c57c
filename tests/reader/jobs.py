"""Random job texts, whole and damaged."""
VARIABLES = [b"a", b"b", b"if", b"x1", b"z", b"q9", b"ma", b"e"]
PIECES = [b" ", b"\n", b"~", b"=", b"a", b"A", b"B0", b"goto", b" goto ", b" else ", b"lemmas\n", b"0", b"1", b"2", b"if ", b"maybe "]
PIECES += [b"critical ", b"\t", b"\x7f", b"bound 1\n", b" start\n", b" crash\n", b" start", b" crash"]
WORDS = [b"", b" start", b" crash"]


def labels(r, letter, count):
    pool = [letter] + [letter + str(i).encode() for i in range(40)] + [letter + b"x" + str(i).encode() for i in range(40)]
    return r.sample(pool, count)


def step(r, label, own):
    kind = r.randrange(4)
    to, other, variable = r.choice(own), r.choice(own), r.choice(VARIABLES)
    value = b"01"[r.randrange(2):][:1]
    if kind == 0:
        return label + b" maybe goto " + to
    if kind == 1:
        return label + b" critical goto " + to
    if kind == 2:
        return label + b" " + variable + b"=" + value + b" goto " + to
    return label + b" if " + variable + b"=" + value + b" goto " + to + b" else " + other


def whole(r):
    """A job that is accepted but for 55 and for names that no step mentions: a third without a word, a third with each."""
    many = r.random() < 0.05
    a, b = (labels(r, p, r.randint(1, 50 if many else 5)) for p in (b"A", b"B"))
    steps = [step(r, l, a) for l in a] + [step(r, l, b) for l in b]
    r.shuffle(steps)
    lines = [b"bound " + str(r.randint(1, 99)).encode() + r.choice(WORDS)]
    for s in steps:
        if r.random() < 0.1:
            lines.append(b"~ " + bytes(r.randint(32, 126) for _ in range(r.randrange(9))))
        lines.append(s)
    used = [v for v in VARIABLES if any(b" " + v + b"=" in s for s in steps)]
    lines.append(b"lemmas")
    for _ in range(r.choice([0, 1, 2, 3, 100 if many else 2])):
        names = [r.choice([b"", b"~"]) + r.choice(a + b + used) for _ in range(r.choice([1, 2, 3, 64 if many else 4]))]
        lines.append(b" " * r.randrange(2) + b" ".join(names) + b" " * r.randrange(2))
    return b"".join(l + b"\n" for l in lines)


def damaged(r, text):
    for _ in range(r.randint(1, 3)):
        at = r.randrange((len(text) if r.random() < 0.85 else text.find(b"\n") + 1) + 1)     # line 1 more often than its share
        way = r.randrange(5)
        if way == 0:
            text = text[:at] + text[at + r.randint(1, 3):]
        elif way == 1:
            text = text[:at] + r.choice(PIECES) + text[at:]
        elif way == 2:
            text = text[:at] + bytes([r.randrange(256)]) + text[at + 1:]
        elif way == 3:
            lines = text.split(b"\n")
            lines.insert(r.randrange(len(lines)), r.choice(lines))
            text = b"\n".join(lines)
        else:
            text = text[:at]
    return text
