"""Small jobs: some of every shape, and random ones, without a word and with each of 02's S-2."""
WORDS = ("", " start", " crash")


def job(bound, steps, lemmas=(), word=""):
    return "\n".join([f"bound {bound}{word}", *steps, "lemmas", *lemmas, ""])


def ring(letter, count, line):
    """So many steps of a process; line(S, L, M, i) makes one, with the two labels after it and its place i."""
    label = [f"{letter}{i}" for i in range(count)]
    return [line(label[i], label[(i + 1) % count], label[(i + 2) % count], i) for i in range(count)]


def maybe(s, l, m, i):
    return f"{s} maybe goto {l}"


def mixed(s, l, m, i):
    return [f"{s} maybe goto {m}", f"{s} if a=1 goto {l} else {m}", f"{s} a={i // 2 % 2} goto {l}", f"{s} if b=0 goto {m} else {l}"][i % 4]


def sets(s, l, m, i):
    return f"{s} {'ab'[i % 2]}={i // 2 % 2} goto {l}"


def stays_at_l(s, l, m, i):
    return f"{s} if a={i % 2} goto {s} else {l}"


def stays_at_m(s, l, m, i):
    return f"{s} if a={i % 2} goto {l} else {s}"


def stays(s, l, m, i):
    return f"{s} if a=1 goto {s} else {s}"


def critical(s, l, m, i):
    return f"{s} {'maybe' if i == 0 else 'critical'} goto {l}"


def shapes():
    """Helpers of A and of B for 4 to 7 steps, every kind of step, ifs that lead to themselves, lemmas, bounds 1 to 5."""
    for count in (4, 5, 6, 7):
        yield job(count - 2, ring("A", count, maybe) + ["B0 a=1 goto B0"])
        yield job(3, ["A0 a=1 goto A0"] + ring("B", count, mixed))
        yield job(2, ring("A", count, mixed) + ring("B", 9 - count, maybe), ["~A0 ~B0", "a A1 A2 B1"])
    for bound in (1, 2, 3, 4, 5):
        for line in (maybe, mixed, sets, stays_at_l, stays_at_m, stays, critical):
            yield job(bound, ring("A", 2, line) + ["B0 maybe goto B1", "B1 a=1 goto B0"])
            yield job(bound, ["A0 a=0 goto A1", "A1 a=1 goto A0"] + ring("B", 3, line), ["~a B0 B1", " A0  ~B2 "])


LOCK = ["A0 if a=0 goto A1 else A0", "A1 a=1 goto A2", "A2 critical goto A3", "A3 a=0 goto A0",
        "B0 if a=0 goto B1 else B0", "B1 a=1 goto B2", "B2 critical goto B3", "B3 a=0 goto B0"]
NONE_OF_A = ["A0 a=1 goto A0", "B0 maybe goto B1", "B1 critical goto B0"]
NONE_OF_B = ["A0 maybe goto A1", "A1 critical goto A0", "B0 a=1 goto B0"]
NONE = ["A0 maybe goto A1", "A1 a=1 goto A0", "B0 if a=1 goto B0 else B1", "B1 maybe goto B0"]
NO_VARIABLES = ["B0 maybe goto B1", "A0 maybe goto A1", "B1 critical goto B2", "A1 critical goto A0", "B2 critical goto B0"]
BEHIND = ["A1 critical goto A2", "B maybe goto Bx", "A2 critical goto A1", "Bx maybe goto B1", "B1 critical goto B1"]
BOTH_FIRST = ["A0 critical goto A1", "A1 a=1 goto A0", "B0 critical goto B1", "B1 if a=1 goto B0 else B1"]


def shapes_with_words():
    """A lock that crashes; no critical step of A, of B, of both; no variables; one first step critical; a lemma that denies the start, the
    crash, or neither; bounds at which there is a run and at which there is none. Both first steps critical: only without a word."""
    for word in WORDS:
        for bound in (1, 2, 4, 5):
            for steps in (LOCK, NONE_OF_A, NONE_OF_B, NONE, NO_VARIABLES, BEHIND):
                yield job(bound, steps, word=word)
        for lemma in ("~A2 ~B2", "~A0 a", "A0 A1 A2 ~B3"):
            yield job(4, LOCK, [lemma], word)
        for bound in (2, 3, 5):
            yield job(bound, ring("A", 7, critical) + ring("B", 6, critical), word=word)
    for bound in (1, 2, 3):
        yield job(bound, BOTH_FIRST)
        yield job(bound, BOTH_FIRST, ["~A0 ~B0"])


def random_job(r):
    """With `crash` more steps are critical and lead on, and there are fewer lemmas, so that some have a run."""
    word = r.choice(WORDS)
    crash = word == " crash"
    counts = [r.choice([1, 1, 2, 2, 3, 4, 5, 6, 7]) for _ in "AB"]
    names = ["a", "b", "x1"][: r.randint(0, 3)]
    labels = [[f"{letter}{i}" for i in range(count)] for letter, count in zip("AB", counts)]
    steps = []
    for own in labels:
        for i, s in enumerate(own):
            to, other = r.choices(own, k=2)
            if crash and r.random() < 0.8:
                to = own[(i + 1) % len(own)]
            kinds = [f"maybe goto {to}", *[f"critical goto {to}"] * (4 if crash else 1)]
            if names:
                variable, value = r.choice(names), r.randrange(2)
                kinds += [f"{variable}={value} goto {to}", f"if {variable}={value} goto {to} else {other}"]
            steps.append(f"{s} {r.choice(kinds)}")
    r.shuffle(steps)
    firsts = [next(s for s in steps if s.startswith(letter)) for letter in "AB"]
    if word and all(" critical " in s for s in firsts):     # 55
        return random_job(r)
    known = [name for own in labels for name in own] + [v for v in names if any(f" {v}=" in s for s in steps)]
    sizes = r.choices([1, 2, 3, 5], k=r.choice([0, 0, 0, 0, 1] if crash else [0, 0, 1, 2]))
    lemmas = [" ".join(r.choice(["", "~"]) + r.choice(known) for _ in range(size)) for size in sizes]
    return job(r.randint(1, 5), steps, lemmas, word)
