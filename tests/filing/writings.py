"""Random jobs for filing, other writings of the same job, and jobs that may differ from it; the limits are those of document 01."""
import string

import filer

STEPS, LEMMAS, NAMES, TEXT = 100, 100, 64, 32768
WORDS = [b"", b" start", b" crash"]
ALNUM = string.ascii_letters + string.digits
# lemmas, and the most names of one
SIZES = [(0, 1), (1, 4), (4, 4), (8, 3), (12, 6), (20, 12)]


def shuffled(r, things):
    return r.sample(things, len(things))


def signed(r, name):
    return r.choice([b"", b"~"]) + name


def fresh(r, firsts, longest, count):
    """Different names of every length, in no order."""
    found = {}
    while len(found) < count:
        name = r.choice(firsts) + "".join(r.choice(ALNUM) for _ in range(r.randrange(longest)))
        found[name.encode()] = None
    return list(found)


def steps_of(r, count, variables):
    """Step lines of both processes, mixed, with each variable in its turn."""
    own = {p: fresh(r, p, 4, n) for p, n in zip("AB", (count - count // 2, count // 2))}
    lines = []
    for i, label in enumerate(shuffled(r, own["A"] + own["B"])):
        to, other = r.choices(own[chr(label[0])], k=2)
        bit = variables[i % len(variables)] + r.choice([b"=0", b"=1"])
        kinds = [b"%s goto %s" % (bit, to), b"if %s goto %s else %s" % (bit, to, other)]
        if i and count < STEPS:
            kinds += [b"maybe goto " + to] + [b"critical goto " + to] * (label[:1] == b"A")    # never 55
        lines.append(label + b" " + r.choice(kinds))
    return lines


def lemmas_of(r, names, count, longest, again):
    """Each is new, or made of an earlier one as often as `again` says: its beginning in item order, alone or with one more name, which
    may be there already."""
    rows = []
    for _ in range(count):
        if rows and r.random() < again:
            row = sorted(r.choice(rows), key=lambda word: names.index(word.lstrip(b"~")))
            row = row[: r.choice([len(row), r.randint(1, len(row))])]
            if r.random() < 0.7 and len(row) < longest:
                row.append(signed(r, r.choice(names)))
        else:
            size = min(r.choice([longest, r.randint(1, longest)]), len(names))
            row = [signed(r, name) for name in r.sample(names, size)]
        rows.append(row)
    return rows


def job(r):
    """Mostly a small job; at times one at the limits: 100 steps, 100 variables, 100 lemmas, 64 names."""
    large = r.random() < 0.01
    variables = fresh(r, string.ascii_lowercase, 2, STEPS if large else r.randint(1, 5))
    if r.random() < 0.1:
        variables[-1] = b"if"
    lines = steps_of(r, STEPS if large else r.randint(2, 9), variables)
    names = list(filer.items(lines))
    if not large:
        names = [names[x] for x in sorted(r.sample(range(len(names)), r.randint(2, len(names))))]
    count, longest = (LEMMAS, NAMES) if large else r.choice(SIZES)
    lemmas = lemmas_of(r, names, count, longest, r.choice([0, 0.5] if large else [0.3, 0.8]))
    line_1 = b"bound %d" % r.randint(1, 99) + r.choice(WORDS)
    return b"\n".join([line_1, *lines, b"lemmas", *map(b" ".join, lemmas), b""])


def comment(r):
    return r.choice([b"~", b"~lemmas", b"~" + bytes(r.randint(32, 126) for _ in range(r.randrange(9)))])


def respelt(r, text):
    """Another writing of the same job, within the limits: comments, lemmas and names in any order, repeats, spaces, lemmas in both
    signs."""
    line_1, steps, lemmas = filer.parts(text)
    names, rows = list(filer.items(steps)), [line.split() for line in lemmas]
    for more in r.choice([1, 2, 5]), 0:
        lines = [line_1]
        for line in [*steps, b"lemmas"]:
            lines += [comment(r) for _ in range(r.randrange(more + 1) * r.randrange(2))] + [line]
        others = [[name, signed(r, r.choice(names)), b"~" + name] for name in r.choices(names, k=r.randrange(more + 1))]
        others += r.choices(rows, k=r.randrange(more + 1)) if rows else []
        for row in shuffled(r, rows + shuffled(r, others)[: LEMMAS - len(rows)]):
            words = shuffled(r, row + r.choices(row, k=min(r.randrange(more + 1), NAMES - len(row))))
            gaps = [b"", *(b" " * r.randint(1, more or 1) for _ in words[1:])]
            edges = [b" " * (r.randrange(more + 1) * r.randrange(2)) for _ in "lr"]
            lines.append(edges[0] + b"".join(gap + word for gap, word in zip(gaps, words)) + edges[1])
        written = b"\n".join([*lines, b""])
        if len(written) <= TEXT:
            return written


def changed(r, text):
    """A job that may differ in one place: the bound, the word, a step's value or place, a lemma that is gone, or a name of one."""
    lines = text.split(b"\n")[:-1]
    at = lines.index(b"lemmas", 1)
    way = r.randrange(7 if at + 1 < len(lines) else 4)
    i, j = (r.randrange(1, at) for _ in range(2))
    _, bound, *word = lines[0].split(b" ")
    if way == 0:
        lines[0] = b" ".join([b"bound", b"%d" % r.randint(1, 99), *word])
    elif way == 1:
        lines[0] = b"bound " + bound + r.choice(WORDS)
    elif way == 2:
        lines[i] = lines[i].replace(b"=1 ", b"=0 ")
    elif way == 3:
        lines[i], lines[j] = lines[j], lines[i]
    elif way == 4:
        del lines[r.randrange(at + 1, len(lines))]
    else:
        line = r.randrange(at + 1, len(lines))
        words = lines[line].split()
        words[r.randrange(len(words))] = signed(r, r.choice(list(filer.items(filer.parts(text)[1]))))
        lines[line] = b" ".join(words)
    return b"\n".join([*lines, b""])


def filled(lines, lemmas):
    """The job with these lemma words, and with spaces up to the largest text."""
    room = TEXT - sum(len(line) + 1 for line in lines) - sum(len(b" ".join(row)) + 1 for row in lemmas)
    share, rest = divmod(room, len(lemmas))
    return b"\n".join([*lines, *(b" " * (share + (k < rest)) + b" ".join(row) for k, row in enumerate(lemmas)), b""])


def largest():
    """Two jobs of 32,768 bytes with 100 lemmas of 64 names, the last one first and each with its names backwards. All of a job's lemmas
    have the first 57 names alike: of the first steps, or, with a word, of the last variables. Then the signs of seven names tell them
    apart."""
    labels = [b"A%d" % i for i in range(99)] + [b"B0"]
    variables = [b"%c%d" % (97 + i // 10, i % 10) for i in range(STEPS)]
    lines = [*(b"%s if %s=1 goto %s else %s" % (l, v, l, l) for l, v in zip(labels, variables)), b"lemmas"]
    for line_1, names in (b"bound 99", labels[:NAMES]), (b"bound 99 crash", variables[-NAMES:]):
        signs = [[k >> i & 1 for i in range(NAMES)] for k in range(LEMMAS)]
        yield filled([line_1, *lines], [[b"~" * sign + name for sign, name in zip(row, names[::-1])] for row in signs[::-1]])
