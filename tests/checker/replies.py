"""Random replies: as solvers print them, and damaged in every way that document 01 speaks of. Replies whose answers were written by
hand."""
import os

HERE = os.path.dirname(os.path.abspath(__file__))


def unescaped(text):
    return text.encode().decode("unicode_escape").encode("latin-1")


def by_hand():
    """The lines of expected.txt: job, number, place, reply."""
    job = None
    with open(os.path.join(HERE, "expected.txt")) as lines:
        for line in lines:
            if line.startswith("="):
                job = unescaped(line.rstrip("\n")[2:])
            elif not line.startswith("#"):
                number, place = map(int, line.split()[:2])
                yield job, number, place, unescaped(line.rstrip("\n")[7:])


def lines_of(r, numbers):
    """Numbers as lines of `v`, the closing 0 among them."""
    lines, line = [], b"v"
    for n in numbers + [0]:
        if len(line) > 1 and r.random() < 0.12:
            lines.append(line)
            line = b"v"
        line += b" %d" % n
    return lines + [line]


def with_comments(r, lines, often):
    out = []
    for line in lines:
        while r.random() < often:
            out.append(r.choice([b"c", b"c comment", b"cv 1 2", b"c s SATISFIABLE"]))
        out.append(line)
    while r.random() < often:
        out.append(b"c the end")
    return out


def word_damage(r, variables, words):
    """Another list of words behind `v`."""
    words = list(words)
    i = r.randrange(len(words))
    kind = r.randrange(12)
    if kind == 0:
        words[i] = b"%d" % r.choice([variables + 1, -variables - 1, 9999999, -1014900])
    elif kind == 1:
        words[i] = words[r.randrange(len(words))]
    elif kind == 2:
        words[i] = b"-" + words[i].lstrip(b"-")
    elif kind == 3:
        words.insert(i, r.choice([b"0", b"-0", b"00", b"", b"-", b"x", b"+1", b"1-2"]))
    elif kind == 4:
        words[i] = b"0" + words[i]
    elif kind == 5:
        words[i] = r.choice([b"12345678", b"10000000", b"00000001", b"-12345678", b"1" * 40])
    elif kind == 6:
        words[i] += r.choice([b"x", b"-", b".", b"\t", b"\r", b"\0", b"0"])
    elif kind == 7:
        del words[i]
    elif kind == 8:
        words.append(b"")
    elif kind == 9:
        words.append(b"%d" % r.randint(1, variables))
    elif kind == 10:
        r.shuffle(words)
    else:
        words[i] = words[i][1:] if words[i].startswith(b"-") else b"-" + words[i] if words[i] not in (b"", b"0") else b"1"
    return words


def line_damage(r, variables, lines):
    lines = list(lines)
    i = r.randrange(len(lines))
    kind = r.randrange(9)
    if kind < 4 and lines[i].startswith(b"v "):
        lines[i] = b"v " + b" ".join(word_damage(r, variables, lines[i][2:].split(b" ")))
    elif kind == 4:
        lines.insert(i, r.choice([b"", b" ", b"v", b"v ", b"x", b"s SATISFIABLE", b"s UNSATISFIABLE", b"s UNKNOWN", b"v 0", b" c", b"c"]))
    elif kind == 5:
        del lines[i]
    elif kind == 6:
        lines[i] = r.choice([b"s UNSATISFIABLE", b"s SATISFIABLE ", b"S SATISFIABLE", b"s UNSATISFIABL", b"v1 2 0", b"V 1 0"])
    elif kind == 7:
        j = r.randrange(len(lines))
        lines[i], lines[j] = lines[j], lines[i]
    else:
        lines[i] = lines[i].replace(b" ", b"  ", 1)
    return lines


def byte_damage(r, text):
    text = bytearray(text)
    if not text:
        return b"\n"
    i = r.randrange(len(text))
    kind = r.randrange(5)
    if kind == 0:
        del text[i]
    elif kind == 1:
        text.insert(i, r.choice(b"0123456789- \nvcsx\t\0\xff"))
    elif kind == 2:
        text[i] = r.choice(b"0123456789- \nvcsx\t\0\xff")
    elif kind == 3:
        del text[i:]
    else:
        del text[-1]
    return bytes(text)


def reply(r, variables, model):
    """A random reply; model is a list of signed numbers that satisfies the clauses, or None."""
    numbers = [x if r.random() < 0.5 else -x for x in range(1, variables + 1)]
    if model and r.random() < 0.75:
        numbers = list(model)
        for _ in range(r.choice([0, 0, 0, 1, 1, 2])):
            i = r.randrange(variables)
            numbers[i] = -numbers[i]
    if r.random() < 0.3:
        r.shuffle(numbers)
    if r.random() < 0.08:
        del numbers[r.randrange(variables)]
    lines = with_comments(r, [b"s SATISFIABLE"] + lines_of(r, numbers), r.choice([0, 0.1, 0.3]))
    for _ in range(r.choice([0, 0, 1, 1, 2])):
        if lines:
            lines = line_damage(r, variables, lines)
    text = b"".join(line + b"\n" for line in lines)
    for _ in range(r.choice([0, 0, 0, 0, 1, 2])):
        text = byte_damage(r, text)
    return text
