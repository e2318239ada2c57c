"""A second reader of job texts, written from documents 01 ('The job text', 'What is turned away') and 02 (S-2, the words) alone.

It goes through the lines from the first to the last, and through a line from left to right, and raises the first refusal."""
import string

STEPS = LEMMAS = 100
NAMES = 64
TEXT = 32768
LINE = 1022
ALNUM = (string.ascii_letters + string.digits).encode()
KINDS = {b"maybe": 1, b"critical": 2, b"if": 4}
WORDS = {b"": 0, b" start": 1, b" crash": 2}


class Refused(Exception):
    def __init__(self, number, place):
        self.number, self.place = number, place


class Job:
    def __init__(self):
        self.bound = self.word = 0
        self.labels, self.process, self.kind, self.to, self.other, self.variable, self.value = [], [], [], [], [], [], []
        self.names, self.lemmas = [], []


class Line:
    """A line and a place in it; `refuse` names the line."""

    def __init__(self, text, number):
        self.text, self.number, self.at = text, number, 0

    def refuse(self, number):
        raise Refused(number, self.number)

    def skip(self, word, number):
        if not self.text.startswith(word, self.at):
            self.refuse(number)
        self.at += len(word)

    def name(self, ends, longest, firsts, too_long, ill_formed):
        """A name up to one of the bytes `ends` or the line's end."""
        end = self.at
        while end < len(self.text) and self.text[end] not in ends:
            end += 1
        word = self.text[self.at:end]
        if len(word) > longest:
            self.refuse(too_long)
        if not word or word[0] not in firsts or any(b not in ALNUM for b in word):
            self.refuse(ill_formed)
        self.at = end
        return word


def lines(text):
    """The lines in turn, each looked at as a whole (2, 3, 4) only when its turn comes."""
    number, rest = 0, text
    while rest:
        number += 1
        line, lf, rest = rest.partition(b"\n")
        if len(line) > LINE:
            raise Refused(2, number)
        if any(not 32 <= b <= 126 for b in line):
            raise Refused(3, number)
        if not lf:
            raise Refused(4, number)
        yield number, line
    yield number + 1, None


def bound(line, number):
    """R and the word: line 1 is `bound `, R, and nothing or one of the words behind it."""
    here = Line(line, number)
    here.skip(b"bound ", 5)
    rest = line[here.at:]
    digits = rest[: len(rest) - len(rest.lstrip(string.digits.encode()))]
    word = rest[len(digits):]
    if not 1 <= len(digits) <= 2 or digits.startswith(b"0") or word not in WORDS:
        here.refuse(5)
    return int(digits), WORDS[word]


def step(job, line, number):
    here = Line(line, number)
    label = here.name(b" ", 4, b"AB", 10, 11)
    if label in job.labels:
        here.refuse(12)
    here.skip(b" ", 13)
    kind = next((k for word, k in KINDS.items() if line.startswith(word + b" ", here.at)), 3)
    if kind != 3:
        here.at = line.index(b" ", here.at)
    variable = value = None
    if kind in (3, 4):
        if kind == 4:
            here.at += 1
        variable = here.name(b"=", 2, string.ascii_lowercase.encode(), 20, 21)
        here.skip(b"=", 18)
        if line[here.at:here.at + 1] not in (b"0", b"1"):
            here.refuse(22)
        value = line[here.at] - ord("0")
        here.at += 1
    here.skip(b" goto ", 16)
    to, other = here.name(b" ", 4, b"AB", 17, 17), None
    if kind == 4:
        here.skip(b" else ", 23)
        other = here.name(b"", 4, b"AB", 24, 24)
    elif here.at < len(line):
        here.refuse(14)
    if variable is not None and variable not in job.names:
        job.names.append(variable)
    job.labels.append(label)
    job.process.append("AB".index(chr(label[0])) + 1)
    job.kind.append(kind)
    job.variable.append(0 if variable is None else job.names.index(variable) + 1)
    job.value.append(value or 0)
    return number, to, other


def at_lemmas(job, waiting, number):
    for process, refusal in ((1, 99), (2, 98)):
        if process not in job.process:
            raise Refused(refusal, number)
    for own, (line, to, other) in zip(job.process, waiting):
        found = []
        for label in (to, other):
            if label is None:
                found.append(0)
                continue
            if label not in job.labels:
                raise Refused(30, line)
            c = job.labels.index(label)
            if job.process[c] != own:
                raise Refused(32, line)
            found.append(c + 1)
        job.to.append(found[0])
        job.other.append(found[1])
    if job.word and all(job.kind[job.process.index(p)] == 2 for p in (1, 2)):
        raise Refused(55, number)


def lemma(job, line, number):
    items = []
    for word in line.split(b" "):
        if not word:
            continue
        if len(items) == NAMES:
            raise Refused(44, number)
        name = word[1:] if word.startswith(b"~") else word
        if name in job.labels:
            item = job.labels.index(name) + 1
        elif name in job.names:
            item = len(job.labels) + job.names.index(name) + 1
        else:
            raise Refused(43, number)
        items.append(-item if name != word else item)
    if not items:
        raise Refused(42, number)
    return items


def read(text):
    if not 1 <= len(text) <= TEXT:
        raise Refused(1, 0)
    job, waiting, told = Job(), [], lines(text)
    number, line = next(told)
    job.bound, job.word = bound(line, number)
    for number, line in told:
        if line is None:
            raise Refused(6, number)
        if line == b"lemmas":
            break
        if line.startswith(b"~"):
            continue
        if len(job.labels) == STEPS:
            raise Refused(7, number)
        waiting.append(step(job, line, number))
    at_lemmas(job, waiting, number)
    for number, line in told:
        if line is None:
            break
        if len(job.lemmas) == LEMMAS:
            raise Refused(41, number)
        job.lemmas.append(lemma(job, line, number))
    return job
