"""Filers with one fault each, against a clause of S-1 or the word of S-2: the jobs of a test must tell each of them from the second
filer."""
import filer


class Right:
    """S-1 in parts, each of which can be put wrong."""

    def __init__(self, text):
        self.first, self.steps, self.lemmas = filer.parts(text)
        self.item = filer.items(self.steps)
        self.text = text

    def line_1(self):
        return self.first

    def kept(self):
        return self.steps

    def place(self, word):
        return self.item[word.lstrip(b"~")], word.startswith(b"~")

    def both_signs(self, row):
        return any(b"~" + word in row for word in row)

    def once(self, row):
        return tuple(sorted(set(row), key=self.place))

    def line(self, row):
        return [self.place(word) for word in row]

    def lines(self, rows):
        return sorted(set(rows), key=self.line)

    def form(self):
        rows = [line.split() for line in self.lemmas]
        rows = self.lines([self.once(row) for row in rows if not self.both_signs(row)])
        return b"".join(line + b"\n" for line in [self.line_1(), *self.kept(), b"lemmas", *map(b" ".join, rows)])


class WordLost(Right):
    def line_1(self):
        return self.first.removesuffix(b" start").removesuffix(b" crash")


class StartLost(Right):
    def line_1(self):
        return self.first.removesuffix(b" start")


class CrashLost(Right):
    def line_1(self):
        return self.first.removesuffix(b" crash")


class CrashAsStart(Right):
    def line_1(self):
        return self.first.replace(b"crash", b"start")


class StepsSorted(Right):
    def kept(self):
        return sorted(self.steps)


class CommentsKept(Right):
    def kept(self):
        lines = self.text.split(b"\n")
        return lines[1 : lines.index(b"lemmas", 1)]


class NamesBySpelling(Right):
    def place(self, word):
        return word.lstrip(b"~"), word.startswith(b"~")


class VariablesBySpelling(Right):
    def place(self, word):
        name = word.lstrip(b"~")
        return (self.item[name] if name[:1] in b"AB" else len(self.item)), name, word.startswith(b"~")


class VariablesFirst(Right):
    def place(self, word):
        return word.lstrip(b"~")[:1] in b"AB", *super().place(word)


class NegatedFirst(Right):
    def place(self, word):
        item, negated = super().place(word)
        return item, not negated


class NegatedLast(Right):
    def place(self, word):
        return super().place(word)[::-1]


class RepeatsApartKept(Right):
    def once(self, row):
        return tuple(sorted((word for i, word in enumerate(row) if row[i - 1 : i] != [word]), key=self.place))


class NamesUnsorted(Right):
    def once(self, row):
        return tuple(dict.fromkeys(row))


class BothSignsKept(Right):
    def both_signs(self, row):
        return False


class BothSignsApartKept(Right):
    def both_signs(self, row):
        return any(a.lstrip(b"~") == b.lstrip(b"~") and a != b for a, b in zip(row, row[1:]))


class LemmasTwice(Right):
    def lines(self, rows):
        return sorted(rows, key=self.line)


class LemmasUnsorted(Right):
    def lines(self, rows):
        return dict.fromkeys(rows)


class LinesBySpelling(Right):
    def line(self, row):
        return b" ".join(row)


class LinesByLength(Right):
    def line(self, row):
        return len(row), super().line(row)


class LongerFirst(Right):
    def line(self, row):
        return [*super().line(row), (len(self.item), False)]


FAULTS = Right.__subclasses__()
