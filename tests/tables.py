"""Accepted job texts as tables (document 01, 'Calls and buffers', Reading; the word of 02's S-2), and their clauses from the separate
generator."""
import ctypes
import functools
import os
import subprocess
import tempfile

TESTS = os.path.dirname(os.path.abspath(__file__))
ROOT = os.path.dirname(TESTS)
STEPS, LEMMAS, NAMES = 100, 100, 64
KINDS = {"maybe": 1, "critical": 2, "if": 4}
WORDS = ["", "start", "crash"]     # by their codes


# The table as C lays it out. Crate `parse_ffi` has the names in it, crate `foreign` takes it without them.
PROGRAM = [("bound", ctypes.c_size_t), ("word", ctypes.c_uint8), ("steps", ctypes.c_size_t), ("variables", ctypes.c_size_t)]
PROGRAM += [(name, ctypes.c_uint8 * STEPS) for name in ("process", "kind")]
PROGRAM += [(name, ctypes.c_uint16 * STEPS) for name in ("to", "other")]
PROGRAM += [(name, ctypes.c_uint8 * STEPS) for name in ("variable", "value")]
SPELLINGS = [(name, ctypes.c_uint8 * (4 * STEPS)) for name in ("labels", "names")]
ROWS = [("lemmas", ctypes.c_size_t), ("lengths", ctypes.c_uint8 * LEMMAS), ("items", ctypes.c_int16 * (LEMMAS * NAMES))]


class Table(ctypes.Structure):
    _fields_ = PROGRAM + ROWS


def table(text):
    """The table of a job that is known to be accepted."""
    t = Table()
    lines = text.split("\n")[:-1]
    _, bound, *word = lines[0].split()
    t.bound, t.word = int(bound), WORDS.index("".join(word))
    split = lines.index("lemmas")
    steps = [line.split() for line in lines[1:split] if not line.startswith("~")]
    names = [words[0] for words in steps]
    seen = []
    for i, words in enumerate(steps):
        t.process[i] = 1 if words[0][0] == "A" else 2
        t.kind[i] = KINDS.get(words[1], 3)
        t.to[i] = names.index(words[words.index("goto") + 1]) + 1
        if t.kind[i] == 4:
            t.other[i] = names.index(words[-1]) + 1
        if t.kind[i] >= 3:
            variable, value = words[2 if t.kind[i] == 4 else 1].split("=")
            if variable not in seen:
                seen.append(variable)
            t.variable[i], t.value[i] = seen.index(variable) + 1, int(value)
    t.steps, t.variables = len(names), len(seen)
    for k, line in enumerate(lines[split + 1:]):
        t.lemmas = k + 1
        for i, name in enumerate(line.split()):
            t.lengths[k] = i + 1
            item = (names + seen).index(name.lstrip("~")) + 1
            t.items[k * NAMES + i] = -item if name.startswith("~") else item
    return t


def faults(t):
    """Changes of one place by which a table is that of no job (45): the field, the place where it is a row, and what stands there."""
    steps, items = t.steps, t.steps + t.variables
    firsts = [list(t.process).index(process) for process in (1, 2)]
    critical = [i for i in firsts if t.kind[i] == KINDS["critical"]]
    yield from (("word", None, value) for value in (len(WORDS), 255, *(range(1, len(WORDS)) if len(critical) == 2 else ())))     # 55
    counts = {"bound": [0, 100], "steps": [0, steps - 1, steps + 1, STEPS + 1]}
    counts |= {"variables": [t.variables - 1, t.variables + 1], "lemmas": [t.lemmas - 1, t.lemmas + 1, LEMMAS + 1]}
    yield from ((name, None, value) for name, values in counts.items() for value in [*values, -1])   # -1: the largest number
    for i in range(steps):
        strangers = [0, steps + 1, 65535, *(c + 1 for c in range(steps) if t.process[c] != t.process[i])]
        rows = {"process": [0, 3, 255], "kind": [0, 5, 255], "to": strangers}
        if t.word and critical and i in firsts and t.kind[i] == KINDS["maybe"]:
            rows["kind"].append(KINDS["critical"])      # the second first step that is
        rows["other"] = strangers if t.kind[i] == KINDS["if"] else [1, steps]
        rows["variable"] = [0, t.variables + 1, 255] if t.variable[i] else [1, 255]
        rows["value"] = [2, 255] if t.variable[i] else [1, 255]
        yield from ((name, i, value) for name, values in rows.items() for value in values)
    for k in range(t.lemmas):
        yield from (("lengths", k, value) for value in (0, NAMES + 1, 255))
        yield from (("items", k * NAMES, value) for value in (0, items + 1, -items - 1, 32767, -32768))
    # unused places: the first and the last
    yield from ((name, i, 1) for name, _ in PROGRAM[4:] for i in (steps, STEPS - 1) if i >= steps)
    yield from (("lengths", k, 1) for k in (t.lemmas, LEMMAS - 1) if k >= t.lemmas)
    yield from (("items", k * NAMES + i, 1) for k in range(LEMMAS) for i in {t.lengths[k], NAMES - 1} if i >= t.lengths[k])


def changed(t, name, place, value):
    """A copy with another value in one place."""
    t = Table.from_buffer_copy(t)
    if place is None:
        setattr(t, name, value)
    else:
        getattr(t, name)[place] = value
    return t


@functools.cache
def built():
    """The folder in which the separate generator was built; it goes away with the test."""
    folder = tempfile.TemporaryDirectory()
    subprocess.run(["cc", "-O2", "-std=c11", os.path.join(TESTS, "generator/generator.c"), "-o", folder.name + "/generator"], check=True)
    return folder


def clauses(text):
    """The number of variables and the clauses, as the separate generator prints them."""
    printed = subprocess.run([built().name + "/generator"], input=text, capture_output=True, text=True, check=True).stdout
    rows = [line.split() for line in printed.split("\n") if line and not line.startswith("c")]
    return int(rows[0][2]), [[int(n) for n in row[:-1]] for row in rows[1:]]
