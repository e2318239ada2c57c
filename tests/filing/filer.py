"""A second filer, written from document 02 alone (S-1, and S-2 for the word of line 1). It works on the text's own words; only the
refusals are the second reader's."""
import functools
import os
import sys

sys.path.insert(0, os.path.join(os.path.dirname(os.path.abspath(__file__)), "../reader"))
import reader


@functools.lru_cache(16)
def parts(text):
    """Line 1, the step lines in order, and the lemma lines. A job that is turned away raises reader.Refused."""
    reader.read(text)
    lines = text.split(b"\n")[:-1]
    at = lines.index(b"lemmas", 1)
    return lines[0], [line for line in lines[1:at] if not line.startswith(b"~")], lines[at + 1:]


def variable(step):
    """What stands before `=`, if anything does."""
    words = step.split(b" ")
    word = words[2] if words[1] == b"if" and len(words) > 4 else words[1]
    return word.partition(b"=")[0] if b"=" in word else None


def items(steps):
    """Each name's item: the steps by line, then the variables by first mention."""
    names = [step.split(b" ")[0] for step in steps]
    for name in map(variable, steps):
        if name and name not in names:
            names.append(name)
    return {name: item for item, name in enumerate(names)}


@functools.lru_cache(16)
def remaining(text):
    """The lemmas that remain, as a set of sets of items with their signs."""
    _, steps, lemmas = parts(text)
    item = items(steps)
    sets = {frozenset((item[w.lstrip(b"~")], w.startswith(b"~")) for w in line.split()) for line in lemmas}
    return {names for names in sets if not any((x, not sign) in names for x, sign in names)}


def agree(a, b):
    """Bound and word, step lines and the remaining lemmas agree."""
    return parts(a)[:2] == parts(b)[:2] and remaining(a) == remaining(b)


def filed(text):
    line_1, steps, _ = parts(text)
    name = list(items(steps))
    rows = sorted(sorted(names) for names in remaining(text))
    lemmas = [b" ".join(b"~" * sign + name[x] for x, sign in row) for row in rows]
    return b"".join(line + b"\n" for line in [line_1, *steps, b"lemmas", *lemmas])
