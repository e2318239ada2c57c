"""The question that line 1 of a job asks (document 02, S-2): its bound and its word, and where the answer 'no crash' is empty."""
import re


class Failed(Exception):
    """The job asks another question already; the text says which."""


def parted(job):
    """The bound, the word and what follows line 1; the bound is 0 where line 1 is none, and the programs will refuse it."""
    line = re.match(rb"bound ([1-9][0-9]?)(?: (start|crash))?\n", job)
    return (int(line[1]), (line[2] or b"").decode(), job[line.end():]) if line else (0, "", job)


def joined(bound, word, rest):
    return f"bound {bound} {word}".rstrip().encode() + b"\n" + rest if bound else rest


def asked(job, question):
    """The job with this word on line 1. A job that has another one asks another question, and stays as it is."""
    bound, word, rest = parted(job)
    if word not in ("", question):
        raise Failed(f"line 1 of the job says '{word}' already: leave out --{question}, or take '{word}' off line 1")
    return joined(bound, question, rest)


def with_bound(job, bound):
    """The job with another bound; the word stays."""
    own, word, rest = parted(job)
    return joined(own and bound, word, rest)


def empty_answer(job):
    """Why 'no crash' says nothing about the steps, where a look at the text tells: a process without a critical step, or lemmas
    that name only steps and keep all critical ones apart."""
    program, _, lemmas = job.decode().partition("\nlemmas\n")
    critical = re.findall(r"^(\w+) critical ", program, re.MULTILINE)
    pairs = [(a, b) for a in critical if a[0] == "A" for b in critical if b[0] == "B"]

    def apart(pair, names):
        return all(name[1:] in pair if name[0] == "~" else name[0] in "AB" and name not in pair for name in names.split())

    if not pairs:
        return "a process has no critical step, so this holds of every bound"
    if all(any(apart(pair, names) for names in lemmas.splitlines()) for pair in pairs):
        return "the lemmas themselves keep both from being critical, so this says nothing about the steps: take those lemmas out"
    return ""
