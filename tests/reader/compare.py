#!/usr/bin/env python3
"""Holds the proved reader to expected.txt, and to the second reader on random jobs and on nonsense.

Use: `tests/reader/compare.py [HOW_MANY [SEED]]` (10,000 jobs, seed 1)."""
import collections
import os
import random
import re
import sys

HERE = os.path.dirname(os.path.abspath(__file__))
sys.path.insert(0, os.path.dirname(HERE))
import calls
import jobs
import reader
import tables

JOB = b"bound 1\n~ one bit\nA0 a=1 goto A0\nB0 maybe goto B0\nlemmas\n"


def put(t, name, row):
    """The first places of a row; the others are 0."""
    getattr(t, name)[: len(row)] = row


def table(job):
    """The table of a job as the second reader has it, each place in order."""
    t = calls.Reading(bound=job.bound, word=job.word, steps=len(job.labels), variables=len(job.names), lemmas=len(job.lemmas))
    for name in "process", "kind", "to", "other", "variable", "value":
        put(t, name, getattr(job, name))
    for name in "labels", "names":
        put(t, name, b"".join(word.ljust(4, b"\0") for word in getattr(job, name)))
    put(t, "lengths", [len(lemma) for lemma in job.lemmas])
    for k, lemma in enumerate(job.lemmas):
        t.items[k * tables.NAMES : k * tables.NAMES + len(lemma)] = lemma
    return calls.table(t)


def expected(text):
    """Number, place and table by the second reader; a refused job has one of zeros."""
    try:
        return 0, 0, table(reader.read(text))
    except reader.Refused as r:
        return r.number, r.place, calls.NO_TABLE


def vectors():
    """The lines of expected.txt: number, place, text."""

    def more(match):
        word = match.group(2)
        return "".join(f"A{i} maybe goto A{i}\n" for i in range(int(match.group(1)))) if word == "STEP" else word * int(match.group(1))

    for line in open(os.path.join(HERE, "expected.txt"), encoding="ascii"):
        if line.startswith("#"):
            continue
        head, text = line[:7], line[7:].rstrip("\n")
        text = text.replace("\\n", "\n").replace("\\t", "\t").replace("{JOB}", JOB.decode())
        number, place = map(int, head.split())
        yield number, place, re.sub(r"\{(\d+):([^}]*)\}", more, text).encode()


def nonsense(r):
    """Texts of the largest length that are no jobs, of bytes, of lines and of a job's own words."""
    yield bytes(reader.TEXT)
    yield b"\n" * reader.TEXT
    yield (b"bound 1\n" + b"~\n" * reader.TEXT)[: reader.TEXT]
    yield (JOB + b"a\n" * reader.TEXT)[: reader.TEXT]
    for _ in range(50):
        yield bytes(r.randint(32, 126) for _ in range(reader.TEXT))
        yield (b"bound 1\n" + b"".join(r.choices(jobs.PIECES, k=reader.TEXT)))[: reader.TEXT]


def main():
    count = int(sys.argv[1]) if len(sys.argv) > 1 else 10000
    r = random.Random(int(sys.argv[2]) if len(sys.argv) > 2 else 1)
    read, seen, words, by_hand = calls.reader(), collections.Counter(), collections.Counter(), set()

    def hold(text):
        want, got = expected(text), read(text)
        assert want == got, (want[:2], got[:2], [name for name in want[2] if want[2][name] != got[2][name]], text[:1000])
        seen[want[0]] += 1
        words[want[2]["word"]] += want[0] == 0

    told = list(vectors())
    for number, place, text in told:
        assert read(text)[:2] == (number, place), (number, place, read(text)[:2], text[:200])
        hold(text)
        by_hand.add(number)
    numbers = {0, *range(1, 8), *range(10, 15), *range(16, 19), *range(20, 25), 30, 32, *range(41, 45), 55, 98, 99}
    assert by_hand == numbers, numbers ^ by_hand
    seen.clear()
    words.clear()
    for _ in range(count):
        text = jobs.whole(r)
        hold(jobs.damaged(r, text) if r.random() < 0.7 else text)
    assert all(words[word] >= seen[0] // 4 for word in (0, 1, 2)) and seen[5] and seen[55], (words, seen)
    print(f"the reader: {len(told)} answers by hand, {count} random jobs ({seen[0]} accepted, {words[1]} start, {words[2]} crash,"
          f" {len(seen) - 1} numbers),", end=" ")
    for text in nonsense(r):
        hold(text)
    print(f"{sum(seen.values()) - count} texts of nonsense")


if __name__ == "__main__":
    main()
