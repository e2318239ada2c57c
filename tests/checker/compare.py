#!/usr/bin/env python3
"""Holds the proved checker to expected.txt, and to the second checker on random replies.

Use: `tests/checker/compare.py [HOW_MANY [SEED]]` (10,000 replies, seed 1)."""
import collections
import functools
import os
import random
import sys

HERE = os.path.dirname(os.path.abspath(__file__))
sys.path.insert(0, os.path.dirname(HERE))
import calls
import checker
import replies
import tables

SOLVED = b"s SATISFIABLE\nv 1 2 -3 4 5 6 7 -8 -9 10 0\n"
# both get in at time 4, one of A's two critical steps first; A has no critical step, B has
CRASHES = "bound 4 crash\nA0 if b=0 goto A1 else A0\nB0 if a=0 goto B1 else B0\nA1 a=1 goto A2\nB1 b=1 goto B2\nA2 critical goto A3\n"
CRASHES += "A3 critical goto A0\nB2 critical goto B0\nlemmas\n"
NO_STEP_OF_A = "bound 1 crash\nA0 a=1 goto A0\nB0 maybe goto B1\nB1 critical goto B0\nlemmas\n"
PARTS = ("free", "start", "crash", "empty")      # of the clauses: before the words, and what a word adds


def model(variables, clauses):
    """A solution by a plain search with unit clauses, or None."""
    def settle(said, todo):
        while True:
            rest, unit = [], None
            for clause in todo:
                if any(said.get(abs(l)) == (l > 0) for l in clause):
                    continue
                free = [l for l in clause if abs(l) not in said]
                if not free:
                    return None
                if len(free) == 1:
                    unit = free[0]
                rest.append(free)
            if unit is None:
                return rest
            said[abs(unit)] = unit > 0
            todo = rest

    def search(said, todo):
        said = dict(said)
        todo = settle(said, todo)
        if todo is None or not todo:
            return None if todo is None else said
        l = todo[0][0]
        return search({**said, abs(l): l > 0}, todo) or search({**said, abs(l): l < 0}, todo)

    found = search({}, clauses)
    return found and [x if found.get(x) else -x for x in range(1, variables + 1)]


def stored(name):
    with open(os.path.join(HERE, "../generator/jobs", name + ".txt")) as file:
        return file.read()


@functools.cache
def of(job):
    """A job's table, N and the clauses."""
    return tables.table(job), *tables.clauses(job)


def expected(check):
    """Both checkers on the list of expected.txt, and on 45, 51 and 60, which change no byte."""
    text = stored("one_bit")
    table, variables, _ = of(text)
    wrong = count = 0

    def hold(want, got, what):
        nonlocal wrong, count
        count += 1
        if want != got:
            wrong += 1
            print(f"{what!r}: wanted {want}, got {got}")

    def hold_both(number, place, job, reply, buffer, what):
        second = checker.check(*of(job)[1:], reply, buffer)
        hold((number, place, *second), (*second[:2], *check(of(job)[0], reply, buffer)), what)

    for job, number, place, reply in replies.by_hand():
        hold_both(number, place, job.decode(), reply, bytes(range(200, 203 + of(job.decode())[1])), (job, reply))
    old = bytes(range(200, 213))
    long = b"c" * checker.LONGEST
    hold((61, 1, bytes(variables) + old[variables:]), check(table, long, old), "no byte too many")
    for reply in b"", SOLVED, long + b"c":
        for length in 0, 9, 10, 13:
            buffer, what = old[:length], f"a reply of {len(reply)} bytes, a buffer of {length}"
            for name, value in ("bound", 0), ("word", 3), ("word", 255):
                hold((45, 0, buffer), check(tables.changed(table, name, None, value), reply, buffer), f"{what}, {name} {value}")
            if length < variables:
                hold_both(51, 0, text, reply, buffer, what)
            elif len(reply) > checker.LONGEST:
                hold_both(60, 0, text, reply, buffer, what)
    print(f"the checker: {count} answers written by hand, {wrong} differ")
    return wrong


def part(table, clauses, place):
    """Which part of a job's clauses the one at this place is of."""
    crash = 2 * (table.word == 2)
    if place <= len(clauses) - crash - (table.variables + 2) * (table.word > 0):
        return "free"
    return "start" if place <= len(clauses) - crash else "crash" if clauses[place - 1] else "empty"


def models(table, variables, clauses):
    """Solutions of all clauses but the empty ones, of those without the crash, and of those without the start as well."""
    crash = 2 * (table.word == 2)
    start = (table.variables + 2) * (table.word > 0)
    parts = {len(clauses), len(clauses) - crash, len(clauses) - crash - start}
    return [model(variables, [clause for clause in clauses[:count] if clause]) for count in sorted(parts)]


def job_texts():
    """Jobs without a word and with each: with a run, with none, and with an empty clause of A's, of B's and of both."""
    plain = [stored("one_bit"), stored("larger"), "bound 2\nA0 maybe goto A0\nB0 maybe goto B0\nlemmas\n"]
    plain += [plain[0] + "~a\n", plain[0] + "a A0\n B0  ~a\n"]
    yield from plain
    yield from (stored("empty_clause"), stored("from_start"), stored("from_start").replace("start", "crash"))
    yield from (CRASHES, CRASHES.replace("crash", "start"), NO_STEP_OF_A, NO_STEP_OF_A.replace(" crash", ""))
    yield from (text.replace("\n", f" {word}\n", 1) for text in plain if text != plain[3] for word in ("start", "crash"))


def compared(check, how_many, seed):
    r = random.Random(seed)
    jobs = []
    for text in job_texts():
        jobs.append((*of(text), models(*of(text))))
    seen, parts, words, wrong = collections.Counter(), collections.Counter(), collections.Counter(), 0
    for i in range(how_many):
        table, variables, clauses, solutions = jobs[i % len(jobs)]
        text = replies.reply(r, variables, r.choice(solutions))
        short = r.randrange(variables) if r.random() < 0.2 else variables
        size = r.choice([variables, variables + 1, variables + r.randrange(1, 300), short])
        buffer = bytes(r.randrange(256) for _ in range(size))
        want = checker.check(variables, clauses, text, buffer)
        got = check(table, text, buffer)
        seen[want[0]] += 1
        if want[0] == 65:
            parts[part(table, clauses, want[1])] += 1
        words[table.word] += want[0] == 0
        if want != got:
            wrong += 1
            if wrong < 10:
                buffers = "same buffer" if want[2] == got[2] else "another buffer"
                print(f"job {i % len(jobs)}, {text!r}: wanted {want[:2]}, got {got[:2]}, {buffers}")
    print(f"the checker: {how_many} random replies, {wrong} differ;", ", ".join(f"{n}: {seen[n]}" for n in sorted(seen)) + ";",
          ", ".join(f"65 {name}: {parts[name]}" for name in PARTS))
    counts = [*(seen[n] for n in (0, 51, 61, 62, 63, 64, 65, 66)), *(parts[name] for name in PARTS), *(words[word] for word in (0, 1, 2))]
    return wrong + counts.count(0)


if __name__ == "__main__":
    how_many = int(sys.argv[1]) if len(sys.argv) > 1 else 10000
    seed = int(sys.argv[2]) if len(sys.argv) > 2 else 1
    check = calls.call(calls.proved(), "check_reply")
    sys.exit(1 if expected(check) + compared(check, how_many, seed) else 0)
