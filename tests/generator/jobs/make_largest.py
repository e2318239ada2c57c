#!/usr/bin/env python3
"""Prints a job with 99 + 1 steps, 100 variables and bound 99, which needs the
1,014,899 variables of document 01's largest total.

make_largest.py        2,093,352 clauses, 50,376,850 bytes.  100 lemmas, each
                       64 times the last variable, negated; values 0; B's step
                       first; comments fill the job up to 32,768 bytes.
make_largest.py plain  2,083,352 clauses, 46,182,056 bytes.  No lemmas, no
                       comments; values 1; B's step last.
make_largest.py crash  The first one with the word of 02's S-2: 104 clauses
                       more, two of them empty.

Every step assigns a variable of its own, so that 100 are mentioned."""

import sys
from string import ascii_letters, ascii_lowercase, digits

plain = sys.argv[1:] == ["plain"]
every = ascii_letters + digits
a_names = (["A"] + ["A" + x for x in every] + ["A0" + x for x in every])[:99]
step_names = a_names + ["B"] if plain else ["B"] + a_names
variable_names = ([x + y for x in "ab" for y in every] + list(ascii_lowercase))[-100:]

job = ["bound 99 crash" if sys.argv[1:] == ["crash"] else "bound 99"]
value = 1 if plain else 0
steps = [f"{s} {v}={value} goto {s[0]}" for s, v in zip(step_names, variable_names)]
lemmas = ["lemmas"]
comments = []
if not plain:
    lemmas += [" ".join(["~" + variable_names[-1]] * 64)] * 100
    room = 32768 - sum(len(line) + 1 for line in job + steps + lemmas)
    comments = ["~"] * (room // 2 - 1) + ["~" * (room % 2 + 1)]
print("\n".join(job + comments + steps + lemmas))
