#!/usr/bin/env python3
"""Turns a DIMACS text on standard input into a file of definitions: its header's totals and its clauses, by which the checker's
evaluation of the definitions is held to what the separate generator prints."""
import sys

LONGEST, WIDTH = 138, 137   # a longer row is broken, its lines at this width
number = lambda n: f"pos {n}" if n > 0 else f"neg {-n}"
variables = clauses = 0
rows = []
for line in sys.stdin:
    if line.startswith("p cnf "):
        variables, clauses = map(int, line.split()[2:])
    elif not line.startswith("c"):
        rows.append([int(n) for n in line.split()][:-1])
assert len(rows) == clauses

print(f"""-- Printed by the separate generator of tests/generator for its job {sys.argv[1]}, and put into this form by tests/listing.py.
use mathlib.Core.List.{{List, [], ◌∷◌}}
use Prim.Native.Nat.{{ℕ, zero, suc}}
use lib.IntN.{{ℤ, pos, negsuc}}

abbrev neg : ℕ → ℤ
neg zero = pos zero
neg (suc n) = negsuc n

abbrev pub variables : ℕ
variables = {variables}

abbrev pub clauses : List (List ℤ)
clauses =""")
for row in rows:
    first, *more = [*map(number, row), "[])"]
    line = f"    ({first}"
    if len(" ∷ ".join([line, *more])) > LONGEST:
        for part in more:
            if len(f"{line} ∷ {part}") > WIDTH:
                print(line)
                line = "   "
            line += f" ∷ {part}"
    else:
        line = " ∷ ".join([line, *more])
    print(line + " ∷")
print("    []")
