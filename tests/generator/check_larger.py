#!/usr/bin/env python3
"""Checks larger.cnf against document 01, not by reading the job but from a
hand-made table of jobs/larger.txt.  Literals are tuples such as ("A0", 1) for
"at A0 at time 1"; numbers come from one list of all of them in 01's order.

check_larger.py start, check_larger.py crash   check the text on standard
input, printed for the same job with that word on line 1 (02, S-2)."""
import sys

A_STEPS = ["A0", "A1", "A2", "A3", "A4", "A5", "Aend"]
B_STEPS = ["B", "B1", "B2", "Bw", "Bcs", "B9"]
ITEMS = ["A0", "B", "A1", "B1", "A2", "B2", "A3", "A4", "Bw", "A5", "Bcs", "Aend", "B9", "b", "a", "tn"]
STEPS, VARIABLES, R = ITEMS[:13], ITEMS[13:], 3
GOTO = {"A0": "A1", "A1": "A2", "A2": "A3", "A5": "Aend", "Aend": "A0",
        "B1": "B2", "B2": "Bw", "Bcs": "B9", "B9": "B"}
SETS = {"A1": ("a", 1), "B1": ("b", 1), "A2": ("tn", 1), "B2": ("tn", 0), "Aend": ("a", 0), "B9": ("b", 0)}

# Numbering
names = [(c, t) for t in range(4) for c in ITEMS] + [("turn", 0), ("turn", 1), ("turn", 2)]
names += [(h, t) for t in range(4) for h in ("hA1", "hA2", "hB1")]
names += [(c, u, v) for u, v in ((0, 1), (0, 2), (1, 2), (0, 3), (1, 3), (2, 3)) for c in ITEMS]

clauses = []
def clause(text, t=None, u=None, v=None):
    """`-x` is not x; a prime is t+1; U is turn t; `x@u`, `x@v`, `D:x` in differences."""
    numbers = []
    for word in text.split():
        x = word.lstrip("-")
        if x == "U": key = ("turn", t)
        elif x.startswith("D:"): key = (x[2:], u, v)
        elif x.endswith("@u"): key = (x[:-2], u)
        elif x.endswith("@v"): key = (x[:-2], v)
        elif x.endswith("'"): key = (x[:-1], t + 1)
        else: key = (x, t)
        numbers.append((names.index(key) + 1) * (-1 if word[0] == "-" else 1))
    clauses.append(" ".join(map(str, numbers + [0])))

def exclusion(t):   # 7 steps of A: helpers hA1, hA2; 6 of B: hB1; "--h" cancels to h
    for pairs in ("Aend,A5 Aend,A4 Aend,hA1 A5,A4 A5,hA1 A4,hA1",
                  "-hA1,A3 -hA1,A2 -hA1,hA2 A3,A2 A3,hA2 A2,hA2",
                  "-hA2,A1 -hA2,A0 A1,A0",
                  "B9,Bcs B9,Bw B9,hB1 Bcs,Bw Bcs,hB1 Bw,hB1",
                  "-hB1,B2 -hB1,B1 B2,B1 -hB1,B B2,B B1,B"):
        for pair in pairs.split():
            x, y = pair.split(",")
            clause(f"-{x} -{y}".replace("--", ""), t)

clause(" ".join(A_STEPS), 0)
clause(" ".join(B_STEPS), 0)
exclusion(0)
for t in range(R):
    exclusion(t + 1)
    for s in A_STEPS:
        clause(f"U -{s} {s}'", t)
        if s == "A3":           # neither branch is the step
            clause("-U -A3 -b A4'", t)
            clause("-U -A3 b A5'", t)
        elif s == "A4":         # M is the step; the test is "not tn"
            clause("-U -A4 A5'", t)
            clause("-U -A4 -tn", t)
        else:
            clause(f"-U -{s} {GOTO[s]}'", t)
    for s in B_STEPS:
        clause(f"-U -{s} {s}'", t)
        if s == "B":            # L is the step, and so is M; the test is "b"
            clause("U -B B'", t)
            clause("U -B -b", t)
        elif s == "Bw":         # L is the step; the test is "a"
            clause("U -Bw Bcs'", t)
            clause("U -Bw -a", t)
        else:
            clause(f"U -{s} {GOTO[s]}'", t)
    for x, of_a, of_b in (("b", "", "B1 B9"), ("a", "A1 Aend", ""), ("tn", "A2", "B2")):
        for s in STEPS:
            if SETS.get(s, ("",))[0] == x:
                clause(("-U" if s[0] == "A" else "U") + f" -{s} " + ("" if SETS[s][1] else "-") + x + "'", t)
        clause(f"-U {x} {of_a} -{x}'", t)
        clause(f"U {x} {of_b} -{x}'", t)
        clause(f"-U -{x} {of_a} {x}'", t)
        clause(f"U -{x} {of_b} {x}'", t)
    for u in range(t + 1):
        for x in STEPS:
            clause(f"-D:{x} {x}@u", u=u, v=t + 1)
            clause(f"-D:{x} -{x}@v", u=u, v=t + 1)
        for x in VARIABLES:
            clause(f"-D:{x} {x}@u {x}@v", u=u, v=t + 1)
            clause(f"-D:{x} -{x}@u -{x}@v", u=u, v=t + 1)
        clause(" ".join(f"D:{x}" for x in ITEMS), u=u, v=t + 1)
for words in ("-A5 -Bcs", "a A0 A1"):
    for t in range(R + 1):
        clause(words, t)

words = sys.argv[1:]
if words:
    for text in ("-b", "-a", "-tn", "A0", "B"):
        clause(text, 0)
if words == ["crash"]:
    for text in ("A5", "Bcs"):
        clause(text, R)

head = ["c ~ two flags and a turn bit; A looks in two steps, B at one flag only, and B ends where both ways lead back",
        "c ~ the critical steps and the way back",
        f"p cnf {len(names)} {len(clauses)}"]
printed = sys.stdin if words else open("larger.cnf")
same = printed.read() == "\n".join(head + clauses) + "\n"
print(f"{len(names)} variables, {len(clauses)} clauses:", "equal" if same else "DIFFERENT")
raise SystemExit(not same)
