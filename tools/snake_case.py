#!/usr/bin/env python3
"""Brings the repository's own definitions and lemmas to snake case: `stepTurn` and `step-turn` become `step_turn`.

usage: tools/snake_case.py           renames in every .antt and .rt file below crates/
       tools/snake_case.py --look    says what would fall together, and changes nothing

It was run once, after the toolchain's own script, when the repository came to a newer Rattle. Types, modules, constructors and facts
keep their capital; a name that a file brings in from a library of the toolchain keeps its spelling, and so do names that Rattle makes.
"""
import os
import re
import sys

HERE = os.path.dirname(os.path.realpath(__file__))
CRATES = os.path.join(HERE, "..", "crates")
# what a name of the proof language is made of: anything but spaces, brackets, commas, dots and the like
NAME = re.compile(r"[^\s()\[\]{}⟨⟩,;.:`\"=|&?@#/+*<>λ→×∷≡≤∙]+")
BINDERS = re.compile(r"[({]([^(){}:]+):(?!:)")
SIGNATURE = re.compile(r"(?m)^\s*(?:(?:abbrev|unfoldable|opaque)\s+)?(?:pub\s+)?([^\s(){}:]+)(?:\s*\{[^{}]*\})?\s*:(?!:)")
LAMBDA = re.compile(r"λ\s*([^.]*?)\.")
LET = re.compile(r"\blet\s+([^\s:=()]+)")
IMPORT = re.compile(r"(?m)^\s*(?:pub\s+)?use\s+([^\s;{]+?)\.\{([^}]*)\}")


def texts(ending):
    for folder, dirs, files in os.walk(CRATES):
        dirs[:] = sorted(d for d in dirs if d != "out")
        for f in sorted(files):
            if f.endswith(ending):
                yield os.path.join(folder, f)


def read(path):
    with open(path, encoding="utf-8") as f:
        return f.read()


def own_crates():
    return {d for d in os.listdir(CRATES) if os.path.isdir(os.path.join(CRATES, d, "src"))}


def turned(name):
    """The name in snake case; a name with a capital in front, and one with no letter, stays."""
    if not re.match(r"[a-z]", name) or not (re.search(r"[a-z0-9'][A-Z]", name) or "-" in name):
        return name
    name = re.sub(r"([a-z0-9'])([A-Z])", lambda m: m.group(1) + "_" + m.group(2).lower(), name)
    name = re.sub(r"([A-Z])(?=[A-Z])", lambda m: m.group(1).lower(), name)
    return name.replace("-", "_").lower() if re.fullmatch(r"[A-Za-z0-9_'\-]+", name) else name.replace("-", "_")


def uncommented(text):
    return re.sub(r"(?m)--.*$", "", text)


def declared(text):
    """The names that a file declares or binds."""
    text = uncommented(text)
    names = {m.group(1) for m in SIGNATURE.finditer(text)}
    for m in BINDERS.finditer(text):
        names |= set(m.group(1).split())
    for m in LAMBDA.finditer(text):
        names |= set(m.group(1).split())
    names |= {m.group(1) for m in LET.finditer(text)}
    names |= set(re.findall(r"(?m)^\s*([a-z][^\s(){}:]*)(?:\s+[^\n=]*)?\s=\s", text))
    return {n for n in names if turned(n) != n}


def laws(proofs):
    """Lemmas that would get the name of a definition: the toolchain's custom adds `_lem`."""
    words, lemmas = set(), {}
    for p in proofs:
        if p.endswith("/Proof.antt"):
            continue
        text = uncommented(read(p))
        for m in re.finditer(r"(?m)^\s*(abbrev|unfoldable)\s+(?:pub\s+)?([^\s(){}:]+)", text):
            words.add(m.group(2))
        records = re.findall(r"(?s)\brecord\b[^\n]*\bwhere\n(.*?)(?=\n\S|\Z)", text)
        fields = {f for r in records for f in re.findall(r"(?m)^\s+(?:pub\s+)?([^\s(){}:]+)\s*:", r)}
        for m in re.finditer(r"(?m)^\s*(?:pub\s+)?([a-z][^\s(){}:]*)(?:\s*\{[^{}]*\})?\s*:(?!:)", text):
            if m.group(1) not in fields and m.group(1) not in ("abbrev", "unfoldable", "use", "record", "data"):
                lemmas.setdefault(m.group(1), set()).add(p)
    there = {turned(w): w for w in words}
    return {n for n in lemmas if turned(n) in there and n not in words}


def is_own(module, crates):
    parts = module.split(".")
    return parts[0] == "Rattle" and len(parts) > 1 and parts[1] in crates


def foreign(text, crates):
    """The names that a file brings in from elsewhere, and what Rattle made of a function's proof."""
    names = set()
    for m in IMPORT.finditer(text):
        if not is_own(m.group(1), crates):
            names |= {w for item in m.group(2).split(",") for w in item.replace(" as ", " ").split()}
    return names


# Lemmas of a module that were in snake case already, and that would meet a definition of that name now
MEET = {
    "claims/proofs/RunBytes": "bytes_fit",
    "form/proofs/ReadAgainLaws": "rows_long",
    "job/proofs/InRange": "own_below turns_at",
    "job/proofs/MarkedCases": "one_bit",
    "job/proofs/MeaningLaws": "is_state",
    "job/proofs/TurnLaws": "from_step",
    "parse/proofs/LinkFits": "step_fits",
    "reply/proofs/ListedLaws": "values_listed",
    "states/proofs/GroupLaws": "same_bits step_in",
    "values/proofs/FaultLaws": "bytes_fit fresh_at holds_at",
    "values/proofs/RunLaws": "turn_at",
}
# Names that a file gives a module of its own, where a definition has that name now
ALIASES = {"job/proofs/Listings": {"from_start": "from_start_listing", "one_bit": "one_bit_listing"}}
LAWS = set()


def meeting(path, text):
    """Those of MEET that stand in this file, by declaration or import."""
    names = set(MEET.get(os.path.relpath(path, CRATES)[: -len(".antt")], "").split())
    for m in IMPORT.finditer(text):
        there = MEET.get(m.group(1)[len("Rattle.") :].replace(".", "/"), "").split()
        names |= set(there) & set(re.split(r"[\s,]+", m.group(2)))
    return names


def renamed(name):
    return turned(name) + "_lem" if name in LAWS else turned(name)


def comment_turned(text, own):
    def one(m):
        return renamed(m.group(0)) if m.group(0) in own else m.group(0)

    return re.sub(r"[a-z][a-z0-9]*[A-Z]\w*|(?<=`)[a-z]\w*(?:-\w+)+(?=`)", one, text)


def line_turned(line, own, kept, met):
    def one(m):
        name = m.group(0)
        if name in met and line[: m.start()][-1:] != ".":
            return name + "_lem"
        if name not in own or name in kept:
            return name
        before = line[: m.start()]
        if before.endswith("tie."):
            return name
        return turned(name) if before.endswith(".") else renamed(name)

    return NAME.sub(one, line)


def proof_turned(text, own, kept, met=frozenset()):
    out = []
    for line in text.split("\n"):
        at = line.find("--")
        code, comment = (line, "") if at < 0 else (line[:at], line[at:])
        out.append(line_turned(code, own, kept, met) + comment_turned(comment, own))
    return "\n".join(out)


CLAUSE = re.compile(r"\b(?:requires|ensures)\b[^{\n]*\{|\bghost\s+use\s+|\bghost\s+[\w ]*:?\s*\{")


def source_turned(text, own, kept):
    """Clauses and what they bring in; the code itself keeps its names."""
    out, at = [], 0
    while True:
        m = CLAUSE.search(text, at)
        if not m:
            break
        out.append(text[at : m.start()])
        if m.group(0).startswith("ghost") and "use" in m.group(0):
            end = text.index(";", m.end())
            own_here = "Rattle." in text[m.end() : end] and re.match(r"Rattle\.(\w+)", text[m.end() : end]).group(1) in own_crates()
            piece = text[m.start() : end]
            out.append(proof_turned(piece, own, set()) if own_here else piece)
        else:
            depth, end = 1, m.end()
            while depth:
                depth += {"{": 1, "}": -1}.get(text[end], 0)
                end += 1
            out.append(proof_turned(text[m.start() : end], own, kept))
        at = end
    out.append(text[at:])
    text = "".join(out)
    return re.sub(r"(?m)//.*$", lambda m: comment_turned(m.group(0), own), text)


def source_foreign(text, crates):
    names = set()
    for m in re.finditer(r"ghost use ([\w.]+)\.\{([^}]*)\}", text):
        if not is_own(m.group(1), crates):
            names |= {w for item in m.group(2).split(",") for w in item.replace(" as ", " ").split()}
    return names


def main():
    crates = own_crates()
    proofs, sources = list(texts(".antt")), list(texts(".rt"))
    own = set()
    for p in proofs:
        own |= declared(read(p)) - foreign(read(p), crates)
    LAWS.update({n for n in laws(proofs) if turned(n) != n} | {"is-turn"})
    if "--look" in sys.argv:
        look(proofs, own, crates)
        return
    for p in proofs:
        text = read(p)
        new = text
        for name, other in ALIASES.get(os.path.relpath(p, CRATES)[: -len(".antt")], {}).items():
            new = re.sub(rf" as {name}\b|\b{name}(?=\.)", lambda m: m.group(0).replace(name, other), new)
        new = proof_turned(new, own, foreign(text, crates), meeting(p, text))
        if new != text:
            with open(p, "w", encoding="utf-8") as f:
                f.write(new)
    for p in sources:
        text = read(p)
        new = source_turned(text, own, source_foreign(text, crates))
        if new != text:
            with open(p, "w", encoding="utf-8") as f:
                f.write(new)


def look(proofs, own, crates):
    """Names of one file that fall together, with each other or with a name from elsewhere."""
    for p in proofs:
        text = uncommented(read(p))
        kept, met = foreign(text, crates), meeting(p, text)
        seen = {}
        for m in NAME.finditer(text):
            name = m.group(0)
            to = renamed(name) if name in own and name not in kept else name + "_lem" if name in met else name
            seen.setdefault(to, set()).add(name)
        for to, names in sorted(seen.items()):
            if len(names) > 1:
                print(f"{os.path.relpath(p, CRATES)}: {to} of {', '.join(sorted(names))}")


if __name__ == "__main__":
    main()
