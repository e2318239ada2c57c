"""The solvers that ./practice can ask, and their replies in document 01's form."""
import os
import re
import shutil
import subprocess

# Each solver's Debian package and the words that keep it quiet; the first that is there is taken where none is named.
SOLVERS = {
    "cadical": ("cadical", ["-q"]),
    "picosat": ("picosat", []),
    "minisat": ("minisat", ["-verb=0"]),
    "cryptominisat5": ("cryptominisat", ["--verb", "0"]),
    "clasp": ("clasp", ["-V0"]),
}


class Failed(Exception):
    """There is no solver, or it gave no answer; the text says which."""


def install(package, say):
    say(f"Installing the Debian package {package}.")
    root = [] if os.geteuid() == 0 else ["sudo"]
    for words in (["update", "-qq"], ["install", "-y", "-qq", "--no-install-recommends", package]):
        try:
            quietly = ["env", "DEBIAN_FRONTEND=noninteractive", "apt-get", *words]
            subprocess.run([*root, *quietly], check=True, stdout=subprocess.DEVNULL)
        except (OSError, subprocess.CalledProcessError):
            raise Failed(f"the Debian package {package} could not be installed; install it, or another solver, by hand") from None


def choose(name, say):
    """The solver that was named or the first that is there; where it is missing its package is installed."""
    name = name or next(filter(shutil.which, SOLVERS), "cadical")
    if not shutil.which(name):
        install(SOLVERS[name][0], say)
        if not shutil.which(name):
            raise Failed(f"the Debian package {SOLVERS[name][0]} is installed, but {name} is not on the PATH")
    return name


def in_form(solver, output):
    """A solver's output in document 01's form: `s` before `v`, no space at a line's end. cadical and picosat write it so."""
    if solver in ("cadical", "picosat"):
        return output
    lines = [line.rstrip() for line in output.splitlines()]
    if solver == "minisat":
        said = {"SAT": "s SATISFIABLE", "UNSAT": "s UNSATISFIABLE", "INDET": "s UNKNOWN"}
        lines = [said.get(line, "v " + line) for line in lines]
    kept = [line for line in lines if line[:2] in ("s ", "v ")]
    return "".join(line + "\n" for line in sorted(kept, key=lambda line: line[0]))


def ask(solver, folder):
    """The reply to clauses.cnf in the folder, and the answer in it alone. minisat writes its reply into a file of its own."""
    result = folder / "minisat.txt"
    result.unlink(missing_ok=True)
    words = [solver, *SOLVERS[solver][1], "clauses.cnf"] + [result.name] * (solver == "minisat")
    ended = subprocess.run(words, cwd=folder, stdout=subprocess.PIPE, stderr=subprocess.PIPE, text=True, errors="replace")
    output = result.read_text() if solver == "minisat" and result.exists() else ended.stdout
    reply = in_form(solver, output)
    answer = re.search("^s (.*)", reply, re.MULTILINE)
    if not answer:
        raise Failed(f"{solver} gave no answer (status {ended.returncode})\n{ended.stderr}".rstrip())
    return reply.encode(), answer[1]
