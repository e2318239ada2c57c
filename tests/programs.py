"""The programs as a user runs them, on a stack of 2 MiB, the static libraries, and solvers. What is older than its sources is not
tested: it is built again first, and where it cannot be the test ends with a sentence."""
import functools
import os
import resource
import subprocess
import sys
import tempfile
from pathlib import Path

ROOT = Path(__file__).resolve().parent.parent
BIN = ROOT / "target" / "bin"
sys.path.insert(0, str(ROOT / "tools"))
import building

SOLVERS = (["cadical"], ["cadical", "-q"], ["picosat"])


def say(text):
    print(text, file=sys.stderr, flush=True)


def as_new(crate, build):
    """The path that `build` gives of what was built of a crate, no older than its sources."""
    try:
        path = build()
        building.must_be_new(ROOT, crate, path)
    except building.Failed as failed:
        sys.exit(str(failed))
    return path


@functools.cache
def path(program):
    together = building.PROGRAMS if program in building.PROGRAMS else [program]
    return as_new(program, lambda: building.build(ROOT, BIN, say, together) or BIN / program)


def all_new():
    """For a test that runs ./practice, which without rt takes old programs as they are."""
    for program in building.PROGRAMS:
        path(program)


def library(crate):
    return as_new(crate, lambda: building.library(ROOT, crate, say))


def small_stack():
    resource.setrlimit(resource.RLIMIT_STACK, (2 << 20, 2 << 20))


def ran(program, folder, text=b""):
    return subprocess.run([path(program)], input=text, stdout=subprocess.PIPE, cwd=folder, check=True, preexec_fn=small_stack).stdout


def sat_mutex(job):
    return ran("sat_mutex", None, job)


def show_run(job, claim):
    """What the second program prints in a folder with these files; None: there is no such file."""
    with tempfile.TemporaryDirectory() as folder:
        for name, text in (("job.txt", job), ("claim.txt", claim)):
            if text is not None:
                with open(os.path.join(folder, name), "wb") as file:
                    file.write(text)
        return ran("show_run", folder)


def solved(solver, cnf):
    """The solver's reply, as it prints it; solvers end with 10 or 20."""
    done = subprocess.run(solver, input=cnf, stdout=subprocess.PIPE)
    assert done.returncode in (10, 20), (solver, done.returncode)
    return done.stdout
