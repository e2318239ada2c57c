"""The proved programs and static libraries, built where one is missing or older than its sources."""
import os
import re
import shutil
import signal
import subprocess
import sys
import threading
import time

PROGRAMS = ["sat_mutex", "show_run", "file_job"]
PIPES = {"stdout": subprocess.PIPE, "stderr": subprocess.STDOUT, "text": True, "errors": "replace"}


class Failed(Exception):
    """What is needed is not there or is old, and cannot be built; the text says why."""


class Progress:
    """A line for each crate when it is proved; on a terminal also one below them that counts the seconds."""

    def __init__(self, total):
        self.total, self.done, self.begin = total, 0, time.monotonic()
        self.live, self.lock, self.over = sys.stderr.isatty(), threading.Lock(), threading.Event()

    def __enter__(self):
        if self.live:
            threading.Thread(target=self.tick, daemon=True).start()
        return self

    def __exit__(self, *_):
        self.over.set()
        with self.lock:
            self.write("")

    def write(self, text):
        """Over the counting line, which the next second brings back."""
        print(("\r\033[K" if self.live else "") + text, end="", file=sys.stderr, flush=True)

    def stamp(self):
        seconds = int(time.monotonic() - self.begin)
        return f"  {self.done:2} of {self.total}  {seconds // 60}:{seconds % 60:02}  "

    def tick(self):
        while not self.over.wait(1):
            with self.lock:
                if not self.over.is_set():
                    self.write(self.stamp() + "proving ...")

    def proved(self, text):
        with self.lock:
            self.done = min(self.done + 1, self.total)
            if "unchanged" not in text:
                self.write(self.stamp() + text + "\n")


def needed(root, names):
    """The crates of this repository that these stand on, themselves included."""
    below = {}
    for line in (root / "crates.txt").read_text().splitlines():
        name, colon, under = line.partition(":")
        if colon and not line.startswith("#"):
            below[name.split()[0]] = under.split()   # behind the name may stand what kind of crate it is
    met, todo = set(), list(names)
    while todo:
        name = todo.pop()
        if name in below and name not in met:
            met.add(name)
            todo += below[name]
    return met


def sources(root, crate):
    """What a crate is built from: crates.txt, and code, definitions and proofs of the crates that it stands on."""
    yield root / "crates.txt"
    for name in needed(root, [crate]):
        for part in "src", "specs", "proofs":
            for folder, _, names in os.walk(root / "crates" / name / part):
                yield from (os.path.join(folder, name) for name in names)


def fault(root, crate, built):
    """Why what was built of a crate cannot stand for its sources: it is missing, or older than one of them. None where it can."""
    name = os.path.relpath(built, root)
    if not built.exists():
        return f"{name} is not there"
    newest = max(sources(root, crate), key=os.path.getmtime)
    return f"{name} is older than {os.path.relpath(newest, root)}" if os.path.getmtime(newest) > os.path.getmtime(built) else None


def must_be_new(root, crate, built):
    """For a test, which of an old program would say nothing about the sources."""
    why = fault(root, crate, built)
    if why:
        raise Failed(f"{why}, so it is not tested")


def asked(root, crate, word, told):
    """What `rt word` says of a crate, in that crate's folder: `told` is given each line; the last twenty come back with the status. Who
    stops waiting stops the provers."""
    lines = []
    folder = root / "crates" / crate
    rt = subprocess.Popen(["rt", word], cwd=folder, stdin=subprocess.DEVNULL, start_new_session=True, **PIPES)
    try:
        for line in map(str.rstrip, rt.stdout):
            told(line)
            lines.append(line)
    except KeyboardInterrupt:
        os.killpg(rt.pid, signal.SIGTERM)
        raise
    return rt.wait(), lines[-20:]


def prove(root, folder, names):
    """Each program with the crates that it stands on: rt names a crate when it begins with it, and says when all of it is proved. What rt
    built is copied into the folder."""
    met, now = set(), []
    with Progress(len(needed(root, names))) as progress:
        def told(line):
            begun = re.match(r"rt: chose --jobs \d+ for (\w+)", line)
            if begun:
                now[:] = begun.groups()
            elif line.startswith("logic=proved") and not met.issuperset(now):
                met.update(now)
                progress.proved(f"{now[0]} proved")

        for name in names:
            status, lines = asked(root, name, "run", told)
            if status:
                return status, lines
            take(root / "crates" / name / "out" / name, folder / name)
    return 0, []


def take(made, path):
    """What rt made, with its time, at the path where it is looked for."""
    if made.exists():
        path.parent.mkdir(parents=True, exist_ok=True)
        shutil.copy2(made, path)


def date(paths, seconds):
    """What is built again and comes out the same keeps its old time; all of it is as new as the sources were when the build began."""
    for path in paths:
        os.utime(path, (seconds, seconds))


def ask_for_rt(why):
    if not shutil.which("rt"):
        raise Failed(f"{why}, and rt, the Rattle toolchain that proves and builds, is not on the PATH")


def build(root, folder, say, names=PROGRAMS):
    """Whatever is missing or old is proved and built; without rt, programs that are there are taken as they are."""
    programs = [folder / name for name in names]
    why = next(filter(None, (fault(root, path.name, path) for path in programs)), None)
    there = all(path.exists() for path in programs)
    if not why or there and not shutil.which("rt"):
        return
    ask_for_rt("the programs are not built yet")
    if there:
        say(f"{why}: the programs are built again.")
    else:
        say("Building the programs. Their proofs are checked first; that takes some minutes, once.")
    begin = time.time()
    status, details = prove(root, folder, names)
    if status:
        raise Failed("\n".join(["the programs could not be built", *details]))
    for path in programs:
        if not path.exists():
            raise Failed(f"all is proved, but {path} is not there: remove the folder crates/{path.name}/out and try again")
    date(programs, begin)


def library(root, crate, say):
    """The crate's static library, proved and built where it is missing or old."""
    path = root / "target" / "staticlib" / f"lib{crate}.a"
    why = fault(root, crate, path)
    if why:
        ask_for_rt(why)
        say(f"{why}: it is built.")
        begin = time.time()
        status, lines = asked(root, crate, "lib", lambda line: None)
        if status:
            raise Failed("\n".join([f"{path.name} could not be built", *lines]))
        take(root / "crates" / crate / "out" / path.name, path)
        date([path], begin)
    return path
