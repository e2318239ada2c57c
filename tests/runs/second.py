"""A second reading off and a second run to values, written from documents 01 ('Meaning', 'Numbering', 'Calls and buffers'; 51, 67 and 69)
and 02 (S-2) alone. The meaning of a turn and of a lemma is the search's (`../search.py`)."""
import search

PROCESSES = ("A", "B")


class Second:
    def __init__(self, job):
        self.job = job
        self.steps = list(job.steps)
        self.r, self.m, self.n = job.bound, len(job.steps), len(job.variables)
        self.items, self.group = self.m + self.n, self.n + 3
        self.own = [[c for c, name in enumerate(self.steps) if name[0] == p] for p in PROCESSES]
        self.helpers = [0 if len(own) <= 4 else (len(own) - 4 + 1) // 2 for own in self.own]
        self.total = (self.r + 1) * (self.items + sum(self.helpers)) + self.r + self.r * (self.r + 1) // 2 * self.items
        self.run_length = (self.r + 1) * self.group

    # -- a run's bytes --

    def state(self, run, t):
        a, b, *bits = run[t * self.group : (t + 1) * self.group - 1]
        return self.steps[a - 1], self.steps[b - 1], tuple(bits)

    def bytes_fit(self, run, t):
        *steps, turn = run[t * self.group], run[t * self.group + 1], run[(t + 1) * self.group - 1]
        bits = run[t * self.group + 2 : (t + 1) * self.group - 1]
        standing = all(step - 1 in own for step, own in zip(steps, self.own))
        return standing and all(bit <= 1 for bit in bits) and turn in ((1, 2) if t < self.r else (0,))

    def time_fits(self, run, t):
        """'bytes, lemma, equal states, turn before', and what the word asks of this time."""
        if not self.bytes_fit(run, t):
            return False
        state = self.state(run, t)
        if not self.word_fits(state, t):
            return False
        if not self.job.allowed(state) or any(self.state(run, u) == state for u in range(t)):
            return False
        return t == 0 or self.job.after(self.state(run, t - 1), PROCESSES[run[t * self.group - 1] - 1]) == state

    def word_fits(self, state, t):
        """'69 also at time 0 for a wrong start, at r for no crash'"""
        *standing, bits = state
        if t == 0 and self.job.word in ("start", "crash"):
            return standing == [self.steps[own[0]] for own in self.own] and not any(bits)
        return t < self.r or self.job.word != "crash" or all(self.job.steps[name][0] == "critical" for name in standing)

    def broken(self, run):
        """The first time at which the run breaks a rule, or None."""
        return next((t for t in range(self.r + 1) if not self.time_fits(run, t)), None)

    def values(self, run):
        def held(c, t):
            return run[t * self.group + PROCESSES.index(self.steps[c][0])] == c + 1

        def item(c, t):
            return held(c, t) if c < self.m else run[t * self.group + 2 + c - self.m]

        def helper(p, j, t):
            taken = self.own[p][::-1][: 3 + 2 * j]
            return not any(held(c, t) for c in taken)

        def difference(c, u, v):
            return item(c, u) and not item(c, v) if c < self.m else item(c, u) != item(c, v)

        times, items = range(self.r + 1), range(self.items)
        out = [item(c, t) for t in times for c in items]
        out += [run[(t + 1) * self.group - 1] == 1 for t in range(self.r)]
        out += [helper(p, j, t) for t in times for p in (0, 1) for j in range(self.helpers[p])]
        out += [difference(c, u, v) for v in times for u in range(v) for c in items]
        return bytes(map(int, out))

    def run_to_values(self, run, buffer):
        """Number (0: none), place and the buffer."""
        if len(run) < self.run_length or len(buffer) < self.total:
            return 51, 0, buffer
        place = self.broken(run)
        if place is not None:
            return 69, place, buffer
        return 0, 0, self.values(run) + buffer[self.total :]

    # -- values --

    def standing(self, values, t):
        """For each process its steps whose items are 1 at t."""
        return [[c for c in own if values[t * self.items + c] == 1] for own in self.own]

    def time_reads(self, values, t):
        small = all(value <= 1 for value in values[t * self.items : (t + 1) * self.items])
        return small and all(len(steps) == 1 for steps in self.standing(values, t))

    def unread(self, values):
        """The first time that does not read off, r+1 for turns and helpers, or None."""
        for t in range(self.r + 1):
            if not self.time_reads(values, t):
                return t
        return self.r + 1 if any(value > 1 for value in values[(self.r + 1) * self.items : self.total]) else None

    def run(self, values):
        out = b""
        for t in range(self.r + 1):
            (a,), (b,) = self.standing(values, t)
            bits = values[t * self.items + self.m : (t + 1) * self.items]
            turn = 0 if t == self.r else 1 if values[(self.r + 1) * self.items + t] else 2
            out += bytes([a + 1, b + 1, *bits, turn])
        return out

    def read_off(self, values, buffer):
        if len(values) < self.total or len(buffer) < self.run_length:
            return 51, 0, buffer
        place = self.unread(values)
        if place is not None:
            return 67, place, buffer
        return 0, 0, self.run(values) + buffer[self.run_length :]

    # -- a run as the search has it, and as the second program prints it --

    def of_search(self, run):
        """The bytes of a run of the search."""
        out = b""
        for (a, b, bits), turn in run:
            out += bytes([self.steps.index(a) + 1, self.steps.index(b) + 1, *bits, PROCESSES.index(turn) + 1 if turn else 0])
        return out

    def of_lines(self, printed):
        """The bytes of a run that was printed as 'time, steps, bits, turn'."""
        run = []
        for line in printed.decode().splitlines():
            time, a, b, *bits = line.split(" ")
            turn = bits.pop() if int(time) < self.r else ""
            run.append(((a, b, tuple(int(bit[-1]) for bit in bits)), turn))
        lines = "".join(line + "\n" for line in search.lines(self.job, run))
        assert len(run) == self.r + 1 and lines.encode() == printed, printed
        return self.of_search(run)
