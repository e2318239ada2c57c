"""A second checker of replies, written from document 01 alone ('Calls and buffers', Checking; 51 and 60 to 66).

It goes through the reply byte by byte and raises the first refusal that it meets."""

LONGEST = 16777216
COMMENT, LF, MINUS, SPACE, VALUES = b"c"[0], b"\n"[0], b"-"[0], b" "[0], b"v"[0]


class Refused(Exception):
    def __init__(self, number, place):
        self.number, self.place = number, place


class Reader:
    """The reply, a place in it, and the number of the line there."""

    def __init__(self, reply):
        self.reply, self.at, self.line = reply, 0, 1

    def refuse(self, number):
        raise Refused(number, self.line)

    def byte(self):
        return self.reply[self.at] if self.at < len(self.reply) else None

    def skip(self, byte):
        if self.byte() != byte:
            self.refuse(61)
        self.at += 1

    def end_line(self):
        self.skip(LF)
        self.line += 1

    def comments(self):
        while self.byte() == COMMENT:
            while self.byte() not in (LF, None):
                self.at += 1
            self.end_line()

    def status(self):
        """`s SATISFIABLE`; as the first line that is not `c`, `s UNSATISFIABLE` is 66."""
        if self.reply.startswith(b"s UNSATISFIABLE\n", self.at):
            self.refuse(66)
        for byte in b"s SATISFIABLE":
            self.skip(byte)
        self.end_line()

    def number(self):
        """A number with its sign: no leading zero, no `-0`, at most 7 digits."""
        sign = 1
        if self.byte() == MINUS:
            sign = -1
            self.at += 1
        digits = b""
        while self.byte() is not None and 48 <= self.byte() <= 57:
            digits += bytes([self.byte()])
            self.at += 1
        if not 1 <= len(digits) <= 7 or (digits[0] == 48 and (len(digits) > 1 or sign < 0)):
            self.refuse(61)
        return sign * int(digits)


def read(variables, reply):
    """The value of each number from 1 on."""
    said = {}
    r = Reader(reply)
    r.comments()
    r.status()
    closed = False
    while not closed:
        r.comments()
        r.skip(VALUES)
        while True:
            r.skip(SPACE)
            number = r.number()
            if number == 0:
                closed = True
                break
            if abs(number) > variables:
                r.refuse(62)
            if abs(number) in said:
                r.refuse(63)
            said[abs(number)] = number > 0
            if r.byte() != SPACE:
                break
        r.end_line()
    r.comments()
    if r.byte() is not None:
        r.refuse(61)
    for x in range(1, variables + 1):
        if x not in said:
            raise Refused(64, x)
    return said


def check(variables, clauses, reply, buffer):
    """The number (0: accepted), the place and the buffer."""
    if len(buffer) < variables:
        return 51, 0, buffer
    if len(reply) > LONGEST:
        return 60, 0, buffer
    kept = buffer[variables:]
    try:
        said = read(variables, reply)
    except Refused as r:
        return r.number, r.place, bytes(variables) + kept
    held = bytes(said[x] for x in range(1, variables + 1)) + kept
    for number, clause in enumerate(clauses, 1):
        if not any(said[abs(literal)] == (literal > 0) for literal in clause):
            return 65, number, held
    return 0, 0, held
