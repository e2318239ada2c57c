"""What each refusal of documents 01 and 02 means, in words: its number, what its place is, a sentence."""

JOB, REPLY, NONE = "line of the job", "line of the reply", "none"

REFUSALS = {
    1: (NONE, "The job is empty or has more than 32,768 bytes."),
    2: (JOB, "This line has more than 1,022 bytes."),
    3: (JOB, "This line has a byte that is not printable ASCII: a tab (\\x09), an accent, a Windows line end (\\x0d)."),
    4: (JOB, "This is the last line, and it lacks its line end."),
    5: (JOB, "Line 1 must be 'bound R', 'bound R start' or 'bound R crash' and nothing more; R is from 1 to 99 without a leading zero."),
    6: (JOB, "The job ends without the line 'lemmas'."),
    7: (JOB, "This would be the 101st step; a job has at most 100."),
    10: (JOB, "The step's name has more than 4 characters."),
    11: (JOB, "The step's name is missing or ill-formed: A or B, then up to 3 letters or digits."),
    12: (JOB, "An earlier step has this name."),
    13: (JOB, "A space and what the step does must follow its name."),
    14: (JOB, "Nothing may follow the label after 'goto' in a step that is not an if."),
    16: (JOB, "Here ' goto ' is missing; it has one space on either side."),
    17: (JOB, "The label after 'goto' is ill-formed: A or B, then up to 3 letters or digits."),
    18: (JOB, "The '=' after the variable is missing."),
    19: (JOB, "The if step ends badly."),
    20: (JOB, "The variable's name has more than 2 characters. (What is not maybe, critical or if is read as an assignment.)"),
    21: (JOB, "The variable's name is missing or ill-formed: a lowercase letter, then at most one letter or digit."),
    22: (JOB, "A variable's value must be 0 or 1."),
    23: (JOB, "In this if step ' else ' is missing after the label; it has one space on either side."),
    24: (JOB, "The label after 'else' is ill-formed: A or B, then up to 3 letters or digits, to the end of the line."),
    30: (JOB, "No step has the name that this step goes to."),
    32: (JOB, "This step goes to a step of the other process."),
    41: (JOB, "This would be the 101st lemma; a job has at most 100."),
    42: (JOB, "This lemma has no name in it."),
    43: (JOB, "A name in this lemma is neither a step nor a variable of the job. (There are no comments after 'lemmas'.)"),
    44: (JOB, "This lemma has more than 64 names."),
    45: (NONE, "The table is not that of a job."),
    50: (NONE, "There is no clause with this number."),
    51: (NONE, "A lent buffer is too short."),
    52: (NONE, "The job is too large for show_run: it takes at most 32,768 variables and a reply of at most 32,768 bytes."),
    55: (JOB, "The first step of A and the first step of B are both critical, so the start that line 1 asks for is a crash already."),
    60: (NONE, "The reply has more than 16,777,216 bytes."),
    61: (REPLY, "The reply is not 's SATISFIABLE' and then lines of 'v' and numbers, the last one 0."),
    62: (REPLY, "The reply has a number that no variable has."),
    63: (REPLY, "The reply gives a variable a value twice."),
    64: ("smallest number missing", "The reply gives this variable no value."),
    65: ("clause", "The reply makes this clause false."),
    66: (REPLY, "There is no run of this length, says the solver."),
    67: ("time", "The values are not a state at this time, or a turn or helper is not 0 or 1."),
    69: ("time", "The run breaks a rule at this time, or is not at the start, or not in the crash, that line 1 asks for."),
    98: (JOB, "There is no step of B."),
    99: (JOB, "There is no step of A."),
}


def shown(line):
    """A line on the screen: bytes that are not printable as \\x.., a long one cut."""
    text = "".join(chr(byte) if 32 <= byte <= 126 else f"\\x{byte:02x}" for byte in line)
    return (text if len(text) <= 120 else text[:117] + "...") or "(an empty line)"


def words(number, place, job, reply):
    """The sentence, and the line itself where the place is a line that is there."""
    kind, sentence = REFUSALS[number]
    lines = {JOB: job, REPLY: reply}.get(kind, b"").removesuffix(b"\n").split(b"\n")
    if kind not in (JOB, REPLY) or not 1 <= place <= len(lines):
        return sentence
    return f"{sentence}\n{place:4}  {shown(lines[place - 1])}"
