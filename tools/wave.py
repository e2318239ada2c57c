#!/usr/bin/env python3
"""A run, as show_run prints it, drawn as a timing diagram: a row for each process and each bit, a column for each time, whose turn
leads to the next time below. Where both processes stand at critical steps the column is marked as a crash.

    wave.py [--width N] [--svg FILE] [--critical STEP ...] < RUN
"""
import argparse
import re
import shutil
import sys
from html import escape

STATE = re.compile(r"(\d+) (A\w*) (B\w*)((?: \w+=[01])*)(?: ([AB]))?")


class Run:
    """Signals by name, each with its value at every time; the turns, one fewer."""

    def __init__(self, text):
        self.signals, self.turns = {}, []
        lines = text.splitlines()
        for time, line in enumerate(lines):
            state = STATE.fullmatch(line)
            last = time == len(lines) - 1
            if not state or int(state[1]) != time or (state[5] is None) != last:
                raise ValueError(f"line {time + 1} is not of a run: {line}")
            bits = (bit.split("=") for bit in state[4].split())
            for name, value in [("A", state[2]), ("B", state[3]), *bits]:
                self.signals.setdefault(name, []).append(value)
            self.turns.append(state[5] or "")
        self.times = len(lines)
        if not lines or any(len(values) != self.times for values in self.signals.values()):
            raise ValueError("not a run: no line, or other bits from line to line")

    def changes(self, name, time):
        values = self.signals[name]
        return time == 0 or values[time] != values[time - 1]

    def crashes(self, critical):
        """The times at which both processes stand at steps named as critical."""
        return [time for time in range(self.times) if all(self.signals[process][time] in critical for process in "AB")]


def is_bit(name):
    return name not in ("A", "B")


def cell(run, name, time, first, size):
    """One signal at one time. A block's first column names the step also where it goes on."""
    value, change = run.signals[name][time], run.changes(name, time)
    if is_bit(name):
        level = "_-"[int(value)]
        edge = "\\/"[int(value)] if change and time > 0 else level
        return edge + level * (size - 1)
    shown = value if change or first else ""
    return ("|" if change else " ") + shown.ljust(size - 1)


def text(run, width=100, critical=()):
    """The diagram in plain text, in blocks that are no wider than asked (one column at least). A last row marks a crash."""
    size, crashes = 2 + max(len(value) for name in "AB" for value in run.signals[name]), run.crashes(critical)
    margin = 2 + max(map(len, ["crash" if crashes else "time", *run.signals]))
    at_once = max(1, (width - margin) // size)
    blocks = []
    for start in range(0, run.times, at_once):
        times = range(start, min(start + at_once, run.times))
        rows = [("time", [str(time).ljust(size) for time in times])]
        rows += [(name, [cell(run, name, time, time == start, size) for time in times]) for name in run.signals]
        rows += [("turn", [run.turns[time].center(size) for time in times])]
        if any(time in crashes for time in times):
            rows += [("crash", [("*" * (size - 1) if time in crashes else "").ljust(size) for time in times])]
        blocks.append("\n".join((name.ljust(margin) + "".join(cells)).rstrip() for name, cells in rows))
    return "\n\n".join(blocks) + "\n"


# ---- the picture, in points: bands of at most BAND times, each with a row of times, the signals, and the turns between the times
MARGIN, LABEL, COLUMN, ROW, HIGH, BAND = 24, 48, 56, 36, 22, 16
TOP, BELOW, LEAST = 64, 64, 720   # above the first band: the title; below the last: the legend, which asks for a width
INK, GRID, ALARM = "#222222", "#dddddd", "#c62828"
FILL = {"A": "#d6e6f5", "B": "#fbe3c8"}
DARK = {"A": "#2f6fa8", "B": "#a65a10"}


def written(x, y, text, **more):
    style = "".join(f' {name.replace("_", "-")}="{value}"' for name, value in more.items())
    return f'<text x="{x}" y="{y}"{style}>{escape(text)}</text>'


def disc(x, y, process):
    """Whose turn it is."""
    yield f'<circle cx="{x}" cy="{y}" r="9" fill="{DARK[process]}"/>'
    yield written(x, y + 4, process, text_anchor="middle", font_size=12, font_weight="bold", fill="white")


def box(x, y, width, process, is_critical, sides="both"):
    """A process at a step. An end that is the band's and not the stay's is left open."""
    colour = (DARK if is_critical else FILL)[process]
    left, right = sides in ("both", "left"), sides in ("both", "right")
    up = lambda closed: f"V{y}" if closed else f"M{x} {y}"
    yield f'<rect x="{x}" y="{y}" width="{width}" height="{HIGH}" fill="{colour}"/>'
    yield (f'<path d="M{x} {y + HIGH}{up(left)}H{x + width}' + (f"V{y + HIGH}" if right else f"M{x + width} {y + HIGH}")
           + f'H{x}" fill="none" stroke="{INK}"/>')


def stays(run, name, times):
    """The times of a band, parted where the process comes to another step."""
    starts = [time for time in times if time == times[0] or run.changes(name, time)]
    return zip(starts, starts[1:] + [times[-1] + 1])


def svg_steps(run, name, times, x0, top, critical):
    for start, end in stays(run, name, times):
        step = run.signals[name][start]
        closed = (run.changes(name, start), end == run.times or run.changes(name, end))
        sides = {(True, True): "both", (True, False): "left", (False, True): "right"}.get(closed, "none")
        x, width = x0 + (start - times[0]) * COLUMN, (end - start) * COLUMN
        yield from box(x, top, width, name, step in critical, sides)
        yield written(x + width // 2, top + 16, step, text_anchor="middle", fill="white" if step in critical else INK)


def svg_bit(run, name, times, x0, top):
    points = []
    for column, time in enumerate(times):
        y = top + (0 if run.signals[name][time] == "1" else HIGH)
        points += [f"{x0 + column * COLUMN},{y}", f"{x0 + (column + 1) * COLUMN},{y}"]
        if y == top:
            yield f'<rect x="{x0 + column * COLUMN}" y="{top}" width="{COLUMN}" height="{HIGH}" fill="#eeeeee"/>'
    yield f'<polyline points="{" ".join(points)}" fill="none" stroke="{INK}" stroke-width="2"/>'


def svg_crashes(run, times, x0, top, critical):
    """Between the rows of A and B, in each column of a crash."""
    y = top + ROW + HIGH
    for time in filter(times.__contains__, run.crashes(critical)):
        x = x0 + (time - times[0]) * COLUMN
        yield f'<rect x="{x}" y="{y}" width="{COLUMN}" height="{ROW - HIGH}" fill="{ALARM}"/>'
        yield written(x + COLUMN // 2, y + 11, "crash", text_anchor="middle", font_size=12, font_weight="bold", fill="white")


def svg_band(run, times, top, critical):
    x0, bottom = MARGIN + LABEL, top + (len(run.signals) + 1) * ROW
    yield written(MARGIN, top + 16, "time", fill="#666666")
    yield written(MARGIN, bottom + 16, "turn", fill="#666666")
    for column, time in enumerate(times):
        x = x0 + column * COLUMN
        yield written(x + COLUMN // 2, top + 16, str(time), text_anchor="middle", fill="#666666")
        yield f'<path d="M{x + COLUMN} {top + ROW - 10}V{bottom}" stroke="{GRID}"/>'
    for row, name in enumerate(run.signals, 1):
        yield written(MARGIN, top + row * ROW + 16, name, font_weight="bold")
        if is_bit(name):
            yield from svg_bit(run, name, times, x0, top + row * ROW)
        else:
            yield from svg_steps(run, name, times, x0, top + row * ROW, critical)
    for column, time in enumerate(times):
        if run.turns[time]:
            yield from disc(x0 + (column + 1) * COLUMN, bottom + 11, run.turns[time])
    yield from svg_crashes(run, times, x0, top, critical)


def svg_legend(y, has_critical):
    x, low = MARGIN, y + HIGH
    for process in "AB":
        yield from box(x, y, 30, process, False)
        yield written(x + 15, y + 16, process, text_anchor="middle")
        x += 36
    yield written(x + 2, y + 16, "a process at a step")
    x += 154
    if has_critical:
        yield from box(x, y, 30, "A", True)
        yield written(x + 38, y + 16, "at a critical step")
        x += 174
    yield f'<polyline points="{x},{low} {x + 15},{low} {x + 15},{y} {x + 30},{y}" fill="none" stroke="{INK}" stroke-width="2"/>'
    yield written(x + 38, y + 16, "a bit: 0, then 1")
    yield from disc(x + 177, y + 11, "A")
    yield written(x + 194, y + 16, "whose turn")


def svg(run, title="a run", critical=()):
    """The same diagram as a picture, for a page or a screen. Steps named as critical are dark."""
    size = -(-run.times // -(-run.times // BAND))   # as few bands as can be, all of one width but perhaps the last
    bands = [range(start, min(start + size, run.times)) for start in range(0, run.times, size)]
    high = (len(run.signals) + 2) * ROW + 16
    width = max(LEAST, 2 * MARGIN + LABEL + len(bands[0]) * COLUMN)
    height = TOP + len(bands) * high + BELOW
    yield f'<svg xmlns="http://www.w3.org/2000/svg" width="{width}" height="{height}" viewBox="0 0 {width} {height}"'
    yield f' font-family="DejaVu Sans, Verdana, sans-serif" font-size="13" fill="{INK}">'
    yield f'<title>{escape(title)}</title><rect width="{width}" height="{height}" fill="white"/>'
    yield written(MARGIN, 38, title, font_size=20)
    for number, times in enumerate(bands):
        yield from svg_band(run, times, TOP + number * high, critical)
    yield f'<path d="M{MARGIN} {height - BELOW + 4}H{width - MARGIN}" stroke="{GRID}"/>'
    yield from svg_legend(height - BELOW + 22, any(step in critical for name in "AB" for step in run.signals[name]))
    yield "</svg>"


def write_svg(run, path, *words):
    with open(path, "w") as file:
        file.write("\n".join(svg(run, *words)) + "\n")


def main():
    options = argparse.ArgumentParser(description="draw a run that show_run printed")
    options.add_argument("--width", type=int, default=shutil.get_terminal_size((100, 24)).columns)
    options.add_argument("--svg", metavar="FILE")
    options.add_argument("--critical", metavar="STEP", nargs="+", default=[])
    chosen = options.parse_args()
    try:
        run = Run(sys.stdin.read())
    except ValueError as error:
        sys.exit(f"wave: {error}")
    if chosen.svg:
        write_svg(run, chosen.svg, "a run", chosen.critical)
    else:
        print(text(run, chosen.width, chosen.critical), end="")


if __name__ == "__main__":
    main()
