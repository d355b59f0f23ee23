"""The table of texts.py, read: texts, and how the commands that read them must end."""

import collections
import dataclasses
import functools
import pathlib
import re

from command import Ended, told_by

TEXTS = pathlib.Path(__file__).resolve().parent / "texts"
# How the table writes a byte, a text so many times, and one that has a name.
ESCAPE = re.compile(
    r"\\(?:(?P<plain>[nr])|x(?P<byte>[0-9a-f]{2})|\[(?P<count>\d+):(?P<text>[^]]*)\]|\{(?P<name>\w+)\})"
)
# Which rows the last line of a report counts, in order.
COUNTED = {
    "admitted": "admit",
    "direct": "direct",
    "assigned": "assign",
    "finished": "finish ok",
    "failed": "finish fail",
    "expired": "expire",
    "cancelled": "cancel",
    "queue-full": "queue-full",
    "overload": "overload",
    "decisions": "decision",
}


@functools.cache
def block_of(text):
    """The lines of a block: the text, or what is in the file that it names by `@NAME`."""
    return (TEXTS / text[1:]).read_text("ascii").rstrip("\n") if text.startswith("@") else text


def spelled(text, names):
    """What a text of the table stands for, a character a byte."""

    def character(found):
        if found["plain"]:
            return {"n": "\n", "r": "\r"}[found["plain"]]
        if found["byte"]:
            return chr(int(found["byte"], 16))
        if found["count"]:
            return spelled(found["text"], names) * int(found["count"])
        return names[found["name"]]

    return ESCAPE.sub(character, text)


def last_line(rows, events, is_second_version):
    """The last line of a report with these rows."""
    words = [row.split() for row in rows]
    kinds = collections.Counter(f"finish {it[3]}" if it[1] == "finish" else it[1] for it in words)
    counts = "".join(f" {name}={kinds[kind]}" for name, kind in COUNTED.items())
    return f"end events={events}{counts}" + (f" lost={kinds['lost-request']}" if is_second_version else "")


def report_of(rows):
    """The report of these rows. At its end `end N` stands for the last line of N events in a journal 1, and `end N lost`
    in a journal 2."""
    lines = list(rows)
    if lines and lines[-1].startswith("end "):
        _, events, *lost = lines[-1].split()
        lines[-1] = last_line(lines[:-1], events, bool(lost))
    return "".join(f"{line}\n" for line in lines).encode()


@dataclasses.dataclass(frozen=True)
class Due:
    """How a command must end: its status, what it tells, and rows or lines that it writes."""

    status: int
    told: str
    output: tuple[str, ...]

    def ended(self, program, head="", wrote=None):
        """That of this program, which tells so much in front. It writes this, or else the report of the rows."""
        told = told_by(program, head + self.told if self.told else "")
        return Ended(self.status, report_of(self.output) if wrote is None else wrote, told)


@dataclasses.dataclass(frozen=True)
class Line:
    """A line of the table; of a `cut`, how so many first bytes of its text end."""

    number: int
    subject: str
    text: str
    due: Due | None
    cuts: tuple[tuple[int, Due], ...] = ()


def due_of(text, names):
    told, _, output = text.partition("|")
    status, _, told = told.strip().partition(" ")
    output = spelled(output.strip(), names)
    return Due(int(status), told, tuple(output.split("; ")) if output else ())


def line_of(number, text, names, cuts):
    subject, _, rest = text.partition(" ")
    given, _, due = rest.partition("=> ") if subject != "cut" else (rest, "", "")
    due = due_of(due, names) if due else None
    return Line(number, subject, spelled(given.removesuffix(" "), names), due, tuple(cuts))


def read_table():
    """The lines of the table but comments and names."""
    names, lines, cuts = {}, [], []
    for number, text in enumerate((TEXTS / "table").read_text("ascii").splitlines(), 1):
        if text.startswith("    "):
            count, _, due = text.strip().partition(" ")
            cuts.append((int(count), due_of(due, names)))
        elif text.startswith("let "):
            _, name, value = text.split(" ", 2)
            names[name] = spelled(value, names)
        elif text and not text.startswith("#"):
            lines.append((number, text, cuts := []))
    return [line_of(number, text, names, cuts) for number, text, cuts in lines]
