#!/usr/bin/env -S python3 -B
"""The rows of examples/replay/rows by the built programs: `./rows.py [NAME..]`.

A line of rows/list is a row: its name, the exit status and the words of its command, which is one of `kact_show` where
the name begins with `show_`, and else of `kact`. In rows/data NAME.journal is what the command reads, NAME.report what it
must write, and NAME.err what it must tell on standard error; a file that isn't there is empty.

Each row is read from a file, and by packets of ten sizes. What it tells is told to nobody once, and once there is no room
for the last byte that it writes. Where there is NAME.ends, reading and writing fail at ten places too. It has a number for
each line of the journal: how many bytes of the report stand once that line has ended, but for what is written at the end.
"""

import dataclasses
import pathlib
import sys

from command import READ_FAILED, WRITE_FAILED, Broken, Call, Ended, File, Packets, judge_all, lines_of, told_by

ROWS = pathlib.Path(__file__).resolve().parent / "rows"
# The greatest packet: no read of a row asks for less.
MOST = 4096
# The sizes of the packets of a short row. A longer one comes by some thousand packets at most.
SHORT = 1000
SIZES = 1, 2, 3, 5, 7, 13, 33, 64, 127, MOST
# The status of words that are no command.
USAGE = 2
# At how many places of a row reading and writing fail.
PLACES = 10


@dataclasses.dataclass(frozen=True)
class Row:
    """A command, what it reads, and how it must end where nothing fails."""

    name: str
    program: str
    words: tuple[str, ...]
    given: bytes
    wanted: Ended
    ends: tuple[int, ...]

    def call(self, standard_input, due, **outside):
        return Call(self.program, self.words, standard_input, due, **outside)

    def unread(self, count):
        """How it must end where reading fails behind so many bytes: it writes the rows of the lines that ended before."""
        lines = self.given[:count].count(b"\n")
        rows = self.wanted.wrote[: self.ends[lines - 1] if lines else 0]
        return Ended(5, rows, told_by(self.program, READ_FAILED))

    def unwritten(self, room):
        """How it must end where there is room for so many bytes."""
        return Ended(6, self.wanted.wrote[:room], told_by(self.program, WRITE_FAILED))

    def lines_beyond(self, room):
        """The first lines of the journal for whose rows this is no room. None where it is none only for what is written
        at the end."""
        count = next((number for number, stand in enumerate(self.ends, 1) if stand > room), None)
        return count and b"".join(lines_of(self.given)[:count])

    def whole(self):
        """Nothing fails but that nobody hears, or that the last byte can't be written. Where the words are no command,
        nothing is read."""
        file = File(self.given)
        yield self.call(file, self.wanted)
        for size in sizes(len(self.given)) if self.wanted.status != USAGE else ():
            yield self.call(Packets(self.given, size), self.wanted)
        if self.wanted.told:
            yield self.call(file, dataclasses.replace(self.wanted, told=b""), deaf=True)
        if self.wanted.wrote:
            room = len(self.wanted.wrote) - 1
            yield self.call(file, self.unwritten(room), room=room)

    def broken(self):
        """Reading fails behind so many bytes, or where the end would be."""
        for count in (*places(len(self.given)), len(self.given)):
            yield self.call(Broken(self.given[:count]), self.unread(count))

    def full(self):
        """There is room for so many first bytes of the report. Nothing is read behind the lines whose rows they were: the
        command ends, though neither more of its input comes nor its end."""
        for room in places(len(self.wanted.wrote)):
            lines = self.lines_beyond(room)
            whole = File(self.given)
            yield self.call(Packets(lines, MOST, stays=True) if lines else whole, self.unwritten(room), room=room)

    def calls(self):
        return [*self.whole(), *(self.broken() if self.ends else ()), *(self.full() if self.ends else ())]


def row_of(line):
    name, status, *words = line.split()

    def text(ending):
        file = ROWS / "data" / f"{name}.{ending}"
        return file.read_bytes() if file.exists() else b""

    program = "kact_show" if name.startswith("show_") else "kact"
    wanted = Ended(int(status), text("report"), text("err"))
    return Row(name, program, tuple(words), text("journal"), wanted, tuple(map(int, text("ends").split())))


def sizes(length):
    """The sizes of packets in which an input of this length comes: ten, but of a very short one those that differ."""
    if length <= SHORT:
        return sorted({min(size, length) for size in SIZES if length})
    least = length // SHORT + 1
    return [round(least * (MOST / least) ** (k / 9)) for k in range(10)]


def places(length):
    return sorted({length * k // PLACES for k in range(PLACES)})


def main(names):
    rows = [row_of(line) for line in (ROWS / "list").read_text().splitlines()]
    return judge_all([row for row in rows if not names or row.name in names], ("kact", "kact_show"))


if __name__ == "__main__":
    sys.exit(main(sys.argv[1:]))
