"""A command of a built program, from outside: what standard input gives and how, for how much there is room, and how
it ends."""

import concurrent.futures
import contextlib
import dataclasses
import itertools
import os
import pathlib
import re
import resource
import signal
import socket
import sys
import time

sys.path.insert(1, str(pathlib.Path(__file__).resolve().parents[1] / "serve"))

from session import program  # noqa: E402

# How long a command may take. It takes hundredths of a second of a processor, on a machine that may be busy.
SECONDS = 20
# How many cases are judged at once: on a busy machine each mostly waits for its turn.
AT_ONCE = 16
# Of how many commands of a case it is told what was wrong.
MOST_TOLD = 5
# What a command tells of the outside.
READ_FAILED, WRITE_FAILED = "read failed", "write failed"


@dataclasses.dataclass(frozen=True)
class File:
    """Standard input is a file of these bytes."""

    given: bytes

    def __str__(self):
        return "a file"

    def open(self):
        """The end by which bytes are sent, if there is one, and the one that the command reads."""
        file = os.memfd_create("standard input")
        os.write(file, self.given)
        os.lseek(file, 0, os.SEEK_SET)
        return None, file


@dataclasses.dataclass(frozen=True)
class Packets:
    """Standard input is packets of so many bytes, of which each read gets one. Behind the last one comes the end; or
    nothing, while the command runs."""

    given: bytes
    # no more than each read asks for: the system drops what is over
    size: int
    # whether no end comes
    stays: bool = False

    def __str__(self):
        return f"packets of {self.size}" + (", behind which no end comes" if self.stays else "")

    def open(self):
        ours, theirs = socket.socketpair(socket.AF_UNIX, socket.SOCK_SEQPACKET)
        return ours, theirs.detach()

    def send(self, ours):
        for at in range(0, len(self.given), self.size):
            ours.send(self.given[at : at + self.size])
        if not self.stays:
            ours.close()


@dataclasses.dataclass(frozen=True)
class Broken:
    """Standard input is a connection that breaks off behind these bytes."""

    given: bytes

    def __str__(self):
        return f"a connection that breaks off behind {len(self.given)} bytes"

    def open(self):
        ours, theirs = socket.socketpair()
        # Where one end closes with something unread, Linux has the other end's reads fail behind what was sent.
        theirs.send(b"never read")
        return ours, theirs.detach()

    def send(self, ours):
        ours.sendall(self.given)
        ours.close()


class Directory:
    """Standard input is a directory, of which no read gets anything but a fault."""

    def __str__(self):
        return "a directory"

    def open(self):
        return None, os.open("/", os.O_RDONLY | os.O_DIRECTORY)


@dataclasses.dataclass(frozen=True)
class Ended:
    """How a command ended: its exit status, what it wrote, and what it told on standard error."""

    status: int
    wrote: bytes
    told: bytes

    def but(self, wanted):
        """What is another than is wanted, in a line; nothing where all is as it must be."""
        said = [] if self.status == wanted.status else [f"status {self.status}, not {wanted.status}"]
        for name, found, due in (("output", self.wrote, wanted.wrote), ("standard error", self.told, wanted.told)):
            if found != due:
                said.append(first_difference(name, found, due))
        return "; ".join(said)


def lines_of(text):
    """The lines, each with its LF; CRs end none."""
    return re.findall(rb"[^\n]*\n|[^\n]+", text)


def first_difference(name, found, due):
    """The first line that is another."""
    pairs = itertools.zip_longest(lines_of(found), lines_of(due), fillvalue=b"")
    number, (one, other) = next((n, pair) for n, pair in enumerate(pairs, 1) if pair[0] != pair[1])
    return f"line {number} of {name} is {one[:240]!r}, not {other[:240]!r}"


@contextlib.contextmanager
def room_of(most):
    """What is started here may write so many bytes to a file: the write that meets the bound is short, and the next one
    fails."""
    if most is None:
        yield
        return
    # (Python has SIGXFSZ ignored, and so has what it starts)
    before = resource.getrlimit(resource.RLIMIT_FSIZE)
    resource.setrlimit(resource.RLIMIT_FSIZE, (most, before[1]))
    try:
        yield
    finally:
        resource.setrlimit(resource.RLIMIT_FSIZE, before)


@contextlib.contextmanager
def within(seconds):
    """Ends what takes longer by an exception. For the main thread alone."""

    def is_late(*_):
        raise TimeoutError(f"not ended within {seconds} s")

    signal.signal(signal.SIGALRM, is_late)
    signal.setitimer(signal.ITIMER_REAL, seconds)
    try:
        yield
    finally:
        signal.setitimer(signal.ITIMER_REAL, 0)


def bytes_of(file):
    return b"".join(iter(lambda: os.read(file, 65536), b""))


def started(words, theirs, wrote, told):
    streams = [(os.POSIX_SPAWN_DUP2, file, at) for at, file in enumerate((theirs, wrote, told))]
    # (no command reads the environment)
    return os.posix_spawn(words[0], words, {}, file_actions=streams)


def finished(pid, ours, told, standard_input):
    """Sends what the process reads, and waits until it has ended: its status, and what it told."""
    try:
        with within(SECONDS):
            if ours:
                # (a command that ends early leaves the rest)
                with contextlib.suppress(BrokenPipeError, ConnectionResetError):
                    standard_input.send(ours)
            said = bytes_of(told)
            return os.waitstatus_to_exitcode(os.waitpid(pid, 0)[1]), said
    except BaseException:
        os.kill(pid, signal.SIGKILL)
        os.waitpid(pid, 0)
        raise


@dataclasses.dataclass(frozen=True)
class Call:
    """A command of a program, and how it must end: what it reads, for how much output there is room, and whether nobody
    hears what it tells. Where not all is said of its output, these lines must be among it."""

    program: str
    words: tuple[str, ...]
    standard_input: File | Packets | Broken | Directory
    due: Ended
    room: int | None = None
    deaf: bool = False
    among: tuple[str, ...] | None = None

    def __str__(self):
        room = "" if self.room is None else f", with room for {self.room} bytes"
        deaf = ", told to nobody" if self.deaf else ""
        return f"{' '.join((self.program, *self.words))} of {self.standard_input}{room}{deaf}"

    def ended(self):
        ours, theirs = self.standard_input.open()
        wrote = os.memfd_create("standard output")
        told, telling = os.pipe()
        full = os.open("/dev/full", os.O_WRONLY) if self.deaf else os.dup(telling)
        with room_of(self.room):
            pid = started([program(self.program), *self.words], theirs, wrote, full)
        for file in (theirs, telling, full):
            os.close(file)
        try:
            status, said = finished(pid, ours, told, self.standard_input)
            os.lseek(wrote, 0, os.SEEK_SET)
            return Ended(status, bytes_of(wrote), said)
        finally:
            os.close(wrote)
            os.close(told)
            if ours:
                ours.close()

    def wrong(self):
        """What is another than is due, in a line; nothing where all is as it must be."""
        found = self.ended()
        if self.among is None:
            said = found.but(self.due)
        else:
            lacking = set(self.among) - set(found.wrote.decode().splitlines())
            said = found.but(dataclasses.replace(self.due, wrote=found.wrote))
            said = said or (f"no line {lacking}" if lacking else "")
        return said and f"{self}: {said}"


def told_by(name, text):
    """The line in which the program tells something; none of nothing."""
    return f"{name}: {text}\n".encode() if text else b""


def judged(case):
    """The name of a case, how many commands it ran, and what was wrong of them, up to the first that could not be run or
    did not end. What is no call is what was wrong of one that the case made itself."""
    found, it = [], case.name
    try:
        for it in case.calls():
            found.append(it.wrong() if isinstance(it, Call) else it)
    except Exception as error:
        found.append(f"{it}: {error!r}")
    return case.name, len(found), [it for it in found if it]


def judge_all(cases, programs):
    """Has cases of these programs judged side by side, each of which has a name and `calls`, and tells what was wrong.
    Whether something was; the last line counts."""
    for name in programs:
        program(name)
    begun, calls, failed = time.monotonic(), 0, 0
    with concurrent.futures.ProcessPoolExecutor(AT_ONCE) as pool:
        for name, count, wrong in pool.map(judged, cases, chunksize=4):
            calls, failed = calls + count, failed + bool(wrong)
            if wrong:
                more = [f"and {len(wrong) - MOST_TOLD} more"] if len(wrong) > MOST_TOLD else []
                print("\n    ".join((f"{name}: FAILED", *wrong[:MOST_TOLD], *more)), flush=True)
    print(f"{calls} commands in {time.monotonic() - begun:.1f} s")
    print(f"{len(cases)} cases, {failed} failed", flush=True)
    return failed > 0
