"""Scenarios of where the journal goes: disks that are full, readers that go away, stand still or take little at a time,
and little room for rows."""

import fcntl
import os
import resource
import signal
import threading
import time

from load import Load, bring, bring_all, counted
from server import Pod, Stay, cut_account, replay, settle, whole_account
from session import PATIENCE, Scripted, fixed, head, say, wait_until, want

GET = head(method="GET")
HELLO = (200, "hello")
FULL = (507, "history full")
WRITE = 6


def no_longer(size):
    """What is called in a server's process, so that a file of it may have so many bytes."""

    def limit():
        resource.setrlimit(resource.RLIMIT_FSIZE, (size, size))
        signal.signal(signal.SIGXFSZ, signal.SIG_IGN)

    return limit


def failed_to_write(server):
    """Ends by itself, since something couldn't be written."""
    want(server.end() == WRITE, f"exit status {server.process.returncode}: {server.told()}")
    want(server.told().endswith("kactd: write failed\n"), f"told {server.told()!r}")


def full_disk(least):
    """The journal's file may be no longer than this: status 6, and what was written is some first bytes of a
    journal."""
    with Pod() as pod, Stay(fixed(1), [pod.port], before=no_longer(least)) as server:
        met = Load(server.port, 4).met()
        failed_to_write(server)
        want(server.journal.stat().st_size == least, f"{server.journal.stat().st_size} bytes were written")
        ended, _ = cut_account(server.journal)
        account = counted(one for one in met if one.status)
        known = set(account) == {HELLO} and account[HELLO] >= len(ended) > 0
        want(known, f"answered {account}, and {len(ended)} in the journal")
        say(f"{account[HELLO]} were answered, {len(ended)} of them are in {least} bytes")


# what stands before a journal's events: two lines of setup, of 15 and 56 bytes, and the start's, of 20; and ten rows
# more
SETUP = "kact journal 1\nfixed limit=1 depth=100 max=1 pods=1 timeout=300 seed=0\n"
OPENING = len(SETUP) + len("start 1700000000000\n")
ENOUGH = OPENING + 10 * len("1700000000000 ready 0\n")
# a replay of these first bytes: the input ends within a line or before its end, or a line of the setup is refused
CUT, REFUSED = 3, 4
PLACES = (*range(0, 801, 40), 14, 15, 71, 75, OPENING, OPENING + 13, 500)
SIZES = dict.fromkeys(PLACES, CUT) | dict.fromkeys((1, 40, 60), REFUSED)


def each_size():
    """The journal's file has room for so many bytes, of many numbers: in and behind each line of the setup, in the
    start, and at many places of the events. These bytes are written, status 6; nobody is served where the opening isn't
    there whole, and who has an arrival there is."""
    with Scripted() as pod:
        for size, replayed in sorted(SIZES.items()):
            with Stay(SETUP, [pod.port], before=no_longer(size)) as server:
                found, served = cut_at(server, size)
                want(found == replayed, f"{size} bytes: replay ends with {found}")
                # (where few bytes are left a tick may take them)
                some = size < OPENING or served > 0 or size < ENOUGH
                want(some and (served == 0 or size >= OPENING), f"{size} bytes: {served} were served")


def cut_at(server, size):
    """Brings requests until the journal has so many bytes. How its replay ends, and how many were served."""
    met = []
    while server.port and len(met) < 100 and (not met or met[-1].status):
        met.append(bring(server.port, GET))
    failed_to_write(server)
    want(server.journal.stat().st_size == size, f"{server.journal.stat().st_size} bytes were written, not {size}")
    served = counted(one for one in met if one.status)
    want(set(served) <= {HELLO}, f"{size} bytes: answered {served}")
    status, rows, _ = replay(server.journal)
    want(sum(row.split()[1] == "admit" for row in rows) <= served[HELLO], f"{size} bytes: {rows}, but {served}")
    return status, served[HELLO]


def no_disk():
    """Nothing can be written: status 6, and nobody was served."""
    with open("/dev/full", "w") as full, Scripted() as pod, Stay(fixed(1), [pod.port], out=full) as server:
        failed_to_write(server)
        want(pod.requests == [], "the pod was called")


def gone_reader():
    """Who reads standard output goes away: status 6, as where a disk is full."""
    ours, theirs = os.pipe()
    with Scripted() as pod, Stay(fixed(1), [pod.port], out=theirs) as server:
        os.close(theirs)
        want(bring(server.port, GET)[3:] == HELLO, "not answered")
        os.close(ours)
        failed_to_write(server)


class Reader:
    """Reads a pipe of so many bytes to its end into the server's journal, some at a time, and stands still while it is
    told to. Who writes waits while the pipe is full, or is told that it is."""

    def __init__(self, size=65536, piece=65536, waits=True):
        self.ours, self.theirs = os.pipe()
        fcntl.fcntl(self.theirs, fcntl.F_SETPIPE_SZ, size)
        os.set_blocking(self.theirs, waits)
        self.piece, self.may_read = piece, threading.Event()

    def start(self, server, reads=True):
        os.close(self.theirs)
        if reads:
            self.may_read.set()
        # (one that stands still holds nobody up where its case fails)
        self.thread = threading.Thread(target=self.read, args=(server.journal,), daemon=True)
        self.thread.start()

    def read(self, journal):
        with open(journal, "wb") as kept:
            while self.may_read.wait() and (piece := os.read(self.ours, self.piece)):
                kept.write(piece)
        os.close(self.ours)

    def settle(self, server, met):
        """Ends the server, which this reads to its end. What was met is what the journal says."""
        server.stop()
        want(server.end() == 0, f"exit status {server.end()}: {server.told()}")
        self.thread.join()
        return settle(server, counted(met))


def stalled_reader(seconds, pause, room=100000, full=False):
    """Who reads standard output stands still for some seconds: no row is lost, and where room is used up new requests
    are answered 507."""
    reader = Reader()
    with Pod() as pod, Stay(fixed(1), [pod.port], out=reader.theirs, room=room) as server:
        reader.start(server)
        load = Load(server.port, 8, seconds + 2, pause=pause)
        time.sleep(1)
        reader.may_read.clear()
        time.sleep(seconds)
        reader.may_read.set()
        met = load.met()
        want(met[-1][3:] == HELLO and (counted(met)[FULL] > 0) == full, f"answered {counted(met)}")
        # a second later there is room again
        time.sleep(1)
        met.append(bring(server.port, GET))
        want(met[-1][3:] == HELLO, f"answered {met[-1]}")
        reader.settle(server, met)
        say(f"{counted(met)[HELLO]} were answered 200 and {counted(met)[FULL]} 507")


def still_reader(most=3000):
    """Who reads standard output stands still from the start, with room for 1,000 rows: hundreds are served, then each
    is answered 507, and 200 again once the reader goes on, a few bytes at a time. The journal has those who were
    served."""
    reader = Reader(size=4096, piece=7)
    with Scripted() as pod, Stay(fixed(1), [pod.port], out=reader.theirs, room=1000) as server:
        reader.start(server, reads=False)
        met = [bring(server.port, GET)]
        while met[-1][3:] == HELLO and len(met) < most:
            met.append(bring(server.port, GET))
        served = len(met) - 1
        # (two rows each; a pipe and what the printer has taken out for it hold more than the room)
        want(400 <= served < most, f"{served} were served, then {met[-1]}")
        met += [bring(server.port, GET) for _ in range(5)]
        want(counted(met) == {HELLO: served, FULL: 6}, f"answered {counted(met)}")
        reader.may_read.set()
        again = lambda: met.append(bring(server.port, GET)) or met[-1][3:] == HELLO  # noqa: E731
        wait_until(again, PATIENCE, "there is no room again")
        want(len(pod.requests) == served + 1, f"{len(pod.requests)} came to the pod, {served + 1} were served")
        reader.settle(server, met)
        say(f"{served} were answered 200 before the first 507")


def slow_reader():
    """Who reads standard output takes 7 bytes at a time from a pipe that is full most of the time, and stands still
    while a third of 300 clients come: all are served, and no row is lost. Who writes is told that the pipe is full, and
    tries again."""
    reader = Reader(size=4096, piece=7, waits=False)
    with Scripted() as pod, Stay(fixed(1), [pod.port], out=reader.theirs, slots=4, room=1000) as server:
        reader.start(server, reads=False)
        met = [bring(server.port, GET) for _ in range(100)]
        reader.may_read.set()
        met += bring_all(server.port, [GET] * 200)
        want(counted(met) == {HELLO: 300}, f"answered {counted(met)}")
        reader.settle(server, met)


def little_room():
    """Room for 1,000 rows, and 600 clients one after the other, whose rows are more: all are served, since rows are
    printed meanwhile."""
    with Scripted() as pod, Stay(fixed(1), [pod.port], slots=4, room=1000) as server:
        met = bring_all(server.port, [GET] * 600)
        want(counted(met) == {HELLO: 600}, f"answered {counted(met)}")
        wait_until(lambda: server.journal.read_text().count(" finish ") == 600, PATIENCE, "not all are printed yet")
        want(server.told().count("\n") == 1, f"told {server.told()!r}")
        settle(server, counted(met))


def nobody():
    """Nobody comes: the journal is whole, and has no request."""
    with Scripted() as pod, Stay(fixed(1), [pod.port]) as server:
        wait_until(lambda: " ready 0\n" in server.journal.read_text(), PATIENCE, "the pod is not Ready")
        server.stop()
        want(server.end() == 0, f"exit status {server.process.returncode}: {server.told()}")
        account, rows = whole_account(server.journal)
        want(not account and " admitted=0 " in rows[-1] and pod.requests == [], f"{account}, {rows}")
        want(server.told() == f"kactd: listening on 127.0.0.1:{server.port}\n", f"told {server.told()!r}")
