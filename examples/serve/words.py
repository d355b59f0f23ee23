#!/usr/bin/env -S python3 -B
"""The words of `kactd`, from outside: `./words.py [NAME..]`.

By the lines of words.txt the exit status and what is told; and of what is taken what it does: slots, rounds, room, the
pods' addresses in their order, the status page. (What --idle and --read do is shown by ../stay/front.py.)"""

import contextlib
import fcntl
import itertools
import os
import pathlib
import re
import socket
import subprocess
import sys
import threading
from concurrent.futures import ThreadPoolExecutor as Crew

HERE = pathlib.Path(__file__).resolve().parent
sys.path.insert(1, str(HERE.parent / "stay"))

import session  # noqa: E402
from server import Stay  # noqa: E402
from session import ask, fixed, free_port, listens, program, scaled, wait_until, want  # noqa: E402
from status import metrics  # noqa: E402
from raw_pod import OK, RawPod  # noqa: E402
from wire import bring, request, spelled  # noqa: E402

USAGE = "usage: kactd --listen HOST:PORT --pods HOST:PORT,.. [--slots N] [--rounds N] [--room N]"
ASKED = {"help": (HERE / "help.txt").read_text(), "version": "kactd 0.1.0\nrattle-kit logic dac8208d650f15bf\n"}
ANSWERED, FULL = (200, ""), (507, "history full")

TWO = "kact setups 1\n" + "".join(scaled(name=name, seats=0, most=100) for name in "ab")


# ---- what is told of words


def word_of(text):
    """A word as it is spelled: `''` is an empty one, `~` a space in one, and WORD*N so many of it between commas."""
    if text == "''":
        return b""
    one, many, count = text.partition("*")
    return spelled(",".join([one] * int(count)) if many else text.replace("~", " "))


def told_by(words, setup):
    """The exit status, what is written, and what is told, where the last port is any."""
    given = [program("kactd").encode(), *map(word_of, words)]
    ran = subprocess.run(given, input=setup.encode(), capture_output=True, timeout=20)
    return ran.returncode, ran.stdout.decode(), re.sub(r"(127\.0\.0\.1):\d+\n$", r"\1:PORT\n", ran.stderr.decode())


def as_told(words, setup, status, told):
    ended, wrote, said = told_by(words, setup)
    if told in ASKED:
        return want((ended, wrote, said) == (0, ASKED[told], ""), f"{words}: status {ended}, {wrote!r}, {said!r}")
    last = (USAGE if told == "usage" else told) + "\n"
    want(ended == status and (wrote == "") == (status != 0), f"{words}: status {ended}, {wrote[:200]!r}, {said!r}")
    want(said == last or said.endswith("\n" + last), f"{words}: told {said!r}")


def try_line(line):
    given, status, told = (part.strip() for part in line.split("|"))
    as_told(given.split(), fixed(500) if given.startswith("stay") else "", int(status), told)


def table():
    """Each line of words.txt: words, status, and the last line of standard error; or for help and the version all of
    standard output. Nothing else is written but by one that serves."""
    lines = [line for line in (HERE / "words.txt").read_text().splitlines() if not line.startswith("# ")]
    with Crew(4) as crew:
        want(len(list(crew.map(try_line, lines))) > 100, "the table is not whole")


# ---- what is done by them


class Rounds:
    """`kactd` for some rounds, or `kactd many` where there are several lists of pods' ports, by some of its words."""

    def __init__(self, setup, lists, *words):
        self.port = free_port()
        pods = ";".join(",".join(f"127.0.0.1:{port}" for port in ports) for ports in lists)
        given = ["--listen", f"127.0.0.1:{self.port}", "--pods", pods, *map(str, words)]
        given = [program("kactd"), *["many"][: len(lists) - 1], *given]
        pipes = {"stdin": subprocess.PIPE, "stdout": subprocess.PIPE, "stderr": subprocess.DEVNULL}
        self.process = subprocess.Popen(given, text=True, **pipes)
        self.process.stdin.write(setup)
        self.process.stdin.close()
        wait_until(lambda: listens(self.port) or self.process.poll() is not None, 20, "kactd does not listen")

    def journals(self):
        """The event lines of each journal that it has printed when it ends."""
        wait_until(lambda: self.process.poll() is not None, 20, "kactd does not end")
        want(self.process.returncode == 0, f"exit status {self.process.returncode}")
        wrote = self.process.stdout.read()
        return [part[part.index("start ") :].splitlines()[1:] for part in wrote.split("end\n")[:-1]]

    def __enter__(self):
        return self

    def __exit__(self, *_):
        with contextlib.suppress(ProcessLookupError):
            self.process.kill()
        self.process.wait()
        self.process.stdout.close()


def has_threads(process, count):
    def there():
        return len(os.listdir(f"/proc/{process.pid}/task"))

    wait_until(lambda: there() == count, 20, f"it has {there()} threads, not {count}")


def slots_that_stay():
    """A thread for each slot, 64 without the word; beside them the ticker's, the front's and the scribe's, and two for
    the page."""
    for words, slots in (({}, 64), ({"slots": 1}, 1), ({"slots": 1024}, 1024), ({"slots": 10, "page": True}, 10)):
        with RawPod() as pod, Stay(fixed(1), [pod.port], **words) as server:
            has_threads(server.process, slots + (5 if server.page else 3))


def slots():
    """In rounds a thread for each slot, eight without the word, and the ticker's."""
    for many, (words, count) in itertools.product((False, True), (((), 8), (("--slots", 1), 1), (("--slots", 64), 64))):
        with RawPod() as pod, Rounds(TWO if many else fixed(1), [[pod.port]] * (1 + many), *words) as server:
            has_threads(server.process, count + 1)


def serves(count, *words):
    """It serves just so many clients one after another, and ends."""
    with RawPod() as pod, Rounds(fixed(1), [[pod.port]], *words) as server:
        for number in range(count):
            want(server.process.poll() is None, f"{words}: it ends behind {number}")
            want(ask(server.port) == ANSWERED, f"{words}: not answered")
        arrivals = [line for line in server.journals()[0] if " arrive " in line]
        want(len(arrivals) == count, f"{words}: {len(arrivals)} arrived")


def rounds():
    """Each slot has its rounds, one without the word."""
    serves(8)
    serves(2, "--slots", 2)
    serves(6, "--slots", 2, "--rounds", 3)
    serves(7, "--rounds=7", "--slots", 1)


def is_filled(server, revisions, clients, rows):
    """Of so many clients of each revision the first ones are answered and the others find no room, and each journal has
    so many rows in the end, or one less, since a request has two."""
    for name in revisions:
        met = [ask(server.port, revision=name) for _ in range(clients)]
        want(met == sorted(met) and set(met) == {ANSWERED, FULL}, f"{name}: answered {met}")
    counts = [len(journal) for journal in server.journals()]
    want(len(counts) == len(revisions) and set(counts) <= {rows - 1, rows}, f"the journals have {counts} rows")


def room():
    """There is room for so many rows, of several revisions for so many of each."""
    with RawPod() as pod, Rounds(fixed(1), [[pod.port]], "--slots", 1, "--rounds", 12, "--room", 9) as server:
        is_filled(server, ["fixed"], 12, 9)
    with RawPod() as pod, Rounds(TWO, [[pod.port]] * 2, "--slots", 1, "--rounds", 16, "--room", 7) as server:
        is_filled(server, ["a", "b"], 8, 7)


def room_that_stays():
    """A server that goes on has room for so many rows that are not handed to the printer yet: nobody reads what it
    prints. There is room again once somebody does."""
    ours, theirs = os.pipe()
    fcntl.fcntl(theirs, fcntl.F_SETPIPE_SZ, 4096)
    with RawPod() as pod, Stay(fixed(1), [pod.port], out=theirs, room=1000, page=True) as server:
        os.close(theirs)
        count = next(count for count in range(10000) if bring(server, request()) != OK)
        unprinted = metrics(server)["kactd_rows_unprinted"].values[()]
        want(unprinted in (999, 1000) and count > 498, f"{unprinted} rows of {count} requests wait")
        reader = threading.Thread(target=lambda: list(iter(lambda: os.read(ours, 65536), b"")))
        reader.start()
        wait_until(lambda: bring(server, request()) == OK, 10, "there is no room once it is printed")
        server.stop()
        want(server.end() == 0, server.told())
        reader.join()
        os.close(ours)


def ready(server):
    return [line.split()[2] for line in server.journal.read_text().splitlines() if " ready " in line]


def pods():
    """Each pod has the address at its place: of three the second alone listens and is ready, then the third; in rounds
    the third."""
    late = free_port()
    with RawPod() as pod, Stay(fixed(3), [free_port(), pod.port, late]) as server:
        wait_until(lambda: ready(server) == ["1"], 10, "not the second is ready")
        with socket.create_server(("127.0.0.1", late)):
            wait_until(lambda: ready(server) == ["1", "2"], 10, "not the third is ready")
    with RawPod() as pod, Rounds(fixed(3), [[free_port(), free_port(), pod.port]], "--slots", 1) as server:
        want(ask(server.port) == ANSWERED, "not answered")
        found = [line.split()[2] for line in server.journals()[0] if " ready " in line]
        want(found == ["2"], f"{found} are ready")


def status():
    """Without the word there is no page. With it there is one, where it says."""
    with RawPod() as pod, Stay(fixed(1), [pod.port]) as server:
        want("status" not in server.told(), server.told())
    with RawPod() as pod, Stay(fixed(1), [pod.port], status=f"127.0.0.1:{free_port()}") as server:
        server.page = int(server.process.args[-1].split(":")[1])
        wait_until(lambda: server.says("status") == server.page, 10, f"it told {server.told()}")
        want(metrics(server)["kactd_rows_unprinted"].kind == "gauge", "there is no page")


CASES = (table, slots_that_stay, slots, rounds, room, room_that_stays, pods, status)

if __name__ == "__main__":
    sys.exit(session.run({it.__name__: it for it in CASES}, sys.argv[1:]))
