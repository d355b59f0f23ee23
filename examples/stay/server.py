"""A server that goes on (`kactd stay`), its pods, and the account of its journal."""

import collections
import contextlib
import os
import pathlib
import re
import shutil
import signal
import subprocess
import sys
import tempfile
import threading
import time

from load import bring

import session
from session import PATIENCE, answers, endings, head, outcomes, port_of, program, replay, wait_until, want

HERE = pathlib.Path(__file__).resolve().parent

# ms by which the clients' clock, which is set now and then, may lie beside that of the server, which only goes forward
CLOCKS = 20


class Pod:
    """pod.py in a process of its own. It answers `/MS` after so many ms."""

    def __init__(self):
        self.process = subprocess.Popen([sys.executable, "-B", str(HERE / "pod.py"), "0"])
        self.port = port_of(self.process.pid, lambda: self.process.poll() is not None)
        want(self.port, "the pod does not listen")

    def count(self):
        """How many requests have come to it."""
        return int(bring(self.port, head(method="GET", path="/count")).text)

    def kill(self):
        self.process.kill()
        self.process.wait()

    def __enter__(self):
        return self

    def __exit__(self, *_):
        self.kill()


def fast_pod():
    """A pod of nginx where that is there, which answers more of them a second, and else one of ours."""
    return session.Pod() if shutil.which("nginx") else Pod()


class Stay:
    """`kactd stay`, from its start until its standard input is closed. Its journal goes to a file, or where `out` says."""

    def __init__(self, setup, ports, out=None, before=None, page=False, **words):
        server = program("kactd")
        self.folder = pathlib.Path(tempfile.mkdtemp(prefix="kactd-stay-"))
        (self.folder / "stderr").touch()
        words = {"listen": "127.0.0.1:0", "pods": ",".join(f"127.0.0.1:{port}" for port in ports), **words}
        words |= {"status": "127.0.0.1:0"} if page else {}
        self.process = subprocess.Popen(
            [server, "stay", *(str(word) for name, value in words.items() for word in (f"--{name}", value))],
            stdin=subprocess.PIPE,
            stdout=open(self.folder / "journal", "w") if out is None else out,
            stderr=subprocess.PIPE,
            preexec_fn=before,
        )
        self.teller = threading.Thread(target=self.keep_errors)
        self.teller.start()
        try:
            # (one that has ended by then reads nothing)
            with contextlib.suppress(BrokenPipeError):
                self.process.stdin.write(setup.encode())
                self.process.stdin.flush()
            self.port = self.await_address("listening")
            self.page = self.await_address("status") if page and self.port else None
        except BaseException:
            self.__exit__(*sys.exc_info())
            raise

    def await_address(self, word):
        """The port that it says soon, or none where it ends."""
        wait_until(lambda: self.says(word) or self.has_ended(), PATIENCE, f"kactd does not say {word} on which address")
        return self.says(word)

    def keep_errors(self):
        """Copies what it tells to a file, which no limit of the server's own cuts."""
        with open(self.folder / "stderr", "wb", buffering=0) as kept:
            while piece := os.read(self.process.stderr.fileno(), 65536):
                kept.write(piece)

    def told(self):
        """What it told on standard error."""
        if self.has_ended():
            self.teller.join()
        return (self.folder / "stderr").read_text()

    def says(self, word):
        """The port that the line `kactd: WORD on HOST:PORT` of standard error names."""
        found = re.search(rf"^kactd: {word} on \S+:(\d+)$", self.told(), re.M)
        return int(found[1]) if found else None

    def has_ended(self):
        return self.process.poll() is not None

    def stop(self):
        """Closes standard input. The time at which that was done."""
        self.process.stdin.close()
        return time.time()

    def kill(self):
        """Kills it, by SIGKILL. The time just before."""
        at = time.time()
        self.process.send_signal(signal.SIGKILL)
        self.process.wait()
        return at

    def end(self, seconds=60):
        """Its exit status, once it has ended by itself."""
        wait_until(self.has_ended, seconds, "kactd does not end")
        return self.process.returncode

    def memory(self):
        """Its resident memory in KiB."""
        return int(re.search(r"VmRSS:\s+(\d+)", pathlib.Path(f"/proc/{self.process.pid}/status").read_text())[1])

    def spent(self):
        """Seconds of processor time that it has had."""
        words = pathlib.Path(f"/proc/{self.process.pid}/stat").read_text().rpartition(")")[2].split()
        return (int(words[11]) + int(words[12])) / os.sysconf("SC_CLK_TCK")

    @property
    def journal(self):
        return self.folder / "journal"

    def __enter__(self):
        return self

    def __exit__(self, kind, *_):
        if not self.has_ended():
            self.kill()
        with contextlib.suppress(BrokenPipeError):
            self.process.stdin.close()
        self.teller.join()
        self.process.stderr.close()
        if kind is None:
            shutil.rmtree(self.folder, ignore_errors=True)
        else:
            print(f"  (journal and standard error: {self.folder})")


def beginning(journal, events):
    """The rows that `kact replay` makes of the journal's first so many events, behind those of the opening."""
    lines = journal.read_text().splitlines()
    start = [line.split(" ")[0] for line in lines].index("start") + 1
    want(len(lines) - start >= events, f"{events} events are shown, and {len(lines) - start} are printed")
    bare = "\n".join([*lines[: start + events], "end", ""])
    ran = subprocess.run([program("kact"), "replay"], input=bare, capture_output=True, text=True)
    want(ran.returncode == 0, f"replay refuses the first {events} events: {ran.stderr}")
    return ran.stdout.splitlines()[:-1]


def whole_account(journal):
    """How many requests of a whole journal ended how, each once."""
    status, rows, told = replay(journal)
    want(status == 0, f"replay refuses the journal: {told}")
    return outcomes(journal.read_text().splitlines(), rows), rows


def cut_account(journal):
    """Of a journal that has no end: when and how each request ended that did, once each, in the order of the rows; and all rows."""
    status, rows, told = replay(journal)
    want(status == 3, f"replay ends with {status}: {told}")
    if journal.read_bytes().endswith(b"\n"):
        want(told == "kact: input ends without end\n", f"replay tells {told!r}")
    ended = endings(rows)
    want(all(len(one) == 1 for one in ended.values()), "a request has two outcomes")
    return [one[0] for one in ended.values()], rows


# by outcome, the status and text that its client is answered
ANSWERS = {
    outcome: answer
    for outcome in ("finish ok", "finish fail", "queue-full", "overload", "expire", "cancel")
    for answer in answers(collections.Counter([outcome]))
}


def settle(server, found, seconds=60, gone=0, status=0):
    """Ends the server. Its account is that of the answers that clients had, but for `gone` who went away. The report's rows."""
    server.stop()
    ended = server.end(seconds)
    want(ended == status, f"exit status {ended}: {server.told()}")
    account, rows = whole_account(server.journal)
    wanted = answers(account)
    lacking, extra = wanted - found, found - wanted
    want(sum(lacking.values()) == gone, f"not answered as the journal says: {dict(lacking)}")
    want(not any(code in (0, 200, 502, 503) for code, _ in extra), f"not in the journal: {dict(extra)}")
    return rows


def all_known(ended, met, until):
    """Each request that was answered before this time is among the outcomes: the answers of one kind came, one by one, behind as many outcomes."""
    for answer in set(ANSWERS.values()):
        rows = sorted(at for at, how in ended if ANSWERS[how] == answer)
        came = [one.ended for one in met if (one.status, one.text) == answer and one.ended < until]
        want(len(came) <= len(rows), f"{len(came)} were answered {answer} by then, and {len(rows)} are in the journal")
        late = [(row, at) for row, at in zip(rows, came) if row > at * 1000 + CLOCKS]
        want(not late, f"answered {answer} before the outcome: {late[:2]}")
