"""A session of kactd: the pods before which it stands, its clients, and the account of its journal."""

import collections
import contextlib
import http.client
import itertools
import json
import os
import pathlib
import re
import shutil
import signal
import socket
import subprocess
import tempfile
import threading
import time

TOP = pathlib.Path(__file__).resolve().parents[2]
FIELDS = {"Knative-Serving-Namespace": "default", "Knative-Serving-Revision": "fixed"}
# seconds within which what must come does, also on a busy machine
PATIENCE = 60
OUTCOMES = ("finish", "expire", "cancel", "queue-full", "overload")

NGINX = """
daemon off; master_process off; pid {folder}/pid; error_log {folder}/error.log;
events {{ worker_connections 4096; }}
http {{
    access_log off;
    client_body_temp_path {folder}; proxy_temp_path {folder}; fastcgi_temp_path {folder};
    uwsgi_temp_path {folder}; scgi_temp_path {folder};
    server {{ listen 127.0.0.1:{port} backlog=4096; location / {{ return 200 "hello\\n"; }} }}
}}
"""


class Failed(Exception):
    """Something that the scenario wants does not hold."""


def want(holds, text):
    if not holds:
        raise Failed(text)


def say(text):
    """Tells a figure of the case that runs."""
    print(f"  {text}", flush=True)


def program(name):
    """The program that the environment names (KACT, KACTD), or the one that `rt run` proved and built, or else that of
    `tools/try-build`."""
    built = (TOP / "crates" / name / "out" / name, TOP / "out/try" / name)
    found = os.environ.get(name.upper()) or next((str(one) for one in built if one.exists()), None)
    can_run = found and os.access(found, os.X_OK)
    want(can_run, f"no program {found or name}: prove and build it by 'rt run' in crates/{name}")
    return found


def free_port():
    with socket.socket() as s:
        s.bind(("127.0.0.1", 0))
        return s.getsockname()[1]


def listening():
    """The sockets that listen, without a connection, which would be a client's: the port of each, by its inode."""
    with open("/proc/net/tcp") as rows:
        next(rows)
        # (those who listen come first, and thousands of connections that have ended may follow)
        there = itertools.takewhile(lambda row: row[3] == "0A", map(str.split, rows))
        return {row[9]: int(row[1].split(":")[1], 16) for row in there}


def listens(port):
    """Whether somebody listens on the port."""
    return port in listening().values()


def sockets(pid):
    """The inodes of the sockets that the process has open; none where it is gone, or has closed one just now."""
    try:
        names = [os.readlink(f"/proc/{pid}/fd/{one}") for one in os.listdir(f"/proc/{pid}/fd")]
    except OSError:
        return set()
    return {name.removeprefix("socket:[").removesuffix("]") for name in names if name.startswith("socket:")}


def port_of(pid, has_ended):
    """The port on which the process listens, once it does; none where it ends before."""
    found = []

    def looked():
        own = sockets(pid)
        found[:] = [port for inode, port in listening().items() if inode in own]
        return found or has_ended()

    wait_until(looked, PATIENCE, f"process {pid} does not listen")
    return found[0] if found else None


def wait_until(holds, seconds, text):
    end = time.monotonic() + seconds
    while not holds():
        want(time.monotonic() < end, f"{text} within {seconds} s")
        time.sleep(0.02)


class Pod:
    """nginx, in one process and a folder of its own. It answers each request by `hello`."""

    def __init__(self, port=None):
        self.port = port or free_port()
        self.folder = tempfile.mkdtemp(prefix="kactd-pod-")
        os.chmod(self.folder, 0o755)
        conf = pathlib.Path(self.folder) / "nginx.conf"
        conf.write_text(NGINX.format(folder=self.folder, port=self.port))
        words = ["nginx", "-p", self.folder, "-e", f"{self.folder}/error.log", "-c", str(conf)]
        self.process = subprocess.Popen(words, stderr=subprocess.DEVNULL)
        wait_until(lambda: listens(self.port), 10, "nginx does not listen")

    def kill(self):
        self.process.kill()
        self.process.wait()

    def __enter__(self):
        return self

    def __exit__(self, *_):
        self.kill()
        shutil.rmtree(self.folder, ignore_errors=True)


OK = b"HTTP/1.1 200 OK\r\nContent-Length: 5\r\nConnection: close\r\n\r\nhello"


def whole_request(one):
    """The bytes of a request up to the end of its body; none where the client leaves before, as who probes does."""
    came, length = b"", None
    while length is None or len(came) < length:
        piece = one.recv(65536)
        if not piece:
            return b""
        came += piece
        fields, end, _ = came.partition(b"\r\n\r\n")
        if end:
            found = re.search(rb"(?im)^content-length: *(\d+)", fields)
            length = len(fields + end) + (int(found[1]) if found else 0)
    return came


class Scripted:
    """A pod in this process: each request is answered by what `answer` makes of its bytes, and its connection closed.
    Nobody is let in until it listens."""

    def __init__(self, answer=lambda request: OK, listens=True):
        self.answer, self.requests, self.door = answer, [], socket.socket()
        self.door.bind(("127.0.0.1", 0))
        self.port = self.door.getsockname()[1]
        if listens:
            self.listen()

    def listen(self):
        self.door.listen(128)
        threading.Thread(target=self.serve, daemon=True).start()

    def serve(self):
        with contextlib.suppress(OSError):
            while True:
                threading.Thread(target=self.talk, args=(self.door.accept()[0],), daemon=True).start()

    def read(self, one):
        """The request that comes, or what is read of it; no bytes where none comes."""
        return whole_request(one)

    def talk(self, one):
        with one, contextlib.suppress(OSError):
            request = self.read(one)
            if request:
                self.requests.append(request)
                one.sendall(self.answer(request))

    def __enter__(self):
        return self

    def __exit__(self, *_):
        # (a close alone would leave the door to the thread that waits there; one that never listened can't be shut
        # down)
        with contextlib.suppress(OSError):
            self.door.shutdown(socket.SHUT_RDWR)
        self.door.close()


def fixed(pods, limit=0, depth=10000, most=1000, timeout=30):
    """The setup of a fixed revision."""
    return f"kact journal 1\nfixed limit={limit} depth={depth} max={most} pods={pods} timeout={timeout} seed=7\n"


def scaled(namespace="default", name="fixed", seats=1, most=10, config=(), **annotations):
    """The setup of a scaled revision, but for a journal's first line: each of its pods takes so many requests at once, the
    activator so many at the pods. An annotation's name has _ for -."""
    noted = {f"autoscaling.knative.dev/{key.replace('_', '-')}": str(value) for key, value in annotations.items()}
    metadata = {"namespace": namespace, "name": name, "annotations": noted}
    revision = {"metadata": metadata, "spec": {"containerConcurrency": seats}}
    blocks = json.dumps({"data": dict(config)}), json.dumps(revision)
    return "kpa depth=100 max={} seed=0\nconfig\n{}\n.\nrevision\n{}\n.\n".format(most, *blocks)


def head(more="", method="POST", path="/"):
    """The bytes of a request's head to the fixed revision."""
    fields = "".join(f"{name}: {value}\r\n" for name, value in FIELDS.items())
    return f"{method} {path} HTTP/1.1\r\nHost: pod\r\n{fields}{more}\r\n".encode()


def whole(came):
    """The status and text of the answer, once it has come whole as far as its length says."""
    line, _, rest = came.decode(errors="replace").partition("\r\n")
    fields, _, text = rest.partition("\r\n\r\n")
    length = re.search(r"(?i)^content-length: (\d+)", fields, re.M)
    return (int(line.split()[1]), text.strip()) if length and len(text) >= int(length[1]) else None


class Session:
    """kactd, from its start to its end. `before` is called in its process before it starts. With `many`, each port is
    of a revision's pods."""

    def __init__(self, setup, ports, slots=16, rounds=1, room=100000, server=None, before=None, many=False):
        self.clients = slots * rounds
        pods = (";" if many else ",").join(f"127.0.0.1:{port}" for port in ports)
        words = ["--listen", "127.0.0.1:0", "--pods", pods, "--slots", slots, "--rounds", rounds, "--room", room]
        self.folder = pathlib.Path(tempfile.mkdtemp(prefix="kactd-session-"))
        (self.folder / "setup").write_text(setup)
        files = {"stdin": open(self.folder / "setup"), "stdout": open(self.journal, "w")}
        self.process = subprocess.Popen(
            [server or program("kactd"), *(["many"] if many else []), *map(str, words)],
            stderr=open(self.folder / "stderr", "w"),
            preexec_fn=before,
            **files,
        )
        self.memory = self.status = self.usage = None
        self.watcher = threading.Thread(target=self.watch)
        self.watcher.start()
        self.port = port_of(self.process.pid, self.has_ended)

    def watch(self):
        """Keeps the peak of its resident memory in KiB while it runs, then its processor time and exit status."""
        pid, process = 0, pathlib.Path(f"/proc/{self.process.pid}/status")
        while not pid:
            peak = re.search(r"VmHWM:\s+(\d+)", process.read_text())
            self.memory = int(peak[1]) if peak else self.memory
            time.sleep(0.02)
            pid, status, self.usage = os.wait4(self.process.pid, os.WNOHANG)
        self.status = os.waitstatus_to_exitcode(status)

    def has_ended(self):
        return self.status is not None

    @property
    def journal(self):
        return self.folder / "journal"

    def told(self):
        """What it told on standard error."""
        return (self.folder / "stderr").read_text()

    def end(self, *words, seconds=PATIENCE):
        """Its exit status, its journal's lines, and the rows that `kact replay` makes of them; of a bundle of the
        journal that the word says."""
        wait_until(self.has_ended, seconds, "kactd does not end")
        ended, rows, told = replay(self.journal, *words)
        want(ended == 0, f"replay {words} refuses the journal in {self.folder}: {told}")
        return self.status, self.journal.read_text().splitlines(), rows

    def __enter__(self):
        return self

    def __exit__(self, kind, *_):
        if not self.has_ended():
            os.kill(self.process.pid, signal.SIGKILL)
        self.watcher.join()
        if kind is None:
            shutil.rmtree(self.folder, ignore_errors=True)
        else:
            print(f"  (journal and standard error: {self.folder})")


def replay(journal, *words):
    """What `kact replay` makes of the file: its exit status, the lines that it writes, and what it tells."""
    with open(journal) as given:
        ran = subprocess.run([program("kact"), "replay", *map(str, words)], stdin=given, capture_output=True, text=True)
    return ran.returncode, ran.stdout.splitlines(), ran.stderr


def endings(rows):
    """Of each request that ended, in the report's rows: when and how, once for each time that it did."""
    ended = collections.defaultdict(list)
    for row in rows:
        words = row.split()
        if words[1] in OUTCOMES:
            ended[int(words[2])].append((int(words[0]), " ".join([words[1], *words[3:]]) if words[1] == "finish" else words[1]))
    return ended


def outcomes(journal, report):
    """How many requests ended how, after a check that each that was recorded ended exactly once."""
    arrivals = sum(line.split()[1:2] == ["arrive"] for line in journal)
    ended = endings(report[:-1])
    want(sorted(ended) == list(range(arrivals)), f"of {arrivals} requests {len(ended)} have an outcome")
    want(all(len(one) == 1 for one in ended.values()), "a request has two outcomes")
    found = collections.Counter(one[0][1] for one in ended.values())
    last = dict(word.split("=") for word in report[-1].split()[1:])
    names = {"finished": "finish ok", "failed": "finish fail", "expired": "expire", "cancelled": "cancel"}
    for name in ("finished", "failed", "expired", "cancelled", "queue-full", "overload"):
        want(int(last[name]) == found[names.get(name, name)], f"the last line has {name}={last[name]}: {dict(found)}")
    return found


def answers(found):
    """How many clients should have been answered how, by status and text, for these outcomes."""
    wanted = collections.Counter()
    wanted[200, "hello"] = found["finish ok"]
    wanted[502, "pod call failed"] = found["finish fail"]
    wanted[503, "pending request queue full"] = found["queue-full"]
    wanted[503, "too many requests"] = found["overload"]
    wanted[503, "timed out waiting for a pod"] = found["expire"] + found["cancel"]
    return +wanted


def ask(port, revision="fixed", body=None, seconds=30, headers=()):
    """One client's request: the answer's status and text."""
    client = http.client.HTTPConnection("127.0.0.1", port, timeout=seconds)
    fields = {**FIELDS, "Knative-Serving-Revision": revision, **dict(headers)}
    try:
        client.request("POST" if body else "GET", "/", body=body, headers=fields)
        answer = client.getresponse()
        return answer.status, answer.read().decode().strip()
    finally:
        client.close()


def refuses(words, setup, status, told, ends=True):
    """kactd ends by itself with this status, writes nothing, and tells this pattern. Its standard input ends behind the
    setup, or stays open."""
    theirs, ours = os.pipe()
    with open(theirs) as given, open(ours, "w") as kept:
        kept.write(setup)
        kept.close() if ends else kept.flush()
        ran = subprocess.run([program("kactd"), *words], stdin=given, capture_output=True, text=True, timeout=PATIENCE)
    is_so = (ran.returncode, ran.stdout) == (status, "") and re.fullmatch(told, ran.stderr)
    want(is_so, f"{words} with {setup!r}: {ran}, not {status} and {told!r}")


def begin(port, request):
    """A client that has sent its request."""
    one = socket.create_connection(("127.0.0.1", port), timeout=PATIENCE)
    one.sendall(request)
    return one


def rest(one):
    """All that comes up to the end."""
    with one:
        return b"".join(iter(lambda: one.recv(65536), b""))


def resets(one):
    """Closes the connection so that the other side is told that it broke."""
    one.setsockopt(socket.SOL_SOCKET, socket.SO_LINGER, b"\1" + bytes(7))
    one.close()


def drain(session):
    """Brings clients one by one until the session ends, and says how many were answered 200."""
    answered = 0
    while not session.has_ended():
        try:
            answered += ask(session.port)[0] == 200
        except (OSError, http.client.HTTPException):
            pass  # it has ended just now
    return answered


def field_words(revision="fixed"):
    """The words by which curl, hey, wrk and ab send the fields that name the revision."""
    fields = {**FIELDS, "Knative-Serving-Revision": revision}
    return [word for name, value in fields.items() for word in ("-H", f"{name}: {value}")]


def hey(port, count, at_once=16, revision="fixed", more=("-disable-keepalive",)):
    """The words that bring so many clients, each with a connection of its own unless `more` says otherwise."""
    words = ["hey", "-n", count, "-c", at_once, *more, "-t", "60", *field_words(revision)]
    return [*map(str, words), f"http://127.0.0.1:{port}/"]


def load(*words, **more):
    """What hey counts: how many clients were answered by which status, and how many met an error."""
    ran = subprocess.run(hey(*words, **more), capture_output=True, text=True)
    counted = {int(code): int(n) for code, n in re.findall(r"\[(\d{3})\]\t(\d+) responses", ran.stdout)}
    errors = ran.stdout.partition("Error distribution:")[2]
    counted["errors"] = sum(int(n) for n in re.findall(r"\[(\d+)\]\t", errors))
    return collections.Counter(counted)


def run(cases, names, limit=None):
    """Runs the cases, by their names, or those of them that are named, within so many seconds in all. Whether one
    failed; the last line counts."""
    ran = failed = 0
    begun = time.monotonic()

    def is_over(*_):
        raise Failed(f"not done within {limit} s")

    if limit:
        signal.signal(signal.SIGALRM, is_over)
        signal.alarm(limit)
    for name, case in cases.items():
        if names and name not in names:
            continue
        start = time.monotonic()
        try:
            case()
            said = "ok"
        except Exception as error:
            failed, said = failed + 1, f"FAILED: {error!r}"
        ran += 1
        print(f"{name}: {said} ({time.monotonic() - start:.1f} s)", flush=True)
        if limit and time.monotonic() - begun >= limit:
            break
    print(f"{ran} cases, {failed} failed", flush=True)
    return failed > 0
