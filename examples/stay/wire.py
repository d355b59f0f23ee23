#!/usr/bin/env -S python3 -B
"""What `kactd` makes of bytes on the wire: `./wire.py [NAME..]`. Replies of pods, whole and cut, by the lines of replies.txt; long ones and early ones;
clients that wait for leave, that know no chunks, that are refused while they send; how a connection ends; and probes by the clock. Each journal replays,
and standard error tells so many faults of pods as must be, and no others."""

import contextlib
import pathlib
import re
import socket
import sys
import time

from raw_pod import OK, RawPod
from server import Stay, replay
from session import FIELDS, Session, fixed, free_port, run, wait_until, want

NAMES = "".join(f"{name}: {value}\r\n" for name, value in FIELDS.items()).encode()
CUT = b"HTTP/1.1 502 Bad Gateway\r\nContent-Type: text/plain\r\nContent-Length: 15\r\nConnection: close\r\n\r\npod call failed"
LEAVE = b"HTTP/1.1 100 Continue\r\n\r\n"

# seconds that the pod takes in `ends`, and those beyond them that a look takes at least (it is about one)
PAUSE, LOOK = 0.2, 0.5


@contextlib.contextmanager
def serving(pod, faults=0, **words):
    """A server before this pod, of which so many faults are told by its end."""
    with pod, Stay(fixed(1), [pod.port], **words) as server:
        yield server, pod
        server.stop()
        want(server.end() == 0, server.told())
        status, _, said = replay(server.journal)
        want(status == 0, f"replay refuses the journal: {said}")
        lines = server.told().splitlines()[1:]
        alone = lines.count("kactd: a pod failed")
        more = [int(one[1]) for one in map(re.compile(r"kactd: (\d+) more faults?").fullmatch, lines) if one]
        want(alone + len(more) == len(lines) and alone + sum(more) == faults, f"not {faults} faults of pods: {lines}")


def client(server):
    return socket.create_connection(("127.0.0.1", server.port), timeout=30)


def read(one):
    """All that comes up to the end."""
    return b"".join(iter(lambda: one.recv(65536), b""))


def rest(one):
    with one:
        return read(one)


def bring(server, request):
    one = client(server)
    one.sendall(request)
    return rest(one)


def request(line=b"GET / HTTP/1.1", more=b"", body=b""):
    return line + b"\r\nHost: a\r\n" + NAMES + more + b"\r\n" + body


def spelled(text):
    return text.encode().decode("unicode_escape").encode("latin-1")


def replies():
    """Each line of replies.txt: a request's line and a pod's reply, and below it what the client gets, or that it isn't whole."""
    lines = (pathlib.Path(__file__).parent / "replies.txt").read_text().splitlines()
    with serving(RawPod(), faults=lines[1::2].count("  not whole")) as (server, pod):
        for given, wanted in zip(lines[::2], lines[1::2]):
            first, _, reply = given.partition("|")
            pod.reply = spelled(reply)
            came = bring(server, request(spelled(first)))
            want(came == (CUT if wanted == "  not whole" else spelled(wanted[2:])), f"{given}: {came[:300]}")


def long_replies():
    """A reply of 1,114,112 bytes is handed on, one of a byte more is not."""
    head = b"HTTP/1.1 200 OK\r\n\r\n"
    with serving(RawPod(), faults=1) as (server, pod):
        for size in (1114112, 1114113):
            pod.reply = head + b"r" * (size - len(head))
            came = bring(server, request())
            wanted = head[:-2] + b"Connection: close\r\n\r\n" + pod.reply[len(head) :] if size == 1114112 else CUT
            want(came == wanted, f"{size}: {len(came)} bytes, {came[:80]}")


def early():
    """A pod that answers and closes before it took the whole request: its answer is handed on."""
    body = b"a" * 1000000
    with serving(RawPod(b"HTTP/1.1 413 Too Long\r\nContent-Length: 0\r\n\r\n", early=True)) as (server, _):
        for _ in range(5):
            came = bring(server, request(b"PUT / HTTP/1.1", b"Content-Length: 1000000\r\n", body))
            want(came == b"HTTP/1.1 413 Too Long\r\nContent-Length: 0\r\nConnection: close\r\n\r\n", f"{came[:200]}")


def bodies():
    """A body comes to the pod as it was sent, also a long one, and one that is sent byte by byte."""
    long = bytes(n * n % 251 for n in range(1000000))
    with serving(RawPod()) as (server, pod):
        for body, piece in ((b"hello", 5), (long, len(long)), (long, 40000), (b"byte by byte", 1)):
            one = client(server)
            one.sendall(request(b"PUT / HTTP/1.1", b"Content-Length: %d\r\n" % len(body)))
            for at in range(0, len(body), piece):
                one.sendall(body[at : at + piece])
            want(rest(one) == OK and pod.bodies[-1] == body, f"a body of {len(body)} bytes in pieces of {piece}")


def leave():
    """A client that waits for leave to send its body gets it once, at once; one that doesn't wait, or is of HTTP/1.0, gets none."""
    rows = (
        ("leave is given", request(b"PUT / HTTP/1.1", b"Expect: 100-continue\r\nContent-Length: 1\r\n"), "waits"),
        ("in capitals", request(b"PUT / HTTP/1.1", b"EXPECT:100-Continue \r\nContent-Length: 1\r\n").replace(b"\r\n", b"\n"), "waits"),
        ("nobody waits", request(b"PUT / HTTP/1.1", b"Expect: 100\r\nContent-Length: 1\r\n"), "a moment later"),
        ("an old client", request(b"PUT / HTTP/1.0", b"Expect: 100-continue\r\nContent-Length: 1\r\n"), "a moment later"),
        ("the body is there", request(b"PUT / HTTP/1.1", b"Expect: 100-continue\r\nContent-Length: 1\r\n"), "at once"),
    )
    with serving(RawPod()) as (server, pod):
        for name, head, way in rows:
            one = client(server)
            one.sendall(head + b"x" if way == "at once" else head)
            if way == "waits":
                want(one.recv(len(LEAVE), socket.MSG_WAITALL) == LEAVE, f"{name}: no leave")
            if way == "a moment later":
                time.sleep(0.1)
            if way != "at once":
                one.sendall(b"x")
            came = rest(one)
            want(came == OK and pod.bodies[-1] == b"x", f"{name}: {came}, and the body {pod.bodies[-1]}")


def chunked(parts):
    """An answer in chunks."""
    head = b"HTTP/1.1 200 OK\r\nTransfer-Encoding: chunked\r\nConnection: close\r\n\r\n"
    return head + b"".join(b"%x\r\n%s\r\n" % (len(part), part) for part in parts) + b"0\r\n\r\n"


def plain(parts):
    """The same without chunks."""
    return b"HTTP/1.1 200 OK\r\nConnection: close\r\n\r\n" + b"".join(parts)


def old_clients():
    """A client of HTTP/1.0 gets an answer in chunks plain, also a long one; one of HTTP/1.1 as it is; by turns."""
    short, long = [b"hello", b" you"], [b"a" * 5000, b"b" * 20000, b"c" * 5000, b"d" * 5000]
    old, new = request(b"GET / HTTP/1.0"), request()
    with serving(RawPod()) as (server, pod):
        for given, reply, wanted in (
            (old, chunked(short), plain(short)),
            (new, chunked(short), chunked(short)),
            (old, chunked(long), plain(long)),
            (old, plain(short), plain(short)),
            (old, chunked(short), plain(short)),
        ):
            pod.reply = reply
            came = bring(server, given)
            want(came == wanted, f"{came[:200]}")


def refused_while_sending():
    """A client whose body is too long reads the whole refusal, though it goes on sending for a while; one that stays sees its end; the next is served."""
    too_long = request(b"PUT / HTTP/1.1", b"Content-Length: 100000000\r\n") + b"x" * 100000
    with serving(RawPod(), slots=1) as (server, _):
        one = client(server)
        one.sendall(too_long)
        for _ in range(10):
            time.sleep(0.005)
            one.sendall(b"x" * 1000)
        is_refusal(rest(one))
        with client(server) as stays:
            stays.sendall(too_long)
            is_refusal(read(stays))
            want(bring(server, request()) == OK, "the next is not served")


def is_refusal(came):
    head, _, text = came.partition(b"\r\n\r\n")
    want(head.startswith(b"HTTP/1.1 413 ") and b"\r\nContent-Length: %d\r\n" % len(text) in head, f"answered {came}")


def ends():
    """One slot. Behind a request that came whole the next client is served at once, though the client before stays; where more came or may come, it is
    looked for what that client still sends, for half a second at least, and the answer is not lost."""
    rows = (
        ("a head", request(), b"", False),
        ("a head behind an empty line", b"\r\n" + request(), b"", False),
        ("a body", request(b"PUT / HTTP/1.1", b"CONTENT-length: 5 \r\n", b"hello"), b"", False),
        ("bare line ends", request(b"PUT / HTTP/1.0", b"Content-Length: 5\r\n", b"hello").replace(b"\r\n", b"\n"), b"", False),
        ("more", request(b"PUT / HTTP/1.1", b"Content-Length: 5\r\n", b"hello!"), b"more", True),
        ("chunks", request(b"PUT / HTTP/1.1", b"Transfer-Encoding: chunked\r\n", b"0\r\n\r\n"), b"more", True),
        ("a long line", request(b"PUT / HTTP/1.1", b"Content-Length: 0" + b" " * 60 + b"\r\n"), b"more", True),
        ("no look again", request(), b"", False),
    )
    with serving(RawPod(), slots=1) as (server, pod):
        pod.pause = PAUSE
        for name, given, more, looks in rows:
            # (a busy machine may be late itself: once in three times it is not)
            want(any(has_look(server, name, given, more) == looks for _ in range(3)), f"{name}: it is {'not ' * looks}looked for more")


def has_look(server, name, given, more):
    """Whether it is looked, behind a client's answer, for what that client still sends, who stays: the next is answered so much later."""
    with client(server) as one, client(server) as two:
        one.sendall(given)
        time.sleep(PAUSE / 2)
        one.sendall(more)
        two.sendall(request())
        came = read(one)
        at = time.monotonic()
        want(came == OK, f"{name}: {came}")
        want(rest(two) == OK, f"{name}: the next is not served")
        return time.monotonic() - at >= PAUSE + LOOK


def ends_alone():
    """In a session whose slot waits for the next client, the one before sees its end before that comes."""
    with RawPod() as pod, Session(fixed(1), [pod.port], slots=1, rounds=2) as session:
        for _ in range(2):
            want(bring(session, request()) == OK, "not answered, or not to its end")
        want(session.end()[0] == 0, "another status")


def swallowing():
    """A socket that takes no connection more, and the one that waits in it."""
    door = socket.create_server(("127.0.0.1", 0), backlog=0)
    return door, socket.create_connection(door.getsockname())


def probes():
    """Eight pods that swallow what comes don't keep the turns of a ninth waiting; a pod that refuses at first is Ready once it listens."""
    full, late = [swallowing() for _ in range(8)], free_port()
    ports = [*(door.getsockname()[1] for door, _ in full), late]
    with RawPod() as pod, Stay(fixed(10), [*ports, pod.port]) as server:

        def ready():
            rows = [line.split() for line in server.journal.read_text().splitlines()]
            return [row[2] for row in rows if row[1:2] == ["ready"]]

        begun = time.monotonic()
        want(bring(server, request()) == OK and time.monotonic() - begun < 6, "not served soon")
        time.sleep(1.5)
        want(ready() == ["9"], f"{ready()} are ready")
        with socket.create_server(("127.0.0.1", late)):
            wait_until(lambda: ready() == ["9", "8"], 20, "the one that listens late is not Ready")
        server.stop()
        want(server.end() == 0, server.told())
    for pair in full:
        for one in pair:
            one.close()


CASES = {
    it.__name__: it
    for it in (replies, long_replies, early, bodies, leave, old_clients, refused_while_sending, ends, ends_alone, probes)
}

if __name__ == "__main__":
    sys.exit(run(CASES, sys.argv[1:]))
