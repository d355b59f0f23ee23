#!/usr/bin/env -S python3 -B
"""kactd before real pods, in the situations that README.md lists: `./scenarios.py [NAME..]`."""

import collections
import concurrent.futures
import http.server
import json
import socket
import subprocess
import sys
import threading
import time

from session import Pod, Session, answers, ask, drain, field_words, fixed, free_port, head, hey, load, outcomes, run, want, whole

HELLO = (200, "hello")


def speak(port, pieces, pause=0.0):
    """Sends the pieces, with a pause between them, and takes the answer, also where not all could be sent."""
    came = b""
    with socket.create_connection(("127.0.0.1", port), timeout=120) as client:
        try:
            for piece in pieces:
                client.sendall(piece)
                time.sleep(pause)
        except (BrokenPipeError, ConnectionResetError):
            pass
        try:
            while not whole(came) and (piece := client.recv(65536)):
                came += piece
        except ConnectionResetError:
            return "reset", came.decode()
    return whole(came) or ("no answer", came.decode())


def at_once(count, act):
    """What so many threads make of the act."""
    with concurrent.futures.ThreadPoolExecutor(count) as threads:
        return collections.Counter(threads.map(lambda _: act(), range(count)))


def settle(session, found, status=0, gone=0):
    """Ends the session, and holds its account against the answers that clients had, but for those that went away."""
    ended, journal, report = session.end()
    want(ended == status, f"exit status {ended}: {(session.folder / 'stderr').read_text()}")
    wanted = answers(outcomes(journal, report))
    lacking, extra = wanted - found, found - wanted
    want(sum(lacking.values()) == gone, f"not answered as the journal says: {dict(lacking)}")
    want(not any(code in (200, 502, 503) for code, _ in extra), f"not in the journal: {dict(extra)}")
    return report


def one_request():
    """curl, without and with a body."""
    with Pod() as pod, Session(fixed(1), [pod.port], slots=1, rounds=2) as session:
        words = ["curl", "-s", "-m", "10", *field_words(), f"http://127.0.0.1:{session.port}/"]
        for more in ([], ["-d", "some text"]):
            want(subprocess.run(words + more, capture_output=True).stdout == b"hello\n", "curl was not answered")
        settle(session, collections.Counter({HELLO: 2}))


def load_of_16():
    """hey with 16 clients at once before four pods of two seats."""
    with Pod() as pod, Session(fixed(4, limit=2), [pod.port], rounds=500) as session:
        counted = load(session.port, 8000)
        want(counted == collections.Counter({200: 8000}), f"hey counted {dict(counted)}")
        settle(session, collections.Counter({HELLO: 8000}))


def full_breaker():
    """32 clients before one seat and a queue of 8."""
    with Pod() as pod, Session(fixed(1, limit=1, depth=8, most=1), [pod.port], slots=32, rounds=50) as session:
        counted = load(session.port, 1600, at_once=32)
        want(counted[503] > 0 and counted[200] + counted[503] == 1600, f"hey counted {dict(counted)}")
        full = {HELLO: counted[200], (503, "pending request queue full"): counted[503]}
        settle(session, collections.Counter(full))


def killed_pod():
    """One of three pods is killed under load. Its requests are answered 502; none is lost."""
    with Pod() as a, Pod() as b, Pod() as c:
        with Session(fixed(3, limit=4), [a.port, b.port, c.port], rounds=500) as session:
            threading.Timer(0.5, b.kill).start()
            counted = load(session.port, 8000)
            # those that ran there are answered 502 too: an empty answer is none
            want(counted[502] > 0 and counted[200] > 0 and counted[200] + counted[502] == 8000, f"hey counted {dict(counted)}")
            found = {HELLO: counted[200], (502, "pod call failed"): counted[502]}
            settle(session, collections.Counter(found), status=8)


def killed_clients():
    """hey is killed under load: all that was recorded is finished, and the slots serve on."""
    with Pod() as pod, Session(fixed(4, limit=2), [pod.port], rounds=250) as session:
        tool = subprocess.Popen(hey(session.port, 4000), stdout=subprocess.DEVNULL)
        time.sleep(0.3)
        tool.kill()
        tool.wait()
        answered = drain(session)
        status, journal, report = session.end()
        found = outcomes(journal, report)
        want(status in (0, 8) and set(found) == {"finish ok"}, f"exit status {status}: {report[-1]}")
        want(0 < answered <= found["finish ok"] <= 4000, f"answered after that: {answered}; {report[-1]}")


def gone_in_body():
    """A client that closes in mid-body, and one that resets, leave no request and no slot behind."""
    part = head("Content-Length: 1000\r\n") + b"ten bytes."
    with Pod() as pod, Session(fixed(1), [pod.port], slots=2, rounds=6) as session:
        for linger in (0, 1) * 5:
            client = socket.create_connection(("127.0.0.1", session.port))
            client.setsockopt(socket.SOL_SOCKET, socket.SO_LINGER, linger.to_bytes(4, "little") + bytes(4))
            client.sendall(part)
            time.sleep(0.1)
            client.close()
        found = at_once(2, lambda: ask(session.port))
        want(found == {HELLO: 2}, f"answered {dict(found)}")
        settle(session, found, status=8)


class SlowPod(http.server.BaseHTTPRequestHandler):
    """Answers a megabyte after half a second."""

    def do_GET(self):
        time.sleep(0.5)
        self.send_response(200)
        self.send_header("Content-Length", "1000000")
        self.end_headers()
        self.wfile.write(bytes(1000000))

    def log_message(self, *_):
        pass


def gone_before_answer():
    """Clients that reset while their request runs: each is finished, and the slots serve on."""
    server = http.server.ThreadingHTTPServer(("127.0.0.1", 0), SlowPod)
    threading.Thread(target=server.serve_forever, daemon=True).start()
    with Session(fixed(1), [server.server_port], slots=4, rounds=3) as session:
        for _ in range(8):
            client = socket.create_connection(("127.0.0.1", session.port))
            client.sendall(head(method="GET"))
            time.sleep(0.2)
            client.setsockopt(socket.SOL_SOCKET, socket.SO_LINGER, b"\1" + bytes(7))
            client.close()
        found = at_once(4, lambda: ask(session.port)[0])
        want(found == {200: 4}, f"answered {dict(found)}")
        _, journal, report = session.end()
        want(outcomes(journal, report) == {"finish ok": 12}, report[-1])
    server.shutdown()


def slow_clients():
    """500 clients send their heads in pieces of ten bytes, 200 ms apart."""
    text = head(method="GET")
    pieces = [text[i : i + 10] for i in range(0, len(text), 10)]
    with Pod() as pod, Session(fixed(1), [pod.port], slots=50, rounds=10) as session:
        found = at_once(500, lambda: speak(session.port, pieces, 0.2))
        want(found == {HELLO: 500}, f"answered {dict(found)}")
        settle(session, found)


def refused():
    """A head of 20 KB, a body above a MiB and a bad length are refused, and no event is made of them."""
    sent = {
        (431, "request head too long"): [head(f"X: {'x' * 20000}\r\n", method="GET")],
        (413, "request body too long"): [head("Content-Length: 2000000\r\n"), bytes(2000000)],
        (400, "bad request"): [head("Content-Length: many\r\n"), bytes(100000)],
    }
    with Pod() as pod, Session(fixed(1), [pod.port], slots=2, rounds=30) as session:
        found = collections.Counter(speak(session.port, pieces) for pieces in sent.values() for _ in range(19))
        found.update(at_once(3, lambda: ask(session.port)))
        want(found == collections.Counter({HELLO: 3, **dict.fromkeys(sent, 19)}), f"answered {dict(found)}")
        settle(session, found)


def no_room():
    """Room for 40 rows: the requests for which none is left are answered 507, and none of them is recorded."""
    with Pod() as pod, Session(fixed(1), [pod.port], slots=4, rounds=25, room=40) as session:
        found = at_once(4, lambda: ask(session.port))
        counted = load(session.port, 96, at_once=4)
        found.update({HELLO: counted[200], (507, "history full"): counted[507]})
        want(counted[507] > 0 and sum(found.values()) == 100, f"answered {dict(found)}")
        settle(session, found)


def no_pod():
    """Nobody listens at the pod's address: each request waits for its whole timeout."""
    with Session(fixed(1, timeout=2), [free_port()], slots=16, rounds=2) as session:
        start = time.monotonic()
        found = at_once(32, lambda: ask(session.port))
        took = time.monotonic() - start
        want(found == {(503, "timed out waiting for a pod"): 32}, f"answered {dict(found)}")
        want(3.9 < took < 6, f"two rounds took {took:.1f} s")
        settle(session, found)


def late_pod():
    """A pod comes after a second: those that wait for it are answered by it."""
    port = free_port()
    with Session(fixed(1, limit=2), [port], slots=16, rounds=1) as session:
        with concurrent.futures.ThreadPoolExecutor(1) as threads:
            waiting = threads.submit(at_once, 16, lambda: ask(session.port))
            time.sleep(1)
            with Pod(port):
                found = waiting.result()
                want(found == {HELLO: 16}, f"answered {dict(found)}")
                settle(session, found)


class OpenPod:
    """Answers each request by `hello`, by its length and in chunks by turns, and never closes a connection."""

    def __init__(self):
        self.door = socket.create_server(("127.0.0.1", 0))
        self.port, self.kept = self.door.getsockname()[1], []
        threading.Thread(target=self.serve, daemon=True).start()

    def serve(self):
        with self.door:
            while True:
                client = self.door.accept()[0]
                # (a probe connects and says nothing)
                if client.recv(65536):
                    field = ("Content-Length: 5\r\n\r\nhello", "Transfer-Encoding: chunked\r\n\r\n5\r\nhello\r\n0\r\n\r\n")
                    client.sendall(f"HTTP/1.1 200 OK\r\n{field[len(self.kept) % 2]}".encode())
                    self.kept.append(client)


def open_pod():
    """A pod of one seat that keeps its connections open: each answer ends where it says, and the seat is free then."""
    pod = OpenPod()
    with Session(fixed(1, limit=1), [pod.port], slots=4, rounds=10) as session:
        start = time.monotonic()
        found = collections.Counter(ask(session.port) for _ in range(20))
        found.update(at_once(4, lambda: ask(session.port)) + at_once(4, lambda: ask(session.port)))
        found.update(ask(session.port) for _ in range(12))
        took = time.monotonic() - start
        want(found == {HELLO: 40}, f"answered {dict(found)}")
        want(took < 10, f"took {took:.1f} s")
        settle(session, found)


class Swallower:
    """An address that swallows packets: a listener with a full backlog, where a connection comes to no answer."""

    def __init__(self):
        self.door = socket.create_server(("127.0.0.1", 0), backlog=0)
        self.port, self.kept = self.door.getsockname()[1], []
        for _ in range(4):
            client = socket.socket()
            client.setblocking(False)
            client.connect_ex(("127.0.0.1", self.port))
            self.kept.append(client)


def swallowing_pods():
    """Ten pods, of which nine swallow packets: the ticks go on, and the tenth serves."""
    swallowers = [Swallower() for _ in range(9)]
    with Pod() as pod, Session(fixed(10), [*(s.port for s in swallowers), pod.port], slots=1, rounds=2) as session:
        found = collections.Counter([ask(session.port)])
        time.sleep(12)
        found[ask(session.port)] += 1
        want(found == {HELLO: 2}, f"answered {dict(found)}")
        status, journal, report = session.end()
    ticks = [int(line.split()[0]) for line in journal if line.split()[1:] == ["tick"]]
    gaps = [b - a for a, b in zip(ticks, ticks[1:])]
    want(status == 0 and outcomes(journal, report) == {"finish ok": 2}, f"exit status {status}: {report[-1]}")
    want(len(gaps) >= 4 and max(gaps) <= 2200, f"ms between ticks: {gaps}")


def other_revision():
    """Requests of another revision, and without one, are refused, and no event is made of them."""
    with Pod() as pod, Session(fixed(1), [pod.port], slots=4, rounds=25) as session:
        want(load(session.port, 96, 4, revision="other") == collections.Counter({404: 96}), "not all are 404")
        found = collections.Counter([speak(session.port, [b"GET / HTTP/1.1\r\n\r\n"])])
        found.update(ask(session.port) for _ in range(3))
        want(found == {(400, "bad request"): 1, HELLO: 3}, f"answered {dict(found)}")
        settle(session, found)


def scaled():
    """A scaled revision starts from zero, is woken by a request, goes back to zero and is woken again."""
    config = {"allow-zero-initial-scale": "true", "initial-scale": "0", "stable-window": "6s", "scale-to-zero-grace-period": "0s"}
    revision = {"metadata": {"namespace": "default", "name": "fixed"}, "spec": {"containerConcurrency": 10, "timeoutSeconds": 10}}
    setup = f"kact journal 1\nkpa depth=100 max=100 seed=7\nconfig\n{json.dumps({'data': config})}\n.\n"
    setup += f"revision\n{json.dumps(revision)}\n.\n"
    with Pod() as pod, Session(setup, [pod.port], slots=4, rounds=50) as session:
        found = at_once(4, lambda: ask(session.port))
        counted = load(session.port, 192, at_once=4)
        time.sleep(14)
        found.update(at_once(4, lambda: ask(session.port)))
        want(found == {HELLO: 8} and counted == collections.Counter({200: 192}), f"answered {dict(found)} and {dict(counted)}")
        report = settle(session, found + collections.Counter({HELLO: 192}))
    phases = [row.split()[2] for row in report if row.split()[1] == "phase"]
    want(phases == ["inactive", "activating", "active"] * 2, f"phases {phases}")
    want(any(row.split()[1] == "remove" for row in report), "no pod was removed")


SCENARIOS = [
    one_request, load_of_16, full_breaker, killed_pod, killed_clients, gone_in_body, gone_before_answer, slow_clients, refused,
    no_room, no_pod, late_pod, open_pod, swallowing_pods, other_revision, scaled,
]


def main(names):
    return run({scenario.__name__: scenario for scenario in SCENARIOS}, names)


if __name__ == "__main__":
    sys.exit(main(sys.argv[1:]))
