"""Clients that bring requests one after another, each over a connection of its own, and what each of them met."""

import collections
import concurrent.futures
import multiprocessing
import pathlib
import socket
import sys
import threading
import time

sys.path.insert(1, str(pathlib.Path(__file__).resolve().parents[1] / "serve"))

from session import head, want, whole  # noqa: E402

# A request: when its client began to connect, when all of it was sent (None: never), when its answer had come or it failed, by the wall clock in
# seconds; the answer's status and text, or 0 and the error.
Met = collections.namedtuple("Met", "begun sent ended status text")

# that bring the clients: one more for each eight of these, and so many at most
PROCESSES = 4


def bring(port, request, seconds=60):
    """Brings one request, and waits for the end of what is answered."""
    begun, sent = time.time(), None
    try:
        with socket.create_connection(("127.0.0.1", port), timeout=seconds) as client:
            client.sendall(request)
            sent = time.time()
            came = b"".join(iter(lambda: client.recv(65536), b""))
        status, text = whole(came) or (0, f"cut answer: {came[:200]!r}")
        return Met(begun, sent, time.time(), status, text)
    except OSError as error:
        return Met(begun, sent, time.time(), 0, repr(error))


def bring_all(port, requests, at_once=2):
    """Brings each of these requests, by so many clients beside each other, in this process."""
    with concurrent.futures.ThreadPoolExecutor(at_once) as threads:
        return list(threads.map(lambda request: bring(port, request), requests))


def client(port, request, count, pause, until, met):
    """Brings requests until a time, or so many, or until one has no answer."""
    while count > 0 and time.time() < until:
        met.append(bring(port, request))
        if met[-1].status == 0:
            return
        count -= 1
        time.sleep(pause)


def clients(pipe, at_once, *words):
    """So many clients at once in one process, from when it is told how long. It sends what they met when they are done."""
    pipe.send("ready")
    until, met = time.time() + pipe.recv(), []
    threads = [threading.Thread(target=client, args=(*words, until, met)) for _ in range(at_once)]
    for thread in threads:
        thread.start()
    for thread in threads:
        thread.join()
    pipe.send([tuple(one) for one in met])
    pipe.close()


class Load:
    """So many clients at once, in processes of their own, for so many seconds or until each has brought so many requests."""

    def __init__(self, port, at_once, seconds=60, count=10**9, path="/", pause=0.0):
        words = (port, head(method="GET", path=path), count, pause)
        self.crew, self.seconds = [], seconds
        # a process that is forked would keep the server's standard input open
        context = multiprocessing.get_context("spawn")
        parts = min(PROCESSES, 1 + at_once // 8)
        for part in range(parts):
            ours, theirs = context.Pipe()
            number = at_once // parts + (part < at_once % parts)
            process = context.Process(target=clients, args=(theirs, number, *words), daemon=True)
            process.start()
            theirs.close()
            self.crew.append((process, ours))
        for _, pipe in self.crew:
            pipe.recv()
        for _, pipe in self.crew:
            pipe.send(seconds)

    def met(self, within=90):
        """What all of them met, in the order in which it ended. They must be done so many seconds behind their time."""
        end, met = time.monotonic() + self.seconds + within, []
        for process, pipe in self.crew:
            want(pipe.poll(max(0, end - time.monotonic())), "a client does not end")
            met += [Met(*one) for one in pipe.recv()]
            process.join()
        return sorted(met, key=lambda one: one.ended)


def counted(met):
    """How many were answered how, by status and text."""
    return collections.Counter((one.status, one.text) for one in met)


def latency(met, part):
    """Ms within which so many of a hundred requests had their answer."""
    took = sorted(one.ended - one.begun for one in met if one.status)
    return took[min(len(took) - 1, int(len(took) * part / 100))] * 1000 if took else float("nan")


def told(met):
    """Requests a second and latencies, in words."""
    span = max(one.ended for one in met) - min(one.begun for one in met)
    return f"{len(met)} requests, {len(met) / span:,.0f} a second, half within {latency(met, 50):.1f} ms, 99 of 100 within {latency(met, 99):.1f} ms"
