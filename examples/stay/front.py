#!/usr/bin/env -S python3 -B
"""The front of `kactd stay`, from outside: `./front.py [NAME..]`. Where it listens, what stops it, silent clients, slow ones, many at once, those that leave,
and the stop. Of each server the journal's account is that of the answers, standard error tells the faults that must be, and no more."""

import collections
import contextlib
import resource
import socket
import subprocess
import sys
import tempfile
import threading
import time

from raw_pod import Gate
from server import CLOCKS, Pod, Stay, settle
from session import fixed, head, listens, program, run, wait_until, want, whole
from status import gauges, metrics, page

GET = head(method="GET")
HELLO = (200, "hello")
HELLO_BYTES = b"HTTP/1.1 200 OK\r\nContent-Length: 5\r\n\r\nhello"
CANCELLED = (503, "timed out waiting for a pod")
LATE = b"HTTP/1.1 408 Request Timeout\r\nContent-Type: text/plain\r\nContent-Length: 33\r\nConnection: close\r\n\r\ntimed out waiting for the request"
CLIENT = "kactd: a client failed"

# descriptors that a server of one slot needs beside those of clients that wait: two a slot, and what the rest of the program keeps
NEEDED = 2 + 128

# seconds behind the end of the input in which whoever begins to ask is served for sure (a quarter of one is left to them)
SOON = 0.2


@contextlib.contextmanager
def serving(slots=1, pod=None, **words):
    with pod or Pod() as pod, Stay(words.pop("setup", fixed(1)), [pod.port], slots=slots, **words) as server:
        yield server, pod


@contextlib.contextmanager
def holding(slots, **words):
    """A server before a pod that answers nobody until it opens."""
    with serving(slots, Gate(HELLO_BYTES), page=True, **words) as (server, pod):
        yield server, pod
        pod.opens.set()


def client(server):
    return socket.create_connection(("127.0.0.1", server.port), timeout=30)


def clients(server, count):
    return [client(server) for _ in range(count)]


def rest(one):
    """All that comes up to the end."""
    with one:
        return b"".join(iter(lambda: one.recv(4096), b""))


def ask(one, request=GET):
    one.sendall(request)
    return one


def is_served(one):
    return whole(rest(ask(one))) == HELLO


def are_served(some):
    return all(whole(rest(one)) == HELLO for one in some)


def told(server):
    """What standard error tells behind where the server listens."""
    return server.told().splitlines()[1 + bool(server.page) :]


def finished(server, pod, served, faults=0):
    """Ends the server: so many were served, each arrived and came to the pod, and so many faults of clients were told."""
    settle(server, collections.Counter({HELLO: served}))
    want(told(server) == [CLIENT] * faults, f"standard error tells {told(server)}")
    want(pod.count() == served, f"{pod.count()} requests came to the pod, not {served}")


def waiting(server):
    """How many connections wait in front."""
    return metrics(server)["kactd_connections_waiting"].values[()]


def at_work(server):
    """How many slots have a connection."""
    return metrics(server)["kactd_slots_at_work"].values[()]


def two_servers():
    """Port 0 is any free one: two servers listen at two ports of the address that they were given."""
    with serving() as (one, pod), serving() as (other, second):
        want(one.port != other.port, "two servers at one port")
        for server, behind in ((one, pod), (other, second)):
            want(server.told() == f"kactd: listening on 127.0.0.1:{server.port}\n", server.told())
            want(is_served(client(server)), "not served")
            finished(server, behind, 1)


def times():
    """The journal's times are milliseconds since 1970, as the machine's clock has them, and go on with it."""
    with serving() as (server, pod):
        marks = [time.time()]
        for _ in range(3):
            want(is_served(client(server)), "not served")
            marks.append(time.time())
            time.sleep(0.3)
        finished(server, pod, 3)
        rows = [line.split() for line in server.journal.read_text().splitlines()]
    at = [int(row[0]) for row in rows if row[1:2] == ["finish"]]
    marks = [mark * 1000 for mark in marks]
    want(all(a - CLOCKS <= t <= b + CLOCKS for a, t, b in zip(marks, at, marks[1:])), f"answers at {at}, between {marks}")


def input_goes_on():
    """Standard input stays open: the server goes on, also behind a line and behind more than is read at once; and ends at its end."""
    with serving() as (server, pod):
        want(is_served(client(server)), "not served at an open input")
        for more in (b"a line\n", b"x" * 50000, b"x" * 4096):
            server.process.stdin.write(more)
            server.process.stdin.flush()
            time.sleep(0.3)
            want(is_served(client(server)), f"not served behind {len(more)} more bytes of input")
        finished(server, pod, 4)


def input_is_a_file():
    """A file is at its end at once: the server ends by itself, with a whole journal of nobody."""
    with tempfile.TemporaryFile("w+") as setup:
        setup.write(fixed(1))
        setup.seek(0)
        words = [program("kactd"), "stay", "--listen", "127.0.0.1:0", "--pods", "127.0.0.1:1"]
        ran = subprocess.run(words, stdin=setup, capture_output=True, text=True, timeout=60)
    lines = ran.stdout.splitlines()
    want(ran.returncode == 0 and lines[0] == "kact journal 1" and lines[-1] == "end", f"{ran}")
    want(not any(" arrive " in line for line in lines), f"{ran}")


def speaks_among(silent):
    """One slot, and one client that speaks among so many silent ones: it is served soon, and nobody else comes to the slot."""
    with serving() as (server, pod):
        quiet = clients(server, silent)
        begun = time.monotonic()
        want(is_served(client(server)) and time.monotonic() - begun < 10, "not served soon")
        for one in quiet:
            one.close()
        finished(server, pod, 1)


def crowd(in_turn, at_once):
    """Four slots, to which so many come one after another, and then so many at once."""
    with serving(4) as (server, pod):
        want(all(is_served(client(server)) for _ in range(in_turn)), "one in turn is not served")
        want(are_served([ask(one) for one in clients(server, at_once)]), "one of many at once is not served")
        finished(server, pod, in_turn + at_once)


def come_and_go(count):
    """So many who say nothing and go come to no slot, and are no fault; the next is served."""
    with serving() as (server, pod):
        for _ in range(count):
            client(server).close()
        want(is_served(client(server)), "not served")
        finished(server, pod, 1)


def begin_late(count):
    """Clients that were silent are served while slots wait for others: one by one, and all at once; twice."""
    with serving(4, page=True) as (server, pod):
        for _ in range(2):
            one_by_one, at_once = clients(server, count), clients(server, count)
            wait_until(lambda: waiting(server) == 2 * count, 20, "not all of them wait in front")
            want(all(is_served(one) for one in one_by_one), "one that begins late is not served")
            want(are_served([ask(one) for one in at_once]), "one of those that begin at once is not served")
        finished(server, pod, 4 * count)


def silent():
    """Two are silent, one after the other: each is closed without a byte after about a second, comes to no slot and is no fault."""
    with serving(idle=1) as (server, pod):
        for _ in range(2):
            begun = time.monotonic()
            want(rest(client(server)) == b"", "a silent one is answered")
            want(0.95 <= time.monotonic() - begun < 20, f"closed after {time.monotonic() - begun:.2f} s")
        finished(server, pod, 0)


def drip(one):
    """Sends a byte each 50 ms, for five seconds or until it is closed."""
    with contextlib.suppress(OSError):
        for byte in b"GET / HTTP/1.1\r\nHost: " + b"a" * 80:
            one.sendall(bytes([byte]))
            time.sleep(0.05)


def slow():
    """One drips, one stops in the midst: each is told after about two seconds that it is late, a fault each; one sends two parts in time."""
    with serving(read=2) as (server, pod):
        for way in (drip, lambda one: one.sendall(b"GET / HT")):
            begun, one = time.monotonic(), client(server)
            hand = threading.Thread(target=way, args=(one,))
            hand.start()
            came = b""
            with contextlib.suppress(ConnectionResetError):
                while piece := one.recv(4096):
                    came += piece
            want(came == LATE, f"a slow one is answered {came}")
            want(1.95 <= time.monotonic() - begun < 20, f"answered after {time.monotonic() - begun:.2f} s")
            one.close()
            hand.join()
        one = client(server)
        one.sendall(GET[:10])
        time.sleep(0.3)
        one.sendall(GET[10:])
        want(whole(rest(one)) == HELLO, "one in time is not served")
        finished(server, pod, 1, faults=2)


def full_front(room):
    """Where few may wait, by the limit of descriptors, but one at least: one that asks is served beside as many silent ones, one more that is silent is
    closed, and one of those that were silent before is served then."""

    def limit():
        resource.setrlimit(resource.RLIMIT_NOFILE, (NEEDED + room, NEEDED + room))

    with serving(before=limit, page=True) as (server, pod):
        quiet = clients(server, max(room, 1))
        wait_until(lambda: waiting(server) == len(quiet), 20, f"{waiting(server)} wait in front")
        want(any(is_served_or_closed(client(server)) for _ in range(50)), "nobody is served beside them")
        begun = time.monotonic()
        want(rest(client(server)) == b"" and time.monotonic() - begun < 20, "one more that is silent is not closed")
        want(is_served(quiet.pop()), "one that was silent is not served")
        for one in quiet:
            one.close()
        finished(server, pod, 2)


def is_served_or_closed(one):
    """Whether it is served. One that takes its time before it asks is closed."""
    try:
        return is_served(one)
    except OSError:
        return False


def leaving():
    """While a request is held: a client that closes and one that sends no more are cancelled, one that sends more stays and is served."""
    with holding(4, setup=fixed(1, limit=1)) as (server, pod):
        first = ask(client(server))
        wait_until(lambda: gauges(server)["running"] == 1, 20, "the first does not run")
        closes, halves, stays = (ask(one) for one in clients(server, 3))
        wait_until(lambda: gauges(server)["held"] == 3, 20, "three are not held")
        time.sleep(0.4)
        want(gauges(server)["held"] == 3, "one is gone before it left")
        closes.close()
        halves.shutdown(socket.SHUT_WR)
        stays.sendall(GET)
        wait_until(lambda: gauges(server)["held"] == 1, 20, "who left is still held")
        want(whole(rest(halves)) == CANCELLED, "who sends no more is answered otherwise")
        pod.opens.set()
        want(are_served([first, stays]), "who sends more is not served, or the first")
        settle(server, collections.Counter({HELLO: 2, CANCELLED: 1}), gone=1)
        # (a client that has closed may be answered before that is known)
        want(told(server) in ([], [CLIENT]) and pod.count() == 2, f"{pod.count()} came to the pod, told {told(server)}")


def busy(count):
    """The page says how many slots have a connection: none; so many, of which one request runs; and none again."""
    with holding(count, setup=fixed(1, limit=1)) as (server, pod):
        want(at_work(server) == 0, "a slot is at work before anybody comes")
        came = [ask(one) for one in clients(server, count)]
        wait_until(lambda: at_work(server) == count, 20, "not all have a slot")
        pod.opens.set()
        want(are_served(came), "not all are served")
        wait_until(lambda: at_work(server) == 0, 20, "a slot is at work when all are gone")
        finished(server, pod, count)


def ask_late(server, late):
    """Ends the input, and then these ask. Whether they asked soon enough to be served for sure."""
    begun = time.monotonic()
    server.stop()
    for one in late:
        ask(one)
    return time.monotonic() - begun < SOON


def stopped():
    """Ten asked and ten are silent when the input ends, while both slots are at work; five ask just behind it. Who asked is served, the silent ones are
    closed without a byte, nobody else comes in. (On a busy machine the five may be late: then once more.)"""
    want(any(stop_at_work() for _ in range(5)), "never soon enough")


def stop_at_work():
    with holding(2) as (server, pod):
        first = [ask(one) for one in clients(server, 2)]
        wait_until(lambda: at_work(server) == 2, 20, "the slots are not at work")
        asking, quiet, late = (clients(server, count) for count in (10, 10, 5))
        for one in asking:
            ask(one)
        wait_until(lambda: waiting(server) == 25, 20, f"{waiting(server)} wait in front")
        soon = ask_late(server, late)
        wait_until(lambda: page(server, "/ready")[0] == 503, 20, "ready while it stops")
        wait_until(lambda: not listens(server.port), 20, "somebody listens still")
        want(all(rest(one) == b"" for one in quiet), "a silent one is answered")
        pod.opens.set()
        want(are_served(first + asking), "one that asked is not served")
        if soon:
            want(are_served(late), "one that asked late is not served")
            finished(server, pod, 17)
        return soon


def stopped_beside_slots():
    """Four silent ones in front and slots that wait, when the input ends: two of them ask just behind it and are served, the others are closed."""
    want(any(stop_beside_slots() for _ in range(5)), "never soon enough")


def stop_beside_slots():
    with serving(4, page=True) as (server, pod):
        late, quiet = clients(server, 2), clients(server, 2)
        wait_until(lambda: waiting(server) == 4, 20, "they do not wait in front")
        soon = ask_late(server, late)
        want(all(rest(one) == b"" for one in quiet), "a silent one is answered")
        if soon:
            want(are_served(late), "one that asked is not served")
            finished(server, pod, 2)
        return soon


CASES = {
    "two_servers": two_servers,
    "times": times,
    "input_goes_on": input_goes_on,
    "input_is_a_file": input_is_a_file,
    "speaks_among": lambda: speaks_among(300),
    "crowd": lambda: crowd(200, 50),
    "come_and_go": lambda: come_and_go(100),
    "begin_late": lambda: begin_late(15),
    "silent": silent,
    "slow": slow,
    "full_front": lambda: full_front(3),
    "least_front": lambda: full_front(0),
    "leaving": leaving,
    "busy": lambda: busy(12),
    "stopped": stopped,
    "stopped_beside_slots": stopped_beside_slots,
}

if __name__ == "__main__":
    sys.exit(run(CASES, sys.argv[1:]))
