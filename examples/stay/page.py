#!/usr/bin/env -S python3 -B
"""The status page of `kactd stay`, from outside: `./page.py [NAME..]`.

What requests are answered, by the lines of page.txt; the text of the metrics beside what the first events of the
journal make of it, byte for byte; and clients that fail."""

import resource
import select
import socket
import sys
import time
from concurrent.futures import ThreadPoolExecutor as Crew

import exposition
import prometheus
from front import LATE as TOO_LATE
from server import Stay, beginning
from session import fixed, free_port, run, scaled, wait_until, want
from status import gauges, metrics, page, rows
from tables import bytes_of, pairs
from raw_pod import OK, Gate, RawPod
from wire import bring, client, request, rest

SHORT = 200  # bytes of a request that is sent byte by byte too

REPLIES = {
    "ok": "200 OK",
    "ready": "200 OK",
    "metrics": "200 OK",
    "stopping": "503 Service Unavailable",
    "not found": "404 Not Found",
    "method not allowed": "405 Method Not Allowed",
    "bad request": "400 Bad Request",
}


# ---- what is asked, and what is answered


def get(path):
    return f"GET {path} HTTP/1.1\r\nHost: a\r\n\r\n".encode()


def head_of(reply, length):
    """The head of an answer whose text has so many bytes."""
    kind = "version=0.0.4; charset=utf-8" if reply == "metrics" else "charset=utf-8"
    allow = "Allow: GET, HEAD\r\n" if reply == "method not allowed" else ""
    fields = f"Content-Type: text/plain; {kind}\r\nContent-Length: {length}\r\n{allow}Connection: close\r\n\r\n"
    return f"HTTP/1.1 {REPLIES[reply]}\r\n{fields}".encode()


HEALTHY = head_of("ok", 3) + b"ok\n"


def caller(server):
    return socket.create_connection(("127.0.0.1", server.page), timeout=30)


def asked(server, text, ends=False, bytewise=False):
    """What the page answers to these bytes, which come at once or one by one, and then no more where the client
    `ends`."""
    one = caller(server)
    if bytewise:
        send_bytewise(one, text)
    else:
        one.sendall(text)
    if ends:
        one.shutdown(socket.SHUT_WR)
    return rest(one)


def send_bytewise(one, text):
    """Sends byte by byte until all are sent or it is answered."""
    one.setsockopt(socket.IPPROTO_TCP, socket.TCP_NODELAY, 1)
    for at in range(len(text)):
        one.sendall(text[at : at + 1])
        if select.select([one], [], [], 0.001)[0]:
            return


def is_there(server):
    return asked(server, get("/healthz")) == HEALTHY


def answers_as(server, text, reply, **way):
    """It answers so, byte for byte. (What the metrics show is held against the journal elsewhere.)"""
    reply, _, head_alone = reply.partition(", ")
    came = asked(server, text, **way)
    if reply == "metrics" and head_alone:
        lengths = {len(shown(server)) for _ in range(2)}
        want(came in [head_of(reply, length) for length in lengths], f"{text}: answered {came}")
    elif reply == "metrics":
        read(came)
    else:
        said = f"{reply}\n".encode()
        want(came == head_of(reply, len(said)) + (b"" if head_alone else said), f"{text[:200]}: answered {came}")


def answers(server, stopping):
    """The lines of page.txt that are of a server that stops, or of one that doesn't."""
    for given, reply in pairs("page.txt"):
        asks, stops, _ = given.partition("|STOPPING")
        if bool(stops) != stopping:
            continue
        asks, ends, _ = asks.partition("|END")
        text = bytes_of(asks)
        answers_as(server, text, reply, ends=bool(ends))
        if len(text) < SHORT:
            answers_as(server, text, reply, ends=bool(ends), bytewise=True)


def requests():
    """The lines of page.txt, at a server that serves and, while a request runs, at one that stops; and a client that
    says nothing."""
    with Gate() as pod, Stay(fixed(1), [pod.port], page=True) as server:
        runs = client(server)
        runs.sendall(request())
        wait_until(lambda: gauges(server)["running"] == 1, 10, "it does not run")
        answers(server, stopping=False)
        want(asked(server, b"", ends=True) == b"" and is_there(server), "one who says nothing is answered")
        server.stop()
        wait_until(lambda: page(server, "/ready")[0] == 503, 10, "it is ready while it stops")
        answers(server, stopping=True)
        pod.opens.set()
        want(rest(runs) == OK and server.end() == 0, "the request is not served to its end")


# ---- what the metrics show


def read(came):
    """The text of an answer with metrics, which are in the format."""
    head, mark, text = came.partition(b"\r\n\r\n")
    want(head + mark == head_of("metrics", len(text)), f"its head is {head}")
    prometheus.read(text.decode())
    return text.decode()


def shown(server):
    return read(asked(server, get("/metrics")))


def agree(server, pages, initial=None):
    """Each page is that of the first events of the journal, as many as it says are recorded."""
    opening = len(beginning(server.journal, 0))
    for text in pages:
        families = prometheus.read(text)
        beside = {name: int(family.values[()]) for name, family in families.items() if () in family.values}
        events = beside["kactd_rows_recorded_total"]
        wanted = exposition.text(beginning(server.journal, events), opening, beside, initial)
        want(text == wanted, f"behind {events} events it shows\n{text}and not\n{wanted}")
        want(beside["kactd_rows_unprinted"] <= events, "more are not printed than are recorded")


def ended(server, pages, initial=None, faults=0):
    """Ends the server, of whose journal the pages are. It told so many faults of its pod, and none of the page's
    clients."""
    server.stop()
    want(server.end() == 0, f"it told {server.told()}")
    agree(server, pages, initial)
    want(server.told().splitlines()[2:] == ["kactd: a pod failed"] * faults, f"it told {server.told()}")


def pods(server, state):
    return metrics(server)["kactd_pods"].values[(("state", state),)]


def number(server, family):
    return metrics(server)[family].values[()]


def kinds(text):
    """The kinds of rows that a page counts."""
    counts = prometheus.read(text)["kactd_rows_total"].values
    return {dict(labels)["kind"] for labels, count in counts.items() if count}


def nothing():
    """Nobody came, and no pod is there: no row is counted, and of a revision that doesn't scale no pods are wanted."""
    with Stay(fixed(1), [free_port()], page=True) as server:
        text = shown(server)
        want(kinds(text) == set() and "kactd_pods_wanted" not in text, f"it shows {text}")
        want(pods(server, "starting") == 1, "no pod starts")
        ended(server, [text, shown(server)])


def served_or_not(server, pod):
    """Pages while two were served and one failed, one runs, one is held and leaves, one is held until it is late, and
    one found no place."""
    yield shown(server)
    want(bring(server, request()) == bring(server, request()) == OK, "two are not served")
    pod.reply = b""
    want(b" 502 " in bring(server, request()), "none fails")
    pod.opens.clear()
    pod.reply = OK
    runs, leaves, waits = (client(server) for _ in range(3))
    for one, state, count in ((runs, "running", 1), (leaves, "held", 1), (waits, "held", 2)):
        one.sendall(request())
        wait_until(lambda: gauges(server)[state] == count, 10, f"none is {state}")
        yield shown(server)
    want(b" 503 " in bring(server, request()), "one more finds a place")
    yield shown(server)
    leaves.close()
    wait_until(lambda: rows(server, "cancel") == 1, 10, "one that left is still held")
    yield shown(server)
    want(b"timed out" in rest(waits), "one that waits is not late")
    want(gauges(server) == {"held": 0, "queued": 0, "running": 1}, "one that was late is held")
    yield shown(server)
    pod.opens.set()
    want(rest(runs) == OK, "one that runs is not served")
    yield shown(server)


def counted():
    """Who is served, fails, runs, is held, leaves, is late or finds no place is counted as that, and shown where it
    is."""
    with Gate() as pod, Stay(fixed(1, limit=1, depth=2, most=1, timeout=5), [pod.port], page=True) as server:
        pod.opens.set()
        pages = list(served_or_not(server, pod))
        missing = {"admit", "assign", "finish", "queue-full", "cancel", "ready"} - kinds(pages[-1])
        want(not missing, f"it does not count {missing}")
        want(rows(server, "finish") == 4 and rows(server, "queue-full") == 1, "others are counted")
        ended(server, pages, faults=1)


def ask(server, count):
    clients = [client(server) for _ in range(count)]
    for one in clients:
        one.sendall(request())
    return clients


def are_served(clients, gates):
    """The gates open, and all are answered."""
    for gate in gates:
        gate.opens.set()
    want(all(rest(one) == OK for one in clients), "not all are served")


def scales(server, gates):
    """Pages of two pods of which one drains with its request; then of one to which requests go straight, and one waits
    there."""
    wait_until(lambda: pods(server, "ready") == 2, 10, "two pods are not ready")
    yield shown(server)
    clients = ask(server, 2)
    wait_until(lambda: gauges(server)["running"] == 2, 10, "not both run")
    yield shown(server)
    wait_until(lambda: pods(server, "draining") == 1, 20, "no pod drains")
    want(number(server, "kactd_pods_wanted") == number(server, "kactd_decision_want") == 1, "other pods are wanted")
    yield shown(server)
    are_served(clients, gates)
    wait_until(lambda: rows(server, "mode") == 1, 20, "it goes on through the activator")
    for gate in gates:
        gate.opens.clear()
    clients = ask(server, 5)
    wait_until(lambda: gauges(server) == {"held": 0, "queued": 1, "running": 4}, 10, "none waits at its pod")
    yield shown(server)
    are_served(clients, gates)
    decided = rows(server, "decision")
    wait_until(lambda: rows(server, "decision") > decided, 20, "it decides no more")
    yield shown(server)


def scaling():
    """A revision that scales: pods that are ready, drain and are gone, pods wanted by the setup and then by a decision,
    the averages of that, and requests that went straight to a pod."""
    config = {"target-burst-capacity": "0", "min-scale": "1", "initial-scale": "2"}
    setup = "kact journal 1\n" + scaled(seats=4, most=100, config=config)
    with Gate() as one, Gate() as two, Stay(setup, [one.port, two.port], page=True) as server:
        pages = list(scales(server, (one, two)))
        missing = {"direct", "run", "drain", "remove", "decision", "phase", "mode"} - kinds(pages[-1])
        want(not missing, f"it does not count {missing}")
        ended(server, pages, initial=2)


# ---- moments


def printed(server):
    """How many events are in the file of the journal."""
    _, mark, events = server.journal.read_text().partition("\nstart ")
    return len(events.splitlines()) - 1 if mark else 0


def recorded(text):
    return prometheus.read(text)["kactd_rows_recorded_total"].values[()]


def met_until(server, end):
    """What clients are answered, one after another, until a time."""
    return {bring(server, request()) for _ in iter(lambda: time.monotonic() < end, False)}


def pages_until(server, end):
    """Pages until a time. What was printed before one is in it."""
    while time.monotonic() < end:
        before = printed(server)
        text = shown(server)
        want(recorded(text) >= before, f"{before} events were printed, and it shows {recorded(text)}")
        yield text
        time.sleep(0.05)


def moments():
    """Under load each page is one moment of the one journal, and not earlier than the page before. In the end all is
    printed."""
    with RawPod() as pod, Stay(fixed(1, limit=2), [pod.port], slots=8, page=True) as server, Crew(4) as crew:
        end = time.monotonic() + 1
        clients = [crew.submit(met_until, server, end) for _ in range(4)]
        pages = list(pages_until(server, end))
        want(all(one.result() == {OK} for one in clients), "not all are served")
        wait_until(lambda: number(server, "kactd_rows_unprinted") == 0, 10, "some are never handed to the printer")
        pages.append(shown(server))
        events = [recorded(text) for text in pages]
        want(events == sorted(events) and events[-1] > events[0], f"it shows {events} events")
        ended(server, pages)


# ---- clients that fail


def resets(one):
    """Closes so that the connection is broken."""
    one.setsockopt(socket.SOL_SOCKET, socket.SO_LINGER, b"\1\0\0\0\0\0\0\0")
    one.close()


def gone():
    """Behind clients that break their connections, before their heads end or behind them, the next one is answered, and
    nothing is told."""
    with Stay(fixed(1), [free_port()], page=True) as server:
        for text in (b"GET /heal", get("/healthz"), get("/metrics"), b"x" * 8192, b"") * 3:
            one = caller(server)
            one.sendall(text)
            resets(one)
            want(is_there(server), f"behind {text[:20]} the next is not answered")
        ended(server, [shown(server)])


def no_descriptors():
    """While the system gives no further descriptor nobody is taken in, but one for whom there is one already. All who
    wait are answered once it does."""
    with RawPod() as pod, Stay(fixed(1), [pod.port], page=True) as server:
        wait_until(lambda: rows(server, "ready") == 1, 10, "the pod is not ready")
        limits = resource.prlimit(server.process.pid, resource.RLIMIT_NOFILE)
        resource.prlimit(server.process.pid, resource.RLIMIT_NOFILE, (3, limits[1]))
        wait = [caller(server) for _ in range(3)]
        for one in wait:
            one.sendall(get("/healthz"))
        time.sleep(0.5)
        want(len(select.select(wait, [], [], 0)[0]) < 2, "more are answered or closed")
        resource.prlimit(server.process.pid, resource.RLIMIT_NOFILE, limits)
        want(all(rest(one) == HEALTHY for one in wait) and is_there(server), "not all are answered then")
        ended(server, [shown(server)])


def late():
    """Ten seconds are the page's: who says nothing is closed then without a byte, who doesn't end is told so once, and
    who asked meanwhile is answered."""
    with Stay(fixed(1), [free_port()], page=True) as server:
        begun = time.monotonic()
        silent, slow, asks = (caller(server) for _ in range(3))
        slow.sendall(b"GET /healthz HTTP/1.1\r\n")
        time.sleep(0.5)
        asks.sendall(get("/healthz"))
        want(rest(slow) == TOO_LATE and time.monotonic() - begun > 9.9, "who does not end is answered otherwise")
        want(rest(silent) == b"" and time.monotonic() - begun > 9.9, "who says nothing is answered")
        want(rest(asks) == HEALTHY and time.monotonic() - begun < 25, "who asked meanwhile is not answered")
        ended(server, [shown(server)])


CASES = (late, counted, scaling, requests, nothing, moments, gone, no_descriptors)

if __name__ == "__main__":
    # (two at a time, since most of them wait)
    with Crew(2) as two:
        sys.exit(any(list(two.map(lambda it: run({it.__name__: it}, sys.argv[1:]), CASES))))
