#!/usr/bin/env -S python3 -B
"""What the words of `kactd stay` do, from outside: `./words.py [NAME..]`.

At which address of --pods each pod is probed and called, and setups that name more pods than there are; how long --idle
and --read wait; how many rows --room holds; where --status has the page; and what is done while nothing happens. The
cases run beside each other."""

import collections
import pathlib
import re
import socket
import subprocess
import sys
import threading
import time
from concurrent.futures import ThreadPoolExecutor as Crew

from front import HELLO_BYTES, LATE, client, drip, finished, rest, serving
from heads import made
from held import once
from load import bring, bring_all, counted
from outputs import FULL, Reader
from page import HEALTHY, get, head_of, pods
from raw_pod import RawPod
from server import Stay, settle
from session import PATIENCE, Scripted, begin, fixed, head, program, run, say, scaled, sockets, wait_until, want, whole
from status import gauges, metrics, page, rows
from wire import request

FIRST = "kact journal 1\n"
GET = head(method="GET")
HELLO = (200, "hello")


# ---- --pods


class Numbered(Scripted):
    """A pod that answers each request, whose path is its number, once that one may go on."""

    def __init__(self, goes, listens=True):
        super().__init__(lambda asked: once(goes[number_of(asked)])(asked), listens)

    @property
    def numbers(self):
        return [number_of(asked) for asked in self.requests]


def number_of(asked):
    return int(asked.split()[1][1:])


def come(server, number):
    """A client whose request has this number. In the journal it has it too, since those before it are there."""
    one = begin(server.port, head(method="GET", path=f"/{number}"))
    wait_until(lambda: rows(server, "admit") == number + 1, PATIENCE, f"request {number} is not taken in")
    return one


def served(server, clients, goes):
    """All may go on, and are served. The report's rows, without their times."""
    for one in goes:
        one.set()
    came = collections.Counter(whole(rest(one)) for one in clients)
    want(came == {HELLO: len(clients)}, f"answered {came}")
    return [row.partition(" ")[2] for row in settle(server, came)]


def addresses(report, count):
    """Which address each pod has had, by the rows: the least that no live pod has, from when it is created or, where
    there is none, from when one is free. Those that were created before come first."""
    live, had = {}, {}
    for row in report:
        kind, pod, *_ = [*row.split(), None]
        if kind == "create":
            live[pod] = None
        if kind in ("remove", "lost-pod"):
            del live[pod]
        for one in (it for it, address in live.items() if address is None):
            free = sorted(set(range(count)) - set(live.values()))
            if free:
                live[one] = had[one] = free[0]
    return had


def at_their_addresses(report, places):
    """Each request came to the address that its pod had, by the rows."""
    had = addresses(report, len(places))
    meant = {int(row.split()[1]): had[row.split()[2]] for row in report if row.startswith("assign ")}
    met = {number: at for at, place in enumerate(places) for number in place.numbers}
    want(met == meant, f"by request, they came to the addresses {met}, and by the rows to {meant}")


def handed_on():
    """Two addresses. The second pod drains, with its request, when a third is created, which waits for an address: it
    is Ready only once the second is gone, and is called where that was. Of the three live pods no two have one
    address."""
    # (two requests at once are one pod's, more are two pods'; the decisions are two seconds apart)
    scales = {"initial_scale": 2, "min_scale": 1, "max_scale": 2, "window": "6s"}
    targets = {"target_utilization_percentage": 100, "panic_threshold_percentage": 1000}
    setup = FIRST + scaled(seats=2, most=100, **scales, **targets)
    goes = [threading.Event() for _ in range(11)]
    one, two = Numbered(goes), Numbered(goes, listens=False)
    with one, two, Stay(setup, [one.port, two.port], page=True) as server:
        # the third request waits for the second pod
        clients = [come(server, number) for number in range(3)]
        two.listen()
        wait_until(lambda: two.numbers == [2], PATIENCE, "the second pod is not called")
        goes[0].set()
        goes[1].set()
        wait_until(lambda: pods(server, "draining") == 1, PATIENCE, "no pod drains")
        clients += [come(server, number) for number in range(3, 11)]
        wait_until(lambda: rows(server, "create") == 1, PATIENCE, "no third pod is created")
        # (up to two seconds go by until then, in which a pod at the address of another would be found Ready)
        decided = rows(server, "decision")
        wait_until(lambda: rows(server, "decision") > decided, PATIENCE, "nothing is decided")
        want(pods(server, "starting") == pods(server, "draining") == 1, "a pod without an address is Ready")
        goes[2].set()
        wait_until(lambda: gauges(server)["running"] == 4, PATIENCE, "the third pod does not take its two")
        report = served(server, clients, goes)
    want(report.index("create 2 2") < report.index("remove 1") < report.index("ready 2"), f"{report}")
    at_their_addresses(report, (one, two))


def each_its_own():
    """Three pods at three addresses, at which somebody listens from the second, then from the third, then from the
    first on: that pod is Ready then and no other, and the request that waits comes to it."""
    goes = [threading.Event() for _ in range(3)]
    setup, places = fixed(3, limit=1, timeout=300), [Numbered(goes, listens=False) for _ in range(3)]
    one, two, three = places
    with one, two, three, Stay(setup, [it.port for it in places], page=True) as server:
        clients = [come(server, number) for number in range(3)]
        for count, place in enumerate((two, three, one), 1):
            place.listen()
            wait_until(lambda: gauges(server)["running"] == count, 20, f"not {count} run")
        report = served(server, clients, goes)
    found = [row for row in report if row.startswith(("ready ", "assign "))]
    wanted = ["ready 1", "assign 0 1", "ready 2", "assign 1 2", "ready 0", "assign 2 0"]
    want(found == wanted, f"{found}")
    at_their_addresses(report, places)


def run_with(setup, count):
    """With so many addresses, and an input that ends behind the setup: the exit status, what is written, and what is
    told but where it listens."""
    given = ",".join(["127.0.0.1:1"] * count)
    words = [program("kactd"), "stay", "--listen", "127.0.0.1:0", "--pods", given]
    ran = subprocess.run(words, input=setup, capture_output=True, text=True, timeout=PATIENCE)
    return ran.returncode, ran.stdout, re.sub(r"^kactd: listening on 127\.0\.0\.1:\d+\n", "", ran.stderr)


def too_many():
    """Setups that name so many pods, at first or at most: with an address fewer status 2, both numbers are told and
    nothing is written; with as many it serves."""
    for setup, named in (
        (fixed(2), 2),
        (fixed(11), 11),
        (FIRST + scaled(initial_scale=3), 3),
        (FIRST + scaled(initial_scale=2, min_scale=4), 4),
        (FIRST + scaled(initial_scale=5, max_scale=3), 5),
        (FIRST + scaled(max_scale=12), 12),
        (FIRST + scaled(config={"max-scale": "6"}), 6),
        (FIRST + scaled(config={"max-scale": "6"}, max_scale=2), 2),
        (FIRST + scaled(config={"initial-scale": "7", "min-scale": "2"}), 7),
    ):
        told = f"kactd: the setup names {named} pods, but --pods has {named - 1} addresses\n"
        refused, taken = run_with(setup, named - 1), run_with(setup, named)
        want(refused == (2, "", told), f"{named} pods, and an address fewer: {refused}, not {told!r}")
        want(taken[::2] == (0, "") and taken[1].endswith("\nend\n"), f"{named} pods and addresses: {taken}")


# ---- --idle and --read


def met(server, way):
    """What a client gets that does this, and after how many seconds."""
    begun, one = time.monotonic(), client(server)
    hand = threading.Thread(target=way, args=(one,))
    hand.start()
    came = b""
    try:
        while piece := one.recv(4096):
            came += piece
    except ConnectionResetError:
        pass  # it sent more behind the answer
    took = time.monotonic() - begun
    hand.join()
    one.close()
    return came, took


def is_closed_soon(server):
    """Whether a silent client is closed in less than 2.5 seconds. Never before one has gone by, nor with an answer."""
    came, took = met(server, lambda one: None)
    want(came == b"" and took >= 0.95, f"a silent one got {came} after {took:.2f} s")
    return took < 2.5


def patience():
    """With --idle 1 and --read 3 who says nothing is closed after about a second; who drips, and who stops in the
    midst, is told after about three that it is late."""
    with serving(4, RawPod(HELLO_BYTES), idle=1, read=3) as (server, pod), Crew(2) as crew:
        late = [crew.submit(met, server, way) for way in (drip, lambda one: one.sendall(b"GET / HT"))]
        # (a busy machine may be late itself: once in three times it is not)
        want(any(is_closed_soon(server) for _ in range(3)), "silent ones are closed late")
        for came, took in (one.result() for one in late):
            want(came == LATE and 2.95 <= took < 10, f"a slow one got {came} after {took:.2f} s")
        finished(server, pod, 0, faults=2)


# ---- --room


def unprinted(server):
    return metrics(server)["kactd_rows_unprinted"].values[()]


def still(room, pod, reader):
    """A server with so much room, of which nobody reads what it prints."""
    server = Stay(fixed(1), [pod.port], out=reader.theirs, room=room, page=True)
    reader.start(server, reads=False)
    return server


def full(room):
    """There is room for just so many rows that are not printed. Then each request is answered 507, and comes to no pod,
    and the page goes on; there is room again once somebody reads, and in the journal are those who were served."""
    reader = Reader(size=4096)
    with Scripted() as pod, still(room, pod, reader) as server:
        came, known = [], 0
        # (an arrival asks for room for two, a tick for one. On a busy machine the printer may take rows out behind the
        # first 507)
        while known < room - 1 and len(came) < 2 * room:
            came += bring_all(server.port, [GET] * 50, at_once=8)
            known = unprinted(server)
        want(known in (room - 1, room), f"{known} rows wait after {counted(came)}")
        refused = [bring(server.port, GET) for _ in range(5)]
        want(counted(refused) == {FULL: 5}, f"answered {counted(refused)}")
        came += refused
        served = counted(came)[HELLO]
        want(counted(came) == {HELLO: served, FULL: len(came) - served}, f"answered {counted(came)}")
        want(page(server, "/ready")[0] == page(server, "/healthz")[0] == 200, "the page says that it is not ready")
        want(len(pod.requests) == served, f"{len(pod.requests)} came to the pod, and {served} were served")
        reader.may_read.set()
        again = lambda: came.append(bring(server.port, GET)) or came[-1][3:] == HELLO  # noqa: E731
        wait_until(again, PATIENCE, "there is no room again")
        reader.settle(server, came)


def room_for_more():
    """With --room 100000 nobody is refused while more rows wait than the others have room for."""
    reader = Reader(size=4096)
    with Scripted() as pod, still(100000, pod, reader) as server:
        came = []
        while (known := unprinted(server)) <= 1200 and len(came) < 3000:
            came += bring_all(server.port, [GET] * 50, at_once=8)
            want(counted(came) == {HELLO: len(came)}, f"{known} rows wait, and then are answered {counted(came)}")
        want(known > 1200, f"{known} rows wait after {len(came)} requests")
        reader.may_read.set()
        reader.settle(server, came)


# ---- --status


def spelled(address):
    """An address of /proc/net/tcp as HOST:PORT. (One of /proc/net/tcp6 keeps its host as it is.)"""
    host, port = address.split(":")
    return f"{socket.inet_ntoa(bytes.fromhex(host)[::-1]) if len(host) == 8 else host}:{int(port, 16)}"


def listens_at(server):
    """The addresses at which its process listens, as the system has them."""
    own = sockets(server.process.pid)
    tables = [it for it in map(pathlib.Path, ("/proc/net/tcp", "/proc/net/tcp6")) if it.exists()]
    found = [row.split() for table in tables for row in table.read_text().splitlines()[1:]]
    return sorted(spelled(row[1]) for row in found if row[3] == "0A" and row[9] in own)


def asked(address, text):
    host, port = address.rsplit(":", 1)
    one = socket.create_connection((host, int(port)), timeout=PATIENCE)
    one.sendall(text)
    return rest(one)


def page_place():
    """Without --status it listens at one address. With it at two, each where the words say: the page answers at its own
    alone, and no pod is called there."""
    healthz = request(b"GET /healthz HTTP/1.1")
    with Scripted() as pod, Stay(fixed(1), [pod.port]) as server:
        clients = f"127.0.0.1:{server.port}"
        want(whole(asked(clients, healthz)) == HELLO and len(pod.requests) == 1, "it does not come to the pod")
        want(listens_at(server) == [clients], f"it listens at {listens_at(server)}")
        want(server.told() == f"kactd: listening on {clients}\n", server.told())
        settle(server, collections.Counter({HELLO: 1}))
    with Scripted() as pod, Stay(fixed(1), [pod.port], listen="127.0.0.2:0", status="127.0.0.3:0") as server:
        clients, shown = f"127.0.0.2:{server.port}", f"127.0.0.3:{server.await_address('status')}"
        want(asked(shown, get("/healthz")) == HEALTHY, "the page is not there")
        missing = head_of("not found", 10) + b"not found\n"
        want(asked(shown, request()) == missing and pod.requests == [], "a pod is behind the page's address")
        want(asked(clients, get("/healthz")) == made("bad request"), "the page is behind the clients' address")
        want(whole(asked(clients, healthz)) == HELLO and len(pod.requests) == 1, "it does not come to the pod")
        want(listens_at(server) == [clients, shown], f"it listens at {listens_at(server)}")
        want(server.told() == f"kactd: listening on {clients}\nkactd: status on {shown}\n", server.told())
        settle(server, collections.Counter({HELLO: 1}))


# ---- while nothing happens


def quiet():
    """While nobody comes, for two of its ticks, all threads together take less than a fiftieth of a processor."""
    with RawPod() as pod, Stay(fixed(1), [pod.port], page=True) as server:

        def ticked(count):
            there = lambda: server.journal.read_text().count(" tick\n") >= count  # noqa: E731
            wait_until(there, PATIENCE, f"it has not ticked {count} times")
            return time.monotonic(), server.spent()

        (begun, before), (ended, after) = ticked(1), ticked(3)
        part = (after - before) / (ended - begun)
        want(part < 0.02, f"{part:.1%} of a processor while nothing happens")
        say(f"{part:.1%} of a processor while nothing happens")


def seconds_until(holds, text):
    begun = time.monotonic()
    wait_until(holds, PATIENCE, text)
    return time.monotonic() - begun


def soon():
    """A row is printed soon behind its event, and the page answers at once: once in four times within half a second (a
    busy machine may be late itself), and never after five."""
    with Scripted() as pod, Stay(fixed(1), [pod.port], page=True) as server:
        took = []
        for count in range(1, 6):
            want(bring(server.port, GET)[3:] == HELLO, "not served")
            there = lambda: server.journal.read_text().count(" finish ") == count  # noqa: E731
            row = seconds_until(there, "its row is not printed")
            took.append((row, seconds_until(lambda: page(server, "/healthz")[0] == 200, "there is no page")))
            want(count == 1 or max(took[-1]) < 5, f"printed and answered after {took} s")
        # (the first row may come just when the others are printed)
        want(all(min(ones) < 0.5 for ones in zip(*took[1:])), f"printed and answered after {took} s")
        settle(server, collections.Counter({HELLO: 5}))
        say(f"rows are printed after {', '.join(f'{row * 1000:.0f}' for row, _ in took)} ms")


CASES = {
    "handed_on": handed_on,
    "each_its_own": each_its_own,
    "too_many": too_many,
    "patience": patience,
    "full_1000": lambda: full(1000),
    "full_1200": lambda: full(1200),
    "room_for_more": room_for_more,
    "page_place": page_place,
    "quiet": quiet,
    "soon": soon,
}

if __name__ == "__main__":
    wanted = [it for it in CASES if it in sys.argv[1:] or not sys.argv[1:]]
    # (beside each other, since most of them wait; told one after the other, each with how long it was waited for)
    with Crew(len(CASES)) as crew:
        begun = {it: crew.submit(CASES[it]) for it in wanted}
        sys.exit(run({it: begun[it].result for it in wanted}, []))
