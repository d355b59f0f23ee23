"""Scenarios at the edges: words and setups that are refused, clients that say nothing, pods that fail, many that
wait."""

import collections
import re
import socket
import threading
import time

from held import once, stop
from load import Load, bring_all, counted
from server import Pod, Stay, settle
from session import PATIENCE, Scripted, begin, fixed, free_port, head, listens, refuses, rest, scaled
from session import wait_until, want, whole
from status import metrics

GET = head(method="GET")
PODS = ("--pods", "127.0.0.1:1")
LISTEN = ("--listen", "127.0.0.1:0")
USAGE, INPUT, SETUP, LISTENING = 2, 3, 4, 9


def refused():
    """Words, an address and setups that are refused, each with its status and text."""
    for told, words in {
        "--listen is missing": PODS,
        "--pods is missing": LISTEN,
        "--slots is 1 to 1024": (*LISTEN, *PODS, "--slots", "1025"),
        "--room is 1000 to 1000000": (*LISTEN, *PODS, "--room=999"),
        "--idle is 1 to 3600, in seconds": (*LISTEN, *PODS, "--idle", "0"),
        "--read is given twice": (*LISTEN, *PODS, "--read", "1", "--read", "1"),
        "--status is HOST:PORT": (*LISTEN, *PODS, "--status", "http://127.0.0.1:1"),
        "unknown word '--rounds'": (*LISTEN, *PODS, "--rounds", "1"),
    }.items():
        refuses(["stay", *words], "", USAGE, re.escape(f"kactd stay: {told}\n"), ends=False)
    with socket.create_server(("127.0.0.1", 0)) as taken:
        words = ["stay", "--listen", f"127.0.0.1:{taken.getsockname()[1]}", *PODS]
        refuses(words, fixed(1), LISTENING, "kactd: listen failed\n", ends=False)


FIRST = "kact journal 1\n"
ANYWHERE = r"(kactd: listening on 127\.0\.0\.1:\d+\n)?"


def refused_setups():
    """Setups that are refused, and setups with more pods than there are addresses: each with its status and text. With
    as many addresses it serves."""
    for setup, status, told in (
        ("", INPUT, "input ends without end"),
        ("kact journal 3\n", SETUP, "line 1: not a kact journal 1 or 2"),
        (FIRST + "kpa depth=100 max=10 seed=0\nconfig\n", INPUT, "input ends without end"),
        (fixed(501, depth=100, most=3), SETUP, "line 2: bad setup: out of range at 30"),
        (FIRST + "fixed limit=one\n", SETUP, "line 2: bad setup: bad field at 6"),
    ):
        refuses(["stay", *LISTEN, *PODS], setup, status, f"{ANYWHERE}kactd: {told}\n", ends=status == INPUT)
    for setup, pods in (
        (fixed(3), 3),
        (FIRST + scaled(initial_scale=2, max_scale=5), 5),
        (FIRST + scaled(initial_scale=2, min_scale=3), 3),
    ):
        fewer = ",".join(["127.0.0.1:1"] * (pods - 1))
        told = f"kactd: the setup names {pods} pods, but --pods has {pods - 1} addresses\n"
        refuses(["stay", *LISTEN, "--pods", fewer], setup, USAGE, ANYWHERE + re.escape(told), ends=False)
        with Stay(setup, [1] * pods) as server:
            want(settle(server, collections.Counter())[-1].startswith("end "), "the journal has no end")


def silent_and_slow():
    """With a second for each: who says nothing is closed, whose head doesn't end is answered 408, and no pod is
    called."""
    with Pod() as pod, Stay(fixed(1), [pod.port], idle=1, read=1) as server:
        begun = time.monotonic()
        silent, slow = (socket.create_connection(("127.0.0.1", server.port), timeout=10) for _ in range(2))
        slow.sendall(GET[:20])
        took = {}
        for name, client in {"slow": slow, "silent": silent}.items():
            with client:
                took[name] = (b"".join(iter(lambda: client.recv(4096), b"")), time.monotonic() - begun)
        want(whole(took["slow"][0])[0] == 408 and took["silent"][0] == b"", f"answered {took}")
        want(all(0.9 < seconds < 3 for _, seconds in took.values()), f"answered {took}")
        settle(server, collections.Counter())
        want(pod.count() == 0, "the pod was called")


def broken_pod(count):
    """A pod that breaks at each request: 502 each, a line of standard error for ten of them a second, and a count of
    the others."""
    with Scripted(lambda request: b"") as pod, Stay(fixed(1), [pod.port]) as server:
        begun = time.monotonic()
        met = bring_all(server.port, [GET] * count, at_once=4)
        want(counted(met) == {(502, "pod call failed"): count}, f"answered {counted(met)}")
        settle(server, counted(met))
        seconds, lines = time.monotonic() - begun, server.told().splitlines()[1:]
    alone = lines.count("kactd: a pod failed")
    more = [int(one[1]) for one in map(re.compile(r"kactd: (\d+) more faults?").fullmatch, lines) if one]
    want(len(more) + alone == len(lines), f"told {lines}")
    known = 0 < alone <= 10 * (seconds + 1) and alone + sum(more) == count
    want(known, f"{alone} faults were told and {more} more, of {count}")


def many_waiting(count):
    """More connections at once than slots, each with its request: all wait in front, and all are answered."""
    with Pod() as pod, Stay(fixed(1), [pod.port], slots=4) as server:
        came = collections.Counter(whole(rest(one)) for one in [begin(server.port, GET) for _ in range(count)])
        want(came == {(200, "hello"): count}, f"answered {came}")
        settle(server, came)
        want(not listens(server.port), "somebody listens still")


def front_shown():
    """The page shows how many wait in front and how many slots are at work, and that the server is not ready while it
    stops."""
    may = threading.Event()
    with Scripted(once(may)) as pod, Stay(fixed(1, timeout=300), [pod.port], slots=1, page=True) as server:

        def shown():
            gauges = metrics(server)
            return [gauges[name].values[()] for name in ("kactd_connections_waiting", "kactd_slots_at_work")]

        want(shown() == [0, 0], f"before anybody comes: {shown()}")
        ones = [begin(server.port, GET) for _ in range(3)]
        wait_until(lambda: shown() == [2, 1], PATIENCE, f"three clients and one slot: {shown()}")
        stop(server)
        want(shown() == [2, 1], f"while it stops: {shown()}")
        may.set()
        came = collections.Counter(whole(rest(one)) for one in ones)
        want(came == {(200, "hello"): 3}, f"answered {came}")
        settle(server, came)


def stopped_with_silent(count):
    """Silent connections don't hold a stop up: they are closed without a byte, and the server ends soon. It can be
    started at the same address then."""
    port = free_port()
    for _ in range(2):
        with Pod() as pod, Stay(fixed(1), [pod.port], listen=f"127.0.0.1:{port}") as server:
            clients = [socket.create_connection(("127.0.0.1", port), timeout=10) for _ in range(count)]
            met = Load(port, 4, count=5).met()
            at = server.stop()
            came = {client.recv(4096) for client in clients}
            settle(server, counted(met))
            want(came == {b""}, f"silent ones were answered {came}")
            want(time.time() - at < 5, f"the server ended after {time.time() - at:.1f} s")
            for client in clients:
                client.close()
