"""Scenarios of requests that are held: their clients leave, their time passes, or the server is told to stop
meanwhile."""

import collections
import threading
import time

from load import Load, counted
from server import CLOCKS, Stay, settle
from session import OK, PATIENCE, Scripted, begin, fixed, head, resets, rest, say, wait_until, want, whole
from status import gauges, page

GET = head(method="GET")
HELLO = (200, "hello")
LATE = (503, "timed out waiting for a pod")


def once(may):
    """How a pod answers that does so once it may."""

    def answer(request):
        may.wait(PATIENCE)
        return OK

    return answer


def held(server, count):
    """So many clients, whose requests are held."""
    ones = [begin(server.port, GET) for _ in range(count)]
    wait_until(lambda: gauges(server)["held"] == count, PATIENCE, f"{gauges(server)}, not {count} held")
    return ones


def answered(ones):
    return collections.Counter(whole(rest(one)) for one in ones)


def stop(server):
    """Closes standard input, and waits until the page says that the server stops, which is there as long as somebody is
    served."""
    want(page(server, "/ready")[0] == 200, "not ready while it serves")
    server.stop()
    wait_until(lambda: page(server, "/ready")[0] == 503, PATIENCE, "ready while it stops")
    want(page(server, "/healthz")[0] == 200, "not healthy while it stops")


def gone_while_held():
    """A client that leaves while its request is held is cancelled at once, and no pod is called for it."""
    may = threading.Event()
    with Scripted(once(may)) as pod, Stay(fixed(1, limit=1, timeout=300), [pod.port], page=True) as server:
        first = begin(server.port, GET)
        wait_until(lambda: pod.requests, PATIENCE, "the first request does not run")
        left = []
        for leaves in (lambda one: one.close(), resets):
            (one,) = held(server, 1)
            leaves(one)
            left.append(time.time() * 1000)
            wait_until(lambda: gauges(server)["held"] == 0, PATIENCE, "who left is still held")
        may.set()
        came = answered([first, begin(server.port, GET)])
        want(came == {HELLO: 2}, f"answered {came}")
        want(len(pod.requests) == 2, "a pod was called for a client that had left")
        rows = settle(server, came, gone=2)
    after = [int(row.split()[0]) - at for row, at in zip((row for row in rows if row.split()[1] == "cancel"), left)]
    want(len(after) == 2 and all(-CLOCKS <= ms for ms in after), f"cancelled {after} ms after they left")
    say(f"cancelled {', '.join(f'{ms:.0f}' for ms in after)} ms after they left")


def many_held(count, seconds):
    """So many requests are held, for a pod that isn't there, until their time is over: that costs less than 2 % of a
    processor."""
    setup = fixed(1, timeout=seconds + 10)
    with Scripted(listens=False) as pod, Stay(setup, [pod.port], slots=count, page=True) as server:
        load = Load(server.port, count, count=1)
        wait_until(lambda: gauges(server)["held"] == count, 5, f"not all are held: {gauges(server)}")
        before = server.spent()
        time.sleep(seconds)
        spent = (server.spent() - before) / seconds * 100
        want(gauges(server)["held"] == count, "somebody is held no more")
        met = load.met()
        want(counted(met) == {LATE: count}, f"answered {counted(met)}")
        settle(server, counted(met))
        say(f"{spent:.1f} % of a processor while {count} are held")
        want(spent < 2, f"{spent:.1f} % of a processor")


def stopped_with_held():
    """Standard input ends while a request is held for a busy seat: it is answered, and /ready says that the server
    stops."""
    may = threading.Event()
    with Scripted(once(may)) as pod, Stay(fixed(1, limit=1, timeout=300), [pod.port], page=True) as server:
        first = begin(server.port, GET)
        wait_until(lambda: gauges(server)["running"] == 1, PATIENCE, "the first does not run")
        ones = [first, *held(server, 1)]
        stop(server)
        may.set()
        came = answered(ones)
        want(came == {HELLO: 2}, f"answered {came}")
        settle(server, came)
        want(len(pod.requests) == 2, f"{len(pod.requests)} requests came to the pod")


def stopped_then_pods():
    """Standard input ends while four requests are held for a pod that isn't there, which comes then: all are served."""
    with Scripted(listens=False) as pod, Stay(fixed(1, timeout=300), [pod.port], slots=4, page=True) as server:
        ones = held(server, 4)
        stop(server)
        pod.listen()
        came = answered(ones)
        want(came == {HELLO: 4}, f"answered {came}")
        settle(server, came)
        want(len(pod.requests) == 4, f"{len(pod.requests)} requests came to the pod")


def stopped_then_late():
    """Standard input ends while four requests are held for a pod that never comes: each waits for its whole time, is
    answered so, and has that outcome."""
    with Scripted(listens=False) as pod, Stay(fixed(1, timeout=3), [pod.port], slots=4) as server:
        begun = time.monotonic()
        ones = [begin(server.port, GET) for _ in range(4)]
        # (their arrivals stay there, also where this looks late)
        wait_until(lambda: server.journal.read_text().count(" arrive ") == 4, PATIENCE, "not all of them arrive")
        server.stop()
        came = answered(ones)
        want(came == {LATE: 4}, f"answered {came}")
        want(time.monotonic() - begun > 2.98, f"answered after {time.monotonic() - begun:.2f} s")
        rows = settle(server, came)
        want(" admitted=4 " in rows[-1] and " finished=0 failed=0 " in rows[-1], rows[-1])


def stopped_then_left():
    """Standard input ends while four requests are held for minutes to come, and all their clients leave: each is
    cancelled, and the server ends then."""
    with Scripted(listens=False) as pod, Stay(fixed(1, timeout=300), [pod.port], slots=4, page=True) as server:
        ones = held(server, 4)
        stop(server)
        for one, leaves in zip(ones, (resets, lambda one: one.close(), resets, lambda one: one.close())):
            leaves(one)
        rows = settle(server, collections.Counter(), gone=4)
        want(" admitted=4 " in rows[-1] and " cancelled=4 " in rows[-1], rows[-1])
