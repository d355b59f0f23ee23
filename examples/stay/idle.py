#!/usr/bin/env -S python3 -B
"""Silent and slow clients beside a load: `./idle.py [--seconds S] [--turns N] [--most PERCENT]`.

N times in turns (10) the same load goes on for S seconds (3) with nobody beside it, and beside 300 connections of which nothing comes and 50 that
send a byte a second. Within so many ms 99 of 100 requests of all turns are answered: that may change by less than 20 per cent. (On a machine that
does something else, more and shorter turns tell more.)"""

import argparse
import contextlib
import functools
import socket
import sys
import threading
import time

from load import Load, counted, latency, told
from server import Stay, fast_pod, settle
from session import fixed, head, run, want

SILENT, DRIPPING = 300, 50


class Beside:
    """The silent and the slow connections."""

    def __init__(self, port):
        self.clients = [socket.create_connection(("127.0.0.1", port)) for _ in range(SILENT + DRIPPING)]
        self.gone = threading.Event()
        self.dripper = threading.Thread(target=self.drip)
        self.dripper.start()

    def drip(self):
        # (a head has more bytes than a turn has seconds)
        for byte in head(method="GET"):
            for client in self.clients[SILENT:]:
                client.sendall(bytes([byte]))
            if self.gone.wait(1):
                return

    def close(self):
        """Closes them, after a look whether the server has let all of them be."""
        self.gone.set()
        self.dripper.join()
        closed = 0
        for client in self.clients:
            client.setblocking(False)
            with contextlib.suppress(BlockingIOError):
                client.recv(1)
                closed += 1
            client.close()
        want(closed == 0, f"{closed} of the silent and slow ones were closed")


def turn(server, seconds, beside):
    """What the load met."""
    others = Beside(server.port) if beside else None
    time.sleep(1)
    try:
        met = Load(server.port, 16, seconds).met()
    finally:
        if others:
            others.close()
    want(set(counted(met)) == {(200, "hello")}, f"answered {counted(met)}")
    print(f"  {'beside them' if beside else 'alone'}: {told(met)}", flush=True)
    return met


def idle(seconds, turns, most):
    with fast_pod() as a, fast_pod() as b, Stay(fixed(2), [a.port, b.port], slots=128) as server:
        met = {False: [], True: []}
        for number in range(turns):
            for beside in (False, True) if number % 2 == 0 else (True, False):
                met[beside] += turn(server, seconds, beside)
        settle(server, counted(met[False] + met[True]))
    alone, beside = latency(met[False], 99), latency(met[True], 99)
    change = (beside / alone - 1) * 100
    print(f"  99 of 100 within {alone:.1f} ms alone, and {beside:.1f} ms beside {SILENT} silent and {DRIPPING} slow ones: {change:+.0f} %")
    want(change < most, f"the change is {change:+.0f} %")


def main():
    words = argparse.ArgumentParser(description=__doc__, formatter_class=argparse.RawDescriptionHelpFormatter)
    words.add_argument("--seconds", type=int, default=3)
    words.add_argument("--turns", type=int, default=10)
    words.add_argument("--most", type=float, default=20)
    given = words.parse_args()
    return run({"idle": functools.partial(idle, given.seconds, given.turns, given.most)}, [])


if __name__ == "__main__":
    sys.exit(main())
