#!/usr/bin/env -S python3 -B
"""`kactd stay` beside `kactd` with rounds: `./beside_rounds.py [--turns N] [--requests N]`.

In turns (3), ab brings the same requests (4,800) to both, as many clients at once as slots, before four pods without limits. The medians are
told: requests a second, and what a request costs of processor time. Wants ab, and nginx for the pods."""

import argparse
import collections
import contextlib
import statistics
import sys

from server import Stay, fast_pod, whole_account

import figures
import session
from session import fixed, want

PODS = 4


def of_rounds(ports, slots, requests):
    """Requests a second of a session with rounds, and µs of processor time a request."""
    rounds = requests * 5 // 4 // slots
    with session.Session(fixed(PODS), ports, slots, rounds) as served:
        rate = figures.ab(served.port, requests, slots)[0]
        session.drain(served)
        want(served.status == 0, f"exit status {served.status}")
        return rate, figures.costs(served)[1]


def of_stay(ports, slots, requests):
    """The same of a server that goes on."""
    with Stay(fixed(PODS), ports, slots=slots) as server:
        rate = figures.ab(server.port, requests, slots)[0]
        spent = server.spent()
        server.stop()
        want(server.end() == 0, "it did not end with 0")
        found, _ = whole_account(server.journal)
        want(set(found) == {"finish ok"} and found["finish ok"] >= requests, f"the journal has {found}")
        return rate, spent / found["finish ok"] * 1e6


def main():
    words = argparse.ArgumentParser(description=__doc__)
    words.add_argument("--turns", type=int, default=3)
    words.add_argument("--requests", type=int, default=4800)
    given = words.parse_args()
    print("| Slots and clients | Server | requests/s | µs of processor time a request |\n|---|---|---|---|")
    for slots in (1, 16, 64):
        found = collections.defaultdict(list)
        for _ in range(given.turns):
            for name, measure in {"with rounds": of_rounds, "stay": of_stay}.items():
                with contextlib.ExitStack() as stack:
                    ports = [stack.enter_context(fast_pod()).port for _ in range(PODS)]
                    found[name].append(measure(ports, slots, given.requests))
        for name, rows in found.items():
            rate, spent = (statistics.median(column) for column in zip(*rows))
            print(f"| {slots} | {name} | {rate:,.0f} | {spent:.0f} |", flush=True)


if __name__ == "__main__":
    sys.exit(main())
