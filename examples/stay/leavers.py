#!/usr/bin/env -S python3 -B
"""How soon a client that leaves while its request waits is seen: `./leavers.py [--tries N]`.

Beside 0, 9, 99 and 999 clients that are held, since no pod is there, one comes, waits, and closes its connection, N times (16). Told are the median
and the most of the milliseconds from there to its request's `cancel` in the journal. Clients and server read the same clock."""

import argparse
import resource
import socket
import statistics
import sys
import time

from server import Stay, replay
from session import fixed, free_port, head, run, wait_until, want
from status import gauges

GET = head(method="GET")


def come(port):
    client = socket.create_connection(("127.0.0.1", port))
    client.sendall(GET)
    return client


def seen(others, tries):
    """One at a time leaves beside so many others."""
    left = []
    with Stay(fixed(1, timeout=300), [free_port()], slots=others + 1, page=True) as server:
        waiting = [come(server.port) for _ in range(others)]
        for _ in range(tries):
            client = come(server.port)
            wait_until(lambda: gauges(server)["held"] == others + 1, 20, f"not all are held: {gauges(server)}")
            time.sleep(0.1 + 0.037 * (len(left) % 5))
            client.close()
            left.append(time.time() * 1000)
            wait_until(lambda: gauges(server)["held"] == others, 20, f"it is held still: {gauges(server)}")
        for client in waiting:
            client.close()
        server.stop()
        want(server.end(400) == 0, "it did not end with 0")
        status, rows, told = replay(server.journal)
        want(status == 0, told)
    # (the others leave last)
    cancelled = [int(row.split()[0]) for row in rows if row.split()[1] == "cancel"][:tries]
    took = [row - at for row, at in zip(cancelled, left)]
    print(f"  beside {others}: half within {statistics.median(took):.0f} ms, all within {max(took):.0f} ms", flush=True)


def main():
    words = argparse.ArgumentParser(description=__doc__, formatter_class=argparse.RawDescriptionHelpFormatter)
    words.add_argument("--tries", type=int, default=16)
    given = words.parse_args()
    resource.setrlimit(resource.RLIMIT_NOFILE, (8192, 8192))
    return run({"leavers": lambda: [seen(others, given.tries) for others in (0, 9, 99, 999)]}, [])


if __name__ == "__main__":
    sys.exit(main())
