#!/usr/bin/env -S python3 -B
"""A day's requests, as fast as they go: `./day.py [--requests N] [--clients N] [--room N]`.

2,000,000 of them, by 32 clients at once. After each tenth it prints the resident memory, which may grow by no more than a MiB from the first tenth
on; in the end the journal replays, with each request finished."""

import argparse
import functools
import subprocess
import sys
import time

from load import Load, counted
from server import Stay, fast_pod
from session import fixed, program, run, want


def tenth(server, clients, count):
    """Brings a tenth, and prints how it went. The resident memory in KiB."""
    begun, spent = time.monotonic(), server.spent()
    met = Load(server.port, clients, seconds=24 * 3600, count=count).met()
    took = time.monotonic() - begun
    want(counted(met) == {(200, "hello"): clients * count}, f"answered {counted(met)}")
    memory, cost = server.memory(), (server.spent() - spent) / len(met) * 1e6
    print(f"  {len(met):,} requests, {len(met) / took:,.0f} a second, {cost:.0f} µs of processor time each, {memory:,} KiB", flush=True)
    return memory


def report(journal):
    """The last line that `kact replay` writes, and the seconds that it takes. The rows are dropped as they come."""
    begun, last = time.monotonic(), ""
    with open(journal) as given:
        replay = subprocess.Popen([program("kact"), "replay"], stdin=given, stdout=subprocess.PIPE, text=True)
        for last in replay.stdout:
            pass
    want(replay.wait() == 0, f"replay ends with {replay.returncode}")
    return last, time.monotonic() - begun


def day(requests, clients, room):
    count = requests // 10 // clients
    with fast_pod() as a, fast_pod() as b, Stay(fixed(2), [a.port, b.port], room=room) as server:
        print(f"  {server.memory():,} KiB before the first", flush=True)
        memory = [tenth(server, clients, count) for _ in range(10)]
        server.stop()
        want(server.end() == 0, f"exit status {server.end()}: {server.told()}")
        last, seconds = report(server.journal)
        size = server.journal.stat().st_size
    done = 10 * clients * count
    print(f"  the journal has {size / 1e6:,.0f} MB, and replays in {seconds:.0f} s: {last.strip()}")
    want(f" admitted={done} " in last and f" finished={done} failed=0 expired=0 cancelled=0 " in last, f"{done} were answered")
    want(max(memory) - memory[0] <= 1024, f"{max(memory) - memory[0]} KiB more than after the first tenth")


def main():
    words = argparse.ArgumentParser(description=__doc__, formatter_class=argparse.RawDescriptionHelpFormatter)
    words.add_argument("--requests", type=int, default=2_000_000)
    words.add_argument("--clients", type=int, default=32)
    words.add_argument("--room", type=int, default=100_000)
    given = words.parse_args()
    return run({"day": functools.partial(day, given.requests, given.clients, given.room)}, [])


if __name__ == "__main__":
    sys.exit(main())
