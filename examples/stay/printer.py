#!/usr/bin/env -S python3 -B
"""What printing the journal costs: `./printer.py [--seconds S] [--clients N] [--most PERCENT]`.

N clients (64) bring requests for S seconds (20). The thread that prints is the one that wrote as many bytes as the journal has; its processor time a row,
taken 20,000 times, is what printing at 20,000 rows a second costs: it is to be less than 10 per cent of a processor. (On a machine that does something
else a row costs more.)"""

import argparse
import functools
import pathlib
import re
import sys

from load import Load, counted, told
from server import Stay, fast_pod, settle
from session import fixed, run, want

RATE = 20_000


class Spent:
    """The processor time in ns that each thread has had, and how many bytes it wrote to files and pipes."""

    def __init__(self, process):
        self.ns, self.written = {}, {}
        for thread in pathlib.Path(f"/proc/{process}/task").iterdir():
            self.ns[thread.name] = int((thread / "schedstat").read_text().split()[0])
            self.written[thread.name] = int(re.search(r"wchar: (\d+)", (thread / "io").read_text())[1])


def printer(seconds, clients, most):
    with fast_pod() as a, fast_pod() as b, Stay(fixed(2), [a.port, b.port], slots=clients) as server:
        before, size = Spent(server.process.pid), server.journal.stat().st_size
        met = Load(server.port, clients, seconds).met()
        after, grown = Spent(server.process.pid), server.journal.stat().st_size - size
        thread = max(after.written, key=lambda it: after.written[it] - before.written.get(it, 0))
        wrote = after.written[thread] - before.written[thread]
        want(abs(wrote - grown) <= 65536, f"a thread wrote {wrote} bytes, and the journal grew by {grown}")
        rows = server.journal.read_bytes()[size:].count(b"\n")
        each = (after.ns[thread] - before.ns[thread]) / rows
        settle(server, counted(met))
    share = each * RATE / 1e9 * 100
    print(f"  {told(met)}; {rows:,} rows, {each:.0f} ns of processor time each: {share:.1f} % of a processor at {RATE:,} rows a second")
    want(share < most, f"{share:.1f} % of a processor")


def main():
    words = argparse.ArgumentParser(description=__doc__, formatter_class=argparse.RawDescriptionHelpFormatter)
    words.add_argument("--seconds", type=int, default=20)
    words.add_argument("--clients", type=int, default=64)
    words.add_argument("--most", type=float, default=10)
    given = words.parse_args()
    return run({"printer": functools.partial(printer, given.seconds, given.clients, given.most)}, [])


if __name__ == "__main__":
    sys.exit(main())
