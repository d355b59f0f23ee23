#!/usr/bin/env -S python3 -B
"""What kactd costs under load, in three tables: slots, one seat that all want, and one revision beside several.

`./figures.py [OTHER]`: OTHER is a server that takes kactd's words, to be measured beside it in turns."""

import collections
import concurrent.futures
import contextlib
import functools
import os
import pathlib
import re
import statistics
import subprocess
import sys
import tempfile
import time

from session import Pod, Session, drain, field_words, fixed, outcomes, program, want

CLIENTS = int(os.environ.get("CLIENTS", 4800))
NAMES = ("cart", "till", "desk", "shelf")
SLOTS = 16  # of a session in the table of several revisions


def ab(port, count, at_once, revision="fixed"):
    """Requests a second, and the latencies in ms of which 50 and 99 per cent are not above, as ab counts."""
    with tempfile.NamedTemporaryFile("r", suffix=".csv") as table:
        words = ["ab", "-q", "-n", str(count), "-c", str(at_once), "-e", table.name, *field_words(revision)]
        ran = subprocess.run([*words, f"http://127.0.0.1:{port}/"], capture_output=True, text=True)
        rows = dict(line.split(",") for line in table.read().splitlines()[1:])
    want("Complete requests" in ran.stdout, f"ab: {ran.stderr} {ran.stdout}")
    done = int(re.search(r"Complete requests:\s+(\d+)", ran.stdout)[1])
    bad = int(re.search(r"Failed requests:\s+(\d+)", ran.stdout)[1]) + ran.stdout.count("Non-2xx")
    want(done == count and bad == 0, ran.stdout)
    rate = float(re.search(r"Requests per second:\s+([\d.]+)", ran.stdout)[1])
    return rate, float(rows["50"]), float(rows["99"])


def costs(session):
    """What an ended session cost: µs of user time and of processor time a client, and MB."""
    user = session.usage.ru_utime / session.clients * 1e6
    return user, user + session.usage.ru_stime / session.clients * 1e6, session.memory / 1024


def measure(server, is_kactd, slots, **setup):
    """One session of some 5,000 clients, as many at once as slots."""
    # more rounds than ab needs: it opens some connections more than it counts
    rounds = CLIENTS * 5 // 4 // slots
    with Pod() as pod, Session(fixed(**setup), [pod.port], slots, rounds, server=server) as session:
        told = ab(session.port, CLIENTS, slots)
        drain(session)
        if is_kactd:
            _, journal, report = session.end()
            found = outcomes(journal, report)
            want(set(found) == {"finish ok"} and found["finish ok"] >= CLIENTS, report[-1])
        return *told, *costs(session)


def scaled(name, pods):
    """The setup of a revision that is scaled, and stays at so many pods."""
    scales = ", ".join(f'"autoscaling.knative.dev/{which}-scale": "{pods}"' for which in ("min", "max", "initial"))
    revision = f'{{"metadata": {{"namespace": "default", "name": "{name}", "annotations": {{{scales}}}}}, "spec": {{}}}}'
    return f'kpa depth=10000 max=1000 seed=7\nconfig\n{{"data": {{}}}}\n.\nrevision\n{revision}\n.\n'


def measure_revisions(setup, names, server=None):
    """One session before four pods. Its clients come by four of ab at once, each of which names one of the revisions."""
    count, at_once = CLIENTS * 2 // len(NAMES), SLOTS // len(NAMES)
    rounds = count * len(NAMES) * 5 // 4 // SLOTS
    with contextlib.ExitStack() as stack:
        ports = [stack.enter_context(Pod()).port for _ in NAMES]
        session = stack.enter_context(Session(setup, ports, SLOTS, rounds, server=server, many=len(names) > 1))
        crew = stack.enter_context(concurrent.futures.ThreadPoolExecutor())
        start = time.monotonic()
        list(crew.map(lambda n: ab(session.port, count, at_once, names[n % len(names)]), range(len(NAMES))))
        rate = count * len(NAMES) / (time.monotonic() - start)
        drain(session)
        want(session.status == 0, f"exit status {session.status}")
        return rate, *costs(session)


def in_turns(runs):
    """By each run's name, the medians of what it gives in three turns."""
    found = collections.defaultdict(list)
    for _ in range(3):
        for name, run in runs.items():
            found[name].append(run())
    return {name: [statistics.median(column) for column in zip(*rows)] for name, rows in found.items()}


def head(title, *columns):
    print(f"\n{title}\n\n| {' | '.join(columns)} |\n|{'---|' * len(columns)}", flush=True)


def main(others):
    servers = {"kactd": program("kactd"), **{pathlib.Path(other).name: os.path.abspath(other) for other in others}}
    cost = ("µs of user time a request", "µs of processor time a request", "MB")

    def rows(slots, **setup):
        runs = {name: functools.partial(measure, server, name == "kactd", slots, **setup) for name, server in servers.items()}
        for name, (rate, half, most, user, spent, memory) in in_turns(runs).items():
            print(f"| {name} | {slots} | {rate:,.0f} | {half:.2f} | {most:.2f} | {user:.0f} | {spent:.0f} | {memory:.1f} |", flush=True)

    print(f"Medians of three sessions each, taken in turns; load {os.getloadavg()[0]:.1f} on {os.cpu_count()} processors before the first.")
    head("As many clients at once as slots, four pods without limits.", "Server", "Slots", "requests/s", "50% ms", "99% ms", *cost)
    for slots in (1, 4, 16, 64):
        rows(slots, pods=4)
    head("One seat: one pod, one request at a time.", "Server", "Clients", "requests/s", "50% ms", "99% ms", *cost)
    for slots in (8, 32):
        rows(slots, pods=1, limit=1)
    head(f"Four pods and {SLOTS} slots in all.", "Server", "requests/s", *cost)
    runs = {f"{name}, a fixed revision": functools.partial(measure_revisions, fixed(4), ["fixed"], server) for name, server in servers.items()}
    runs["kactd, a scaled revision"] = functools.partial(measure_revisions, "kact journal 1\n" + scaled("cart", 4), ["cart"])
    setups = "kact setups 1\n" + "".join(scaled(name, 1) for name in NAMES)
    runs[f"kactd many, {len(NAMES)} scaled revisions"] = functools.partial(measure_revisions, setups, NAMES)
    for name, (rate, user, spent, memory) in in_turns(runs).items():
        print(f"| {name} | {rate:,.0f} | {user:.0f} | {spent:.0f} | {memory:.1f} |", flush=True)


if __name__ == "__main__":
    sys.exit(main(sys.argv[1:]))
