#!/usr/bin/env -S python3 -B
"""`kactd stay` before pods, as README.md lists it: `./scenarios.py [--short] [--seconds S] [NAME..]`."""

import argparse
import collections
import functools
import random
import re
import shutil
import subprocess
import sys
import time

import edges
import held
import outputs
import prometheus
from load import Load, bring, bring_all, counted, told
from server import Pod, Stay, all_known, beginning, cut_account, fast_pod, settle, whole_account
from session import Scripted, field_words, fixed, head, run, say, scaled, wait_until, want
from status import gauges, metrics, page

HELLO = (200, "hello")
GET = head(method="GET")


def fifty():
    """Two clients beside each other bring 50 requests, half of them with a body, to four slots with little room; then
    standard input ends. All are finished in a journal that replays, and nothing is told but the address."""
    body = head("Content-Length: 9\r\n") + b"some text"
    with Scripted() as pod, Stay(fixed(1, limit=1, depth=100, most=1), [pod.port], slots=4, room=1000) as server:
        met = bring_all(server.port, [GET, body] * 25)
        want(counted(met) == {HELLO: 50}, f"answered {counted(met)}")
        last = settle(server, counted(met))[-1]
        want(last.startswith("end ") and " admitted=50 " in last, last)
        want(" finished=50 failed=0 expired=0 cancelled=0 queue-full=0 overload=0 " in last, last)
        want(len(pod.requests) == 50, f"{len(pod.requests)} requests came to the pod")
        want(server.told() == f"kactd: listening on 127.0.0.1:{server.port}\n", f"told {server.told()!r}")


def under_load(at_once, slots, seconds):
    """Python's clients for some seconds: each is answered, and finished in the journal."""
    with fast_pod() as a, fast_pod() as b, Stay(fixed(2), [a.port, b.port], slots=slots) as server:
        met = Load(server.port, at_once, seconds).met()
        say(told(met))
        want(set(counted(met)) == {HELLO}, f"answered {counted(met)}")
        settle(server, counted(met))


def by_hey(at_once, slots, seconds):
    """hey for some seconds, if it is there."""
    if not shutil.which("hey"):
        return say("left out: no hey")
    with fast_pod() as a, fast_pod() as b, Stay(fixed(2), [a.port, b.port], slots=slots) as server:
        words = ["hey", "-z", f"{seconds}s", "-c", str(at_once), "-t", "60", *field_words(), f"http://127.0.0.1:{server.port}/"]
        ran = subprocess.run(words, capture_output=True, text=True).stdout
        answered = {int(code): int(n) for code, n in re.findall(r"\[(\d{3})\]\t(\d+) responses", ran)}
        say(f"hey: {', '.join(line.strip() for line in ran.splitlines() if 'Requests/sec' in line or '99%' in line)}")
        want(set(answered) == {200} and "Error distribution" not in ran, ran)
        # (hey counts no request that is on its way when its time is over)
        settle_at_most(server, answered[200], at_once)


def by_wrk(at_once, slots, seconds):
    """wrk for some seconds, if it is there."""
    if not shutil.which("wrk"):
        return say("left out: no wrk")
    with fast_pod() as a, fast_pod() as b, Stay(fixed(2), [a.port, b.port], slots=slots) as server:
        words = ["wrk", "-t", "2", "-c", str(at_once), "-d", f"{seconds}s", "--latency", *field_words(), f"http://127.0.0.1:{server.port}/"]
        ran = subprocess.run(words, capture_output=True, text=True).stdout
        done = int(re.search(r"(\d+) requests in", ran)[1])
        say(f"wrk: {', '.join(line.strip() for line in ran.splitlines() if 'Requests/sec' in line or '99%' in line)}")
        want(done > 0 and "Socket errors" not in ran and "Non-2xx" not in ran, ran)
        settle_at_most(server, done, at_once)


def settle_at_most(server, done, gone):
    """Ends the server. As many requests are finished as a tool counts, and at most `gone` further ones, which it
    left."""
    server.stop()
    want(server.end() == 0, f"exit status {server.end()}: {server.told()}")
    account, rows = whole_account(server.journal)
    further = sum(account.values()) - done
    want(account["finish ok"] >= done and 0 <= further <= gone, f"{done} were answered: {rows[-1]}")


def killed(seed, at_once=16):
    """It is killed at a random moment under load: the journal has each request that was answered a second before, with
    its outcome."""
    after = random.Random(seed).uniform(1.2, 5)
    with Pod() as pod, Stay(fixed(1), [pod.port]) as server:
        load = Load(server.port, at_once)
        time.sleep(after)
        at = server.kill()
        met = load.met()
        ended, rows = cut_account(server.journal)
        answered = sum(one.status == 200 and one.ended < at for one in met)
        want(answered > 0, "nobody was answered")
        all_known(ended, met, at - 1)
        last = int(rows[-1].split()[0])
        say(f"killed after {after:.1f} s: {answered} were answered, {len(ended)} are in the journal, its last row of {at * 1000 - last:.0f} ms before")


def kills(count):
    for seed in range(count):
        killed(seed)


def stopped(at_once, seconds):
    """Standard input ends under load: who had sent a request is answered, and who comes later is refused. The journal
    is whole."""
    with Pod() as pod, Stay(fixed(1), [pod.port]) as server:
        load = Load(server.port, at_once, path="/20")
        time.sleep(seconds)
        at = server.stop()
        met = load.met()
        lost = [one for one in met if one.status != 200 and one.sent and one.sent < at]
        want(not lost, f"{len(lost)} had sent their request before the stop and met an error: {lost[:2]}")
        strange = [one for one in met if one.status not in (0, 200) or "cut answer: b'H" in one.text]
        want(not strange, f"answered otherwise: {strange[:2]}")
        late = sum(one.status == 0 for one in met)
        want(late == at_once, f"{late} of {at_once} clients were refused in the end")
        settle(server, counted(one for one in met if one.status))
        say(f"{len(met) - late} were answered, of them {sum(one.ended > at and one.status == 200 for one in met)} behind the stop")


def status_page(at_once, seconds, pause=0.0):
    """The status page under load: its paths, its format, counters that never fall, and in the end those of the
    journal's report."""
    with Pod() as pod, Stay(fixed(1), [pod.port], page=True) as server:
        want(page(server, "/healthz")[0] == 200 and page(server, "/ready")[0] == 200, "neither healthy nor ready")
        want(page(server, "/other")[0] == 404 and page(server, "/metrics", "POST")[0] == 405, "another path or method")
        want(page(server, "/healthz", "HEAD")[:2] == (200, ""), "HEAD")
        load, seen = Load(server.port, at_once, seconds, pause=pause), [prometheus.counters(metrics(server))]
        end = time.monotonic() + seconds
        while time.monotonic() < end:
            seen.append(prometheus.counters(metrics(server)))
            fell = [key for key, number in seen[-2].items() if seen[-1].get(key, -1) < number]
            want(not fell, f"counters fell: {fell}")
            time.sleep(0.05)
        met = load.met()
        want(set(gauges(server).values()) == {0.0}, f"live requests: {gauges(server)}")
        shown = metrics(server)
        rows = settle(server, counted(met))
        agree(shown, rows[len(beginning(server.journal, 0)) : -1])
    want(seen[-1] != seen[0], "no counter rose")
    say(f"{len(seen)} pages under load, {len(met)} requests")


def agree(shown, rows):
    """What a page counted, when no request was live, is what the report has behind the opening, kind by kind. (A fixed
    revision's ticks make no row.)"""
    found = collections.Counter(row.split()[1] for row in rows)
    counts = {dict(labels)["kind"]: int(number) for labels, number in shown["kactd_rows_total"].values.items()}
    want({kind: n for kind, n in counts.items() if n} == dict(found), f"the page has {counts}, the report {dict(found)}")


def address_again():
    """A pod that is started once two others are gone has the address of the first of them: it is probed and called
    there. At the third address there is nobody, where it would be by its number."""
    # (it opens with both, and goes to zero some seconds after the last request)
    config = {"scale-to-zero-grace-period": "0s"}
    setup = "kact journal 1\n" + scaled(config=config, initial_scale=2, max_scale=2, window="6s")
    with Scripted() as first, Scripted() as second, Scripted(listens=False) as third:
        pods = (first, second, third)
        with Stay(setup, [pod.port for pod in pods], page=True) as server:
            met = [bring(server.port, GET)]
            counts = [len(pod.requests) for pod in pods]
            wait_until(lambda: sum(metrics(server)["kactd_pods"].values.values()) == 0, 60, "a pod is left")
            met.append(bring(server.port, GET))
            want(counted(met) == {HELLO: 2}, f"answered {counted(met)}")
            came = [len(pod.requests) for pod in pods]
            want(came == [counts[0] + 1, *counts[1:]], f"{counts} came to the addresses, then {came}")
            rows = [row.partition(" ")[2] for row in settle(server, counted(met))]
    place = rows.index("create 2 1")
    want({"remove 0", "remove 1"} <= set(rows[:place]), f"both pods are there when the third comes: {rows}")
    want("assign 1 2" in rows[place:], f"the second request isn't the third pod's: {rows}")
    (pod,) = [int(row.split()[2]) for row in rows if row.startswith("assign 0 ")]
    want(counts == [pod == 0, pod == 1, 0], f"the first request was pod {pod}'s, and the addresses had {counts}")


def cases(short, seconds):
    found = {"fifty": fifty, "nobody": outputs.nobody}
    if not short:
        for at_once in (16, 256):
            for name, case in (("load", under_load), ("hey", by_hey), ("wrk", by_wrk)):
                found[f"{name}_{at_once}"] = functools.partial(case, at_once, at_once, seconds)
        found["killed"] = functools.partial(kills, 10)
        found["stopped_with_silent"] = functools.partial(edges.stopped_with_silent, 50)
        found["stalled_reader"] = functools.partial(outputs.stalled_reader, 10, 0.02)
        found["stalled_reader_full"] = functools.partial(outputs.stalled_reader, 5, 0.002, room=1000, full=True)
        found["silent_and_slow"] = edges.silent_and_slow
        found["many_held"] = functools.partial(held.many_held, 1000, 10)
    return found | {
        "stopped": functools.partial(stopped, *((8, 1) if short else (64, 3))),
        "stopped_with_held": held.stopped_with_held,
        "stopped_then_pods": held.stopped_then_pods,
        "stopped_then_late": held.stopped_then_late,
        "stopped_then_left": held.stopped_then_left,
        "gone_while_held": held.gone_while_held,
        "address_again": address_again,
        "little_room": outputs.little_room,
        "slow_reader": outputs.slow_reader,
        "still_reader": outputs.still_reader,
        "gone_reader": outputs.gone_reader,
        "no_disk": outputs.no_disk,
        "full_disk": functools.partial(outputs.full_disk, 5000 if short else 50000),
        "each_size": outputs.each_size,
        "refused": edges.refused,
        "refused_setups": edges.refused_setups,
        "broken_pod": functools.partial(edges.broken_pod, 40 if short else 400),
        "many_waiting": functools.partial(edges.many_waiting, 200 if short else 1000),
        "front_shown": edges.front_shown,
        "status_page": functools.partial(status_page, *((4, 1, 0.01) if short else (16, 3))),
    }


def main():
    words = argparse.ArgumentParser(description=__doc__)
    words.add_argument("--short", action="store_true", help="those of the gate, at small size")
    words.add_argument("--seconds", type=int, default=5, help="how long the loads go on")
    words.add_argument("names", nargs="*")
    given = words.parse_args()
    return run(cases(given.short, given.seconds), given.names, limit=290 if given.short else None)


if __name__ == "__main__":
    sys.exit(main())
