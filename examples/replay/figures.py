#!/usr/bin/env python3
"""Measures again what docs/FIGURES.md says of `kact replay` besides its figures of eleven journals.

usage: ./figures.py live KACT                   instructions an event, by pods, by live requests, and by whether pods' numbers have gaps (valgrind)
       ./figures.py hour                        writes a workload of 100,000 jobs in an hour, for `kact simulate`
       ./figures.py again JOURNAL TIMES         writes a journal of a scaled revision with the part from its first request on so many times in a row: its times,
                                                and the numbers of its requests and pods, go on where they ended. Before and behind it must be some
                                                idle minutes, so that no pod is there
       ./figures.py time TIMES JOURNAL PROGRAM ..   user seconds of `PROGRAM replay`, in turns: the median, the least and the greatest; reports must agree
"""
import hashlib
import os
import random
import re
import statistics
import subprocess
import sys
import tempfile

SCALED = ('kpa depth=10000 max=1000 seed=1\nconfig\n{{"data":{{}}}}\n.\nrevision\n'
          '{{"metadata":{{"namespace":"default","name":"hello-00001","annotations":{{{annotations}}}}},'
          '"spec":{{"containerConcurrency":{limit}}}}}\n.\n')

# ---- live: an event's cost by pods and live requests

TURNS = 50_000
MOST_PODS = 500
# Pods, and live requests: of a fixed revision at most 11,000, of one in serve mode 20,000.
FIXED = [(1, 10), (1, 10_990), (20, 10), (20, 1_000), (20, 10_990), (330, 10), (330, 1_000), (330, 10_990), (500, 10), (500, 1_000), (500, 10_990)]
SERVE = [(1, 10), (1, 19_998), (20, 10), (20, 1_000), (20, 19_998), (500, 10), (500, 1_000), (500, 19_998)]
SEATS = 10


def fixed(pods, gaps):
    """A fixed revision's opening, and how many run at once. With gaps every third of the pods of its setup is lost before any request comes. None where
    its setup can't have so many."""
    made = pods + pods // 2 if gaps else pods
    if made > MOST_PODS:
        return None
    lines = [f"kact journal 2\nfixed limit={SEATS} depth=10000 max=1000 pods={made} timeout=3600 seed=1\nstart 0\n"]
    lines += [f"1 ready {pod}\n" for pod in range(made)]
    lines += [f"2 lost {pod}\n" for pod in range(1, made, 3)] if gaps else []
    return lines, min(1_000, SEATS * pods)


def serve(pods, gaps):
    """The opening of a revision that gets its requests straight, and how many run at once. With gaps every third pod is lost and replaced."""
    scale = ",".join(f'"autoscaling.knative.dev/{key}":"{count}"' for key, count in
                     [("initial-scale", pods), ("min-scale", pods), ("max-scale", pods), ("target-burst-capacity", 0)])
    lines = ["kact journal 2\n", SCALED.format(annotations=scale, limit=0), "start 0\n"]
    lines += [f"1 ready {pod}\n" for pod in range(pods)]
    lost = range(0, pods, 3) if gaps else []
    lines += [f"2 lost {pod}\n" for pod in lost] + ["2000 tick\n"]
    lines += [f"2000 ready {pods + at}\n" for at in range(len(lost))]
    return lines, 20_000


def turns(live, seats):
    """The lines that bring so many requests, and those of the turns: one more comes, and any of those that run ends."""
    picks = random.Random(1)
    filling = [f"3000 arrive {request}\n" for request in range(live)]
    running, behind = list(range(min(live, seats))), min(live, seats)
    lines = []
    for turn in range(TURNS):
        new, now = live + turn, 3_000 + turn
        if len(running) < seats:
            running.append(new)
            behind = new + 1
        at = picks.randrange(len(running))
        lines.append(f"{now} arrive {new}\n{now} finish {running[at]} ok\n")
        running[at] = running[-1]
        running.pop()
        if behind <= new:
            running.append(behind)
            behind += 1
    return filling, lines


def instructions(kact, lines):
    """How many instructions `kact replay` takes for these lines, which it must not refuse."""
    with tempfile.TemporaryFile() as journal:
        journal.write("".join(lines).encode())
        journal.seek(0)
        run = subprocess.run(["valgrind", "--tool=cachegrind", "--cache-sim=no", "--cachegrind-out-file=/dev/null", kact, "replay"],
                             stdin=journal, stdout=subprocess.PIPE, stderr=subprocess.PIPE)
    last = run.stdout[run.stdout.rstrip().rfind(b"\n") + 1:].decode()
    if run.returncode != 0 or not last.startswith("end events="):
        sys.exit(f"refused: {run.stderr.decode()}")
    return int(re.search(rb"I +refs: +([\d,]+)", run.stderr).group(1).replace(b",", b"")), last


def cost(kact, opened, live):
    """The instructions that an event of the turns takes, and how many requests went straight to their pods."""
    first, seats = opened
    filling, lines = turns(live, seats)
    before, _ = instructions(kact, first + filling + ["end\n"])
    whole, last = instructions(kact, first + filling + lines + ["end\n"])
    counts = dict(word.split("=") for word in last.split()[1:])
    if int(counts["finished"]) != TURNS:
        sys.exit(f"not as meant: {last}")
    return (whole - before) / (2 * TURNS), int(counts["direct"])


def measure_live(kact):
    for kind, opening, cases in [("fixed", fixed, FIXED), ("serve", serve, SERVE)]:
        found = []
        for pods, live, gaps in [(*case, gaps) for case in cases for gaps in (False, True)]:
            opened = opening(pods, gaps)
            if pods == 1 and gaps or opened is None:
                continue
            each, straight = cost(kact, opened, live)
            if straight != (live + TURNS if kind == "serve" else 0):
                sys.exit(f"not as meant: {straight} of {live + TURNS} went straight to their pods")
            found.append(each)
            print(f"{kind} pods={pods} live={live} gaps={'yes' if gaps else 'no'}: {each:.1f}", flush=True)
        print(f"{kind}: {min(found):.1f} to {max(found):.1f}, {100 * (max(found) / min(found) - 1):.1f} per cent apart")


# ---- hour and again: ten million events of a revision that scales

def write_hour(out):
    """A load that comes and goes: jobs come seldom at first, most often in the middle of the hour, then seldom. Some idle minutes are before and behind it."""
    picks = random.Random(1)
    times = sorted(200_000 + int(picks.triangular(0, 3_600_000)) for _ in range(100_000))
    out.write("kact workload 1\n" + SCALED.format(annotations="", limit=5) + "start 0\nboot 2000\nuntil 4000000\n")
    out.writelines(f"{time} job {job} {picks.randrange(500, 3_500)}\n" for job, time in enumerate(times))
    out.write("end\n")


def write_again(journal, times, out):
    with open(journal) as text:
        lines = text.read().splitlines()
    first = next((at for at, line in enumerate(lines) if " arrive " in line), None)
    if first is None or lines[-1] != "end":
        sys.exit(f"{journal}: no request, or no end")
    words = [line.split() for line in lines[first:-1]]
    before = int(lines[first - 1].split()[0])
    step = {"time": int(words[-1][0]) - before, "request": sum(it[1] == "arrive" for it in words), "pod": sum(it[1] == "ready" for it in words)}
    of = {"arrive": "request", "finish": "request", "cancel": "request", "ready": "pod", "limit": "pod", "lost": "pod"}
    out.writelines(line + "\n" for line in lines[:first])
    for turn in range(times):
        for time, event, *rest in words:
            if event in of:
                rest[0] = str(int(rest[0]) + turn * step[of[event]])
            out.write(" ".join([str(int(time) + turn * step["time"]), event, *rest]) + "\n")
    out.write("end\n")


# ---- time

def measure_time(times, journal, programs):
    taken, reports = {program: [] for program in programs}, set()
    for _ in range(times):
        for program in programs:
            with open(journal, "rb") as lines, tempfile.TemporaryFile() as report:
                child = subprocess.Popen([program, "replay"], stdin=lines, stdout=report)
                _, status, used = os.wait4(child.pid, 0)
                child.returncode = os.waitstatus_to_exitcode(status)
                report.seek(0)
                reports.add(hashlib.file_digest(report, "sha256").hexdigest())
            if child.returncode != 0 or len(reports) != 1:
                sys.exit(f"{program}: status {child.returncode}, or another report")
            taken[program].append(used.ru_utime)
    for program, each in taken.items():
        print(f"{program}: {statistics.median(each):.2f} s ({min(each):.2f} to {max(each):.2f})")


match sys.argv[1:]:
    case ["live", kact]:
        measure_live(kact)
    case ["hour"]:
        write_hour(sys.stdout)
    case ["again", journal, times]:
        write_again(journal, int(times), sys.stdout)
    case ["time", times, journal, *programs] if programs:
        measure_time(int(times), journal, programs)
    case _:
        sys.exit(__doc__)
