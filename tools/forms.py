#!/usr/bin/env python3
"""Reads the forms of `kact_show` anew, from their definitions alone, and compares them with what it writes.

usage: tools/forms.py KACT KACT_SHOW JOURNAL..      the two programs, and journals that both read to their end

The rows of `KACT replay` are the trace; the journal gives what no row has: tags, events without rows, the timeout, what is wanted at first.
Out of these two it computes the texts of `requests`, `summary`, `series` (steps of 1, 1,000 and 60,000 ms) and `reasons`, and that of
`settings` out of the setup. KACT_SHOW must write each of them to the byte. A decision's counts are computed anew from the averages that its
row gives; its want, whether it is applied, and the mode are the row's. Each difference is named; the last line counts.
"""
import bisect
import collections
import concurrent.futures
import dataclasses
import fractions
import itertools
import json
import math
import re
import subprocess
import sys

STEPS = 1, 1000, 60000
REFUSED = "queue-full", "overload"
ENDS = {"expire": "expired", "cancel": "cancelled", "lost-request": "lost"}
# The rows that an event of each word begins with, behind its expiries; a tick of a fixed revision and a pass have none.
FIRST = {
    "arrive": ("admit", "direct", *REFUSED),
    "finish": ("finish", "not-running"),
    "cancel": ("cancel", "not-waiting"),
    "ready": ("ready", "not-starting", "no-pod"),
    "limit": ("limit", "no-pod"),
    "tick": ("decision", "no-data"),
}
# Rows that no event begins with.
LATER = "phase", "mode", "create", "drain", "run", "assign", "remove"
SERIES = "time ready starting draining wanted held queued running arrived refused ended failed expired decisions ran waited longest held-peak"
FIXED = "limit", "depth", "max", "pods", "timeout", "seed"
PREFIX = "autoscaling.knative.dev/"
CONFIG = """container-concurrency-target-percentage container-concurrency-target-default requests-per-second-target-default target-burst-capacity
stable-window panic-window-percentage panic-threshold-percentage max-scale-up-rate max-scale-down-rate enable-scale-to-zero
scale-to-zero-grace-period scale-to-zero-pod-retention-period min-scale max-scale allow-zero-initial-scale initial-scale scale-down-delay""".split()
ANNOTATIONS = """class metric min-scale minScale max-scale maxScale initial-scale target target-utilization-percentage window panic-window-percentage
panic-threshold-percentage target-burst-capacity scale-down-delay scale-to-zero-pod-retention-period activation-scale""".split()
TRUE = "1", "t", "T", "TRUE", "true", "True"


def seconds(text):
    """How many seconds a duration has."""
    of = {"h": 3600, "m": 60, "s": 1, "ms": fractions.Fraction(1, 1000)}
    return sum(fractions.Fraction(number) * of[unit] for number, unit in re.findall(r"([0-9.]+)(h|ms|m|s)", text))


def shown(number):
    """A number with at most three digits behind its point, rounded down."""
    whole, rest = divmod(math.floor(number * 1000), 1000)
    return f"{whole}.{rest:03}".rstrip("0").rstrip(".")


class Settings:
    """What is in force on a scaled revision, by the tables of docs/FORMATS.md. `lines` has each one's value and source."""

    def __init__(self, config, revision, setup):
        self.data, self.notes = config.get("data", {}), revision["metadata"].get("annotations", {})
        self.spec = revision.get("spec") if isinstance(revision.get("spec"), dict) else {}
        self.lines = {it: (revision["metadata"][it], "revision") for it in ("namespace", "name")}
        concurrency = self.member("containerConcurrency", 0)
        self.timeout = 1000 * self.member("timeoutSeconds", 300)
        rps = self.told("metric", "concurrency", config=None) == "rps"
        self.targets(rps, concurrency)
        self.windows()
        self.burst = fractions.Fraction(self.told("target-burst-capacity", "211"))
        if self.burst == -1:
            self.put("target-burst-capacity", "unlimited", self.lines["target-burst-capacity"][1])
        self.up = fractions.Fraction(self.told("max-scale-up-rate", "1000", notes=()))
        self.down = fractions.Fraction(self.told("max-scale-down-rate", "2", notes=()))
        self.to_zero = self.told("enable-scale-to-zero", "true", notes=()) in TRUE
        self.lines["enable-scale-to-zero"] = "true" if self.to_zero else "false", self.lines["enable-scale-to-zero"][1]
        self.grace = self.told_ms("scale-to-zero-grace-period", "30s", notes=())
        self.retention = self.told_ms("scale-to-zero-pod-retention-period", "0")
        self.least = int(self.told("min-scale", "0", notes=("min-scale", "minScale")))
        self.most = int(self.told("max-scale", "0", notes=("max-scale", "maxScale")))
        self.initial = int(self.told("initial-scale", "1"))
        self.activation = int(self.told("activation-scale", "1", config=None))
        self.delay = int(seconds(self.told("scale-down-delay", "0")))
        self.put("scale-down-delay-s", self.delay, self.lines.pop("scale-down-delay")[1])
        self.lines |= {it: (setup[it], "setup") for it in ("depth", "max", "seed")}

    def ignored(self):
        """The keys and annotations that change nothing, in the order of their bytes; of two spellings of a scale the older one."""
        notes = sorted(it for it in self.notes if it.startswith(PREFIX))
        older = [PREFIX + it + "Scale" for it in ("min", "max") if f"{PREFIX}{it}-scale" in self.notes]
        known = [PREFIX + it for it in ANNOTATIONS]
        return sorted(set(self.data) - set(CONFIG)) + [it for it in notes if it not in known or it in older]

    def put(self, name, value, source):
        self.lines[name] = str(value), source

    @staticmethod
    def nearest(*sources):
        """Where a setting comes from that is made of two."""
        return next(it for it in ("revision", "config", "default") if it in sources)

    def member(self, name, default):
        value = self.spec.get(name)
        self.put(name, default if value is None else value, "default" if value is None else "revision")
        return int(self.lines[name][0])

    def told(self, key, default, notes=None, config=""):
        """The text of a key: in the first of its annotations that is there, else in the ConfigMap (None: never), else the default."""
        found = [(self.notes[PREFIX + it], "revision") for it in ([key] if notes is None else notes) if PREFIX + it in self.notes]
        if config is not None and (config or key) in self.data:
            found.append((self.data[config or key], "config"))
        text, source = (found + [(default, "default")])[0]
        self.put(key, shown(fractions.Fraction(text)) if re.fullmatch("[0-9.]+", text) else text, source)
        return text

    def told_ms(self, key, default, **where):
        ms = int(1000 * seconds(self.told(key, default, **where)))
        self.put(f"{key}-ms", ms, self.lines.pop(key)[1])
        return ms

    def targets(self, rps, concurrency):
        kind, default = ("requests-per-second", "200") if rps else ("container-concurrency", "100")
        self.told("target-total", default, notes=["target"], config=f"{kind}-target-default")
        total, source = self.lines["target-total"]
        self.total = fractions.Fraction(total)
        if not rps and concurrency > 0 and (source != "revision" or concurrency < self.total):
            self.total, source = fractions.Fraction(concurrency), "revision"
        self.put("target-total", shown(self.total), source)
        key = "target-utilization-percentage"
        share = fractions.Fraction(self.told(key, "70", config=None if rps else "container-concurrency-target-percentage"))
        if self.lines[key][1] == "config" and share <= 1:
            share *= 100
        self.put(key, shown(share), self.lines[key][1])
        self.target = max(fractions.Fraction(1, 100), self.total * share / 100)
        self.put("target", shown(self.target), self.nearest(source, self.lines[key][1]))

    def windows(self):
        self.window = int(seconds(self.told("stable-window", "60s", notes=["window"])))
        source = self.lines.pop("stable-window")[1]
        self.put("stable-window-s", self.window, source)
        share = fractions.Fraction(self.told("panic-window-percentage", "10"))
        self.panic_window = max(1, math.floor(self.window * share / 100))
        self.put("panic-window-s", self.panic_window, self.nearest(source, self.lines.pop("panic-window-percentage")[1]))
        self.threshold = fractions.Fraction(self.told("panic-threshold-percentage", "200"))


class Journal:
    """A good journal: its setup, start and events, and what the setup says of the timeout (ms) and of the pods at first."""

    def __init__(self, text):
        lines = iter([it.rstrip("\r") for it in text.split("\n")])
        next(lines)
        kind, *fields = next(lines).split(" ")
        self.setup = dict(it.split("=") for it in fields)
        self.fixed = kind == "fixed"
        if self.fixed:
            self.timeout, self.wanted = 1000 * int(self.setup["timeout"]), int(self.setup["pods"])
        else:
            self.settings = Settings(self.block(lines), self.block(lines), self.setup)
            self.timeout, self.wanted = self.settings.timeout, max(self.settings.least, self.settings.initial)
        self.start = int(next(lines).split(" ")[1])
        self.events = []
        while (line := next(lines)) != "end":
            time, word, *numbers = line.split(" ")
            self.events.append((int(time), word, numbers))
        self.to = self.events[-1][0] if self.events else self.start

    @staticmethod
    def block(lines):
        next(lines)
        text = []
        while (line := next(lines)) != ".":
            text.append(line)
        return json.loads("\n".join(text))


@dataclasses.dataclass
class Row:
    """A row of the report, and what held just before it: Ready pods, the most of them so far, the phase, its beginning, and what was wanted."""

    time: int
    kind: str
    words: list
    ready: int = None
    most_ready: int = None
    phase: str = None
    since: int = None
    wanted: int = None

    def number(self):
        return int(self.words[0])

    def decided(self):
        return dict(it.split("=") for it in self.words)


@dataclasses.dataclass
class Request:
    number: int
    tag: str
    arrived: int
    way: str = ""
    outcome: str = "live"
    pod: str = ""
    ran_at: int = None
    ended: int = None

    def waited(self):
        """None where it waits still."""
        until = self.ended if self.ran_at is None else self.ran_at
        return None if until is None else until - self.arrived

    def ran(self):
        return None if self.ran_at is None or self.ended is None else self.ended - self.ran_at


@dataclasses.dataclass
class Pod:
    created: int
    ready: int = None
    unready: int = None
    gone: int = None


@dataclasses.dataclass
class Moment:
    """How many of each there are after an event."""

    time: int
    ready: int
    starting: int
    draining: int
    wanted: int
    held: int
    queued: int
    running: int

    def gauges(self):
        return [self.ready, self.starting, self.draining, self.wanted, self.held, self.queued, self.running]

    def pods(self):
        return self.ready + self.starting + self.draining

    def live(self):
        return self.held + self.queued + self.running


class Trace:
    """What became of a journal's requests and pods: the rows of its report, parted by its events."""

    def __init__(self, journal, report):
        lines = report.split("\n")
        assert lines[-2].startswith("end ") and lines[-1] == "", "the report has no last line"
        self.rows = [Row(int(time), kind, words) for time, kind, *words in (it.split(" ") for it in lines[:-2])]
        self.journal, self.wanted, self.at = journal, journal.wanted, 0
        self.requests, self.pods = [], []
        self.over = []  # the requests that ended or were refused, in the order of these rows
        self.cold = self.most_ready = 0
        self.phase = self.since = None
        self.held, self.queued, self.running = set(), set(), set()
        self.starting, self.ready, self.draining = set(), set(), set()
        self.moments = []
        self.opening()
        for event in journal.events:
            self.event(*event)
        assert self.at == len(self.rows), "rows behind the last event's"

    def next_is(self, kinds, time):
        return self.at < len(self.rows) and self.rows[self.at].kind in kinds and self.rows[self.at].time == time

    def take(self, kinds, time):
        assert self.next_is(kinds, time), f"row {self.at + 1} is none of {kinds} at {time}"
        row = self.rows[self.at]
        self.at += 1
        self.follow(row)
        return row

    def take_all(self, kinds, time):
        while self.next_is(kinds, time):
            self.take(kinds, time)

    def settled(self, time):
        groups = self.ready, self.starting, self.draining, self.held, self.queued, self.running
        ready, starting, draining, *requests = (len(it) for it in groups)
        self.moments.append(Moment(time, ready, starting, draining, self.wanted, *requests))

    def opening(self):
        if not self.journal.fixed:
            self.take(["phase"], self.journal.start)
        for _ in range(self.journal.wanted):
            self.take(["create"], self.journal.start)
        self.settled(self.journal.start)

    def event(self, time, word, numbers):
        if word == "arrive":
            self.requests.append(Request(len(self.requests), numbers[0], time))
        self.take_all(["expire"], time)
        if word == "lost":
            self.take_all(["lost-request"], time)
            self.take(["lost-pod", "no-pod"], time)
        elif word != "pass" and not (word == "tick" and self.journal.fixed):
            row = self.take(FIRST[word], time)
            if row.kind == "admit" and self.wanted == 0 and not self.journal.fixed:
                self.take(["decision"], time)
        self.take_all(LATER, time)
        self.settled(time)

    def follow(self, row):
        """Does what a row says."""
        self.most_ready = max(self.most_ready, len(self.ready))
        row.ready, row.most_ready, row.phase, row.since, row.wanted = len(self.ready), self.most_ready, self.phase, self.since, self.wanted
        if row.kind == "decision":
            self.wanted = int(row.decided()["want"])
        elif row.kind == "phase":
            self.phase, self.since = row.words[0], row.time
        elif row.kind in ("create", "ready", "drain", "remove", "lost-pod"):
            self.follow_pod(row.kind, row.time, row.number())
        elif row.kind in ("admit", "direct", "assign", "run", "finish", *REFUSED, *ENDS):
            self.follow_request(row, self.requests[row.number()])

    def follow_pod(self, kind, time, number):
        if kind == "create":
            assert number == len(self.pods)
            self.pods.append(Pod(time))
            self.starting.add(number)
            return
        pod = self.pods[number]
        if kind != "ready" and number in self.ready:
            pod.unready = time
        for group in (self.starting, self.ready, self.draining):
            group.discard(number)
        if kind == "ready":
            pod.ready = time
            self.ready.add(number)
        elif kind == "drain":
            self.draining.add(number)
        else:
            pod.gone = time

    def follow_request(self, row, request):
        if row.kind == "admit":
            request.way = "proxied"
            self.held.add(request.number)
            self.cold += not self.ready
        elif row.kind == "direct":
            request.way, request.pod = "direct", row.words[1]
            self.queued.add(request.number)
        elif row.kind in ("assign", "run"):
            request.ran_at = row.time
            request.pod = row.words[1] if row.kind == "assign" else request.pod
            self.held.discard(request.number)
            self.queued.discard(request.number)
            self.running.add(request.number)
        else:
            self.end(row, request)

    def end(self, row, request):
        request.ended = row.time
        self.over.append(request)
        if row.kind in REFUSED:
            request.way, request.outcome = "refused", row.kind
            request.pod = "" if row.kind == "overload" or row.words[1] == "-" else row.words[1]
        elif row.kind == "finish":
            request.outcome = {"ok": "ok", "fail": "failed"}[row.words[1]]
        else:
            request.outcome = ENDS[row.kind]
        for group in (self.held, self.queued, self.running):
            group.discard(request.number)

    def count(self, *kinds):
        return sum(it.kind in kinds for it in self.rows)


def requests_text(trace):
    lines = ["request,tag,arrived,way,outcome,ended,pod,waited,ran"]
    for it in trace.over + [it for it in trace.requests if it.ended is None]:
        fields = it.number, it.tag, it.arrived, it.way, it.outcome, it.ended, it.pod, it.waited(), it.ran()
        lines.append(",".join("" if field is None else str(field) for field in fields))
    return "\n".join(lines) + "\n"


def least_with(waits, thousandths):
    """The least wait that at least so many thousandths of these sorted ones do not exceed."""
    return next(it for it in waits if 1000 * bisect.bisect_right(waits, it) >= thousandths * len(waits))


def summary_text(trace):
    journal, outcomes = trace.journal, collections.Counter(it.outcome for it in trace.requests)
    ways = collections.Counter(it.way for it in trace.requests)
    figures = {"from": journal.start, "to": journal.to, "events": len(journal.events), "requests": len(trace.requests)}
    figures |= {"admitted": ways["proxied"], "direct": ways["direct"]}
    figures |= {it: outcomes[it] for it in (*REFUSED, "ok", "failed", "expired", "cancelled", "lost", "live")}

    waits = sorted(it.waited() for it in trace.requests if it.ran_at is not None)
    figures["ran"] = len(waits)
    for name, thousandths in (("p50", 500), ("p90", 900), ("p99", 990), ("p999", 999), ("max", 1000)):
        figures[f"waited-{name}"] = least_with(waits, thousandths) if waits else "-"
    figures |= {"waited-sum": sum(waits), "cold": trace.cold}

    decisions = [it for it in trace.rows if it.kind == "decision"]
    figures["wakes"] = sum(it.wanted == 0 < int(it.decided()["want"]) for it in decisions)
    figures |= {"decisions": len(decisions), "no-data": trace.count("no-data")}
    figures["panicking"] = sum(it.decided()["panicking"] == "yes" for it in decisions)

    moments = trace.moments
    figures |= {"pods": len(trace.pods), "pods-peak": max(it.pods() for it in moments), "ready-peak": max(it.ready for it in moments)}
    figures |= {"held-peak": max(it.held for it in moments), "live-peak": max(it.live() for it in moments)}
    figures["at-zero-ms"] = sum(b.time - a.time for a, b in zip(moments, moments[1:]) if a.pods() == 0)

    def until(end):
        return journal.to if end is None else end

    figures["pod-ms"] = sum(until(it.gone) - it.created for it in trace.pods)
    figures["ready-ms"] = sum(until(it.unready) - it.ready for it in trace.pods if it.ready is not None)
    figures["running-ms"] = sum(until(it.ended) - it.ran_at for it in trace.requests if it.ran_at is not None)
    figures["wanted-changes"] = sum(it.wanted != int(it.decided()["want"]) for it in decisions)
    return "".join(f"{name} {value}\n" for name, value in figures.items())


def series_text(trace, step):
    start = trace.journal.start

    def at(time):
        return (time - start) // step

    counts = collections.defaultdict(collections.Counter)
    for it in trace.requests:
        counts[at(it.arrived)]["arrived"] += 1
    for it in trace.over:
        name = "refused" if it.outcome in REFUSED else "ended"
        counts[at(it.ended)][name] += 1
        counts[at(it.ended)][it.outcome] += 1
    waits = collections.defaultdict(list)
    for it in trace.requests:
        if it.ran_at is not None:
            waits[at(it.ran_at)].append(it.waited())
    for it in trace.rows:
        counts[at(it.time)]["decisions"] += it.kind == "decision"

    last = at(trace.journal.to)
    filled = {0} | {at(it.time) for it in trace.rows if it.kind != "no-data"}
    times = [it.time for it in trace.moments]
    lines = [SERIES.replace(" ", ",")]
    for k in sorted(it for it in filled | {it + 1 for it in filled} | {last} if it <= last):
        time = start + k * step
        before, behind = bisect.bisect_left(times, time), bisect.bisect_left(times, time + step)
        held = [it.held for it in trace.moments[max(0, before - 1) : behind]]
        of = counts[k]
        fields = [time, *trace.moments[behind - 1].gauges()]
        fields += [of[it] for it in ("arrived", "refused", "ended", "failed", "expired", "decisions")]
        fields += [len(waits[k]), sum(waits[k]), max(waits[k], default=0), max(held)]
        lines.append(",".join(str(it) for it in fields))
    return "\n".join(lines) + "\n"


def difference(written, wanted):
    """Says where two texts differ first; nothing where they are the same."""
    if written == wanted:
        return None
    a, b = written.split("\n"), wanted.split("\n")
    k = next(i for i in range(max(len(a), len(b))) if a[i : i + 1] != b[i : i + 1])
    return f"line {k + 1}: {' '.join(a[k : k + 1])[:200]!r}, by the definition {' '.join(b[k : k + 1])[:200]!r}"


def pods(count):
    return f"{count} pod" if int(count) == 1 else f"{count} pods"


@dataclasses.dataclass
class Past:
    """A decision: whether it is over the threshold, and in panic; the greater of its two counts; its count before the delay."""

    time: int
    over: bool
    panicking: bool
    most: int
    undelayed: int


class Reasons:
    """The lines of decisions, by the rules of a decision and the averages of its row."""

    def __init__(self, settings):
        self.settings, self.past = settings, []

    def lines(self, row):
        """The lines of a decision but for its first, without their time."""
        self.row, self.change, self.said = row, "the load or the target", []
        count = self.undelayed()
        count = self.bounded(self.delayed(count))
        if count == 0:
            self.zero()
        self.burst()
        return [*self.said, f"to change this: {self.change}"]

    def hold(self, line, change):
        self.said.append(line)
        self.change = change

    def average(self, name, window, more=""):
        """What an average asks for, and the count that the rates and the activation scale make of it."""
        settings, most = self.settings, max(1, self.row.ready)
        average = self.row.decided()[name]
        asked = math.ceil(fractions.Fraction(average) / settings.target)
        self.said.append(f"{name} window {window} s: {average} requests{more}: {pods(asked)}")
        up, down, count = math.ceil(settings.up * most), math.floor(most / settings.down), asked
        if asked > up:
            count = up
            self.hold(f"max-scale-up-rate {shown(settings.up)}: at most {pods(up)}", "max-scale-up-rate")
        elif asked < down:
            count = down
            self.hold(f"max-scale-down-rate {shown(settings.down)}: at least {pods(down)}", "max-scale-down-rate")
        if 0 < count < settings.activation:
            count = settings.activation
            self.hold(f"activation-scale {count}: {pods(count)}", "activation-scale")
        return asked, count

    def undelayed(self):
        settings, time = self.settings, self.row.time
        _, stable = self.average("stable", settings.window, f", target {shown(settings.target)}")
        change = self.change
        asked, panic = self.average("panic", settings.panic_window)
        self.change = change
        over = asked * 100 >= settings.threshold * max(1, self.row.ready)
        overs = [it.time for it in self.past if it.over] + [time] * over
        panicking = bool(overs) and time - overs[-1] <= 1000 * settings.window
        run = itertools.takewhile(lambda it: it.panicking, reversed(self.past))
        earlier, count = max((it.most for it in run), default=0), stable
        if panicking:
            count = max(stable, panic, earlier)
            if over:
                beside = f"{max(1, self.row.ready)} ready: at least {shown(settings.threshold)} per cent"
                self.said.append(f"panic: {pods(asked)} asked for, {beside}")
                if earlier > max(stable, panic):
                    self.said.append(f"panic: the most asked for since it began: {pods(earlier)}")
            else:
                self.said.append(f"panic goes on: not below {pods(count)}")
            if count != stable:
                self.change = "panic-threshold-percentage"
        self.past.append(Past(time, over, panicking, max(stable, panic), count))
        return count

    def delayed(self, count):
        second, delay = self.row.time // 1000, self.settings.delay
        delayed = max([count] + [it.undelayed for it in self.past if second - it.time // 1000 < delay])
        if delayed > count:
            self.hold(f"scale-down-delay {delay} s: still {pods(delayed)}", "scale-down-delay")
        return delayed

    def bounded(self, count):
        settings = self.settings
        initial = settings.initial if self.row.most_ready < settings.initial else 0
        if count < max(initial, settings.least):
            count = max(initial, settings.least)
            if initial > settings.least:
                self.hold(f"initial-scale {initial}, never reached yet: {pods(count)}", "initial-scale")
            else:
                self.hold(f"min-scale {settings.least}: {pods(count)}", "min-scale")
        elif count > 500 and not 0 < settings.most <= 500:
            count = 500
            self.hold("no more than 500 pods", "none, 500 is the most")
        elif 0 < settings.most < count:
            count = settings.most
            self.hold(f"max-scale {count}: {pods(count)}", "max-scale")
        return count

    def zero(self):
        settings, row = self.settings, self.row
        lasted, window = row.time - row.since, 1000 * settings.window
        if not settings.to_zero:
            self.hold("scale to zero is off: 1 pod", "enable-scale-to-zero")
        elif row.phase == "activating":
            self.hold(f"activating: stays at {pods(row.wanted)}", "a pod becomes ready")
        elif row.phase == "active" and lasted < window:
            self.hold(f"active for {lasted} of {window} ms: 1 pod", "stable-window")
        elif row.phase == "active":
            self.hold(f"active for {lasted} ms, {window} at least: goes inactive, and the pods stay for now", "stable-window")
        else:
            longer = "pod-retention" if settings.retention > settings.grace else "grace"
            if row.decided()["applied"] == "yes":
                self.said.append(f"inactive for {lasted} ms: 0 pods")
            else:
                enough = f"not yet long enough (grace {settings.grace}, retention {settings.retention})"
                self.said.append(f"inactive for {lasted} ms, {enough}: the pods stay")
            self.change = f"scale-to-zero-{longer}-period"

    def burst(self):
        settings, decided, ready = self.settings, self.row.decided(), self.row.ready
        way = {"proxy": "through the activator", "serve": "straight to the pods"}[decided["mode"]]
        if settings.burst == 0:
            self.said.append(f"no burst capacity asked for: {way}")
        elif settings.burst == -1:
            self.said.append(f"burst capacity unlimited: {way}")
        else:
            left = math.floor(ready * settings.total - settings.burst - fractions.Fraction(decided["panic"]))
            parts = f"{ready} ready of {shown(settings.total)}, less {shown(settings.burst)}, less {decided['panic']}"
            self.said.append(f"burst capacity: {parts}: {left} left: {way}")


def sentence(trace, row):
    """The line of a refusal, or of an end without an answer."""
    setup, request = trace.journal.setup, trace.requests[row.number()]
    begin = f"{row.time} request {row.words[0]} "
    if row.kind == "overload":
        return begin + "refused: 20000 requests are live"
    if row.kind == "queue-full" and request.pod:
        return begin + f"refused: pod {request.pod} is full, 11 requests for each of its limit"
    if row.kind == "queue-full":
        slots = int(setup["depth"]) + int(setup["max"])
        return begin + f"refused: the activator's breaker is full, {slots} slots (depth {setup['depth']}, max {setup['max']})"
    if row.kind == "expire":
        ready = f"{pods(row.ready)} ready" if row.ready else "no pod was ready"
        return begin + f"expired: waited {request.waited()} ms of {trace.journal.timeout}, {ready}"
    return begin + (f"cancelled: waited {request.waited()} ms" if row.kind == "cancel" else f"lost with pod {request.pod}")


def reasons_text(trace):
    lines, reasons = [], None if trace.journal.fixed else Reasons(trace.journal.settings)
    for row in trace.rows:
        if row.kind == "decision":
            lines.append(f"{row.time} decision: {pods(row.decided()['want'])} wanted, {pods(row.ready)} ready")
            lines += [f"{row.time}   {it}" for it in reasons.lines(row)]
        elif row.kind == "no-data":
            lines.append(f"{row.time} no decision: no sample in the last {trace.journal.settings.window} s")
        elif row.kind in REFUSED or row.kind in ENDS:
            lines.append(sentence(trace, row))
    return "".join(f"{it}\n" for it in lines)


def in_one_line(key):
    return re.sub(r"[\x00-\x1f]", lambda it: f"\\u{ord(it[0]):04x}", key.replace("\\", "\\\\"))


def settings_text(journal):
    if journal.fixed:
        return "".join(f"{it} {journal.setup[it]} setup\n" for it in FIXED)
    lines = [f"{name} {value} {source}\n" for name, (value, source) in journal.settings.lines.items()]
    return "".join(lines + [f"ignored {in_one_line(it)}\n" for it in journal.settings.ignored()])


def said(program, words, data):
    """What a program writes of this input, and what is wrong with how it ended."""
    ended = subprocess.run([program, *words], input=data, stdout=subprocess.PIPE, stderr=subprocess.PIPE, timeout=60)
    fault = f"status {ended.returncode}: {ended.stderr.decode()[:200].strip()}" if ended.returncode or ended.stderr else None
    return ended.stdout.decode(), fault


def faults_of(kact, kact_show, path):
    """Gives the words of each check of a journal, with what is wrong (None: nothing)."""
    with open(path, "rb") as file:
        data = file.read()
    report, fault = said(kact, ["replay"], data)
    if fault:
        return [("replay", fault)]
    try:
        trace = Trace(Journal(data.decode()), report)
    except (AssertionError, LookupError, ValueError, StopIteration) as fault:
        return [("replay", f"this journal and its report can't be followed: {fault!r}")]
    texts = {"requests": requests_text(trace), "summary": summary_text(trace), "reasons": reasons_text(trace)}
    texts |= {f"series {step}": series_text(trace, step) for step in STEPS}
    texts["settings"] = settings_text(trace.journal)
    faults = []
    for words, text in texts.items():
        written, fault = said(kact_show, words.split(), data)
        faults.append((words, fault or difference(written, text)))
    return faults


def main():
    if len(sys.argv) < 4:
        sys.exit(__doc__)
    kact, kact_show, *paths = sys.argv[1:]
    passed = failed = 0
    with concurrent.futures.ThreadPoolExecutor(4) as pool:
        for path, faults in zip(paths, pool.map(lambda path: faults_of(kact, kact_show, path), paths)):
            for words, fault in faults:
                passed, failed = passed + (fault is None), failed + (fault is not None)
                if fault:
                    print(f"{path}: {words}: {fault}")
    print(f"{passed} passed, {failed} failed")
    sys.exit(1 if failed else 0)


if __name__ == "__main__":
    main()
