#!/usr/bin/env -S python3 -B
"""What texts come to by the built programs: `./texts.py [SUBJECT..]`. Numbers, durations, ConfigMaps, Revisions, lines of
setups and of events, journals, bundles and lists of setups: each bound with the value beside it, and each cause; journals
cut after each byte; and what no line of a table says.

A line of texts/table is a case: SUBJECT TEXT => STATUS TOLD | OUTPUT. TOLD is what is told on standard error behind the
program's name; of an event, a setup's line, a ConfigMap and a Revision behind its line's number and kind too. OUTPUT is the
report, `ROW; ROW; end N`, where the last stands for the last line of N events (`end N lost` in a journal 2); of an event
its own rows alone; of settings lines that are among those written; of a workload the journal. Where there is none, nothing
is written. In a text `\\n` is LF, `\\r` CR, `\\x20` a byte, `\\[3:x]` xxx, `\\{NAME}` what a line `let NAME TEXT` says, and
`@NAME` the file of that name beside the table. Below a `cut` stands how its first N bytes end, and more of them up to the
next N.
"""

import dataclasses
import pathlib
import subprocess
import sys
import typing

from command import READ_FAILED, Call, Directory, Ended, File, Packets, judge_all, told_by
from session import program
from table import Line, block_of, last_line, read_table, report_of

# The sizes of packets by which a short journal comes, and that of a long one.
SIZES, LONG = (1, 2, 7), 4096
SHORT = 1000
# Behind a first line: fixed pods, and a start.
START = "fixed limit=1 depth=1 max=1 pods=%d timeout=300 seed=0\nstart 0\n"
# The last line, long enough that the one before it may be read several bytes at once: CRs before an LF belong to it.
END = "end" + 64 * "\r" + "\n"
OVERLOADED = pathlib.Path(__file__).resolve().parent / "rows/data/show_summary_overload.journal"
REVISION = '{"metadata":{"namespace":"default","name":"hello-00001"%s}%s}'
PLAIN = REVISION % ("", "")
RPS = REVISION % (',"annotations":{"autoscaling.knative.dev/metric":"rps"}', "")


@dataclasses.dataclass(frozen=True)
class Case:
    """The calls of a line of the table."""

    line: Line

    @property
    def name(self):
        return f"line {self.line.number}, {self.line.subject} {self.line.text[:80]!r}"

    def calls(self):
        return SUBJECTS[self.line.subject](self.line)


@dataclasses.dataclass(frozen=True)
class Special:
    """A case that is no line of the table."""

    name: str
    calls: typing.Callable


def bytes_of(text):
    return text.encode("latin-1")


def inputs(text):
    """A file, and packets: of each size where there are few bytes."""
    given = bytes_of(text)
    return [File(given), *(Packets(given, size) for size in (SIZES if len(given) <= SHORT else (LONG,)))]


# ---- journals


def event(line, versions=(1, 2)):
    """The line of an event, in both versions, while a request runs on the first of three pods: from a file, where its
    bytes may be read several at once, and by packets, where they aren't."""
    before = [*(f"0 create {pod} 1" for pod in range(3)), "0 ready 0", "0 admit 0 7", "0 assign 0 0"]
    for version in versions:
        given = bytes_of(f"kact journal {version}\n{START % 3}0 ready 0\n0 arrive 7\n{line.text}\n{END}")
        rows = [*before, *line.due.output]
        if line.due.status == 0:
            rows.append("end 3" + " lost" * (version == 2))
        due = line.due.ended("kact", "line 6: ", report_of(rows))
        for way in File(given), Packets(given, 7):
            yield Call("kact", ("replay",), way, due)


def first_version(line):
    return event(line, (1,))


def second_version(line):
    return event(line, (2,))


def replayed(line, *words):
    return [Call("kact", ("replay", *words), it, line.due.ended("kact")) for it in inputs(line.text)]


def events(line):
    """What stands behind a start."""
    due = dataclasses.replace(line.due, output=("0 create 0 1", *line.due.output))
    return replayed(dataclasses.replace(line, text=f"kact journal 1\n{START % 1}{line.text}", due=due))


def bundle(line):
    """Journals one after the other, and in front which one's report is wanted."""
    number, _, text = line.text.partition(" ")
    return replayed(dataclasses.replace(line, text=text), number)


def cut(line):
    """Each number of first bytes of a journal."""
    starts = [count for count, _ in line.cuts]
    for count in range(len(line.text) + 1):
        due = line.cuts[sum(start <= count for start in starts) - 1][1]
        front = Packets(bytes_of(line.text[:count]), (*SIZES, LONG)[count % 4])
        yield Call("kact", ("replay",), front, due.ended("kact"))


def workload(line):
    """The journal that is written has the setup's own text."""
    due = line.due.ended("kact", wrote=bytes_of("".join(f"{it}\n" for it in line.due.output)))
    return [Call("kact", ("simulate",), it, due) for it in inputs(line.text)]


# ---- settings


def settings(line, opening, head):
    """What `kact_show` says of a setup, and that `kact` takes it; or that both refuse it."""
    given = bytes_of(f"{opening}start 0\nend\n")
    packets = Packets(given, SIZES[-1] if len(given) <= SHORT else LONG)
    for name, words, way, among in (
        ("kact_show", ("settings",), File(given), line.due.output),
        ("kact", ("replay",), packets, (last_line((), 0, False),)),
    ):
        yield Call(name, words, way, line.due.ended(name, head, b""), among=None if line.due.status else among)


def setup(line):
    """The second line of a journal."""
    return settings(line, f"kact journal 1\n{line.text}\n", "line 2: bad setup: ")


def scaled(line, refused, config, revision):
    """A ConfigMap and a Revision. The one that is refused is named by the line behind its last one."""
    opening = f"kact journal 1\nkpa depth=10000 max=1000 seed=0\nconfig\n{config}\n"
    blocks = f"{opening}.\nrevision\n{revision}\n"
    number = 1 + (opening if refused == "config" else blocks).count("\n")
    return settings(line, f"{blocks}.\n", f"line {number}: bad {refused}: ")


def config(line):
    """A key with its text, alone in a ConfigMap."""
    key, _, text = line.text.partition(" ")
    revision = RPS if key == "requests-per-second-target-default" else PLAIN
    return scaled(line, "config", f'{{"data":{{"{key}":"{text}"}}}}', revision)


def configmap(line):
    return scaled(line, "config", block_of(line.text), PLAIN)


def annotation(line):
    """An annotation with its text, over a ConfigMap in which no setting is the one without it."""
    name, _, text = line.text.partition(" ")
    member = f',"annotations":{{"autoscaling.knative.dev/{name}":"{text}"}}'
    return scaled(line, "revision", block_of("@settings.json"), REVISION % (member, ""))


def field(line):
    """A member of the Revision's specification, over the same ConfigMap."""
    name, _, text = line.text.partition(" ")
    return scaled(line, "revision", block_of("@settings.json"), REVISION % ("", f',"spec":{{"{name}":{text}}}'))


def over(line):
    """A ConfigMap, and behind a space a Revision."""
    blocks = map(block_of, line.text.split(" ", 1))
    return scaled(line, "revision", *blocks)


# ---- what `kactd` reads


def served(line, pods, *words):
    command = (*words, "--listen", "127.0.0.1:0", "--pods", pods)
    return [Call("kactd", command, it, line.due.ended("kactd")) for it in inputs(line.text)[:2]]


def session(line):
    """A setup, behind which nothing may stand."""
    return served(line, "127.0.0.1:1")


def setups(line):
    """A list of two setups."""
    return served(line, "127.0.0.1:1;127.0.0.1:2", "many")


SUBJECTS = {
    "event": event,
    "event1": first_version,
    "event2": second_version,
    "events": events,
    "journal": replayed,
    "bundle": bundle,
    "cut": cut,
    "workload": workload,
    "setup": setup,
    "config": config,
    "configmap": configmap,
    "annotation": annotation,
    "field": field,
    "over": over,
    "session": session,
    "setups": setups,
}


# ---- what no line of the table says


def bytes_beside():
    """Each bit of the byte at some places of two usual lines, among them the ends of all numbers and words: another byte
    is another fault."""
    for text, places in (
        ("12 finish 34 ok", {2: "bad time", 9: "unknown word", 12: "bad number at 10", 15: "unknown word"}),
        ("12345678 tick", {8: "bad time", 9: "unknown word", 12: "unknown word", 13: "unknown word"}),
    ):
        for place, told in places.items():
            for bit in range(8):
                given = bytearray(f"kact journal 1\n{START % 1}{text}\n{END}".encode())
                given[-len(END) - 1 - len(text) + place] ^= 1 << bit
                due = Ended(3, b"0 create 0 1\n", told_by("kact", f"line 4: {told}"))
                yield Call("kact", ("replay",), File(bytes(given)), due)


def many_events():
    """Ten thousand events of four kinds, one each millisecond, by packets of a hundred bytes. Two requests are held, and
    all others find the queue full."""
    acts = "arrive {0}", "limit {0} 1000", "finish {0} ok", "lost {0}"
    answers = "queue-full {1} -", "no-pod {0}", "not-running {0}", "no-pod {0}"
    lines, rows = [], ["0 create 0 1"]
    for time in range(10_000):
        request = time // 4
        answer = "admit {1} {0}" if time % 4 == 0 and request < 2 else answers[time % 4]
        lines.append(f"{time} {acts[time % 4]}\n".format(time))
        rows.append(f"{time} {answer}".format(time, request))
    journal = f"kact journal 2\n{START % 1}{''.join(lines)}end\n"
    due = Ended(0, report_of([*rows, "end 10000 lost"]), b"")
    yield Call("kact", ("replay",), Packets(journal.encode(), 100), due)


def overload():
    """The one kind of row that no report of the rows has: of 20,002 requests the last two find 20,000 alive."""
    rows = "1000 overload 20000", "1000 overload 20001"
    yield Call("kact", ("replay",), File(OVERLOADED.read_bytes()), Ended(0, b"", b""), among=rows)


def want_of_memory():
    """However little memory there is, a replay ends well or tells that it lacks some, unless the system can't even start
    it. With more it ends well."""
    journal = f"kact journal 1\n{START % 1}end\n"
    well = Ended(0, report_of(["0 create 0 1", "end 0"]), b"")
    lacking = Ended(7, b"", told_by("kact", "out of memory"))
    not_started = Ended(127, b"", b"")
    said = set()
    for megabytes in range(4, 256, 4):
        command = ["sh", "-c", f'ulimit -v {megabytes * 1024}; exec "$0" replay', program("kact")]
        ran = subprocess.run(command, input=journal.encode(), capture_output=True, timeout=60)
        said.add(Ended(ran.returncode, ran.stdout, b"" if ran.returncode == not_started.status else ran.stderr))
        if ran.returncode == 0:
            break
    yield "" if {well, lacking} <= said <= {well, lacking, not_started} else f"{said}"


def directories():
    """Each command that reads, of a directory."""
    kact = [("replay",), ("replay", "0"), ("simulate",), ("slices",)]
    kact_show = [("reasons",), ("requests",), ("summary",), ("series", "1"), ("settings",)]
    for name, commands in (("kact", kact), ("kact_show", kact_show)):
        for words in commands:
            yield Call(name, words, Directory(), Ended(5, b"", told_by(name, READ_FAILED)))


SPECIAL = (bytes_beside, many_events, overload, want_of_memory, directories)


def main(names):
    cases = [Case(line) for line in read_table() if not names or line.subject in names]
    cases += [Special(it.__name__, it) for it in SPECIAL if not names or it.__name__ in names]
    return judge_all(cases, ("kact", "kact_show", "kactd"))


if __name__ == "__main__":
    sys.exit(main(sys.argv[1:]))
