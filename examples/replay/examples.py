#!/usr/bin/env -S python3 -B
"""The journals, workloads and shared pods of examples/ by the built programs: `./examples.py [NAME..]`.

`kact replay` of NAME.journal must write NAME.report and tell NAME.err (none: nothing), with the status of NAME.status (none: 0); `kact simulate` of
NAME.workload NAME.journal; `kact slices` of NAME.slices NAME.report; `kact_show` of NAME.journal NAME.requests, NAME.summary and NAME.series (in steps of a
second). Of each worked journal all forms of `kact_show` are compared with what tools/forms.py reads out of the report. `kact` must also write the rows of
the lines that a pipe has given before it waits for the next, and simulate a workload of as many jobs as there may be and refuse one more.
"""

import functools
import pathlib
import subprocess
import sys

TOP = pathlib.Path(__file__).resolve().parents[2]
sys.path.insert(1, str(TOP / "examples/serve"))

from session import program, run, want  # noqa: E402

EXAMPLES = TOP / "examples"
ROWS = TOP / "examples/replay/rows"
SETUP = "fixed limit=1 depth=1 max=1 pods=1 timeout=1 seed=0\nstart 0\n"
MOST_JOBS = 100_000


def called(name, words, given):
    """What the program makes of these bytes on standard input: status, standard output and standard error."""
    ran = subprocess.run([program(name), *words], input=given, capture_output=True)
    return ran.returncode, ran.stdout, ran.stderr


def text_of(file, absent=b""):
    return file.read_bytes() if file.exists() else absent


def replayed(journal):
    wanted = int(text_of(journal.with_suffix(".status"), b"0")), text_of(journal.with_suffix(".report")), text_of(journal.with_suffix(".err"))
    want(called("kact", ["replay"], journal.read_bytes()) == wanted, "another report, text or status")


def made_of(name, words, given, wanted):
    """The program must make the one file of the other."""
    status, wrote, told = called(name, words, given.read_bytes())
    want((status, wrote) == (0, wanted.read_bytes()), f"status {status}, {told.decode()!r}, or another text")


def all_forms():
    """Of the worked journals that are replayed to their end, beside a reading of the definitions by another program."""
    rows = [line.split() for line in (ROWS / "list").read_text().splitlines()]
    journals = [ROWS / "data" / f"{words[0]}.journal" for words in rows if words[1:] == ["0", "replay"]]
    want(len(journals) > 70, f"only {len(journals)} journals")
    ran = subprocess.run([TOP / "tools/forms.py", program("kact"), program("kact_show"), *journals], capture_output=True, text=True)
    want(ran.returncode == 0, ran.stdout[-2000:] + ran.stderr[-2000:])


def rows_of_a_pipe():
    """A journal up to its third event, by a pipe that stays open: its rows come before the next line does."""
    lines = (EXAMPLES / "one_seat_one_waits.journal").read_bytes().splitlines(keepends=True)
    report = (EXAMPLES / "one_seat_one_waits.report").read_bytes()
    early = b"".join(report.splitlines(keepends=True)[:5])
    with subprocess.Popen([program("kact"), "replay"], stdin=subprocess.PIPE, stdout=subprocess.PIPE) as kact:
        kact.stdin.write(b"".join(lines[:6]))
        kact.stdin.flush()
        came = b""
        while len(came) < len(early):
            came += kact.stdout.read1(len(early) - len(came))
            want(early.startswith(came), f"the pipe gave {came}")
        kact.stdin.write(b"".join(lines[6:]))
        kact.stdin.close()
        want(came + kact.stdout.read() == report, "another report")
        want(kact.wait() == 0, "another status")


def most_jobs():
    """A workload of 100,000 jobs, all at time 0, which a pod that is ready at once runs one after the other, without time; one more is refused without output."""
    jobs = "".join(f"0 job {job} 0\n" for job in range(MOST_JOBS))
    opening = f"kact workload 1\n{SETUP}boot 0\nuntil 0\n"
    events = "".join(f"0 arrive {job}\n0 finish {job} ok\n" for job in range(MOST_JOBS))
    journal = f"kact journal 1\n{SETUP}0 ready 0\n{events}end\n"
    want(called("kact", ["simulate"], f"{opening}{jobs}end\n".encode()) == (0, journal.encode(), b""), "another journal")
    refused = 3, b"", b"kact: line 100006: too many jobs\n"
    want(called("kact", ["simulate"], f"{opening}{jobs}0 job {MOST_JOBS} 0\nend\n".encode()) == refused, "one more is not refused")


def cases():
    found = {f"replay_{it.stem}": functools.partial(replayed, it) for it in sorted(EXAMPLES.glob("*.journal"))}
    for name, words, ending, made in (
        ("kact", ["simulate"], ".workload", ".journal"),
        ("kact", ["slices"], ".slices", ".report"),
        ("kact_show", ["requests"], ".journal", ".requests"),
        ("kact_show", ["summary"], ".journal", ".summary"),
        ("kact_show", ["series", "1000"], ".journal", ".series"),
    ):
        for given in sorted(EXAMPLES.glob(f"*{ending}")):
            if given.with_suffix(made).exists():
                found[f"{words[0]}_{given.stem}"] = functools.partial(made_of, name, words, given, given.with_suffix(made))
    return found | {"all_forms": all_forms, "rows_of_a_pipe": rows_of_a_pipe, "most_jobs": most_jobs}


if __name__ == "__main__":
    sys.exit(run(cases(), sys.argv[1:]))
