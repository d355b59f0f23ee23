#!/usr/bin/env -S python3 -B
"""kactd where no thread can be made: it says so, serves its slots one after another in the thread that it has, and
ends.

Its ticker's turns come after the last slot then, so no pod gets ready while a client waits: each request expires."""

import collections
import os
import resource
import shutil
import sys
import tempfile

from session import Scripted, Session, answers, ask, fixed, outcomes, program, run, want

# a user who runs nothing else: its processes are counted together
NOBODY = 60000 + os.getpid() % 5000
TOLD = "kactd: no thread can be made, so everything is done in one\n"


def no_threads():
    """The user may have one process, which is this one."""
    resource.setrlimit(resource.RLIMIT_NPROC, (1, 1))
    if os.getuid() == 0:
        os.setgroups([])
        os.setgid(NOBODY)
        os.setuid(NOBODY)


def one_thread(folder):
    # (nobody may not be let into the folder of the repository)
    os.chmod(folder, 0o755)
    server = shutil.copy(program("kactd"), folder)
    words = {"slots": 2, "rounds": 2, "server": server, "before": no_threads}
    with Scripted(listens=False) as pod, Session(fixed(1, timeout=1), [pod.port], **words) as session:
        found = collections.Counter(ask(session.port) for _ in range(4))
        status, journal, report = session.end()
        want(session.told() == TOLD, f"told {session.told()!r}")
    want(status == 0, f"exit status {status}")
    outcome = outcomes(journal, report)
    want(outcome == {"expire": 4}, f"outcomes {dict(outcome)}")
    want(found == answers(outcome), f"answered {dict(found)}")


def in_one_thread():
    """Four requests are served, though no thread can be made, and that is told."""
    with tempfile.TemporaryDirectory() as folder:
        one_thread(folder)


if __name__ == "__main__":
    sys.exit(run({"in_one_thread": in_one_thread}, sys.argv[1:]))
