#!/usr/bin/env -S python3 -B
"""The loop closed: `kactd stay` decides how many pods there are, and follow.py starts and stops them by its journal, from zero to zero.

    ./loop.py [--seconds S] [--clients N] [--keep FOLDER]

A revision without pods meets N clients at once (40) for S seconds (60), a quarter of them all the time and the others in the middle half of it. Their
requests take 100 ms each. Then there is silence, and in the end one more request, whose pod has a greater number than there are addresses in use. Each
client is to be answered 200, the pods to come and to go to zero, and the journal to replay to what the follower was told. FOLDER keeps the journal."""

import argparse
import collections
import json
import os
import pathlib
import re
import subprocess
import sys
import tempfile
import time

sys.path.insert(1, str(pathlib.Path(__file__).resolve().parents[1] / "stay"))

from load import Load, bring, counted, told  # noqa: E402
from server import Stay, whole_account  # noqa: E402
from session import free_port, head, listens, program, run, wait_until, want  # noqa: E402
from status import metrics  # noqa: E402

FOLLOW = pathlib.Path(__file__).resolve().parent / "follow.py"
ADDRESSES = 20
CONFIG = {
    "allow-zero-initial-scale": "true",
    "initial-scale": "0",
    "max-scale": str(ADDRESSES),
    "stable-window": "10s",
    "scale-to-zero-grace-period": "5s",
}
REVISION = {"metadata": {"namespace": "default", "name": "fixed"}, "spec": {"containerConcurrency": 5, "timeoutSeconds": 60}}
SETUP = (
    f"kact journal 1\nkpa depth=1000 max=1000 seed=7\nconfig\n{json.dumps({'data': CONFIG})}\n.\n"
    f"revision\n{json.dumps(REVISION)}\n.\n"
)
LAG = re.compile(r"pod (\d+) is (started at \S+|stopped), (-?\d+) ms after its row")


class Pipeline:
    """kactd | tee journal | kact replay | tee report | follow.py"""

    def __init__(self, folder):
        self.ports = [free_port() for _ in range(ADDRESSES)]
        self.journal, self.report, self.log = (folder / name for name in ("journal", "report", "log"))
        names = ",".join(f"127.0.0.1:{port}" for port in self.ports)
        ours, theirs = os.pipe()
        self.server = Stay(SETUP, self.ports, out=theirs, page=True)
        os.close(theirs)
        self.processes, given = [], ours
        for words in (["tee", self.journal], [program("kact"), "replay"], ["tee", self.report], [FOLLOW, names]):
            last = words[0] is FOLLOW
            made = subprocess.Popen(words, stdin=given, stdout=open(self.log, "w") if last else subprocess.PIPE)
            os.close(given) if given is ours else given.close()
            self.processes.append(made)
            given = made.stdout

    def rows(self):
        """Those of the report that are whole by now."""
        return [row.split() for row in self.report.read_text().split("\n")[:-1]]

    def live(self):
        """How many pods the report has by now."""
        kinds = collections.Counter(row[1] for row in self.rows())
        return kinds["create"] - kinds["remove"]

    def end(self):
        self.server.stop()
        want(self.server.end() == 0, f"exit status {self.server.end()}: {self.server.told()}")
        want([made.wait(20) for made in self.processes] == [0] * 4, "tee, kact or follow.py failed")

    def __enter__(self):
        return self

    def __exit__(self, *words):
        self.server.__exit__(*words)
        for made in self.processes:
            made.wait(20)


def waves(pipeline, seconds, clients):
    """Few clients, then all, then few: what they met."""
    loads = [Load(pipeline.server.port, clients // 4, seconds, path="/100")]
    time.sleep(seconds / 4)
    few = pipeline.live()
    loads.append(Load(pipeline.server.port, clients - clients // 4, seconds / 2, path="/100"))
    time.sleep(seconds / 2)
    most = pipeline.live()
    met = sorted((one for load in loads for one in load.met()), key=lambda one: one.ended)
    want(0 < few < most, f"{few} pods for a quarter of the clients, {most} for all")
    print(f"  {told(met)}")
    print(f"  {few} pods for a quarter of the clients, {most} for all; the first answer after {met[0].ended - met[0].begun:.1f} s")
    return met


def loop(folder, seconds, clients):
    with Pipeline(folder) as pipeline:
        met = waves(pipeline, seconds, clients)
        wait_until(lambda: pipeline.live() == 0, 90, "there are still pods")
        print(f"  no pod {time.time() - met[-1].ended:.0f} s after the last answer")
        met.append(bring(pipeline.server.port, head(method="GET")))
        want(set(counted(met)) == {(200, "hello")}, f"answered {counted(met)}")
        wait_until(lambda: pipeline.live() == 0, 90, "there are still pods")
        shown = metrics(pipeline.server)
        pipeline.end()
        left = [port for port in pipeline.ports if listens(port)]
    account, rows = whole_account(pipeline.journal)
    want(account == {"finish ok": len(met)}, f"{len(met)} were answered, and the journal has {dict(account)}")
    want(pipeline.report.read_text().splitlines() == rows, "the follower was told other rows than the journal's")
    judge(rows, pipeline.log.read_text().splitlines(), left)
    agree(shown, rows)


def agree(shown, rows):
    """The page that was read in the end shows no pod and no request, and has counted those of the report."""
    for name in ("kactd_pods", "kactd_requests", "kactd_pods_wanted"):
        want(set(shown[name].values.values()) == {0}, f"{name}: {shown[name].values}")
    found = collections.Counter(row.split()[1] for row in rows[:-1])
    counts = {dict(labels)["kind"]: number for labels, number in shown["kactd_rows_total"].values.items()}
    for kind in ("admit", "assign", "finish", "create", "ready", "drain", "remove"):
        want(counts[kind] == found[kind], f"{counts[kind]} rows {kind} were counted, of {found[kind]}")
    want(shown["kactd_decision_want"].values == {(): 0}, f"decided {shown['kactd_decision_want']}")


def judge(rows, log, left):
    """Each pod of the report had a process at an address that no other live pod had, soon after its row, and none is left."""
    found = [LAG.fullmatch(line) for line in log]
    want(all(found), f"the follower wrote {log}")
    created = [row.split()[2] for row in rows if row.split()[1:2] == ["create"]]
    removed = [row.split()[2] for row in rows if row.split()[1:2] == ["remove"]]
    want([one[1] for one in found if one[2] != "stopped"] == created and len(created) > 1, f"created {created}, started otherwise")
    want([one[1] for one in found if one[2] == "stopped"] == removed and sorted(removed) == sorted(created), f"removed {removed}, stopped otherwise")
    want(not left, f"somebody still listens at {left}")
    live = {}
    for _, pod, did, lag in (one.group(0, 1, 2, 3) for one in found):
        want(-20 <= int(lag) < 1000, f"pod {pod} is {did} {lag} ms after its row")
        if did == "stopped":
            del live[pod]
        else:
            want(did not in live.values(), f"two live pods are {did}")
            live[pod] = did
    print(f"  {len(created)} pods were created and removed, their processes {max(int(one[3]) for one in found)} ms after their rows at most")


def main():
    words = argparse.ArgumentParser(description=__doc__, formatter_class=argparse.RawDescriptionHelpFormatter)
    words.add_argument("--seconds", type=int, default=60)
    words.add_argument("--clients", type=int, default=40)
    words.add_argument("--keep", type=pathlib.Path)
    given = words.parse_args()
    with tempfile.TemporaryDirectory(prefix="kactd-pods-") as made:
        folder = given.keep or pathlib.Path(made)
        folder.mkdir(exist_ok=True)
        return run({"loop": lambda: loop(folder, given.seconds, given.clients)}, [])


if __name__ == "__main__":
    sys.exit(main())
