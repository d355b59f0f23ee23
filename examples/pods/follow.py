#!/usr/bin/env -S python3 -B
"""Starts and stops pods by a report, as its rows come: kactd stay .. --pods LIST | tee JOURNAL | kact replay | ./follow.py LIST

LIST is kactd's: HOST:PORT, parted by commas. On each `create` the pod is started at its address, on each `remove` it is stopped, and a line says
which, at which address, and how many ms after the row's time. A pod is a process of examples/stay/pod.py, or of the program that the further
words name, whose last word is the port: this is where yours goes. It needs its address' host to be this machine."""

import pathlib
import subprocess
import sys
import time

POD = [sys.executable, "-B", str(pathlib.Path(__file__).resolve().parents[1] / "stay" / "pod.py")]


class Book:
    """Which address each live pod has, by its number from 0: the rule of kn_book's `book_of`.

    A pod gets the least address that no live pod has when it is created. Where there is none it waits, and the first that waits gets the next one
    that is free."""

    def __init__(self, count):
        self.count, self.addresses = count, {}  # (in the order in which the pods were created)

    def note(self, kind, pod):
        """Takes a row of the report. The pod that has got an address by it, if any."""
        if kind == "create":
            self.addresses[pod] = None
        elif kind in ("remove", "lost-pod"):
            self.addresses.pop(pod, None)
        free = [address for address in range(self.count) if address not in self.addresses.values()]
        waiting = [pod for pod, address in self.addresses.items() if address is None]
        if not free or not waiting:
            return None
        self.addresses[waiting[0]] = free[0]
        return waiting[0]


class Crew:
    """The processes of pods."""

    def __init__(self, program):
        self.program, self.processes = program, {}

    def start(self, pod, port):
        self.processes[pod] = subprocess.Popen([*self.program, port])

    def stop(self, pod):
        # (one that never had an address has no process)
        process = self.processes.pop(pod, None)
        if process:
            process.kill()
            process.wait()

    def stop_all(self):
        for pod in list(self.processes):
            self.stop(pod)


def follow(rows, names, crew, say):
    """Starts and stops pods by the rows, until these end."""
    book = Book(len(names))

    def tell(at, text):
        say(f"{text}, {time.time() * 1000 - int(at):.0f} ms after its row")

    for row in rows:
        at, kind, *words = row.split()
        if kind not in ("create", "remove", "lost-pod"):
            continue
        pod = int(words[0])
        started = book.note(kind, pod)
        if kind != "create":
            crew.stop(pod)
            tell(at, f"pod {pod} is stopped")
        if started is not None:
            name = names[book.addresses[started]]
            crew.start(started, name.rpartition(":")[2])
            tell(at, f"pod {started} is started at {name}")


def main(names, *program):
    crew = Crew(list(program) or POD)
    try:
        follow(sys.stdin, names.split(","), crew, lambda text: print(text, flush=True))
    finally:
        crew.stop_all()


if __name__ == "__main__":
    if len(sys.argv) < 2:
        sys.exit(__doc__)
    main(*sys.argv[1:])
