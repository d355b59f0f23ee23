#!/usr/bin/env -S python3 -B
"""Does what README says, as a new user would: `./readme.py [--built FOLDER]`.

In a fresh clone of what is committed, each of README's lines of commands is pasted into an interactive shell, in their order, and what stands there as
output must come out. With --built the programs are taken from that folder in place of `tools/try-build`. It says how long each line took, and takes
some seven minutes, four of them for builds. The gate and kubectl's lines are left out (deploy/kubectl.py tries those). It wants curl, hey and gnuplot,
and the ports 8080, 9001 to 9003 and 9090."""

import argparse
import os
import pathlib
import pty
import re
import select
import shutil
import subprocess
import sys
import tempfile
import time

TOP = pathlib.Path(__file__).resolve().parents[1]
PROMPT = "<readme> "
LONGEST = 300  # seconds that a line may take


class Shell:
    """An interactive bash, which knows jobs."""

    def __init__(self, folder):
        self.said = ""
        self.process, self.terminal = pty.fork()
        if self.process == 0:
            os.chdir(folder)
            os.execvpe("bash", ["bash", "--norc", "--noprofile", "-i"], {**os.environ, "PS1": PROMPT, "TERM": "dumb", "COLUMNS": "1000"})
        self.await_prompt()

    def await_prompt(self):
        """What comes up to the next prompt, and what a job in the background has said behind it by then."""
        end, came = time.monotonic() + LONGEST, b""
        while PROMPT.encode() not in came:
            if not select.select([self.terminal], [], [], end - time.monotonic())[0]:
                sys.exit(f"no prompt within {LONGEST} s: {came[-2000:].decode(errors='replace')}")
            came += os.read(self.terminal, 65536)
        return came.decode(errors="replace").replace("\r", "")

    def paste(self, line):
        begun = time.monotonic()
        os.write(self.terminal, line.encode() + b"\n")
        self.said += self.await_prompt()
        print(f"{time.monotonic() - begun:6.1f} s  {line[:130]}", flush=True)


def blocks():
    """README's blocks, each a list of lines: the commands, and what comes out."""
    for block in re.findall(r"(?:^ {4}.*\n)+", (TOP / "README.md").read_text(), re.M):
        lines = [line[4:] for line in block.splitlines()]
        word = lines[0].split()[0]
        yield "/" in word or "=" in word or word == "{" or shutil.which(word) is not None, lines


def is_left_out(lines):
    return any(word in line for line in lines for word in (".ci/run", "kubectl"))


def main():
    words = argparse.ArgumentParser(description=__doc__, formatter_class=argparse.RawDescriptionHelpFormatter)
    words.add_argument("--built", type=pathlib.Path)
    given = words.parse_args()
    lacking = []
    with tempfile.TemporaryDirectory(prefix="readme-") as folder:
        subprocess.run(["git", "clone", "-q", TOP, f"{folder}/clone"], check=True)
        if given.built:
            shutil.copytree(given.built, f"{folder}/clone/out/try")
        shell = Shell(f"{folder}/clone")
        for are_commands, lines in blocks():
            if not are_commands:
                lacking += [line for line in lines if line not in shell.said.splitlines()]
            elif not is_left_out(lines):
                for line in lines:
                    if not (given.built and line.startswith("tools/try-build")):
                        shell.paste(line)
    print(shell.said if lacking else "all that stands in README came out")
    sys.exit("\n".join(["did not come out:", *lacking]) if lacking else 0)


main()
