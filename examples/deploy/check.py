#!/usr/bin/env -S python3 -B
"""Checks the files of this folder: `./check.py`, as README.md lists it. What wants a tool that isn't there is left out, and said."""

import os
import pathlib
import re
import shutil
import signal
import subprocess
import sys
import tempfile

HERE = pathlib.Path(__file__).resolve().parent
sys.path.insert(1, str(HERE.parent / "stay"))

from load import Load, counted  # noqa: E402
from server import Pod, whole_account  # noqa: E402
from session import fixed, free_port, listens, program, run, wait_until, want  # noqa: E402


def unit():
    """systemd reads the unit without a complaint, with the program where it is here."""
    if not shutil.which("systemd-analyze"):
        return print("  left out: no systemd-analyze")
    text = (HERE / "kactd.service").read_text().replace("/usr/local/bin/", f"{HERE}/")
    with tempfile.TemporaryDirectory() as folder:
        copy = pathlib.Path(folder) / "kactd.service"
        copy.write_text(text)
        ran = subprocess.run(["systemd-analyze", "verify", copy], capture_output=True, text=True)
    want(ran.returncode == 0 and not ran.stderr, f"systemd-analyze: {ran.stderr}")


def dockerfile():
    """Each line is one of Docker's words, and what it copies is in this folder or built."""
    lines = (HERE / "Dockerfile").read_text().splitlines()
    want([line.split()[0] for line in lines] == ["FROM", "COPY", "USER", "ENTRYPOINT"], f"lines {lines}")
    copied = lines[1].split()[1:-1]
    want(all(name == "kactd" or os.access(HERE / name, os.X_OK) for name in copied), f"copies {copied}")
    want(lines[3] == f'ENTRYPOINT ["{lines[1].split()[-1]}{copied[-1]}"]', "another entry point than what is copied")


def manifest():
    """Its parts, by a reader of YAML: ports, probes and volumes name one another, and the words and the setup are kactd's."""
    try:
        import yaml
    except ImportError:
        return print("  left out: Python has no yaml")
    config, deployment, service = yaml.safe_load_all((HERE / "kactd.yaml").read_text())
    want([one["kind"] for one in (config, deployment, service)] == ["ConfigMap", "Deployment", "Service"], "other parts")
    spec, template = deployment["spec"], deployment["spec"]["template"]
    labels = template["metadata"]["labels"]
    want(spec["selector"]["matchLabels"] == labels == service["spec"]["selector"], "selectors and labels differ")
    (container,) = template["spec"]["containers"]
    ports = {one["name"]: one["containerPort"] for one in container["ports"]}
    words = dict(word[2:].split("=", 1) for word in container["args"])
    want(words["listen"] == f"0.0.0.0:{ports['http']}" and words["status"] == f"0.0.0.0:{ports['status']}", f"words {words}, ports {ports}")
    want(service["spec"]["ports"][0]["targetPort"] == "http", "the service's port")
    for probe, path in (("readinessProbe", "/ready"), ("livenessProbe", "/healthz")):
        want(container[probe]["httpGet"] == {"path": path, "port": "status"}, f"{probe} {container[probe]}")
    noted = template["metadata"]["annotations"]
    want(noted["prometheus.io/port"] == str(ports["status"]) and noted["prometheus.io/path"] == "/metrics", f"annotations {noted}")
    mounts = {one["name"]: one["mountPath"] for one in container["volumeMounts"]}
    volumes = {one["name"]: one for one in template["spec"]["volumes"]}
    want(mounts.keys() == volumes.keys() and volumes["setup"]["configMap"]["name"] == config["metadata"]["name"], "volumes")
    wanted = {"SETUP": f"{mounts['setup']}/{next(iter(config['data']))}", "JOURNALS": mounts["journals"]}
    want({one["name"]: one["value"] for one in container["env"]} == wanted, f"environment {container['env']}")
    setup = config["data"]["setup"]
    grace(template["spec"], container, setup)
    good_words([f"--{name}={value}" for name, value in words.items()], setup)


def grace(spec, container, setup):
    """The hook's seconds and a request's timeout are within the time that the pod has to end."""
    waits = int(re.search(r"sleep (\d+)", container["lifecycle"]["preStop"]["exec"]["command"][-1])[1])
    timeout = int(re.search(r"timeout=(\d+)", setup)[1])
    want(waits + timeout <= spec["terminationGracePeriodSeconds"], f"{waits} and {timeout} s are more than the pod has")
    want("kill -TERM 1" in container["lifecycle"]["preStop"]["exec"]["command"][-1], "the hook doesn't end standard input")


def good_words(words, setup):
    """kactd takes the words, on a free port, and kact the setup."""
    words = [re.sub(r"^(--listen|--status)=.*", r"\1=127.0.0.1:0", word) for word in words]
    ran = subprocess.run([program("kactd"), "stay", *words], input=setup, capture_output=True, text=True, timeout=60)
    want(ran.returncode == 0 and ran.stdout.endswith("end\n"), f"kactd ends with {ran.returncode}: {ran.stderr}")


class Runner:
    """kactd-run over a setup, with its journals in a folder."""

    def __init__(self, folder, setup, *words, **environment):
        self.folder = pathlib.Path(folder)
        (self.folder / "setup").write_text(setup)
        given = {**os.environ, "SETUP": str(self.folder / "setup"), "JOURNALS": folder, "KACTD": program("kactd"), **environment}
        self.process = subprocess.Popen([HERE / "kactd-run", *words], env=given, stderr=subprocess.DEVNULL)

    def end(self, seconds=30):
        return self.process.wait(seconds)

    def journal(self):
        (found,) = self.folder.glob("*.journal")
        return found


def child(pid):
    """The process that it started and waits for."""
    return int(pathlib.Path(f"/proc/{pid}/task/{pid}/children").read_text().split()[0])


def by_signal():
    """TERM, once and twice, while requests run: they are answered, the status is 0, and the journal whole."""
    for signals in (1, 2):
        with tempfile.TemporaryDirectory() as folder, Pod() as pod:
            port = free_port()
            runner = Runner(folder, fixed(1), "--listen", f"127.0.0.1:{port}", "--pods", f"127.0.0.1:{pod.port}")
            wait_until(lambda: listens(port), 20, "kactd does not listen")
            load = Load(port, 8, count=1, path="/1500")
            wait_until(lambda: pod.count() == 8, 5, "not all run")
            for _ in range(signals):
                runner.process.send_signal(signal.SIGTERM)
            met = load.met()
            want(runner.end() == 0, f"exit status {runner.end()}")
            want(counted(met) == {(200, "hello"): 8}, f"answered {counted(met)}")
            want(whole_account(runner.journal())[0] == {"finish ok": 8}, "another account")


def statuses():
    """Its status is that of kactd: of wrong words, of a refused setup, and where kactd is killed."""
    words = ("--listen", "127.0.0.1:0", "--pods", "127.0.0.1:1")
    with tempfile.TemporaryDirectory() as folder:
        want(Runner(folder, fixed(1), "--listen").end() == 2, "of wrong words")
        want(Runner(folder, "kact journal 1\nfixed\n", *words).end() == 4, "of a refused setup")
        want(Runner(folder, fixed(1), *words, SETUP="/nowhere").end() == 2, "without a setup")
        runner = Runner(folder, fixed(1), *words)
        wait_until(lambda: any(b"start" in one.read_bytes() for one in pathlib.Path(folder).glob("*.journal")), 20, "kactd does not start")
        os.kill(child(runner.process.pid), signal.SIGKILL)
        want(runner.end() == 128 + 9, f"{runner.end()} where kactd is killed")


CASES = {"unit": unit, "dockerfile": dockerfile, "manifest": manifest, "by_signal": by_signal, "statuses": statuses}

if __name__ == "__main__":
    sys.exit(run(CASES, sys.argv[1:]))
