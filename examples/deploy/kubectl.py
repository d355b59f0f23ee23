#!/usr/bin/env -S python3 -B
"""Tries README's kubectl lines with the kubectl that is here: `./kubectl.py`. There need be no cluster.

A stand-in for the API server has a ConfigMap `config-autoscaler`, with Knative's own `_example`, and a Revision `cart-00001`, each with what a cluster adds
to it. The lines are taken from README as they stand; of the setup that they write, `kact` replays a journal, and `kact_show` says where each setting
comes from."""

import http.server
import json
import os
import pathlib
import re
import shutil
import subprocess
import sys
import tempfile
import threading

HERE = pathlib.Path(__file__).resolve().parent
TOP = HERE.parents[1]
sys.path.insert(1, str(HERE.parent / "serve"))

from session import program, want  # noqa: E402

EXAMPLE = """################################
#    EXAMPLE CONFIGURATION     #
################################
# This block is not actually functional configuration, but serves to illustrate the available configuration
# options and document them in a way that is accessible to users that `kubectl edit` this config map.
container-concurrency-target-percentage: "70"
stable-window: "60s"
"""
CONFIG = {
    "apiVersion": "v1",
    "kind": "ConfigMap",
    "metadata": {
        "name": "config-autoscaler",
        "namespace": "knative-serving",
        "annotations": {"knative.dev/example-checksum": "47c2487f", "kubectl.kubernetes.io/last-applied-configuration": '{"data":{"_example":"..\\n"}}\n'},
        "creationTimestamp": "2026-11-01T08:00:00Z",
        "labels": {"app.kubernetes.io/component": "autoscaler"},
        "resourceVersion": "812",
        "uid": "7b5a2f5e-9f4f-4b0c-8f3a-6f6d2b8f1c55",
    },
    "data": {"_example": EXAMPLE, "stable-window": "30s", "initial-scale": "0", "allow-zero-initial-scale": "true"},
}
REVISION = {
    "apiVersion": "serving.knative.dev/v1",
    "kind": "Revision",
    "metadata": {
        "name": "cart-00001",
        "namespace": "shop",
        "annotations": {"autoscaling.knative.dev/max-scale": "30", "serving.knative.dev/creator": "admin"},
        "labels": {"serving.knative.dev/configuration": "cart", "serving.knative.dev/routingState": "active"},
        "ownerReferences": [{"apiVersion": "serving.knative.dev/v1", "controller": True, "kind": "Configuration", "name": "cart", "uid": "e1"}],
        "generation": 1,
        "uid": "0a4f2a63-1d1d-4f5a-9a3e-1d8a9b0c2e11",
    },
    "spec": {
        "containerConcurrency": 5,
        "containers": [{"image": "shop/cart@sha256:0123", "name": "user-container", "readinessProbe": {"tcpSocket": {"port": 0}}, "resources": {}}],
        "enableServiceLinks": False,
        "timeoutSeconds": 300,
    },
    "status": {"actualReplicas": 0, "conditions": [{"status": "False", "type": "Active"}, {"status": "True", "type": "Ready"}]},
}
GROUP = {"groupVersion": "serving.knative.dev/v1", "version": "v1"}


def resources(group, name, kind):
    """What the API server says of one kind of object."""
    one = {"name": name, "singularName": name[:-1], "namespaced": True, "kind": kind, "verbs": ["get", "list"]}
    return {"kind": "APIResourceList", "apiVersion": "v1", "groupVersion": group, "resources": [one]}


ANSWERS = {
    "/api": {"kind": "APIVersions", "versions": ["v1"], "serverAddressByClientCIDRs": []},
    "/apis": {"kind": "APIGroupList", "apiVersion": "v1", "groups": [{"name": "serving.knative.dev", "versions": [GROUP], "preferredVersion": GROUP}]},
    "/api/v1": resources("v1", "configmaps", "ConfigMap"),
    "/apis/serving.knative.dev/v1": resources("serving.knative.dev/v1", "revisions", "Revision"),
    "/api/v1/namespaces/knative-serving/configmaps/config-autoscaler": CONFIG,
    "/apis/serving.knative.dev/v1/namespaces/shop/revisions/cart-00001": REVISION,
}


class Handler(http.server.BaseHTTPRequestHandler):
    def do_GET(self):
        found = ANSWERS.get(self.path.partition("?")[0])
        body = json.dumps(found or {"kind": "Status", "apiVersion": "v1", "status": "Failure", "reason": "NotFound", "code": 404}).encode()
        self.send_response(200 if found else 404)
        self.send_header("Content-Type", "application/json")
        self.send_header("Content-Length", str(len(body)))
        self.end_headers()
        self.wfile.write(body)

    def log_message(self, *_):
        pass


def lines_of_readme():
    """README's block of commands that asks kubectl for both objects."""
    return re.search(r"^    \{ echo 'kpa .*?\} > setup$", (TOP / "README.md").read_text(), re.M | re.S)[0]


def run(name, words, text):
    """What a program writes of this input, which it takes well."""
    ran = subprocess.run([program(name), *words], input=text, capture_output=True, text=True)
    want(ran.returncode == 0, f"{name}: status {ran.returncode}, {ran.stderr}")
    return ran.stdout.splitlines()


def main():
    if not shutil.which("kubectl"):
        return print("left out: no kubectl")
    server = http.server.ThreadingHTTPServer(("127.0.0.1", 0), Handler)
    threading.Thread(target=server.serve_forever, daemon=True).start()
    with tempfile.TemporaryDirectory() as folder:
        config = pathlib.Path(folder) / "config"
        name = {"name": "stand-in"}
        cluster = {**name, "cluster": {"server": f"http://127.0.0.1:{server.server_port}"}}
        context = {**name, "context": {"cluster": "stand-in", "user": "stand-in"}}
        config.write_text(json.dumps({"clusters": [cluster], "contexts": [context], "users": [name], "current-context": "stand-in"}))
        subprocess.run(["sh", "-ec", lines_of_readme()], cwd=folder, env={**os.environ, "KUBECONFIG": str(config), "HOME": folder}, check=True)
        setup = (pathlib.Path(folder) / "setup").read_text()
    journal = f"kact journal 1\n{setup}start 0\n0 arrive 7\n2000 tick\nend\n"
    report = run("kact", ["replay"], journal)
    want(report[0] == "0 phase inactive" and report[-1].startswith("end events=2 admitted=1 "), f"a report of {report}")
    shown = {line.split()[0]: line.split()[1:] for line in run("kact_show", ["settings"], journal)}
    wanted = {"stable-window-s": ["30", "config"], "initial-scale": ["0", "config"], "max-scale": ["30", "revision"], "containerConcurrency": ["5", "revision"]}
    want({key: shown[key] for key in wanted} == wanted, f"settings {shown}")
    print("kubectl's objects are a setup: ok")


main()
