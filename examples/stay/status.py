"""What the status page of a server shows."""

import urllib.error
import urllib.request

import prometheus
from session import want


def page(server, path, method="GET"):
    """What the status page answers: its status, text and fields."""
    request = urllib.request.Request(f"http://127.0.0.1:{server.page}{path}", method=method)
    try:
        with urllib.request.urlopen(request, timeout=10) as answer:
            return answer.status, answer.read().decode(), answer.headers
    except urllib.error.HTTPError as error:
        return error.code, error.read().decode(), error.headers


def metrics(server):
    status, text, fields = page(server, "/metrics")
    want(status == 200 and fields["Content-Type"] == "text/plain; version=0.0.4; charset=utf-8", f"{status} {fields}")
    want(int(fields["Content-Length"]) == len(text), "another length than is said")
    return prometheus.read(text)


def rows(server, kind):
    """How many rows of this kind are counted."""
    return metrics(server)["kactd_rows_total"].values[(("kind", kind),)]


def gauges(server):
    """The live requests, by where they are."""
    return {dict(labels)["state"]: number for labels, number in metrics(server)["kactd_requests"].values.items()}
