#!/usr/bin/env -S python3 -B
"""kactd between clients that keep their connections and a pod that keeps its own: `./clients.py [NAME..]`, as README.md lists them.

Each case is run with one slot and with eight, and as many clients at once. No client may see an error."""

import collections
import contextlib
import functools
import http.client
import http.server
import re
import statistics
import subprocess
import sys
import tempfile
import threading

from session import FIELDS, Session, drain, field_words, fixed, load, outcomes, run, want

TEXT = b"some text of a client. " * 100
COUNT = 400  # requests of a tool that brings many
STOP = "answers = 0\nfunction response()\n answers = answers + 1\n if answers == {count} then wrk.thread:stop() end\nend\n"


class Keeper(http.server.BaseHTTPRequestHandler):
    """Answers `hello` and the request's body. It keeps each connection open, and says nothing of it."""

    protocol_version = "HTTP/1.1"
    wbufsize = -1  # an answer is one write, so that Nagle's rule delays none
    in_chunks = False

    def do_GET(self):
        self.close_connection = False  # whatever the client asks for
        text = b"hello" + self.rfile.read(int(self.headers.get("Content-Length", 0)))
        self.send_response(200)
        self.send_header(*(("Transfer-Encoding", "chunked") if self.in_chunks else ("Content-Length", str(len(text)))))
        self.end_headers()
        if self.in_chunks:
            text = b"".join(b"%x\r\n%s\r\n" % (len(part), part) for part in (text[:3], text[3:])) + b"0\r\n\r\n"
        self.wfile.write(text)

    do_POST = do_GET

    def log_message(self, *_):
        pass


class ChunkKeeper(Keeper):
    """The same in two chunks."""

    in_chunks = True


class Server(http.server.ThreadingHTTPServer):
    request_queue_size = 256


@contextlib.contextmanager
def serving(slots, rounds, handler=Keeper):
    """A session before such a pod."""
    with Server(("127.0.0.1", 0), handler) as pod:
        threading.Thread(target=pod.serve_forever, daemon=True).start()
        with Session(fixed(1), [pod.server_port], slots=slots, rounds=rounds) as session:
            yield session
        pod.shutdown()


def settle(session, answered, gone=0):
    """Ends the session. Each answered request is finished in its journal, and no more than those of clients that went away are beside them."""
    rest = drain(session)
    status, journal, report = session.end()
    finished = outcomes(journal, report)["finish ok"]
    want(status == 0 or gone and status == 8, f"exit status {status}: {(session.folder / 'stderr').read_text()}")
    want(0 <= finished - answered - rest <= gone, f"{answered} and {rest} were answered: {report[-1]}")


def by_hey(slots, *more):
    """hey, which keeps its connections where it may."""
    with serving(slots, COUNT // slots) as session:
        counted = load(session.port, COUNT, at_once=slots, more=more)
        want(counted == collections.Counter({200: COUNT}), f"hey counted {dict(counted)}")
        settle(session, COUNT)


def by_wrk(slots):
    """wrk, which keeps its connections where it may. It stops at so many answers or after two seconds, and leaves those that are on their way."""
    with serving(slots, COUNT // slots + 8) as session, tempfile.NamedTemporaryFile("w", suffix=".lua") as script:
        script.write(STOP.format(count=COUNT))
        script.flush()
        words = ["wrk", "-t", "1", "-c", str(slots), "-d", "2", "-s", script.name, *field_words()]
        ran = subprocess.run([*words, f"http://127.0.0.1:{session.port}/"], capture_output=True, text=True)
        done = int(re.search(r"(\d+) requests in", ran.stdout)[1])
        want(done > 0 and "Socket errors" not in ran.stdout and "Non-2xx" not in ran.stdout, ran.stdout)
        settle(session, done, gone=slots)


def by_python(slots):
    """Python's client over one connection each, which it opens anew by itself: half of its requests have a body."""
    failures = []

    def bring(port, count):
        client = http.client.HTTPConnection("127.0.0.1", port, timeout=30)
        for turn in range(count):
            body = (None, TEXT)[turn % 2]
            try:
                client.request("POST" if body else "GET", "/", body=body, headers=FIELDS)
                answer = client.getresponse()
                want((answer.status, answer.read()) == (200, b"hello" + (body or b"")), f"another answer, {answer.status}")
            except Exception as error:
                failures.append(repr(error))
                client.close()
        client.close()

    with serving(slots, 50) as session:
        threads = [threading.Thread(target=bring, args=(session.port, 50)) for _ in range(slots)]
        for thread in threads:
            thread.start()
        for thread in threads:
            thread.join()
        want(not failures, f"{len(failures)} of {50 * slots} failed: {failures[:3]}")
        settle(session, 50 * slots)


def by_curl(slots):
    """curl, which brings four requests in one call and keeps its connection where it may."""
    with serving(slots, 4) as session:
        urls = [f"http://127.0.0.1:{session.port}/{n}" for n in range(4)]
        for _ in range(slots):
            ran = subprocess.run(["curl", "-sS", "-m", "20", *field_words(), *urls], capture_output=True)
            want(ran.stdout == b"hello" * 4 and ran.returncode == 0, f"curl: {ran}")
        settle(session, 4 * slots)


def by_curl_that_asks(slots):
    """curl that asks for leave to send its body: it gets that at once, and doesn't wait its own second."""
    with serving(slots, 8) as session:
        words = ["curl", "-sS", "-m", "20", "-H", "Expect: 100-continue", "--data-binary", TEXT, *field_words()]
        words += ["-w", "\n%{time_total}", f"http://127.0.0.1:{session.port}/"]
        took = []
        for _ in range(8 * slots):
            text, _, seconds = subprocess.run(words, capture_output=True).stdout.rpartition(b"\n")
            want(text == b"hello" + TEXT, f"curl was answered {text[:80]}")
            took.append(float(seconds))
        want(statistics.median(took) < 0.05 and max(took) < 0.9, f"curl was answered after {max(took):.3f} s, half after {statistics.median(took):.3f} s")
        settle(session, 8 * slots)


def by_old_curl(slots):
    """curl that speaks HTTP/1.0, before a pod that answers in chunks: it gets the text alone."""
    with serving(slots, 4, ChunkKeeper) as session:
        words = ["curl", "-sSi", "--raw", "--http1.0", "-m", "20", *field_words(), f"http://127.0.0.1:{session.port}/"]
        for _ in range(4 * slots):
            head, _, text = subprocess.run(words, capture_output=True).stdout.partition(b"\r\n\r\n")
            want(b"transfer-encoding" not in head.lower() and text == b"hello", f"curl was answered {head + text}")
        settle(session, 4 * slots)


CASES = {
    "hey_get": by_hey,
    "hey_post": lambda slots: by_hey(slots, "-m", "POST", "-d", TEXT.decode()),
    "wrk": by_wrk,
    "python": by_python,
    "curl_keeps": by_curl,
    "curl_expects": by_curl_that_asks,
    "curl_1_0": by_old_curl,
}


def main(names):
    cases = {f"{name} {slots}": functools.partial(case, slots) for slots in (1, 8) for name, case in CASES.items()}
    return run(cases, [f"{name} {slots}" for name in names for slots in (1, 8)])


if __name__ == "__main__":
    sys.exit(main(sys.argv[1:]))
