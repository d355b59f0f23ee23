#!/usr/bin/env -S python3 -B
"""How `kactd` reads the heads and bodies of requests, sends them on and refuses them: `./heads.py [NAME..]`.

By the lines of heads.txt what the pod gets, or the client: through the activator, straight to the pod, and in rounds;
in pieces, and cut; and the other answers that are made here."""

import itertools
import socket
import sys
import time

from server import Stay
from session import Session, fixed, outcomes, run, scaled, wait_until, want
from status import gauges, rows
from tables import bytes_of, pairs
from raw_pod import OK, Gate, RawPod
from wire import client, request, rest, serving

START = r"POST /a HTTP/1.1\r\nKnative-Serving-Namespace: default\r\nKnative-Serving-Revision: fixed\r\n"
WORDS = {"START": START, "CODED": START + r"Transfer-Encoding: chunked\r\n\r\n"}

# the first lines of the answers that are made here, by their texts
MADE = {
    "bad request": "400 Bad Request",
    "unknown revision": "404 Not Found",
    "request body too long": "413 Payload Too Large",
    "request head too long": "431 Request Header Fields Too Large",
    "transfer coding is not supported": "501 Not Implemented",
    "pod call failed": "502 Bad Gateway",
    "pending request queue full": "503 Service Unavailable",
    "timed out waiting for a pod": "503 Service Unavailable",
    "history full": "507 Insufficient Storage",
}

def made(text):
    """The whole answer of this text, byte for byte."""
    fields = f"Content-Type: text/plain\r\nContent-Length: {len(text)}\r\nConnection: close\r\n\r\n"
    return f"HTTP/1.1 {MADE[text]}\r\n{fields}{text}".encode()


def exchange(server, text, ends=False, piece=None):
    """What a client gets that sends this at once, or in pieces of so many bytes, and then no more where it `ends`."""
    one = client(server)
    if piece is None:
        one.sendall(text)
    else:
        send_in_pieces(one, text, piece)
    if ends:
        one.shutdown(socket.SHUT_WR)
    return rest(one)


def send_in_pieces(one, text, piece):
    one.setsockopt(socket.IPPROTO_TCP, socket.TCP_NODELAY, 1)
    for at in range(0, len(text), piece):
        one.sendall(text[at : at + piece])
        time.sleep(0.001)


def sent_on(text, proxied):
    """What the pod gets. Through the activator that is said, in front of the last line of the head."""
    last = b"Connection: close\r\n\r\n"
    return text.replace(last, b"K-Proxy-Request: activator\r\n" + last, 1) if proxied else text


def try_all(server, pod, proxied, cases):
    """Of each case the client gets the answer that is made here, and the pod nothing; or the pod gets what is to be
    sent on, and the client its answer. How many the pod got."""
    for given, wanted in cases:
        text, ends, _ = given.partition("|END")
        before = len(pod.requests)
        came = exchange(server, bytes_of(text, WORDS), ends=bool(ends))
        want(came == (made(wanted) if wanted in MADE else OK), f"{given[:200]}: answered {came[:300]}")
        got = [] if wanted in MADE else [sent_on(bytes_of(wanted), proxied)]
        want(pod.requests[before:] == got, f"{given[:200]}: the pod got {[one[:300] for one in pod.requests[before:]]}")
    return len(pod.requests)


def activator():
    """To a fixed revision all go through the activator."""
    with serving(RawPod()) as (server, pod):
        want(try_all(server, pod, True, pairs("heads.txt")) > 0, "nothing was sent on")


def straight():
    """To a scaled revision that asks for no burst capacity they go straight to the pod, once that is decided."""
    setup = "kact journal 1\n" + scaled(seats=0, most=100, config={"target-burst-capacity": "0", "min-scale": "1"})
    with RawPod() as pod, Stay(setup, [pod.port], page=True) as server:
        wait_until(lambda: rows(server, "mode") == 1, 20, "it goes on through the activator")
        sent = try_all(server, pod, False, pairs("heads.txt"))
        want(rows(server, "direct") == sent > 0, "some did not go straight")
        server.stop()
        want(server.end() == 0, server.told())


def rounds():
    """The same in rounds, and one that says nothing. Those alone that were sent on have rows."""
    cases = [*pairs("heads.txt"), ("|END", "bad request")]
    with RawPod() as pod, Session(fixed(1), [pod.port], slots=1, rounds=len(cases)) as session:
        sent = try_all(session, pod, True, cases)
        status, journal, report = session.end()
        found = outcomes(journal, report)
        want((status, found) == (0, {"finish ok": sent}), f"status {status}, {found}")


def two():
    """A request without a body and one in a chunk, each with what the pod gets of it."""
    cases = [(given, wanted) for given, wanted in pairs("heads.txt") if "Connection: keep-alive" in given]
    want(len(cases) == 2, "they are not two")
    return [(bytes_of(given), sent_on(bytes_of(wanted), True)) for given, wanted in cases]


def pieces():
    """Both in pieces of one size or another."""
    with serving(RawPod()) as (server, pod):
        for (text, wanted), piece in itertools.product(two(), (1, 2, 3, 5, 8, 13, 21, 34, 55, 89, 144)):
            came = exchange(server, text, piece=piece)
            want(came == OK and pod.requests[-1] == wanted, f"in pieces of {piece}: {came}, and {pod.requests[-1]}")


def cut():
    """Both up to each of their bytes, and then no more: a bad request, of which no pod hears. Up to none: no answer."""
    with serving(RawPod()) as (server, pod):
        for front in (text[:end] for text, _ in two() for end in range(len(text))):
            came = exchange(server, front, ends=True)
            want(came == (made("bad request") if front else b""), f"cut to {front}: {came}")
        want(pod.requests == [], "a pod was called")


def refused():
    """One seat and one place in the queue: one runs, one waits for its whole three seconds, a third finds the queue
    full. Then the pod closes."""
    with Gate(reply=b"") as pod, Stay(fixed(1, limit=1, depth=1, most=1, timeout=3), [pod.port], page=True) as server:
        runs, waits = client(server), client(server)
        for state, one in (("running", runs), ("held", waits)):
            one.sendall(request())
            wait_until(lambda: gauges(server)[state] == 1, 10, f"none is {state}")
        came = [exchange(server, request()), rest(waits)]
        pod.opens.set()
        came.append(rest(runs))
        texts = ("pending request queue full", "timed out waiting for a pod", "pod call failed")
        want(came == [made(text) for text in texts], f"answered {came}")
        server.stop()
        want(server.end() == 0, server.told())


def no_room():
    """Room for one row, and a request has two."""
    with RawPod() as pod, Session(fixed(1), [pod.port], slots=1, rounds=1, room=1) as session:
        came = exchange(session, request())
        want(came == made("history full"), f"answered {came}")
        want(session.end()[0] == 0 and pod.requests == [], "it was served")


CASES = {it.__name__: it for it in (activator, straight, rounds, pieces, cut, refused, no_room)}

if __name__ == "__main__":
    sys.exit(run(CASES, sys.argv[1:]))
