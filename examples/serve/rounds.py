#!/usr/bin/env -S python3 -B
"""Sessions of `kactd`, from outside: `./rounds.py [NAME..]`. Each answer to the byte, what the pods are sent, and what
the journal says of it; slots that serve beside each other; faults of clients and of pods; no room; times and ticks; and
what isn't opened."""

import re
import socket
import sys
import threading
import time

from session import PATIENCE, Scripted, Session, begin, endings, fixed, outcomes, refuses, resets, rest, run, want

LINES = "Host: h\r\nKnative-Serving-Namespace: default\r\nKnative-Serving-Revision: {}\r\n"
GOOD = f"GET /a HTTP/1.1\r\n{LINES.format('fixed')}Connection: keep-alive\r\n\r\n".encode()
OTHER = GOOD.replace(b"fixed", b"other")
SECOND = f"POST /b HTTP/1.1\r\n{LINES.format('fixed')}Content-Length: 3\r\n\r\nxyz".encode()
CUT = b"GET /a HTTP/1.1\r\nHost: h\r\n"
OURS = b"K-Proxy-Request: activator\r\nConnection: close\r\n\r\n"
SENT_ON = {
    GOOD: b"GET /a HTTP/1.1\r\nHost: h\r\n" + OURS,
    SECOND: b"POST /b HTTP/1.1\r\nHost: h\r\nContent-Length: 3\r\n" + OURS + b"xyz",
}
REPLY = b"HTTP/1.1 200 OK\r\nContent-Length: 0\r\nConnection: close\r\n\r\n"


def made(status, text):
    """The bytes of an answer that is made here."""
    fields = f"Content-Type: text/plain\r\nContent-Length: {len(text)}\r\nConnection: close\r\n"
    return f"HTTP/1.1 {status}\r\n{fields}\r\n{text}".encode()


UNKNOWN = made("404 Not Found", "unknown revision")
BAD = made("400 Bad Request", "bad request")
FAILED = made("502 Bad Gateway", "pod call failed")
LATE = made("503 Service Unavailable", "timed out waiting for a pod")
FULL = made("507 Insufficient Storage", "history full")

# ms by which the clock of this process, which is set now and then, may lie beside that of the server, which only goes
# forward
CLOCKS = 20


def now():
    return time.time() * 1000


def asked(session, *requests):
    """What clients who are there at once are answered. Whose request is cut sends no more."""
    ones = [begin(session.port, request) for request in requests]
    for one, request in zip(ones, requests):
        if request is CUT:
            one.shutdown(socket.SHUT_WR)
    return [rest(one) for one in ones]


def together(count, reply=lambda request: REPLY):
    """How a pod answers that does so only once so many requests are there."""
    met = threading.Barrier(count, timeout=PATIENCE)

    def answer(request):
        met.wait()
        return reply(request)

    return answer


def rows_of(journal):
    """The events of a journal: the time and the words of each. Behind its setup and start, and before its end."""
    begins = next(i for i, line in enumerate(journal) if line.startswith("start "))
    return [(int(at), what) for at, what in (line.split(" ", 1) for line in journal[begins + 1 : -1])]


def events(journal):
    """What happened, in order, but for ticks."""
    return [what for _, what in rows_of(journal) if what != "tick"]


def ended(session, status=0, told=""):
    """Ends so. How many requests ended how, and the lines of the journal, which is whole."""
    code, journal, report = session.end()
    want((code, session.told()) == (status, told), f"status {code}, {session.told()!r}")
    setup = (session.folder / "setup").read_text().splitlines()
    start, last = journal[len(setup)], journal[-1]
    want(journal[: len(setup)] == setup and start.startswith("start ") and last == "end", "the journal isn't whole")
    return outcomes(journal, report), journal


def beside_each_other():
    """Two slots at one pod that answers neither before both are there, for three rounds: both have arrived before
    either is finished."""
    with Scripted(together(2)) as pod, Session(fixed(1), [pod.port], slots=2, rounds=3) as session:
        for _ in range(3):
            want(asked(session, GOOD, GOOD) == [REPLY, REPLY], "not answered")
        found, journal = ended(session)
        want(found == {"finish ok": 6}, f"{found}")
        kinds = [what.split()[0] for what in events(journal) if what != "ready 0"]
        want(kinds == ["arrive", "arrive", "finish", "finish"] * 3, f"{kinds}")
        want(pod.requests == [SENT_ON[GOOD]] * 6, f"the pod was sent {pod.requests}")


def to_the_byte():
    """One slot: a request whose bytes come one by one, one to another revision, one that is cut, and one with a body:
    what each is answered, and what the pod is sent. Those that are refused have no row."""
    setup = fixed(1, limit=1, depth=10, most=1)
    with Scripted(lambda request: REPLY) as pod, Session(setup, [pod.port], slots=1, rounds=4) as session:
        one = begin(session.port, b"")
        one.setsockopt(socket.IPPROTO_TCP, socket.TCP_NODELAY, 1)
        for byte in GOOD:
            one.sendall(bytes([byte]))
        want(rest(one) == REPLY, "byte by byte")
        for request, answer in ((OTHER, UNKNOWN), (CUT, BAD), (SECOND, REPLY)):
            came = asked(session, request)
            want(came == [answer], f"{request} is answered {came}")
        _, journal = ended(session)
        want(pod.requests == [SENT_ON[GOOD], SENT_ON[SECOND]], f"the pod was sent {pod.requests}")
        found = events(journal)
        want(sorted(found[:2]) == ["arrive 0", "ready 0"] and found[2:] == ["finish 0 ok", "arrive 3", "finish 1 ok"], f"{journal}")


def each_its_own():
    """Two slots, and two clients at once, three times: each gets the answer to its own request."""
    answers = {SENT_ON[it]: made("200 OK", f"to {len(it)}") for it in (GOOD, SECOND)}
    wanted = {GOOD: answers[SENT_ON[GOOD]], SECOND: answers[SENT_ON[SECOND]], OTHER: UNKNOWN, CUT: BAD}
    with Scripted(answers.get) as pod, Session(fixed(1), [pod.port], slots=2, rounds=3) as session:
        for pair in ((GOOD, CUT), (OTHER, SECOND), (SECOND, GOOD)):
            came = asked(session, *pair)
            want(came == [wanted[it] for it in pair], f"{pair} are answered {came}")
        found, journal = ended(session)
        want(found == {"finish ok": 4}, f"{found}")
        tags = sorted(what for what in events(journal) if what.startswith("arrive"))
        want(len(set(tags)) == 4 and set(tags) <= {f"arrive {tag}" for tag in range(6)}, f"{tags}")


def few_addresses():
    """Three pods at two addresses, of which the third is where the first is: three requests at once, each at a pod of
    its own."""
    answer = together(3)
    with Scripted(answer) as first, Scripted(answer) as second:
        with Session(fixed(3, limit=1, depth=10, most=3), [first.port, second.port], slots=3, rounds=2) as session:
            for _ in range(2):
                want(asked(session, GOOD, GOOD, GOOD) == [REPLY] * 3, "not answered")
            found, _ = ended(session)
            want(found == {"finish ok": 6}, f"{found}")
            came = len(first.requests), len(second.requests)
            want(came == (4, 2), f"{came} requests came to the addresses")


def broken_pod():
    """A pod that closes without an answer: 502, the request failed, and the slot is said to have failed."""
    with Scripted(lambda request: b"") as pod, Session(fixed(1), [pod.port], slots=1) as session:
        want(asked(session, GOOD) == [FAILED], "not 502")
        _, journal = ended(session, 8, "kactd: slot 0 failed\n")
        # (the pod is found ready before the client comes, or while its request is held)
        found = events(journal)
        want(found[-1] == "finish 0 fail" and sorted(found[:-1]) == ["arrive 0", "ready 0"], f"{journal}")
        want(pod.requests == [SENT_ON[GOOD]], f"the pod was sent {pod.requests}")


def least_slot():
    """Three slots at once, of which two fail: the lesser one is named. The other requests are finished all the same."""
    answer = together(3, lambda request: REPLY if request == SENT_ON[SECOND] else b"")
    with Scripted(answer) as pod, Session(fixed(1), [pod.port], slots=3) as session:
        want(asked(session, GOOD, SECOND, GOOD) == [FAILED, REPLY, FAILED], "other answers")
        session.end()
        told = session.told()
        found, journal = ended(session, 8, told)
        want(found == {"finish ok": 1, "finish fail": 2}, f"{found}")
        slots = [int(what.split()[1]) for what in events(journal) if what.startswith("arrive")]
        failed = [slots[int(what.split()[1])] for what in events(journal) if what.endswith(" fail")]
        want(told == f"kactd: slot {min(failed)} failed\n", f"slots {failed} failed, and it is told {told!r}")


def gone_clients():
    """Clients that break off behind each byte of their request leave no request behind, one that does while its request
    runs leaves a finished one: each is a fault of its slot, which serves the next."""
    called, gone = threading.Event(), threading.Event()

    def answer(request):
        called.set()
        gone.wait(PATIENCE)
        return REPLY

    with Scripted(answer) as pod, Session(fixed(1), [pod.port], slots=1, rounds=len(GOOD) + 2) as session:
        for count in range(len(GOOD)):
            resets(begin(session.port, GOOD[:count]))
        one = begin(session.port, GOOD)
        want(called.wait(PATIENCE), "the pod isn't called")
        resets(one)
        gone.set()
        want(asked(session, GOOD) == [REPLY], "the last one isn't served")
        _, journal = ended(session, 8, "kactd: slot 0 failed\n")
        last, found = len(GOOD), [what for what in events(journal) if what != "ready 0"]
        want(found == [f"arrive {last}", "finish 0 ok", f"arrive {last + 1}", "finish 1 ok"], f"{found}")


def other_slot():
    """Of two slots one has a client that breaks off at once: the other one is served, and the slot of the first is
    named."""
    with Scripted(lambda request: REPLY) as pod, Session(fixed(1), [pod.port], slots=2) as session:
        resets(begin(session.port, b""))
        want(asked(session, GOOD) == [REPLY], "not served")
        session.end()
        told = session.told()
        _, journal = ended(session, 8, told)
        served = [int(what.split()[1]) for what in events(journal) if what.startswith("arrive")]
        want(len(served) == 1, f"slots {served} served")
        want(told == f"kactd: slot {1 - served[0]} failed\n", f"slot {served[0]} served, and it is told {told!r}")


def no_room():
    """Room for one row: 507, and the journal has no arrival."""
    with Scripted() as pod, Session(fixed(1), [pod.port], slots=1, room=1) as session:
        want(asked(session, GOOD) == [FULL], "not 507")
        found, journal = ended(session)
        want(not found and len(rows_of(journal)) <= 1, f"{journal}")
        want(pod.requests == [], "the pod was called")


def times_out():
    """No pod: 503 once the second is over in which a request may wait, by the client's clock and by the journal's
    rows."""
    with Scripted(listens=False) as pod, Session(fixed(1, timeout=1), [pod.port], slots=1) as session:
        begun = time.monotonic()
        want(asked(session, GOOD) == [LATE], "not 503")
        want(time.monotonic() - begun > 0.98, f"after {time.monotonic() - begun:.3f} s")
        found, journal = ended(session)
        want(sum(found.values()) == 1 and found["expire"] + found["cancel"] == 1, f"{found}")
        (over,) = endings(session.end()[2][:-1])[0]
        (arrived,) = [at for at, what in rows_of(journal) if what.startswith("arrive")]
        want(over[0] - arrived >= 1000, f"over after {over[0] - arrived} ms: {journal}")


def row_times():
    """A row has the time of a reading that was taken when it was due: an arrival's once its client came, a finish's
    once the pod has answered."""
    called, answers = [], []

    def answer(request):
        called.append(now())
        time.sleep(0.5)
        answers.append(now())
        return REPLY

    with Scripted(answer) as pod, Session(fixed(1), [pod.port], slots=1) as session:
        time.sleep(0.5)
        came = now()
        want(asked(session, GOOD) == [REPLY], "not answered")
        answered = now()
        _, journal = ended(session)
        times = {what.split()[0]: at for at, what in rows_of(journal)}
        known = f"came at {came:.0f}, at its pod at {called[0]:.0f}, answered at {answers[0]:.0f} and {answered:.0f}"
        want(came - CLOCKS <= times["arrive"] <= called[0] + CLOCKS, f"{known}: {journal}")
        want(answers[0] - CLOCKS <= times["finish"] <= answered + CLOCKS, f"{known}: {journal}")


def late_pod():
    """Nobody listens at the pod's address at first: the request waits, and is served once somebody does."""
    with Scripted(lambda request: REPLY, listens=False) as pod, Session(fixed(1), [pod.port], slots=1) as session:
        one = begin(session.port, GOOD)
        time.sleep(0.7)
        pod.listen()
        want(rest(one) == REPLY, "not answered")
        _, journal = ended(session)
        want(sorted(events(journal)) == ["arrive 0", "finish 0 ok", "ready 0"], f"{journal}")


def ticks():
    """The ticker goes on beside a slot that is at work for six seconds: two ticks at least, the first two seconds
    behind the start and each two behind the one before, or more."""

    def slowly(request):
        time.sleep(6)
        return REPLY

    with Scripted(slowly) as pod, Session(fixed(1), [pod.port], slots=1) as session:
        want(asked(session, GOOD) == [REPLY], "not answered")
        _, journal = ended(session)
        start = next(int(line.split()[1]) for line in journal if line.startswith("start "))
        times = [start, *(at for at, what in rows_of(journal) if what == "tick")]
        want(len(times) >= 3 and all(b - a >= 2000 for a, b in zip(times, times[1:])), f"start and ticks at {times}")


USAGE = re.escape("usage: kactd --listen HOST:PORT --pods HOST:PORT,.. [--slots N] [--rounds N] [--room N]\n")
LISTEN = "kactd: listen failed\n"


def not_opened():
    """Words that ask for nothing: status 2, with the usage; an address that can't be had: status 9."""
    good = ["--listen", "127.0.0.1:0", "--pods", "127.0.0.1:1"]
    bounds = {"--slots": (0, 65), "--rounds": (0, 10001), "--room": (0, 1000001)}
    beyond = [[*good, name, str(number)] for name, numbers in bounds.items() for number in numbers]
    for words in ([], good[:2], good[2:], ["--listen", "127.0.0.1", *good[2:]], [*good, "more"], *beyond):
        refuses(words, fixed(1), 2, USAGE)
    with socket.create_server(("127.0.0.1", 0)) as taken:
        for address in (f"127.0.0.1:{taken.getsockname()[1]}", "192.0.2.1:1"):
            refuses(["--listen", address, *good[2:]], fixed(1), 9, LISTEN)


def not_begun():
    """Setups that are refused: each with its status, line and text, and nobody is served."""
    words = ["--listen", "127.0.0.1:0", "--pods", "127.0.0.1:1"]
    for setup, status, told in (
        ("", 3, "input ends without end"),
        ("kact journal 1\n", 3, "input ends without end"),
        ("kact journal 3\n", 4, "line 1: not a kact journal 1 or 2"),
        (fixed(1, limit=1001), 4, "line 2: bad setup: out of range at 6"),
        (fixed(1) + "start 0\n", 3, "line 3: text after end"),
    ):
        refuses(words, setup, status, f"kactd: {told}\n")


CASES = {
    it.__name__: it
    for it in (
        beside_each_other,
        to_the_byte,
        each_its_own,
        few_addresses,
        broken_pod,
        least_slot,
        gone_clients,
        other_slot,
        no_room,
        times_out,
        row_times,
        late_pod,
        ticks,
        not_opened,
        not_begun,
    )
}

if __name__ == "__main__":
    sys.exit(run(CASES, sys.argv[1:], limit=200))
