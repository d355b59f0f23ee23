#!/usr/bin/env -S python3 -B
"""`kactd many` before a pod of each of several revisions, from outside: `./many.py [NAME..]`. Each client is answered
by the pod of its own revision, each journal has its own revision's requests; slots that serve different revisions
beside each other; a pod that fails, no room, and what isn't begun."""

import itertools
import socket
import sys

from rounds import BAD, CUT, FAILED, FULL, LISTEN, REPLY, UNKNOWN, USAGE, asked, events, made, together
from session import Scripted, Session, outcomes, refuses, replay, run, scaled, want

CART, YARD, TILL = ("shop", "cart-00001"), ("yard", "cart-00001"), ("shop", "till-00001")
NOBODY = ("yard", "till-00001")


def setups(*revisions):
    """Each a scaled one, which starts with one pod."""
    return "kact setups 1\n" + "".join(itertools.starmap(scaled, revisions))


def request(namespace, name):
    fields = f"Host: h\r\nKnative-Serving-Namespace: {namespace}\r\nKnative-Serving-Revision: {name}\r\n"
    return f"GET /a HTTP/1.1\r\n{fields}\r\n".encode()


def replying(revision):
    """A pod that answers by the revision's name."""
    return Scripted(lambda request: made("200 OK", " ".join(revision)))


def serving(revisions, pods, **words):
    return Session(setups(*revisions), [pod.port for pod in pods], many=True, **words)


def bundle(session, revisions, status=0, told=""):
    """Ends so. Of each revision's journal its events, and how many requests ended how; there is no journal more."""
    found = []
    for place, (namespace, name) in enumerate(revisions):
        code, lines, report = session.end(place)
        want((code, session.told()) == (status, told), f"status {code}, {session.told()!r}")
        ends = [i for i, line in enumerate(lines) if line == "end"]
        journal = lines[ends[place - 1] + 1 if place else 0 : ends[place] + 1]
        whose = f'"namespace": "{namespace}", "name": "{name}"'
        is_own = journal[0] == "kact journal 1" and sum(whose in line for line in journal) == 1
        want(is_own, f"journal {place} is another's: {journal[:8]}")
        found.append((events(journal), outcomes(journal, report)))
    want(ends[-1] == len(lines) - 1, "more stands behind the last journal")
    ended, rows, said = replay(session.journal, len(revisions))
    want((ended, rows, said) == (3, [], "kact: input ends without end\n"), f"one journal more: {ended}, {said!r}")
    return found


def in_turns(count=15):
    """Clients of three revisions and of none in turns, of which two have one name in two namespaces: who is answered by
    whom, and so say the journals."""
    revisions = (CART, YARD, TILL)
    with replying(CART) as cart, replying(YARD) as yard, replying(TILL) as till:
        with serving(revisions, (cart, yard, till), slots=2, rounds=2 * count) as session:
            for turn in range(4 * count):
                one = (*revisions, NOBODY)[turn % 4]
                came = asked(session, request(*one))
                wanted = UNKNOWN if one is NOBODY else made("200 OK", " ".join(one))
                want(came == [wanted], f"client {turn} of {one} is answered {came}")
            for one, (_, found) in zip(revisions, bundle(session, revisions)):
                want(found == {"finish ok": count}, f"{one}: {found}")
        want([len(pod.requests) for pod in (cart, yard, till)] == [count] * 3, "the pods were called otherwise")


def beside_each_other():
    """Two slots serve different revisions at once: neither pod answers before both are called."""
    both = together(2)
    with Scripted(both) as cart, Scripted(both) as till:
        with serving((CART, TILL), (cart, till), slots=2, rounds=2) as session:
            for pair in ((CART, TILL), (TILL, CART)):
                want(asked(session, *(request(*one) for one in pair)) == [REPLY, REPLY], "not answered")
            for _, found in bundle(session, (CART, TILL)):
                want(found == {"finish ok": 2}, f"{found}")


def broken_pod():
    """The pod of one revision fails: its request is answered 502, and its slot is said to have failed; the other
    revision's is served."""
    with Scripted(lambda request: b"") as cart, replying(TILL) as till:
        with serving((CART, TILL), (cart, till), slots=2) as session:
            want(asked(session, request(*CART)) == [FAILED], "not 502")
            want(asked(session, request(*TILL)) == [made("200 OK", " ".join(TILL))], "the other one isn't served")
            session.end(0)
            told = session.told()
            (broken, failed), (_, served) = bundle(session, (CART, TILL), 8, told)
    want((failed, served) == ({"finish fail": 1}, {"finish ok": 1}), f"{failed} and {served}")
    slots = [what.split()[1] for what in broken if what.startswith("arrive")]
    want(told == f"kactd: slot {slots[0]} failed\n", f"slot {slots} failed, and it is told {told!r}")


def no_room():
    """Each revision has room for 8 rows: one that has used its own up answers 507, while another serves, and a third
    has a pod that fails. One that is cut and one to none are answered 400 and 404, and have no row."""
    revisions = (CART, TILL, YARD)
    with replying(CART) as cart, replying(TILL) as till, Scripted(lambda request: b"") as yard:
        with serving(revisions, (cart, till, yard), slots=1, rounds=9, room=8) as session:
            came = asked(session, *[request(*CART)] * 5)
            # (a row for its pod, two for each request, and one for each tick meanwhile)
            served = came.count(made("200 OK", " ".join(CART)))
            want(1 <= served <= 3 and came[served:] == [FULL] * (5 - served), f"{came}")
            came = asked(session, request(*TILL), request(*YARD), CUT, request(*NOBODY))
            want(came == [made("200 OK", " ".join(TILL)), FAILED, BAD, UNKNOWN], f"{came}")
            found = bundle(session, revisions, 8, "kactd: slot 0 failed\n")
            want([it for _, it in found] == [{"finish ok": served}, {"finish ok": 1}, {"finish fail": 1}], f"{found}")
            want([what for what in found[1][0] if what != "ready 0"] == ["arrive 5", "finish 0 ok"], f"{found[1]}")


def not_begun():
    """Words that ask for nothing: status 2; an address that is taken: 9; setups that are refused: each with its status,
    line and text."""
    listen, pods = ["--listen", "127.0.0.1:0"], ["--pods", "127.0.0.1:1;127.0.0.1:2"]
    lists = ["--pods", ";".join(["127.0.0.1:1"] * 17)]
    beyond = [*listen, *pods, "--room", "500001"], [*listen, *pods, "--slots", "0"], [*listen, *lists]
    for words in ([], listen, pods, *beyond):
        refuses(["many", *words], setups(CART, TILL), 2, USAGE)
    with socket.create_server(("127.0.0.1", 0)) as taken:
        refuses(["many", "--listen", f"127.0.0.1:{taken.getsockname()[1]}", *pods], setups(CART, TILL), 9, LISTEN)
    line = "fixed limit=1 depth=1 max=1 pods=1 timeout=300 seed=0\n"
    for given, status, told in (
        ("", 3, "input ends without end"),
        ("kact journal 1\n" + line, 4, "line 1: not a kact setups 1"),
        ("kact setups 1\n" + line, 3, "input ends without end"),
        ("kact setups 1\n" + line + line, 4, "line 3: same revision twice"),
        (setups(CART, CART), 4, "line 15: same revision twice"),
        (setups(CART, TILL) + line, 3, "line 16: text after end"),
        (setups(CART) + line.replace("pods=1", "pods=501"), 4, "line 9: bad setup: out of range at 28"),
    ):
        refuses(["many", *listen, *pods], given, status, f"kactd: {told}\n")


CASES = {it.__name__: it for it in (in_turns, beside_each_other, broken_pod, no_room, not_begun)}

if __name__ == "__main__":
    sys.exit(run(CASES, sys.argv[1:], limit=150))
