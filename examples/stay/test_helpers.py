#!/usr/bin/env -S python3 -B
"""Tests of what the scripts stand on, without a server: the reader of metrics and their text, the book of addresses, the
account of a cut journal."""

import pathlib
import sys
import unittest

import exposition
import load
import prometheus
from session import Failed, endings

sys.path.insert(1, str(pathlib.Path(__file__).resolve().parents[1] / "pods"))

import follow  # noqa: E402
import server  # noqa: E402

GOOD = """# HELP kactd_rows_total Rows of each kind.
# TYPE kactd_rows_total counter
kactd_rows_total{kind="assign"} 12
kactd_rows_total{kind="a\\"\\\\\\nb",other="}"} 3
# HELP kactd_pods Pods.
# TYPE kactd_pods gauge
kactd_pods{state="ready",} 1.5e3
# HELP x_y One without labels.
# TYPE x_y untyped
x_y +Inf 1395066363000
"""
BAD = [
    "x 1\n",
    "# HELP x y\n# TYPE x gauge\nx 1",
    "# HELP x y\n# TYPE x gauge\nx one\n",
    "# HELP x y\n# TYPE x gauge\nx 1\nx 1\n",
    "# HELP x y\n# TYPE x gauge\nx{a=\"1\",a=\"2\"} 1\n",
    "# HELP x y\n# TYPE x gauge\nx{a=\"1\" b=\"2\"} 1\n",
    "# HELP x y\n# TYPE x gauge\nx{a='1'} 1\n",
    "# HELP x y\n# TYPE x gauge\nx{1a=\"1\"} 1\n",
    "# HELP x y\n# TYPE x gauge\nx{a=\"\\t\"} 1\n",
    "# HELP x y\n# TYPE x number\nx 1\n",
    "# HELP x y\n# TYPE x counter\nx 1\n",
    "# HELP x_total y\n# TYPE x_total gauge\nx_total 1\n",
    "# HELP x_total y\n# TYPE x_total counter\nx_total -1\n",
    "# TYPE x gauge\nx 1\n",
    "# HELP x y\nx 1\n",
    "# HELP X y\n# TYPE X gauge\nX 1\n",
    "# HELP x y\n# TYPE x gauge\nx 1\n# TYPE x gauge\n",
    "# HELP x y\n# TYPE x gauge\n# HELP z y\n# TYPE z gauge\nz 1\nx 1\n",
    "# HELP x y\n# TYPE x gauge\nx 1 2 3\n",
    "# HELP x y\n# TYPE x gauge\nx1\n",
    "# HELP x-y z\n# TYPE x-y gauge\nx-y 1\n",
]


class Metrics(unittest.TestCase):
    def test_good(self):
        read = prometheus.read(GOOD)
        self.assertEqual(read["kactd_rows_total"].values, {(("kind", "assign"),): 12, (("kind", 'a"\\\nb'), ("other", "}")): 3})
        self.assertEqual(read["kactd_pods"], prometheus.Family("gauge", "Pods.", {(("state", "ready"),): 1500}))
        self.assertEqual(read["x_y"].values, {(): float("inf")})
        self.assertEqual(set(prometheus.counters(read)), {("kactd_rows_total", one) for one in read["kactd_rows_total"].values})

    def test_bad(self):
        for text in BAD:
            with self.subTest(text), self.assertRaises(prometheus.Unreadable):
                prometheus.read(text)


# Two pods, of which one is ready; three requests came, of which one was refused and one has ended; two decisions.
# metrics.txt was written by hand.
ROWS = """0 create 0 1
0 create 1 1
0 ready 0
0 admit 0 7
0 assign 0 0
0 admit 1 8
0 queue-full 2 -
0 finish 0 ok
0 assign 1 0
0 decision stable=1/1 panic=0/6 ready=1 want=1
0 decision stable=3/2 panic=2/3 ready=1 want=2""".splitlines()
BESIDE = {
    "kactd_rows_recorded_total": 9,
    "kactd_rows_unprinted": 4,
    "kactd_connections_waiting": 3,
    "kactd_slots_at_work": 64,
}


class Text(unittest.TestCase):
    def test_by_hand(self):
        by_hand = (pathlib.Path(__file__).parent / "metrics.txt").read_text()
        self.assertEqual(exposition.text(ROWS, 0, BESIDE, initial=1), by_hand)
        self.assertEqual(set(prometheus.read(by_hand)), set(exposition.FAMILIES))

    def test_left_out(self):
        text = exposition.text(ROWS[:3], 2, BESIDE)
        absent = {it for it in exposition.FAMILIES if "wanted" in it or "decision" in it}
        self.assertEqual(set(exposition.FAMILIES) - set(prometheus.read(text)), absent)
        self.assertEqual(text.count(" 0\n"), 23 + 1 + 3)
        self.assertIn("kactd_pods_wanted 4\n", exposition.text(ROWS[:3], 2, BESIDE, initial=4))


class Addresses(unittest.TestCase):
    """By hand, from the rule: the least free address at the creation, else the first that waits gets the next free one."""

    def test_book(self):
        book = follow.Book(2)
        steps = [
            ("create 0", 0, {0: 0}),
            ("create 1", 1, {0: 0, 1: 1}),
            ("create 2", None, {0: 0, 1: 1, 2: None}),
            ("create 3", None, {0: 0, 1: 1, 2: None, 3: None}),
            ("remove 2", None, {0: 0, 1: 1, 3: None}),
            ("remove 0", 3, {1: 1, 3: 0}),
            ("lost-pod 1", None, {3: 0}),
            ("create 9", 9, {3: 0, 9: 1}),
            ("remove 3", None, {9: 1}),
            ("create 10", 10, {9: 1, 10: 0}),
        ]
        for row, started, addresses in steps:
            kind, pod = row.split()
            self.assertEqual((book.note(kind, int(pod)), book.addresses), (started, addresses), row)

    def test_follow(self):
        calls = []

        class Crew:
            def start(self, pod, port):
                calls.append(("start", pod, port))

            def stop(self, pod):
                calls.append(("stop", pod))

        rows = ["1 create 0 5", "2 ready 0", "3 create 1 5", "4 admit 0 7", "5 remove 0", "6 create 2 5", "end events=1"]
        follow.follow(rows, ["h:1", "h:2"], Crew(), lambda _: None)
        self.assertEqual(calls, [("start", 0, "1"), ("start", 1, "2"), ("stop", 0), ("start", 2, "1")])


class Accounts(unittest.TestCase):
    def met(self, ended, status=200, text="hello"):
        return load.Met(0, 0, ended, status, text)

    def test_endings(self):
        rows = ["5 admit 0 1", "6 assign 0 0", "7 finish 0 ok", "8 queue-full 1 -", "9 finish 2 fail", "9 cancel 3"]
        self.assertEqual(endings(rows), {0: [(7, "finish ok")], 1: [(8, "queue-full")], 2: [(9, "finish fail")], 3: [(9, "cancel")]})

    def test_all_known(self):
        ended = [(1000, "finish ok"), (2000, "finish ok"), (2500, "expire")]
        server.all_known(ended, [self.met(1.1), self.met(2.1), self.met(2.6, 503, "timed out waiting for a pod"), self.met(9)], 8)
        for met in ([self.met(1.1), self.met(2.1), self.met(3.1)], [self.met(1.1), self.met(1.2)], [self.met(1, 502, "pod call failed")]):
            with self.subTest(met), self.assertRaises(Failed):
                server.all_known(ended, met, 8)


if __name__ == "__main__":
    ended = unittest.main(exit=False).result
    print(f"{ended.testsRun} cases, {len(ended.failures) + len(ended.errors)} failed")
    sys.exit(not ended.wasSuccessful())
