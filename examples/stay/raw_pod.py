"""A pod whose answers are given byte by byte."""

import pathlib
import socket
import sys
import threading
import time

sys.path.insert(1, str(pathlib.Path(__file__).resolve().parents[1] / "serve"))

from session import Scripted  # noqa: E402

OK = b"HTTP/1.1 200 OK\r\nContent-Length: 0\r\nConnection: close\r\n\r\n"
HEAD_END = b"\r\n\r\n"


class RawPod(Scripted):
    """Answers each request by the bytes of `reply`, once it `opens`, and after `pause` seconds, and closes. It reads the
    head alone where `early` is set, and keeps what came. A connection that says nothing, such as a probe, is no request."""

    def __init__(self, reply=OK, early=False):
        super().__init__(self.answer_to, listens=False)
        self.reply, self.pause, self.early = reply, 0, early
        self.opens = threading.Event()
        self.opens.set()
        if early:
            # (so that what it doesn't read isn't taken for it by the system)
            self.door.setsockopt(socket.SOL_SOCKET, socket.SO_RCVBUF, 4096)
            self.door.setsockopt(socket.IPPROTO_TCP, socket.TCP_MAXSEG, 536)
        self.listen()

    @property
    def bodies(self):
        """Of each request that came its body, or what of it was read with the head."""
        return [request.partition(HEAD_END)[2] for request in self.requests]

    def count(self):
        """How many requests have come to it."""
        return len(self.requests)

    def read(self, one):
        if not self.early:
            return super().read(one)
        came = b""
        while HEAD_END not in came:
            piece = one.recv(512)
            if not piece:
                return b""
            came += piece
        return came

    def answer_to(self, _):
        self.opens.wait(60)
        time.sleep(self.pause)
        return self.reply


class Gate(RawPod):
    """Answers once it opens."""

    def __init__(self, reply=OK):
        super().__init__(reply)
        self.opens.clear()
