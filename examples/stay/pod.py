#!/usr/bin/env -S python3 -B
"""A pod: `./pod.py PORT` (0: any) answers each request by `hello` and closes its connection.

`/MS` is answered after so many milliseconds, `/count` by how many other requests have come whole so far. A connection that says nothing, such as a
probe, is no request."""

import asyncio
import re
import sys

LENGTH = re.compile(rb"(?im)^content-length: *(\d+)")


class Answer(asyncio.Protocol):
    count = 0

    def connection_made(self, transport):
        self.transport, self.came = transport, b""

    def data_received(self, piece):
        self.came += piece
        head, mark, body = self.came.partition(b"\r\n\r\n")
        length = LENGTH.search(head)
        if not mark or len(body) < int(length[1] if length else 0):
            return
        target = head.split(b" ")[1][1:]
        if target == b"count":
            return self.answer(b"%d" % Answer.count)
        Answer.count += 1
        if target.isdigit():
            asyncio.get_running_loop().call_later(int(target) / 1000, self.answer, b"hello")
        else:
            self.answer(b"hello")

    def answer(self, text):
        self.transport.write(b"HTTP/1.1 200 OK\r\nContent-Length: %d\r\nConnection: close\r\n\r\n%s" % (len(text), text))
        self.transport.close()


async def main(port):
    server = await asyncio.get_running_loop().create_server(Answer, "127.0.0.1", port, backlog=4096)
    await server.serve_forever()


if __name__ == "__main__":
    asyncio.run(main(int(sys.argv[1])))
