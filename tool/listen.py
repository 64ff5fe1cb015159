"""One hub for all who connect by TCP: each line is answered to who sent it, in its order. Lines, connections and idle time are bounded."""
from __future__ import annotations

import asyncio
import contextlib
import ipaddress
import logging
import socket
import time
import warnings
from argparse import Namespace
from typing import Any

from tool.converse import LONGEST_LINE, PIECE, Line, Lines, Model, Output, Program, is_comment, writer_of
from tool.main import find_program
from tool.notes import Follower, Notes
from tool.progress import MISUSED, NO_INPUT, NOT_BUILT, say, stop
from tool.stops import STOPS

HOST = "127.0.0.1"
MOST_CLIENTS = 128
# In seconds: how long a client may stay that sends no whole line and reads no reply.
IDLE = 600.0
# In bytes: what is read of a client at once, and how much may wait for it before its next line is answered.
AT_ONCE, MOST_WAITING = 4096, 65_536
# After so many lines the model that knows reasons is led along, so that few lines are kept for it.
MOST_AHEAD = 4096


class Client(Output):
    """Who is connected: the connection keeps the replies until they can be sent."""

    def __init__(self, number: int, reader: asyncio.StreamReader, writer: asyncio.StreamWriter):
        super().__init__()
        self.number, self.reader, self.writer, self.last = number, reader, writer, time.monotonic()
        self.takers: list = []
        writer.transport.set_write_buffer_limits(MOST_WAITING)

    def write(self, text: bytes):
        self.writer.write(text)

    def waiting(self) -> int:
        return self.writer.transport.get_write_buffer_size()

    async def patiently(self, awaited, idle: float):
        """Awaits what the client has to do, who may be idle for so long: it sends no whole line and reads no reply."""
        task, waiting = asyncio.ensure_future(awaited), self.waiting()
        while not (await asyncio.wait([task], timeout=max(0.0, self.last + idle - time.monotonic())))[0]:
            if self.waiting() >= waiting:
                task.cancel()
                raise asyncio.TimeoutError
            self.last, waiting = time.monotonic(), self.waiting()
        return task.result()


class Server:
    """The hub with all who are connected to it."""

    def __init__(self, options: Namespace, answers: Model | Program, listener: socket.socket, idle: float = IDLE):
        self.options, self.answers, self.listener, self.idle = options, answers, listener, idle
        self.follower, self.count, self.connected = Follower(), 0, 0
        self.loop: Any = None
        self.main: Any = None
        self.stopped_by = 0

    async def meet(self, reader: asyncio.StreamReader, writer: asyncio.StreamWriter):
        """Serves who connects up to the end of what is sent, or refuses him."""
        if self.connected == MOST_CLIENTS:
            writer.write(b"err too many connections\n")
            writer.write_eof()
            await asyncio.sleep(0.01)
            writer.close()
            return
        self.count += 1
        self.connected += 1
        client = Client(self.count, reader, writer)
        notes = Notes(client, self.follower, self.options, False, f"client {client.number}, ")
        client.takers = [self.follower.take, writer_of(self.options, client, self.follower), notes.take]
        try:
            await self.follow(client)
        except asyncio.TimeoutError:
            if not self.options.quiet:
                say(f"client {client.number} is dropped: it sent no line and read no reply for {self.idle:.0f} s")
        except OSError:
            pass
        finally:
            self.connected -= 1
            writer.transport.abort()

    async def follow(self, client: Client):
        """Has each line of a client answered. No more is read before all are, so that few are kept."""
        cut, piece = Lines(), b"?"
        while piece:
            piece = await client.patiently(client.reader.read(AT_ONCE), self.idle)
            lines = cut.cut(piece)
            client.last = time.monotonic() if lines else client.last
            for line in lines:
                if not (self.options.comments and is_comment(line)):
                    answered = asyncio.get_running_loop().create_future()
                    self.asked.put_nowait((client, line, answered))
                    await answered
                    await client.patiently(client.writer.drain(), self.idle)
        client.writer.close()
        await client.patiently(client.writer.wait_closed(), self.idle)

    def answer(self, turn: list[tuple[Client, Line, asyncio.Future]]) -> bool:
        """Answers a line of each of these clients. Returns whether each got its reply."""
        count = 0
        for (client, line, answered), reply in zip(turn, self.answers.replies([it for _, it, _ in turn])):
            count += 1
            for take in client.takers:
                take(line, reply)
            answered.set_result(None)
        if len(self.follower.ahead) > MOST_AHEAD:
            self.follower.catch_up()
        return count == len(turn)

    async def run(self) -> int:
        """Answers the lines that wait, of each client one, until the program ends. Returns its status."""
        self.main, self.loop = asyncio.current_task(), asyncio.get_running_loop()
        if self.stopped_by:
            return 0
        self.asked: asyncio.Queue = asyncio.Queue()
        self.server = await asyncio.start_server(self.meet, sock=self.listener, limit=AT_ONCE)
        while True:
            turn, size = list[tuple[Client, Line, asyncio.Future]](), 0
            while not turn or (not self.asked.empty() and size < PIECE - LONGEST_LINE - 2):
                turn.append(await self.asked.get())
                size += len(turn[-1][1].text) + 1
            if not self.answer(turn):
                return self.answers.status

    def end_by(self, number: int):
        """Ends the server for a signal, from another thread: also where it waits for the program, or didn't begin yet."""
        self.stopped_by = number
        self.answers.kill()
        if self.loop:
            # (a loop that has ended by itself takes nothing)
            with contextlib.suppress(RuntimeError):
                self.loop.call_soon_threadsafe(self.main.cancel)

    def serve(self) -> int:
        # Who was cut off is no news, nor what a signal left undone.
        logging.getLogger("asyncio").setLevel(logging.CRITICAL)
        warnings.simplefilter("ignore", RuntimeWarning)
        status = 0
        try:
            with contextlib.suppress(asyncio.CancelledError):
                status = asyncio.run(self.run())
        finally:
            self.answers.close()
            self.listener.close()
        return 128 + self.stopped_by if self.stopped_by else status


def open_listener(text: str) -> socket.socket:
    """Listens on [HOST:]PORT."""
    host, _, port = text.rpartition(":")
    if not port.isdecimal() or int(port) > 65535 or host.count("[") != host.count("]"):
        stop(MISUSED, f'--listen needs [HOST:]PORT, as 7000 or 127.0.0.1:7000, not "{text}"')
    host = host.strip("[]") or HOST
    try:
        return socket.create_server((host, int(port)), family=socket.AF_INET6 if ":" in host else socket.AF_INET)
    except OSError as error:
        stop(NO_INPUT, f"{text}: {error.strerror.partition(' (while')[0]}")


def run(options: Namespace) -> int:
    """Listens, and serves until a signal or the end of the program."""
    listener = open_listener(options.listen)
    program = None if options.model else find_program(options)
    if program is None and not options.model:
        stop(NOT_BUILT, "--listen needs a program that can be kept, or --model")
    host, port, *_ = listener.getsockname()
    say(f"listening on {f'[{host}]' if ':' in host else host}:{port}")
    if not ipaddress.ip_address(host).is_loopback:
        say(f"whoever can reach {host} can use this hub: there is no password")
    server = Server(options, Program(program) if program else Model(), listener)
    with STOPS.told_to(server.end_by):
        return server.serve()
