"""One hub for all who connect: many clients, one that reads nothing, garbage, and what is bounded. Only loopback addresses are used."""
import argparse
import contextlib
import json
import os
import random
import re
import signal
import socket
import subprocess
import sys
import threading
import time
from concurrent.futures import ThreadPoolExecutor
from pathlib import Path

from cases.kit import PATIENCE, SCRIPT, TOP, Differs, NotHere, Ran, case, case_of_program, expect, expect_in
from cases.running import descendants

# In seconds: how long a reply may take on a slow machine with much other work.
REPLY = 120
CLIENTS = 50


def kill(server):
    """Kills a server, with the program that it began, which has the same streams."""
    for it in descendants(server.pid):
        with contextlib.suppress(ProcessLookupError):
            os.kill(it, signal.SIGKILL)
    server.kill()


@contextlib.contextmanager
def ended_after(seconds, server):
    """Kills a server that takes longer to say something or to end, so that nobody waits for it for ever."""
    timer = threading.Timer(seconds, kill, [server])
    timer.start()
    try:
        yield
    finally:
        timer.cancel()


def said_to_listen(server, host):
    """What the server says as soon as it listens on an address of this host."""
    with ended_after(PATIENCE, server):
        for said in server.stderr:
            if said.startswith(f"iox: listening on {host}:".encode()):
                return said
    raise Differs(f"the server ended, or was killed after {PATIENCE} s, and didn't say that it listens on {host}: status {server.wait()}")


@contextlib.contextmanager
def listening(*words, ends_by=signal.SIGTERM, at="0", host="127.0.0.1"):
    """A launcher that listens on a free port. It ends by a signal, if it didn't end before, and `said` is what it said meanwhile."""
    how = {"stdin": subprocess.DEVNULL, "stdout": subprocess.PIPE, "stderr": subprocess.PIPE}
    with subprocess.Popen([sys.executable, TOP / "iox", *words, "--listen", at], **how) as server:
        try:
            server.port, server.status = int(said_to_listen(server, host).rpartition(b":")[2]), 128 + ends_by
            yield server
            server.send_signal(ends_by)
            with ended_after(REPLY, server):
                server.said, out, status = server.stderr.read(), server.stdout.read(), server.wait()
            if status == -signal.SIGKILL:
                raise Differs(f"the server didn't end within {REPLY} s of {ends_by.name}, and was killed; it said {server.said!r}")
            expect((status, out), (server.status, b""))
        finally:
            kill(server)


def connect(port, host="127.0.0.1"):
    return socket.create_connection((host, port), timeout=REPLY)


def ask(port, given, host="127.0.0.1"):
    """What one client gets that sends all at once and then says that it has ended."""
    with connect(port, host) as client:
        client.sendall(given)
        client.shutdown(socket.SHUT_WR)
        return b"".join(iter(lambda: client.recv(65536), b""))


def converse(port, number):
    """A client with a service of its own: the replies to what it sends in pieces have to be its own, in order."""
    chance = random.Random(number)
    with connect(port) as client, client.makefile("rb") as replies:

        def made(line):
            client.sendall(line + b"\n")
            reply = replies.readline()
            expect_in(b"ok ", reply)
            return reply[3:].strip()

        factory = made(b"create %s ps Client%d buffer=30" % (made(b"node"), number))
        publisher, subscriber = made(b"publisher %s slice=2" % factory), made(b"subscriber %s" % factory)
        values = [b"%d %d" % (number, at) for at in range(30)]
        text = b"".join(b"put %s %s\n" % (publisher, it) for it in values) + b"nonsense\n"
        while text:
            piece = chance.randrange(1, 40)
            client.sendall(text[:piece])
            text = text[piece:]
        expect([replies.readline() for _ in range(31)], [b"ok 1\n"] * 30 + [b"err faulty line\n"])
        for it in values:
            client.sendall(b"receive %s\n" % subscriber)
            reply = replies.readline()
            expect(re.fullmatch(rb"ok (m\d+) %s\n" % it, reply) is not None, True)
            client.sendall(b"release %s\n" % reply.split()[1])
            expect(replies.readline(), b"ok\n")
        return factory


@case_of_program
def fifty_clients_at_once_get_their_own_replies_in_order():
    for words in (["-q"], ["-q", "--model"]):
        with listening(*words) as server:
            with ThreadPoolExecutor(CLIENTS) as pool:
                made = [*pool.map(lambda number: converse(server.port, number), range(CLIENTS))]
            expect(len(set(made)), CLIENTS)
            # What they made is there for who comes later.
            expect(ask(server.port, b"node\nopen n51 ps Client7\n"), b"ok n51\nok f51\n")
        expect(server.said, b"")


def peak_memory(server):
    """The most memory that a process had, in bytes."""
    try:
        status = Path(f"/proc/{server.pid}/status").read_text(encoding="ascii")
    except OSError as error:
        raise NotHere(f"no /proc: {error}") from error
    return int(re.search(r"VmHWM:\s+(\d+) kB", status)[1]) * 1024


@case
def who_stops_reading_holds_nobody_up_and_loses_nothing():
    values = " ".join(str(2**63 + at) for at in range(40)).encode()
    begun = b"node\ncreate n1 ps A\nsubscriber f1\npublisher f1 slice=1600\nloan p1 1600\n"
    with listening("--model", "-q") as server, connect(server.port) as silent:
        # A reply of 1600 numbers for a line of a few bytes: 32 megabytes for 1000 lines.
        silent.sendall(begun + b"".join(b"set l1 %d %d\n" % (at, 2**63 + at) for at in range(1600)) + b"send l1\nreceive s1\n")
        asked = threading.Thread(target=silent.sendall, args=(b"read m1\n" * 1000 + b"node\n",))
        asked.start()
        for _ in range(20):
            started = time.monotonic()
            expect(ask(server.port, b"put p9 1\nnod\n"), b"skip\nerr faulty line\n")
            expect(time.monotonic() - started < REPLY / 2, True)
        expect(peak_memory(server) < 100_000_000, True)
        with silent.makefile("rb") as replies:
            got = [replies.readline() for _ in range(5 + 1600 + 2 + 1000 + 1)]
        asked.join(REPLY)
        expect((got[1605], got[-1]), (b"ok 1\n", b"ok n2\n"))
        expect((set(got[1607:-1]), values in got[1607]), ({got[1606].replace(b"m1 ", b"")}, True))
    expect(server.said, b"")


@case
def garbage_is_answered_as_a_script_of_it_is():
    chance = random.Random(20261130)
    for garbage in (
        chance.randbytes(100_000),
        b"\n" * 5000,
        b"x" * 3_000_000 + b"\nnode\r\nnode\n" + b"y" * 1024 + b"\n" + b"y" * 1025,
        b"GET / HTTP/1.1\r\nHost: localhost\r\n\r\n",
        b"\0\0\n\xff\xfe\nnode",
        b"",
    ):
        with listening("--model", "-q") as server:
            # Who leaves within a line, or at once, is no hindrance.
            with connect(server.port) as left:
                left.sendall(b"node\nno")
                left.setsockopt(socket.SOL_SOCKET, socket.SO_LINGER, b"\1\0\0\0\0\0\0\0")
            connect(server.port).close()
            expect(ask(server.port, b"# x\n"), b"err faulty line\n")
            wanted = Ran("--model", "-q", given=b"node\n" + garbage).out.partition(b"\n")[2]
            found = ask(server.port, garbage)
            expect((found.count(b"\n"), len(found) - len(wanted)), (wanted.count(b"\n"), 0))
            expect(found, wanted)
        expect(server.said, b"")


@case
def more_clients_than_may_be_are_refused_and_told():
    from tool.listen import MOST_CLIENTS

    with listening("--model", "-q") as server, contextlib.ExitStack() as stack:
        clients = [stack.enter_context(connect(server.port)) for _ in range(MOST_CLIENTS)]
        for it in clients:
            it.sendall(b"node\n")
        for it in clients:
            expect(it.recv(100)[:4], b"ok n")
        with connect(server.port) as other:
            expect(other.recv(100), b"err too many connections\n")
        clients[0].close()
        until = time.monotonic() + REPLY
        while ask(server.port, b"") or not ask(server.port, b"nod\n").startswith(b"err faulty"):
            expect(time.monotonic() < until, True)
    expect(server.said, b"")


@case
def who_is_idle_is_dropped_and_others_stay():
    from tool.converse import Model
    from tool.listen import Server, open_listener

    class Ends(Model):
        def replies(self, lines):
            return iter(()) if lines[0].text == b"end" else super().replies(lines)

    options = argparse.Namespace(file=None, json=None, comments=False, quiet=True, verbose=False, numbers=False)
    listener = open_listener("0")
    port = listener.getsockname()[1]
    serving = threading.Thread(target=Server(options, Ends(), listener, idle=1.0).serve)
    serving.start()
    with connect(port) as busy, connect(port) as idle, connect(port) as dribbles:
        until = time.monotonic() + REPLY
        idle.settimeout(0.2)
        gone = None
        while gone is None:
            busy.sendall(b"node\n")
            expect_in(b"ok n", busy.recv(100))
            with contextlib.suppress(OSError):
                # A line that never ends isn't one.
                dribbles.sendall(b"x")
            with contextlib.suppress(socket.timeout):
                gone = idle.recv(100)
            expect(time.monotonic() < until, True)
        expect((gone, dribbles.recv(100)), (b"", b""))
        busy.sendall(b"end\n")
        expect(busy.recv(100), b"")
    serving.join(REPLY)
    expect(serving.is_alive(), False)


@case
def records_and_messages_of_clients_have_their_own_lines():
    with listening("--model", "--json=strings", "--comments", ends_by=signal.SIGINT) as server:
        given = b"node\ncreate n1 ps A\nsubscriber f1\npublisher f1\n# x\nput p1 7\n"
        expect([json.loads(it)["line"] for it in ask(server.port, given).splitlines()], [1, 2, 3, 4, 6])
        record, skipped = map(json.loads, ask(server.port, b"receive s1\nput p9 1\n").splitlines())
        expect((record["line"], record["values"], skipped["why"]), (1, ["7"], ["p9 doesn't exist"]))
    expect(server.said, b"client 2, line 2, skip: p9 doesn't exist\n")


def has_ipv6():
    with contextlib.suppress(OSError), socket.create_server(("::1", 0), family=socket.AF_INET6):
        return True
    return False


def own_address():
    """An address of this machine that others may reach: the one by which it would reach them. Nothing is sent."""
    with contextlib.suppress(OSError), socket.socket(socket.AF_INET, socket.SOCK_DGRAM) as it:
        it.connect(("192.0.2.1", 9))
        return it.getsockname()[0]
    return None


def is_refused(port, host):
    with contextlib.suppress(ConnectionRefusedError):
        connect(port, host).close()
        return False
    return True


# Where is listened, as it is said then, the addresses at which the hub answers, and those at which nobody does; `own` is the machine's own.
ADDRESSES = [
    ("0", "127.0.0.1", ["127.0.0.1"], ["own", "::1"]),
    ("localhost:0", "127.0.0.1", ["127.0.0.1"], ["own"]),
    ("[::1]:0", "[::1]", ["::1"], ["127.0.0.1", "own"]),
    ("0.0.0.0:0", "0.0.0.0", ["127.0.0.1", "own"], ["::1"]),
    ("[::]:0", "[::]", ["::1"], []),
    ("own:0", "own", ["own"], ["127.0.0.1"]),
]


@case
def a_hub_is_open_to_whom_its_address_lets_in_and_says_so():
    own, lacks = own_address(), []
    for at, host, answering, silent in ADDRESSES:
        if ("own" in at and not own) or ("::" in at and not has_ipv6()):
            lacks.append(at)
            continue
        at, host = (it.replace("own", own or "") for it in (at, host))
        with listening("--model", at=at, host=host) as server:
            for it in answering if own else set(answering) - {"own"}:
                expect((at, it, ask(server.port, b"node\n", it.replace("own", own or ""))[:4]), (at, it, b"ok n"))
            for it in silent if own else set(silent) - {"own"}:
                expect((at, it, is_refused(server.port, it.replace("own", own or "")) or not has_ipv6()), (at, it, True))
        is_open = host not in ("127.0.0.1", "[::1]")
        told = f"iox: whoever can reach {host.strip('[]')} can use this hub: there is no password\n".encode()
        expect((at, server.said), (at, told * is_open))
    if lacks:
        raise NotHere(f"this machine has no address for {', '.join(lacks)}")


@case
def an_address_that_cannot_be_listened_on_is_told_before_a_build():
    for wrong in ("x", "127.0.0.1:", "70000", "-1", "1:2:x", "[::1", "::1]:0"):
        Ran("--model", f"--listen={wrong}").expect_one_line(64, "--listen needs [HOST:]PORT")
    Ran("--model", "--listen").expect_one_line(64, "--listen")
    for word in (str(SCRIPT), "--svg", "--html", "--strict", "--time", "--path", "--expect=x"):
        Ran("--model", "--listen=0", word).expect_one_line(64, "--listen can't be given with")
    Ran("--model", "--listen", "no-host.invalid:0").expect_one_line(66, "iox: no-host.invalid:0: ")
    with socket.create_server(("127.0.0.1", 0)) as taken:
        port = taken.getsockname()[1]
        Ran("--listen", f"127.0.0.1:{port}").expect_one_line(66, f"127.0.0.1:{port}: Address already in use")


@case_of_program
def the_end_of_the_program_ends_the_server():
    if sys.platform != "linux":
        raise NotHere("no /proc")
    with listening("-q", "--unproved") as server, connect(server.port) as client:
        client.sendall(b"node\n")
        expect(client.recv(100), b"ok n1\n")
        for it in descendants(server.pid):
            os.kill(it, signal.SIGKILL)
        client.sendall(b"node\n")
        server.status = 128 + signal.SIGKILL
        expect((client.recv(100), server.wait(REPLY)), (b"", server.status))
    expect(server.said, b"")


@case_of_program
def a_signal_ends_the_server_while_its_program_answers_nothing():
    if sys.platform != "linux":
        raise NotHere("no /proc")
    for number in (signal.SIGTERM, signal.SIGHUP, signal.SIGINT):
        with listening("-q", "--unproved", ends_by=number) as server, connect(server.port) as client:
            client.sendall(b"node\n")
            expect(client.recv(100), b"ok n1\n")
            for it in descendants(server.pid):
                os.kill(it, signal.SIGSTOP)
            client.sendall(b"node\n")
            # Meanwhile the server reads the line, and then waits for the program.
            time.sleep(0.5)
        expect(server.said, b"")
