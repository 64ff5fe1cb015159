#!/usr/bin/env python3
"""What a port that comes costs the program: memory by what may be borrowed, and time by how many services are open.

Usage: bench/arriving.py [PROGRAM]     (PROGRAM is crates/iox/out/iox if not named; `rt run` in crates/iox builds it)

First a publisher and a subscriber come to a service whose subscribers may borrow 2 samples of a connection, or more, and the
most address space that the program had by then is told. Room for the numbers of samples is part of it; so are the slots of the
publisher, as many as the worst case. Then a publisher comes and leaves among many services, as often as makes a run of some
length, and what a pair of these lines costs is told, without the time in which the services are made; so for a subscriber.
Of several rounds the fastest counts. Nothing here is a test: it only prints.
"""
import os
import subprocess
import sys
import time

HERE = os.path.dirname(os.path.abspath(__file__))
BORROWED = (2, 1000, 10000, 20000)
SERVICES = (1, 100, 1000, 10000)
PAIRS = 2000
ROUNDS = 5


def peak(program, borrowed):
    """The replies to a publisher and a subscriber that come, and the most address space by then, in kB."""
    lines = f"node\ncreate n1 ps A borrowed={borrowed}\npublisher f1\nsubscriber f1\n"
    run = subprocess.Popen([program], stdin=subprocess.PIPE, stdout=subprocess.PIPE)
    run.stdin.write(lines.encode())
    run.stdin.flush()
    replies = [run.stdout.readline().decode().strip() for _ in range(4)]
    with open(f"/proc/{run.pid}/status") as status:
        most = next(line.split()[1] for line in status if line.startswith("VmPeak"))
    run.stdin.close()
    run.wait()
    return replies[2:], int(most)


def seconds(program, services, pairs, kind):
    """The fastest of some runs in which a port comes and leaves so often among so many services."""
    letter = kind[0]
    lines = ["node", *(f"create n1 ps S{at}" for at in range(services))]
    for number in range(1, pairs + 1):
        lines += [f"{kind} f1", f"leave {letter}{number}"]
    text = ("\n".join(lines) + "\n").encode()
    best = None
    for _ in range(ROUNDS):
        start = time.perf_counter()
        replies = subprocess.run([program], input=text, stdout=subprocess.PIPE, check=True).stdout
        took = time.perf_counter() - start
        if replies.splitlines().count(b"ok") != pairs:
            sys.exit(f"a {kind} didn't come and leave each time: {replies[-200:]!r}")
        best = took if best is None else min(best, took)
    return best


def main():
    program = sys.argv[1] if len(sys.argv) > 1 else os.path.join(HERE, "..", "crates", "iox", "out", "iox")
    for borrowed in BORROWED:
        replies, most = peak(program, borrowed)
        print(f"{borrowed} may be borrowed: {', '.join(replies)}; most address space {most:,} kB")
    for kind in ("publisher", "subscriber"):
        for services in SERVICES:
            without = seconds(program, services, 0, kind)
            cost = (seconds(program, services, PAIRS, kind) - without) / PAIRS
            print(f"a {kind} that comes and leaves among {services} services: {cost * 1e9:,.0f} ns")


main()
