#!/usr/bin/env python3
"""Clients that are killed at random moments, for checks/serve: some break their connections off, and some are processes
of their own, which a signal kills.

usage: victims.py PORT URL COUNT SEED
"""
import contextlib
import os
import random
import signal
import socket
import struct
import sys
import time

# the most seconds between two clients, and that a process lives
PAUSE, LIFE = 0.04, 0.01


def play(port, url, dice):
    """A session in small steps; between any two of them the client may be killed."""
    with socket.create_connection(("127.0.0.1", port), 30) as peer:
        yield peer
        reply = b"nothing yet"
        while reply:
            peer.sendall(b"ASK foobot %s\n" % url)
            yield peer
            reply = peer.recv(4096)
            yield peer
            # some permits are kept as they are
            if reply.startswith(b"PERMIT ") and dice.random() < 0.7:
                number = reply.split()[1]
                line = b"START %s foobot %s\n" % (number, url)
                cut = dice.randrange(len(line))
                peer.sendall(line[:cut])
                yield peer
                peer.sendall(line[cut:])
                yield peer
                peer.recv(4096)
                yield peer
                peer.sendall(b"DONE %s\n" % number)
                yield peer
                peer.recv(4096)


def break_off(steps, dice):
    """A client that resets its connection after some steps."""
    for _, peer in zip(range(dice.randrange(1, 12)), steps):
        pass
    peer.setsockopt(socket.SOL_SOCKET, socket.SO_LINGER, struct.pack("ii", 1, 0))
    peer.close()


def kill_process(steps, dice):
    """A client that a signal kills after some milliseconds."""
    process = os.fork()
    if process == 0:
        with contextlib.suppress(OSError):
            for _ in steps:
                pass
        os._exit(0)
    time.sleep(LIFE * dice.random())
    os.kill(process, signal.SIGKILL)
    os.waitpid(process, 0)


def main(given):
    port, url, count, seed = int(given[0]), given[1].encode(), int(given[2]), int(given[3])
    dice = random.Random(seed)
    for at in range(count):
        time.sleep(PAUSE * dice.random())
        end = kill_process if at % 4 == 0 else break_off
        with contextlib.suppress(OSError):
            end(play(port, url, dice), dice)
    return 0


if __name__ == "__main__":
    sys.exit(main(sys.argv[1:]))
