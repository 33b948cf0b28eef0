#!/usr/bin/env python3
"""Starts the server, drives it by clients, and compares what each was sent with what `plain` says of the same bytes.

usage: examples/server/check.py PROGRAM [SERVER]

PROGRAM is the program of pl_main, SERVER what build.sh makes. Only addresses of this machine are used, each wait has its
bound, and the server ends by itself after the last connection.
"""
import json
import os
import socket
import struct
import subprocess
import sys

HERE = os.path.dirname(os.path.abspath(__file__))
PIPELINE = os.path.join(HERE, "pipeline.json")
SECONDS = 20


def plain(program, data):
    """The bytes that the program says are sent for these, whatever they were cut into."""
    with open(PIPELINE) as file:
        session = json.load(file)
    session["version"] = 2
    session["channels"][0]["bursts"] = [[data.hex()]] if data else []
    told = subprocess.run(
        [program, "plain"], input=json.dumps(session).encode(), capture_output=True, timeout=SECONDS, check=True
    )
    for line in told.stdout.decode().splitlines():
        if line.startswith("bytes "):
            told_bytes = line.split()[2]
            return b"" if told_bytes == "-" else bytes.fromhex(told_bytes)
    raise SystemExit("plain printed no bytes")


class Client:
    def __init__(self, port):
        self.socket = socket.create_connection(("127.0.0.1", port), timeout=SECONDS)
        self.socket.setsockopt(socket.IPPROTO_TCP, socket.TCP_NODELAY, 1)
        self.sent = b""

    def send(self, data):
        self.socket.sendall(data)
        self.sent += data

    def receive(self, count):
        """So many bytes, or fewer where the server closes."""
        got = b""
        while len(got) < count:
            part = self.socket.recv(min(65536, count - len(got)))
            if not part:
                break
            got += part
        return got

    def rest(self, most=1 << 20):
        """What comes until the server closes."""
        got = self.receive(most)
        self.socket.close()
        return got

    def half_close(self):
        self.socket.shutdown(socket.SHUT_WR)

    def abort(self):
        """Closes by a reset."""
        self.socket.setsockopt(socket.SOL_SOCKET, socket.SO_LINGER, struct.pack("ii", 1, 0))
        self.socket.close()


def sends(chunks, half_close=True):
    def case(port):
        client = Client(port)
        for chunk in chunks:
            client.send(chunk)
        if half_close:
            client.half_close()
        return client.sent, client.rest()

    return case


def one_by_one(port):
    """Each reply is waited for before the next line is sent, so none is kept inside."""
    client = Client(port)
    got = b""
    for _ in range(100):
        client.send(b"PING\r\n")
        got += client.receive(len(b"+PONG\r\n"))
    client.half_close()
    return client.sent, got + client.rest()


def abort_in_line(port):
    """The connection is reset in mid-line; what comes of others is as ever."""
    client = Client(port)
    client.send(b"PING\r\n")
    got = client.receive(len(b"+PONG\r\n"))
    client.send(b"ECHO what nev")
    client.abort()
    return b"PING\r\n", got


def two_at_once(port):
    """Two connections have totals of their own."""
    first, second = Client(port), Client(port)
    first.send(b"ADD k 1\r\n")
    got = first.receive(len(b":1\r\n"))
    second.send(b"GET k\r\n")
    apart = second.receive(len(b":0\r\n")) == b":0\r\n"
    second.half_close()
    apart = apart and second.rest() == b""
    first.send(b"GET k\r\n")
    first.half_close()
    got += first.rest()
    return first.sent, got if apart else b"not apart"


def bytes_of(data):
    return [data[i : i + 1] for i in range(len(data))]


# Each with how many connections it makes.
CASES = {
    "nothing": (sends([]), 1),
    "split_lines": (sends([b"PI", b"NG\r\nADD k 4", b"0\r\nGE", b"T k\r", b"\nNOPE\r\n", b"ECHO a b\r\n"]), 1),
    "byte_by_byte": (sends(bytes_of(b"ECHO a\r\nPING\r\nADD k 7\r\nGET k\r\n")), 1),
    "one_by_one": (one_by_one, 1),
    "pipelined": (sends([b"PING\r\n" * 1000]), 1),
    "unfinished_line": (sends([b"PING\r\nPIN"]), 1),
    "quit": (sends([b"PING\r\nQUIT\r\nPING\r\n"], half_close=False), 1),
    "line_of_9000": (sends([b"ECHO " + b"a" * 8995, b"\r\nPING\r\n"]), 1),
    "abort_in_line": (abort_in_line, 1),
    "after_abort": (sends([b"PING\r\n"]), 1),
    "two_at_once": (two_at_once, 2),
}


def main():
    if len(sys.argv) not in (2, 3):
        raise SystemExit(__doc__)
    program = sys.argv[1]
    server = sys.argv[2] if len(sys.argv) == 3 else os.path.join(HERE, "out", "server")
    connections = sum(count for _, count in CASES.values())
    running = subprocess.Popen([server, PIPELINE, "0", str(connections)], stdout=subprocess.PIPE, text=True)
    different = 0
    try:
        port = int(running.stdout.readline().rsplit(":", 1)[1])
        for name, (case, _) in CASES.items():
            sent, got = case(port)
            wanted = plain(program, sent)
            same = got == wanted
            print(("same       " if same else "different  ") + name + ("" if same else ": %r, not %r" % (got[:80], wanted[:80])))
            different += not same
        # It ends by itself after the last of these.
        ended = running.wait(timeout=SECONDS)
        print("ended with status %d" % ended)
        different += ended != 0
    finally:
        if running.poll() is None:
            running.kill()
            running.wait()
    sys.exit(1 if different else 0)


main()
