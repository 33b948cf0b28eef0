#!/usr/bin/env python3
"""Measures how the program's time and memory grow with its input.

usage: bench/run.py [CHECKOUT]     It runs crates/pl_main/out/pl_main, which `rt run` in crates/pl_main leaves there, and
the tests of pl_nodes_tests and pl_replay_tests, which `rt test` in those crates leaves in their out

Each workload is run at doubling sizes. Nothing here is a test: the ratios are read in one run, on one quiet machine,
against the targets of README.md (each doubling of the work at most 2.3 times the time; at most 32 MiB and 200 bytes
for each input byte).
"""
import json
import os
import subprocess
import sys
import time

ROOT = os.path.dirname(os.path.dirname(os.path.abspath(__file__)))
ROUNDS = 25
PING = "PING\r\n"
# Three commands in 16 bytes.
UNIT = "PING\r\nPING\nPING\n"
LINE_PROTOCOL = ["lines", "decode", "lineend", "encode", "service"]
LENGTH_FIELDS = ["length", "decode", "prepend", "encode", "service"]
# What an edit has of its own, by its kind.
MEMBERS = {"lines": {"max": 8192}, "length": {"width": 2, "max": 8192}, "prepend": {"width": 2}, "flush_every": {"n": 2}}
# The most elements, here chunks, and the most bursts that a channel may have.
CHUNKS = 16384
BURSTS = 4096


def last(name, kind, group=None):
    return {"op": "last", "name": name, "kind": kind, "group": group, **MEMBERS.get(kind, {})}


def channel(bursts, kinds=LINE_PROTOCOL, groups={}, **members):
    return {"handlers": [last(f"{kind}{i}", kind, groups.get(kind)) for i, kind in enumerate(kinds)], "bursts": bursts, **members}


def every_move(channels, outs):
    """All read steps of each channel, and then so many writes of each."""
    reads = [f"R{c}x{len(one['bursts']) + 2}" for c, one in enumerate(channels)]
    writes = [f"O{c}x{outs}" for c in range(len(channels)) if outs]
    return " ".join(reads + writes)


def workload(channels, outs):
    return placed(channels, every_move(channels, outs))


def placed(channels, moves, capacity=4, groups=(), version=1):
    """Executor 0 is the loop, and the groups, each of size 1, are the executors from 1 on. In version 2 the chunks are hex."""
    session = {"version": version, "capacity": capacity, "loops": 1, "groups": [{"name": name, "size": 1} for name in groups], "channels": channels}
    return json.dumps(session, separators=(",", ":")).encode(), moves, sum(held(one) for one in channels) // version


def held(one):
    return sum(len(chunk) for burst in one["bursts"] for chunk in burst)


def cut(data, chunks):
    """These bytes in so many chunks of one length, as hex."""
    each = len(data) // chunks
    return [data[at : at + each].hex() for at in range(0, len(data), each)]


def pings(size):
    """PING lines of so many bytes, in 4,096 bursts of one chunk each, and as many writes as lines."""
    each = size // (4096 * len(UNIT))
    return workload([channel([[UNIT * each] for _ in range(4096)], high=2**30)], 4096 * 3 * each)


def single_bytes(size):
    """The bytes of PING lines in chunks of one byte, up to the limit of 16,384 chunks."""
    return workload([channel([list(UNIT * (size // len(UNIT)))])], 3 * size // len(UNIT))


def long_line(size):
    """One line without its end."""
    return workload([channel([["a" * size]])], 0)


def messages(size):
    """As many messages as PING lines fit, in one chunk, each written by an Out move of its own."""
    count = size // len(PING)
    return workload([channel([[PING * count]])], count)


def closed(size):
    """The same, with a handler that keeps the one flush back: the end of the input closes all messages."""
    count = size // len(PING)
    return workload([channel([[PING * count]], [*LINE_PROTOCOL[:-1], "flush_every", "service"])], 0)


def additions(count):
    """So many commands, an addition to each of 256 keys in turn."""
    key = lambda i: chr(97 + i // 16 % 16) + chr(97 + i % 16)
    return workload([channel([["".join(f"ADD {key(i)} 1\n" for i in range(count))]])], count)


def handlers(count):
    """21,845 messages through so many handlers, of which all but five pass on what they get."""
    kinds = ["lines"] * (count - 4) + ["decode", "lineend", "encode", "service"]
    return workload([channel([[PING * 21845]], kinds)], 21845)


def channels(count):
    """So many channels of 65,536 bytes each."""
    return workload([channel([[PING * 10922]]) for _ in range(count)], 10922)


def hand_overs(capacity):
    """So many moves on a channel whose decoder and service each have an executor of their own."""

    def make(moves):
        # An argument holds 131,071 bytes, so a schedule that long has as many copies a word as it needs.
        copies = max(min(capacity, 1000), moves // 16384)
        rounds = moves // (6 * copies)
        one = channel([[PING * (rounds * min(capacity, copies))]], groups={"decode": "a", "service": "b"})
        return placed([one], "R0x3 " + " ".join([" ".join(f"{word}x{copies}" for word in ["H0", "T1", "H1", "T2", "H2", "T0"])] * rounds), capacity, ["a", "b"])

    return make


def behind_full_queue(count):
    """As many items wait for an executor whose queue is full, and behind them as many for another, which are handed over."""
    rounds = count // 64
    channels = [channel([[PING * count]], groups={"decode": "a"}), channel([[PING * count]], groups={"decode": "b"})]
    return placed(channels, "R0x2 H0x64 R1x2 " + " ".join(["H0x64 T2x64"] * rounds), 64, ["a", "b"])


def byte_by_byte(count):
    """So many bytes of messages that are nearly as long as a line can be, each byte written by an Out move of its own."""
    message = 8189
    return workload([channel([["ECHO " + "a" * (message - 3) + "\n"] * (count // message)], window=1)], count // message * message)


def flags(count):
    """So many bursts, each of which brings the pending bytes above the high mark; the write behind it brings them below."""
    one = channel([[PING]] * count, low=1, high=2)
    return placed([one], " ".join(["R0"] + ["R0 O0"] * count + ["R0"]))


def frames(length):
    """So many bytes of frames with payloads of this length, in chunks of one byte, and from 16,384 bytes on in so many chunks."""

    def make(size):
        frame = length.to_bytes(2, "big") + (b"ECHO " + b"a" * length)[:length]
        data = (frame * (size // len(frame) + 1))[:size]
        one = channel([cut(data, min(size, CHUNKS))], LENGTH_FIELDS)
        return placed([one], every_move([one], size // len(frame)), version=2)

    return make


def skipped(bursts):
    """A frame that claims the most that four bytes can say, and is skipped over so many bursts of four chunks."""
    chunks = cut(b"\xff" * (2**20 // BURSTS * bursts), CHUNKS // BURSTS * bursts)
    each = CHUNKS // BURSTS
    one = channel([chunks[at : at + each] for at in range(0, len(chunks), each)], LENGTH_FIELDS)
    one["handlers"][0]["width"] = 4
    return placed([one], every_move([one], 1), version=2)


FRAMED = [2**power for power in range(12, 21)]

# name, what a size counts, how it is made, sizes
WORKLOADS = [
    ("pings in 4,096 bursts", "bytes", pings, [2**16, 2**17, 2**18, 2**19, 2**20]),
    ("chunks of one byte", "bytes", single_bytes, [2**11, 2**12, 2**13, 2**14]),
    ("one line without its end", "bytes", long_line, [2**16, 2**17, 2**18, 2**19, 2**20]),
    ("a message for each Out", "bytes", messages, [2**16, 2**17, 2**18, 2**19, 2**20]),
    ("messages that an end closes", "bytes", closed, [2**16, 2**17, 2**18, 2**19, 2**20]),
    ("additions to 256 keys", "commands", additions, [12500, 25000, 50000, 100000]),
    ("21,845 messages through more handlers", "handlers", handlers, [8, 16, 32]),
    ("more channels", "channels", channels, [1, 2, 4, 8, 16]),
    ("hand-overs at capacity 1", "moves", hand_overs(1), [125000, 250000, 500000, 1000000]),
    ("hand-overs at capacity 64", "moves", hand_overs(64), [125000, 250000, 500000, 1000000]),
    ("hand-overs at capacity 65,536", "moves", hand_overs(65536), [125000, 250000, 500000, 1000000]),
    ("a backlog behind a full queue", "items", behind_full_queue, [10000, 20000, 40000, 80000, 100000]),
    ("messages written byte by byte", "bytes", byte_by_byte, [125000, 250000, 500000, 1000000]),
    ("two flags for each burst", "bursts", flags, [512, 1024, 2048, 4096]),
    ("frames without payload", "bytes", frames(0), FRAMED),
    ("frames of one byte", "bytes", frames(1), FRAMED),
    ("frames of 64 bytes", "bytes", frames(64), FRAMED),
    ("frames of 8,190 bytes", "bytes", frames(8190), FRAMED),
    ("a frame that is skipped", "bursts", skipped, [512, 1024, 2048, 4096]),
]

# Loads that no session brings to a head, and schedules that no argument holds: name, what a size counts, the crate and
# what its tests are called, sizes.
LOADS = [
    ("one message through a window of one byte", "bytes", "pl_nodes_tests", "tests::load_tests::long_message_of_", [131072, 262144, 524288, 1048578]),
    ("empty messages settled by one flush", "messages", "pl_nodes_tests", "tests::load_tests::empty_messages_", [21845, 43690, 87381, 174762]),
    ("enabled hand-overs at capacity 1", "moves", "pl_replay_tests", "tests::load_tests::hand_overs_of_", [125000, 250000, 500000, 1000000]),
]


def run(words, text):
    child = subprocess.run(words, input=text, stdout=subprocess.DEVNULL, stderr=subprocess.PIPE)
    if child.returncode not in (0, 1):
        sys.exit(f"status {child.returncode}: {child.stderr.decode()}")
    return child.stderr


def knows(program, text):
    """Whether the program of some tree knows the version of this session."""
    return subprocess.run([program, "replay"], input=text, capture_output=True).stderr != b"session refused: 2 Version\n"


def spent_by(words, text):
    start = time.perf_counter()
    run(words, text)
    return time.perf_counter() - start


def peak_of(words, text):
    """In bytes. GNU time starts the program from a process that is small itself."""
    return int(run(["/usr/bin/time", "--quiet", "-f", "%M", *words], text).split()[-1]) * 1024


def measure(commands):
    """The best time of each size, in seconds. The sizes take turns, so that what else the machine does meets all of them."""
    best = [None] * len(commands)
    for _ in range(ROUNDS):
        for i, (words, text) in enumerate(commands):
            spent = spent_by(words, text)
            best[i] = spent if best[i] is None else min(best[i], spent)
    return best


def main():
    crates = os.path.join(sys.argv[1] if len(sys.argv) > 1 else ROOT, "crates")
    program = os.path.join(crates, "pl_main/out/pl_main")
    for name, unit, make, sizes in WORKLOADS:
        print(name)
        made = [make(size) for size in sizes]
        commands = [([program, "replay", "--moves", moves], text) for text, moves, _ in made]
        show(unit, sizes, made, commands, measure(commands))
    for name, unit, crate, test, sizes in LOADS:
        print(name)
        tests = os.path.join(crates, f"{crate}/out/{crate}_tests")
        for i, best in enumerate(bests := measure([([tests, f"{test}{size}"], b"") for size in sizes])):
            print(f"  {sizes[i]:>8} {unit:<8} {best * 1000:>7.1f} ms{ratio(bests, i)}")


def ratio(best, i):
    return "" if i == 0 else f"  x{best[i] / best[i - 1]:.2f}"


def show(unit, sizes, made, commands, best):
    for i, (size, (text, moves, held_bytes)) in enumerate(zip(sizes, made)):
        peak = peak_of(*commands[i])
        allowed = 32 * 2**20 + 200 * held_bytes
        print(
            f"  {size:>8} {unit:<8} in {len(text):>8} of text  {best[i] * 1000:>7.1f} ms{ratio(best, i):<7}"
            f"  peak {peak / 2**20:>5.1f} MiB of {allowed / 2**20:>6.1f} allowed"
        )


if __name__ == "__main__":
    main()
