#!/usr/bin/env python3
"""Measures the kernel and its program, and prints one table with the goals.

usage: bench/bench.py [core] [tables] [pulses] [cells] [allocations] [scripts]

With no word it measures all six. It needs the built programs `bench/out/qbench` and `crates/qdemo/out/qdemo`:
`bench/build qbench` and `(cd crates/qdemo && rt run -- check data)`.

  core         nanoseconds a call in rounds of Send, Receive and Reply, with 1, 64 and 1,024 connections, and 1
               and 1,024 pulses that are queued on the channel
  tables       nanoseconds an attach and a detach of the oldest with 1 and 1,023 live connections, and
               a create and a destroy of the oldest with 1 and 63 open channels: the least and the
               median of 21 times
  pulses       nanoseconds a pulse and its receipt by a receive of only pulses, with no message and with 62
               messages of greater priority that are queued on the channel
  cells        nanoseconds a completion that goes through a cell, put and taken by one thread in
               turn, and put by one thread and taken by another
  allocations  requests to the allocator by each call, as `valgrind --trace-malloc=yes` counts
               them: the least and the most that one call of the kind made
  scripts      seconds and peak memory of `qdemo script` on scripts of 1, 2 and 4 MiB: the least time of three
               runs, and the greatest memory of three others, as `/usr/bin/time` (GNU time) prints it
"""

import os
import re
import subprocess
import sys
import tempfile
import time

ROOT = os.path.dirname(os.path.dirname(os.path.abspath(__file__)))
QBENCH = os.path.join(ROOT, "bench/out/qbench")
QDEMO = os.path.join(ROOT, "crates/qdemo/out/qdemo")
GNU_TIME = "/usr/bin/time"

MEBIBYTE = 1024 * 1024
RUNS = 3
PRELUDE = "thread 1 1 10\nthread 2 2 20\n1 create 0\n2 attach 1\n"

NANOSECONDS = 200
GROWTH = 1.5
PENDING = 1.2
# Twice what plain Rust took for a script of 4 MiB, with 276,000 lines without bytes and 150,000 with bytes, on another
# machine: seconds for each MiB, and megabytes.
SCRIPT_SECONDS = {"empty": 2 * 0.13 / 4, "bytes": 2 * 0.09 / 4}
SCRIPT_MEGABYTES = 2 * 30
# The most requests that a call makes: one for each vector that may grow. The other calls make none.
REQUESTS = {
    "Kernel::new": 1,
    "ChannelCreate": 2,
    "ConnectAttach": 2,
    "Send": 3,
    "Pulse": 3,
    "Unblock": 3,
    "ConnectDetach": 3,
}


def row(name, value, aim="", met=True):
    """A line of the table."""
    print(f"{name:<58}{value:>14}{aim:>14}{'' if met else '  missed'}")


def program(path):
    """The path of a built program."""
    if not os.access(path, os.X_OK):
        sys.exit(f"no program {path}\n\n{__doc__}")
    return path


def core():
    """Nanoseconds a call."""
    out = subprocess.run([program(QBENCH), "measure"], capture_output=True, text=True, check=True)
    lines = [line.split() for line in out.stdout.splitlines()[1:]]
    times = {(connections, pulses): float(ns) for connections, pulses, ns in lines}
    for (connections, pulses), ns in times.items():
        aim = NANOSECONDS
        if connections != "1":
            aim = GROWTH * min(NANOSECONDS, times["1", pulses])
        if pulses != "1":
            aim = min(aim, PENDING * times[connections, "1"])
        name = f"a call, with {connections} connections and {pulses} pulses that wait"
        row(name, f"{ns} ns", f"{aim:.1f} ns", ns <= aim)


ROUNDS = {
    "attach": "an attach and a detach, with {live} live connections",
    "create": "a create and a destroy, with {live} open channels",
}


def tables():
    """Nanoseconds that it takes to make an id and to end the oldest."""
    out = subprocess.run([program(QBENCH), "tables"], capture_output=True, text=True, check=True)
    for line in out.stdout.splitlines()[1:]:
        call, live, least, median = line.split()
        name = ROUNDS[call].format(live=live)
        row(f"{name}: least", f"{least} ns")
        row(f"{name}: median", f"{median} ns")


def pulses():
    """Nanoseconds a pulse and its receipt below queued messages."""
    out = subprocess.run([program(QBENCH), "pulses"], capture_output=True, text=True, check=True)
    lines = [line.split() for line in out.stdout.splitlines()[1:]]
    alone = float(lines[0][1])
    for messages, ns in lines:
        aim = PENDING * alone
        row(f"a pulse and its receipt, beneath {messages} messages", f"{ns} ns", f"{aim:.1f} ns", float(ns) <= aim)


def cells():
    """Nanoseconds a completion through a cell."""
    out = subprocess.run([program(QBENCH), "cells"], capture_output=True, text=True, check=True)
    for line in out.stdout.splitlines()[1:]:
        threads, ns = line.split()
        row(f"a completion through a cell, by {threads} thread{'s' if threads != '1' else ''}", f"{ns} ns")


def requests_of(trace):
    """The number of requests after each line that the program printed, and the first word of the line."""
    name, count = None, 0
    for line in trace.splitlines():
        if line.startswith("--"):
            count += bool(re.match(r"--\d+-- (malloc|realloc|calloc|memalign)", line))
        elif not line.startswith("=="):
            if name:
                yield name, count
            name, count = re.match(r"[\w:]+", line).group(0), 0


def allocations():
    """Requests to the allocator by each call."""
    words = ["valgrind", "--trace-malloc=yes", program(QBENCH), "tour"]
    try:
        out = subprocess.run(words, stdout=subprocess.PIPE, stderr=subprocess.STDOUT, text=True, check=True)
    except FileNotFoundError:
        return row("requests to the allocator", "no valgrind")
    found = {}
    for name, count in requests_of(out.stdout):
        found.setdefault(name, []).append(count)
    for name, counts in found.items():
        least, most, aim = min(counts), max(counts), REQUESTS.get(name, 0)
        value = str(least) if least == most else f"{least} to {most}"
        row(f"requests by {name}, made {len(counts)} times", value, str(aim), most <= aim)


def rounds(size, line_of):
    """The prelude and as many whole rounds as there is room for."""
    parts, length, call = [PRELUDE], len(PRELUDE), 3
    while True:
        text = line_of(call)
        if length + len(text) > size:
            return "".join(parts)
        parts.append(text)
        length += len(text)
        call += 3


def empty_round(call):
    """A Send, a Receive and a Reply without bytes."""
    return f"2 send 2 - -\n1 receive 1 -\n1 reply {call} 0 -\n"


def bytes_round(call):
    """The same with messages, buffers and replies of 8 bytes: some 150,000 lines in 4 MiB."""
    data = f"{call:016x}"
    return f"2 send 2 {data} 8x00\n1 receive 1 8xff\n1 reply {call} -1 {data}\n"


KINDS = {
    "empty": lambda size: rounds(size, empty_round),
    "bytes": lambda size: rounds(size, bytes_round),
    "newlines": lambda size: "\n" * size,
}


def run(path, *before):
    """The seconds of one run on a script, and its output on standard error. The words `before` come before the
    command."""
    with open(path, "rb") as script:
        start = time.perf_counter()
        done = subprocess.run(
            [*before, program(QDEMO), "script"], stdin=script, stdout=subprocess.DEVNULL, stderr=subprocess.PIPE, text=True
        )
        seconds = time.perf_counter() - start
    if done.returncode != 0:
        sys.exit(f"{QDEMO} script ended with status {done.returncode} on {path}")
    return seconds, done.stderr


def peak(path):
    """The peak memory in megabytes of one run.

    The system counts the peak of the process that starts a program as the program's, and this process has a
    greater peak than the measured program. GNU time is small, starts the program in a process of its own, and
    prints its peak in KiB.
    """
    _, told = run(path, GNU_TIME, "-f", "%M")
    return int(told) * 1024 / 1e6


def script(kind, mebibytes, folder):
    """The two rows of a script."""
    text = KINDS[kind](mebibytes * MEBIBYTE)
    path = os.path.join(folder, "script")
    with open(path, "w", encoding="ascii") as file:
        file.write(text)
    seconds = min(run(path)[0] for _ in range(RUNS))
    lines = text.count("\n")
    name = f"a script of {mebibytes} MiB, {kind}, {lines} lines"
    aim = SCRIPT_SECONDS.get(kind, 0) * mebibytes
    row(f"{name}: time", f"{seconds:.3f} s", f"{aim:.3f} s" if aim else "", not aim or seconds <= aim)
    if not os.access(GNU_TIME, os.X_OK):
        return row(f"{name}: peak memory", f"no {GNU_TIME}")
    megabytes = max(peak(path) for _ in range(RUNS))
    row(f"{name}: peak memory", f"{megabytes:.1f} MB", f"{SCRIPT_MEGABYTES} MB", megabytes <= SCRIPT_MEGABYTES)


def scripts():
    """Time and memory of the program."""
    with tempfile.TemporaryDirectory() as folder:
        for kind in KINDS:
            for mebibytes in (1, 2, 4):
                script(kind, mebibytes, folder)


PARTS = {
    "core": core,
    "tables": tables,
    "pulses": pulses,
    "cells": cells,
    "allocations": allocations,
    "scripts": scripts,
}


def main():
    words = sys.argv[1:] or list(PARTS)
    if any(word not in PARTS for word in words):
        sys.exit(__doc__)
    row("what", "measured", "aim")
    for word in words:
        PARTS[word]()


if __name__ == "__main__":
    if {"-h", "--help"} & set(sys.argv[1:]):
        print(__doc__)
        sys.exit()
    main()
