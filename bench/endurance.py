#!/usr/bin/env python3
"""Runs a kernel that keeps no history for longer and longer, and shows that its memory stays the same.

usage: bench/endurance.py [MILLIONS [CLIENTS SERVERS]]

These clients and servers (by default 8 and 4) make round trips in ten runs. Each run is longer than the one
before, up to this many millions (by default 10). The program itself checks that all messages got a reply, and
that the calls of all ports are at least three for each round trip. For each run this prints the round trips,
the seconds, the microseconds of a round trip, and the peak of the memory in KiB. A run of 1,000 round trips
comes first. The last line is 'flat' if no run took a fifth more memory than the first of the ten. Otherwise it
is 'not flat', and the status is 1. It needs GNU time.
"""

import os
import subprocess
import sys
import time

TOP = os.path.dirname(os.path.dirname(os.path.abspath(__file__)))
PROGRAM = os.path.join(TOP, "bench/out/qroundtrips")
RUNS = 10

# It starts the program: the system counts the peak of the process that starts a program as the program's.
GNU_TIME = "/usr/bin/time"


def run(clients, servers, rounds):
    """The seconds and the peak memory of a run, in which each client makes this many rounds."""
    words = [GNU_TIME, "-f", "%M", PROGRAM, str(clients), str(servers), str(rounds), "unkept"]
    start = time.monotonic()
    ran = subprocess.run(words, capture_output=True, text=True)
    seconds = time.monotonic() - start
    if ran.returncode != 0:
        sys.exit(f"the program ended with {ran.returncode}: {ran.stderr}")
    return seconds, int(ran.stderr.split()[-1])


def main():
    if not os.path.exists(PROGRAM):
        sys.exit("build the program first: bench/build qroundtrips")
    numbers = [int(word) for word in sys.argv[1:]]
    millions, clients, servers = numbers if len(numbers) == 3 else [*(numbers or [10]), 8, 4]
    print(f"{clients} clients and {servers} servers, {len(os.sched_getaffinity(0))} cores")
    print(f"{'round trips':>12} {'seconds':>9} {'us each':>9} {'peak KiB':>9}")
    peaks = []
    for trips in [1000] + [millions * 1_000_000 * k // RUNS for k in range(1, RUNS + 1)]:
        rounds = trips // clients
        seconds, peak = run(clients, servers, rounds)
        many = rounds * clients
        peaks.append(peak)
        print(f"{many:>12,} {seconds:>9.2f} {seconds * 1e6 / many:>9.2f} {peak:>9,}", flush=True)
    if max(peaks[1:]) > peaks[1] * 1.2:
        print("not flat")
        sys.exit(1)
    print("flat")


if __name__ == "__main__":
    if {"-h", "--help"} & set(sys.argv[1:]):
        print(__doc__)
        sys.exit()
    main()
