#!/usr/bin/env python3
"""Counts how often programs fail without balsaeuchre-explore.

usage: bench/normal_runs.py [--runs N] [--failures N] [--limit SECONDS] PROGRAM..

It runs each program again and again, by default 10,000 times, in rounds of 250 runs, so that other work of the
machine affects all programs. Each run is a new process, which is killed after the limit (10 s). A run fails if
its status isn't 0. A program that has failed so often (20) isn't run again, because runs that hang take the
whole limit. It prints the failed runs of each program, all runs, and the first failed run. If SIGTERM or Ctrl-C
ends it, it prints what it has.

For the programs with planted bugs of foreign/explore/tests/bugs, build them as docs/PROGRAMS.md does:

    foreign/install --unproved ~/balsaeuchre
    cc -g -O2 -o p5_lost $(pkg-config --cflags balsaeuchre-qnx) p5_lost.c $(pkg-config --libs balsaeuchre-qnx)
"""
import argparse
import os
import signal

ROUND = 250
QUIET = [(os.POSIX_SPAWN_OPEN, file, "/dev/null", os.O_RDWR, 0) for file in range(3)]


class Count:
    """The runs of a program so far."""

    def __init__(self, program):
        self.program = os.path.abspath(program)
        self.runs = self.failed = self.first = 0

    def is_over(self, options):
        return self.runs == options.runs or self.failed == options.failures

    def add(self, is_failure):
        self.runs += 1
        self.failed += is_failure
        if is_failure and not self.first:
            self.first = self.runs

    def __str__(self):
        since = f", the first is run {self.first:,}" if self.first else ""
        return f"{os.path.basename(self.program):<16}{self.failed:,} of {self.runs:,} runs failed{since}"


def fails(program, limit):
    """Runs a program once. Returns whether it failed."""
    pid = os.posix_spawn(program, [program], os.environ, file_actions=QUIET)
    signal.signal(signal.SIGALRM, lambda *_: os.kill(pid, signal.SIGKILL))
    signal.setitimer(signal.ITIMER_REAL, limit)
    _, status = os.waitpid(pid, 0)
    signal.setitimer(signal.ITIMER_REAL, 0)
    return status != 0


def count_all(counts, options):
    while left := [count for count in counts if not count.is_over(options)]:
        for count in left:
            until = count.runs + ROUND
            while count.runs < until and not count.is_over(options):
                count.add(fails(count.program, options.limit))


def main():
    parser = argparse.ArgumentParser(description=__doc__, formatter_class=argparse.RawDescriptionHelpFormatter)
    parser.add_argument("--runs", type=int, default=10000, help="runs of each program")
    parser.add_argument("--failures", type=int, default=20, help="failures after which a program isn't run again")
    parser.add_argument("--limit", type=float, default=10, help="seconds after which a run hangs")
    parser.add_argument("programs", nargs="+", metavar="PROGRAM")
    options = parser.parse_args()
    counts = [Count(program) for program in options.programs]
    signal.signal(signal.SIGTERM, signal.default_int_handler)
    try:
        count_all(counts, options)
    except KeyboardInterrupt:
        pass
    print(*counts, sep="\n")


if __name__ == "__main__":
    main()
