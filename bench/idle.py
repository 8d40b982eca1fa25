#!/usr/bin/env python3
"""Shows that a port that waits takes no processor time.

usage: bench/idle.py [SECONDS]

A client and a server make round trips, each on a thread of its own. One of the two is stopped in the middle of
its work (by ptrace, as a debugger does), so the other has nothing to collect. After some milliseconds to spin
and fall asleep, the other is watched for this many seconds (by default 5). The figure is the processor time in
nanoseconds that it took, as the system counts it. Then the first continues. This is done ten times, for the two
in turn. The last line is 'idle' if no figure is above 0. Otherwise it is 'not idle', and the status is 1. It
needs a system that lets it trace its own programs.
"""

import ctypes
import os
import subprocess
import sys
import time

TOP = os.path.dirname(os.path.dirname(os.path.abspath(__file__)))
PROGRAM = os.path.join(TOP, "bench/out/qroundtrips")
TIMES, SETTLING = 10, 0.005

# Of <sys/ptrace.h> and <sys/wait.h>.
SEIZE, INTERRUPT, DETACH, ANY_CHILD = 0x4206, 0x4207, 17, 0x40000000

LIBC = ctypes.CDLL(None, use_errno=True)
LIBC.ptrace.argtypes = [ctypes.c_long, ctypes.c_long, ctypes.c_void_p, ctypes.c_void_p]


def trace(request, thread):
    """One request about a thread."""
    if LIBC.ptrace(request, thread, None, None) != 0:
        sys.exit(f"ptrace {request:#x}: {os.strerror(ctypes.get_errno())}")


def taken(process, thread):
    """The processor time of a thread so far, in nanoseconds."""
    with open(f"/proc/{process}/task/{thread}/schedstat", encoding="ascii") as file:
        return int(file.read().split()[0])


def watched(process, stopped, other, seconds):
    """The processor time of the other thread while the first is stopped."""
    trace(SEIZE, stopped)
    trace(INTERRUPT, stopped)
    os.waitpid(stopped, ANY_CHILD)
    time.sleep(SETTLING)
    before = taken(process, other)
    if before == 0:
        sys.exit("the system doesn't count what a thread takes")
    time.sleep(seconds)
    after = taken(process, other)
    trace(DETACH, stopped)
    return after - before


def workers_of(process):
    """The two threads that make calls: all except the first, which waits for their end."""
    for _ in range(1000):
        threads = sorted(int(name) for name in os.listdir(f"/proc/{process}/task"))
        if len(threads) >= 3:
            return threads[1], threads[2]
        time.sleep(0.001)
    sys.exit("the program has no two workers")


def main():
    if not os.path.exists(PROGRAM):
        sys.exit("build the program first: bench/build qroundtrips")
    seconds = float(sys.argv[1]) if len(sys.argv) > 1 else 5.0
    program = subprocess.Popen([PROGRAM, "1", "1", "65000000", "unkept"], stdout=subprocess.DEVNULL)
    figures = []
    try:
        pair = workers_of(program.pid)
        for k in range(TIMES):
            time.sleep(0.05)
            stopped, other = pair if k % 2 == 0 else pair[::-1]
            figures.append(watched(program.pid, stopped, other, seconds))
            print(f"worker {k % 2 + 1} stopped: the other took {figures[-1]} ns in {seconds} s", flush=True)
    finally:
        program.kill()
    if max(figures) > 0:
        print("not idle")
        sys.exit(1)
    print("idle")


if __name__ == "__main__":
    if {"-h", "--help"} & set(sys.argv[1:]):
        print(__doc__)
        sys.exit()
    main()
