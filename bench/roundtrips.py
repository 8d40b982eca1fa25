#!/usr/bin/env python3
"""Measures round trips between threads, by the kernel and by plain Rust that does the same, and prints one table.

usage: bench/roundtrips.py [--busy] [--before PROGRAM] [repeats]

In a round trip a client sends 4 bytes with room for 8 in the reply. A server receives them into 16 bytes and
replies with 4, and the client collects and checks them. The programs:

  kernel      Send, Receive and Reply by the locked kernel, with a thread for each port, and its history in
              memory
  unkept      the same by a kernel that keeps no history
  calls       the same under QNX's names, by a `Caller` for each thread, with the reply and the next receive in one
  c           threads of a C program over the static library (foreign/threads), which keeps no history either
  c 64 KiB    the same with a receive buffer of 64 KiB
  qnx         an unchanged QNX program, over QNX's front for the same threads (foreign/qnx)
  rendezvous  a channel of Rust's `std` without room, with a reply channel for each client
  condvar     a mutex over a queue, with condition variables
  crossbeam   a channel of crossbeam without room, with a reply channel for each client
  rust        the library under the Rust package's ports, which keep no history
  rust 64 KiB the same with a receive buffer of 64 KiB

The kernel also makes them in one thread, which has the ports of a client and of a server and never waits. This
is the row `alone`, which shows the cost of its three calls and two polls by themselves.

It needs the built programs `bench/out/qroundtrips` and `bench/peers/out/peers`, and the static library, over
which it builds the C program itself. A program that isn't built is left out, with a message about the command
that builds it.

Each repeat (by default 7) runs all programs in turn, case by case, so that other work of the machine affects
all of them. `--before PROGRAM` runs an older `qroundtrips` too, as `kernel before` and `unkept before`.
`--busy` lets a process that computes run on each core meanwhile, and makes fewer round trips. It leaves out the
row `alone`, and the peers that yield their core and so wait for it in milliseconds. The figures are
microseconds a round trip, least and median, and the median of the sleeps a round trip. A round trip takes the
time until all clients have ended, divided by the number of all round trips. The sleeps are the voluntary
context switches of all threads of the program, as the system counts them. At the end come the ratios of the
kernel's median to each peer's, and of the medians of the calls, of C and of Rust to others, with their goals.
"""

import argparse
import multiprocessing
import os
import resource
import statistics
import subprocess
import sys
import time

ROOT = os.path.dirname(os.path.dirname(os.path.abspath(__file__)))
KERNEL = os.path.join(ROOT, "bench/out/qroundtrips")
PEERS = os.path.join(ROOT, "bench/peers/out/peers")
RUST = os.path.join(ROOT, "foreign/rust/target/release/examples/bench")
C = os.path.join(ROOT, "bench/out/c_roundtrips")
QNX = os.path.join(ROOT, "bench/out/qnx_roundtrips")
LIBRARY = os.path.join(ROOT, "crates/balsaeuchre_c/out/libbalsaeuchre_c.a")

PROGRAMS = {
    "kernel": [KERNEL],
    "unkept": [KERNEL],
    "calls": [KERNEL],
    "c": [C],
    "c 64 KiB": [C],
    "qnx": [QNX],
    "rendezvous": [PEERS, "rendezvous"],
    "condvar": [PEERS, "condvar"],
    "crossbeam": [PEERS, "crossbeam"],
    "rust": [RUST],
    "rust 64 KiB": [RUST],
}
# The words after the numbers of a program's command.
LAST_WORDS = {"unkept": ["unkept"], "calls": ["calls", "unkept"], "unkept before": ["unkept"]}
LAST_WORDS |= {"c 64 KiB": ["65536"], "rust 64 KiB": ["65536"]}
BUILT_BY = {
    KERNEL: "bench/build qroundtrips",
    PEERS: "bench/peers/build",
    RUST: "cargo build --offline --release --manifest-path foreign/rust/Cargo.toml --example bench",
    C: "(cd crates/balsaeuchre_c && rt lib), and then by this script",
    QNX: "the same",
}

# Clients and servers. Each run makes the same number of round trips. It takes about a second at most, and stays far
# below the 1,048,576 events that a kernel can keep. A round trip is three events.
CASES = ((1, 1), (2, 1), (8, 4), (32, 16))
# One thread in place of two, only by the kernel, and its goal in microseconds if no history is kept.
ALONE = ("alone",)
OWN = ("kernel", "unkept")
ALONE_AIM = 0.4
ROUND_TRIPS = 60_000
BUSY_ROUND_TRIPS = 4_800
# The peers that sleep, and so don't wait for a time slice on a busy machine.
BUSY_PEERS = ("condvar",)
REPEATS = 7
SECONDS = 120

# The greatest ratio to a peer's median that is a goal, in all cases or in some.
AIMS = {
    "rendezvous": {case: 2 / 3 for case in CASES},
    "condvar": {case: 2 / 3 for case in CASES},
    "crossbeam": {(8, 4): 1.7},
}
BUSY_AIMS = {"condvar": {case: 3 for case in CASES}}

# Other pairs, and the greatest ratio of the first median to the second, on a quiet and on a busy machine.
PAIR_AIMS = (
    ("calls", "unkept", 1.05, None),
    ("c", "unkept", 1.2, None),
    ("rust", "unkept", 1.2, None),
    ("c", "condvar", None, 3),
    ("rust", "condvar", None, 3),
    ("c 64 KiB", "c", 1.3, None),
    ("qnx", "c", 1.1, None),
    ("rust 64 KiB", "rust", 1.3, None),
)


def build_c():
    """Builds the C programs, if the library is built."""
    if not os.path.exists(LIBRARY):
        return
    doc = subprocess.run(["rt", "doc"], capture_output=True, text=True, check=True).stdout.strip()
    heap = os.path.join(os.path.dirname(doc), "c/liblibc_c.a")
    foreign = os.path.join(ROOT, "foreign")
    sources = [os.path.join(foreign, "threads", name) for name in ("bench.c", "neutrino.c")]
    folders = [f"-I{foreign}/threads", f"-I{foreign}/include"]
    os.makedirs(os.path.dirname(C), exist_ok=True)
    words = ["cc", "-std=gnu11", "-O2", "-pthread"]
    subprocess.run([*words, *folders, "-o", C, *sources, LIBRARY, heap], check=True)
    front, layer = (os.path.join(os.path.dirname(C), name) for name in ("qnx_front.o", "qnx_layer.o"))
    names = ["-include", f"{foreign}/qnx/include/sys/layer_names.h"]
    folders = [f"-I{foreign}/qnx/include", *folders]
    subprocess.run([*words, *folders, "-c", "-o", front, f"{foreign}/qnx/qnx.c"], check=True)
    subprocess.run([*words, *names, *folders[1:], "-c", "-o", layer, f"{foreign}/daemon/layer.c"], check=True)
    program = f"{foreign}/qnx/bench.c"
    subprocess.run([*words, *folders, "-o", QNX, program, front, layer, LIBRARY, heap], check=True)


def built(busy):
    """The programs that are built. For the others it prints how they are built."""
    build_c()
    for path, command in BUILT_BY.items():
        if not os.access(path, os.X_OK):
            print(f"not built: {os.path.relpath(path, ROOT)}; in {ROOT} build it by: {command}")
    fit = [name for name, words in PROGRAMS.items() if not busy or words[0] != PEERS or name in BUSY_PEERS]
    return [name for name in fit if os.access(PROGRAMS[name][0], os.X_OK)]


def compute():
    """Computes until it is ended."""
    while True:
        pass


def burden():
    """A process that computes on each core."""
    cores = sorted(os.sched_getaffinity(0))
    processes = [multiprocessing.Process(target=compute, daemon=True) for _ in cores]
    for core, process in zip(cores, processes):
        process.start()
        os.sched_setaffinity(process.pid, {core})


def measured(name, case, round_trips):
    """The microseconds and the sleeps of a round trip, in one run."""
    clients = 1 if case == ALONE else case[0]
    rounds = round_trips // clients
    words = [*PROGRAMS[name], *map(str, case), str(rounds), *LAST_WORDS.get(name, [])]
    before = resource.getrusage(resource.RUSAGE_CHILDREN).ru_nvcsw
    try:
        out = subprocess.run(words, capture_output=True, text=True, timeout=SECONDS)
    except subprocess.TimeoutExpired:
        sys.exit(f"no end after {SECONDS} seconds: {' '.join(words)}")
    slept = resource.getrusage(resource.RUSAGE_CHILDREN).ru_nvcsw - before
    told = out.stdout.split()
    if out.returncode != 0 or told[1:] != ["us"]:
        sys.exit(f"status {out.returncode}: {' '.join(words)}\n{out.stdout}{out.stderr}")
    return float(told[0]), slept / (clients * rounds)


def named(case):
    """A case in short."""
    return "-".join(map(str, case))


def rows(programs, runs):
    """The table."""
    print(f"{'clients-servers':<18}{'program':<15}{'least us':>10}{'median us':>11}{'sleeps':>8}")
    for case in (*CASES, ALONE):
        for name in programs:
            if (case, name) not in runs:
                continue
            micros, sleeps = zip(*runs[case, name])
            median = statistics.median(micros)
            print(f"{named(case):<18}{name:<15}{min(micros):>10.2f}{median:>11.2f}{statistics.median(sleeps):>8.2f}")


def ratios(programs, runs, aims):
    """The ratio of the kernel's median to each peer's."""

    def median(case, name):
        return statistics.median(micros for micros, _ in runs[case, name])

    print(f"\n{'clients-servers':<18}{'to':<15}{'kernel':>10}{'unkept':>10}{'aim':>11}")
    for case in CASES:
        for name in programs:
            if name not in aims:
                continue
            kept, unkept = (median(case, own) / median(case, name) for own in ("kernel", "unkept"))
            aim = aims[name].get(case)
            missed = "  missed" if aim and kept > aim else ""
            print(f"{named(case):<18}{name:<15}{kept:>10.2f}{unkept:>10.2f}{f'{aim:.2f}' if aim else '':>11}{missed}")
        if "unkept before" in programs:
            kept, unkept = (median(case, own) / median(case, f"{own} before") for own in ("kernel", "unkept"))
            print(f"{named(case):<18}{'the one before':<15}{kept:>10.2f}{unkept:>10.2f}")
    if (ALONE, "unkept") not in runs:
        return
    alone = median(ALONE, "unkept")
    missed = "  missed" if alone > ALONE_AIM else ""
    print(f"\nin one thread, with no past kept: {alone:.2f} us, aim {ALONE_AIM:.2f}{missed}")


def ratios_of_pairs(programs, runs, busy):
    """The ratios of the medians of pairs of programs."""
    print(f"\n{'clients-servers':<18}{'of':<15}{'to':<15}{'times':>10}{'aim':>10}")
    for case in CASES:
        for name, other, quiet, loaded in PAIR_AIMS:
            if name not in programs or other not in programs:
                continue
            mine, its = (statistics.median(micros for micros, _ in runs[case, one]) for one in (name, other))
            aim = loaded if busy else quiet
            missed = "  missed" if aim and mine / its > aim else ""
            print(f"{named(case):<18}{name:<15}{other:<15}{mine / its:>10.2f}{f'{aim:.2f}' if aim else '':>10}{missed}")


def read_words():
    """The options of the command line."""
    parser = argparse.ArgumentParser(usage=__doc__.split("usage: ")[1].splitlines()[0])
    parser.add_argument("--busy", action="store_true")
    parser.add_argument("--before")
    parser.add_argument("repeats", nargs="?", type=int, default=REPEATS)
    words = parser.parse_args()
    if words.repeats < 1:
        parser.error("at least one repeat")
    if words.before and not os.access(words.before, os.X_OK):
        parser.error(f"no program: {words.before}")
    return words


def main():
    words = read_words()
    if words.before:
        PROGRAMS["kernel before"] = PROGRAMS["unkept before"] = [os.path.abspath(words.before)]
    programs = built(words.busy)
    if not programs:
        sys.exit(1)
    round_trips = BUSY_ROUND_TRIPS if words.busy else ROUND_TRIPS
    cores = len(os.sched_getaffinity(0))
    date = time.strftime("%Y-%m-%d %H:%M")
    load = os.getloadavg()[0]
    beside = ", beside a process that computes on each" if words.busy else ""
    print(f"{date}, {cores} cores{beside}, load {load:.1f}: {words.repeats} repeats of {round_trips:,} round trips\n")
    if words.busy:
        burden()
    runs = {(case, name): [] for case in CASES for name in programs}
    if not words.busy:
        runs |= {(ALONE, name): [] for name in programs if name.split()[0] in OWN}
    for _ in range(words.repeats):
        for case, name in runs:
            runs[case, name].append(measured(name, case, round_trips))
    rows(programs, runs)
    if "kernel" in programs:
        ratios(programs, runs, BUSY_AIMS if words.busy else AIMS)
    ratios_of_pairs(programs, runs, words.busy)


if __name__ == "__main__":
    main()
