#!/usr/bin/env python3
"""Measures the search of `qdemo explore` by designs of several sizes.

usage: bench/explore.py [PROGRAM]
       bench/explore.py --count [--write] [--unproved] [--program FILE]

Explores the example `clients.design` with more clients, with and without symmetry reduction. Also explores five
clients, each with a timer that unblocks it, and four philosophers with four forks. Nothing is wrong in these
designs. For each design this prints the states, the least, median and greatest processor seconds of five runs,
and the peak of the memory in MB. PROGRAM is crates/qdemo/out/qdemo if none is given. It needs GNU time.

With --count it counts the instructions of smaller designs by callgrind, and compares them with
bench/explore.txt. A design that takes over 5 % more is a fault, with status 1, and so is a design without a
kept count. The counts are the same on each machine with the same C library. --program takes another program
than the proved one. --unproved compares with the counts of an unproved program, such as the program of
tools/play. --write keeps the counts of this program anew. --count needs valgrind and strip.
"""

import argparse
import os
import re
import statistics
import subprocess
import sys
import tempfile

TOP = os.path.dirname(os.path.dirname(os.path.abspath(__file__)))
CLIENTS = os.path.join(TOP, "crates/qdemo/data/designs/clients.design")
PROGRAM = os.path.join(TOP, "crates/qdemo/out/qdemo")
KEPT = os.path.join(TOP, "bench/explore.txt")
HEAD = "# thousands of instructions by the proved program and by an unproved one, - for none yet (bench/explore.py)\n"
# The designs of crates/qdemo whose instructions are counted, with some of the larger designs below.
COUNTED = ["greedy-mended", "inversion-mended", "lock-mended", "two-servers-mended"]
TOLERANCE = 1.05
RUNS = 5
SIZES = [(9, True), (20, True), (60, True), (6, False), (7, False), (8, False)]

TIMERS = """thread server fs 10
  c = create 2
  serve
    m = receive c 1x00
    if message
      reply m 0 -
      expect ok or fail srch
    end
  end
thread client app 20 5
  d = attach server.c
  repeat 1
    send d 01 1x00
    expect reply 0 or fail intr
  end
thread timer app 30 5
  unblock client
"""

FORK = """thread fork{0} f{0} 10
  c = create 0
  serve
    m = receive c 1x00
    if bytes 01
      reply m 0 -
      loop
        k = receive c 1x00
        if bytes 02
          reply k 0 -
          if has waiting
            reply waiting 0 -
            forget waiting
          else
            leave
          end
        else
          waiting = k
        end
      end
    end
  end
"""

PHILOSOPHER = """thread philosopher{0} p{0} 20
  l = attach fork{1}.c
  r = attach fork{2}.c
  send l 01 1x00
  send r 01 1x00
  send r 02 1x00
  send l 02 1x00
"""


def clients(count):
    """The example with this many clients."""
    with open(CLIENTS) as text:
        return re.sub(r"(?m)^(thread client app 20) .*", rf"\1 {count}", text.read())


def philosophers(count):
    """This many philosophers, each of them with the lower of two forks first, and as many forks."""
    pairs = [sorted((seat, (seat + 1) % count)) for seat in range(count)]
    return "".join(map(FORK.format, range(count))) + "".join(
        PHILOSOPHER.format(seat, low, high) for seat, (low, high) in enumerate(pairs)
    )


def explore(program, text, symmetry):
    """The states, seconds and MB of a search that finds nothing."""
    with tempfile.NamedTemporaryFile("w", suffix=".design") as file:
        file.write(text)
        file.flush()
        words = ["/usr/bin/time", "-f", "%U %M", program, "explore", file.name]
        ran = subprocess.run(words + ([] if symmetry else ["--no-symmetry"]), capture_output=True, text=True)
    states = re.search(r": nothing found in .* ([\d,]+) states", ran.stdout)
    if not states:
        sys.exit(f"the program ended with {ran.returncode}: {ran.stdout}{ran.stderr}")
    seconds, kilobytes = ran.stderr.split()[-2:]
    return states[1], float(seconds), int(kilobytes) / 1000


def measure(program):
    """Prints the states, seconds and MB of each design."""
    designs = [(f"{n} clients" + ("" if equal else ", no symmetry"), clients(n), equal) for n, equal in SIZES]
    designs += [("5 clients with timers", TIMERS, True), ("4 philosophers", philosophers(4), True)]
    print(f"{'design':24} {'states':>9} {'least':>7} {'median':>7} {'most':>7} {'MB':>6}")
    for name, text, symmetry in designs:
        states, seconds, megabytes = zip(*[explore(program, text, symmetry) for _ in range(RUNS)])
        spread = f"{min(seconds):>7.2f} {statistics.median(seconds):>7.2f} {max(seconds):>7.2f}"
        print(f"{name:24} {states[0]:>9} {spread} {max(megabytes):>6.1f}", flush=True)


def counted_designs():
    """The designs whose instructions are counted: the name and the text of each, and whether symmetry is reduced."""
    for name in COUNTED:
        with open(os.path.join(TOP, f"crates/qdemo/data/designs/{name}.design")) as text:
            yield name, text.read(), True
    yield "20 clients", clients(20), True
    yield "5 clients, no symmetry", clients(5), False
    yield "5 clients with timers", TIMERS, True


def stripped(program, folder):
    """A copy of a program without its debug information, which valgrind may not read."""
    copy = os.path.join(folder, "program")
    subprocess.run(["strip", "-o", copy, program], check=True)
    return copy


def count(program, text, symmetry):
    """The thousands of instructions of a search that finds nothing."""
    with tempfile.TemporaryDirectory() as folder:
        out, design = os.path.join(folder, "out"), os.path.join(folder, "a.design")
        with open(design, "w") as file:
            file.write(text)
        words = ["valgrind", "--tool=callgrind", f"--callgrind-out-file={out}", stripped(program, folder), "explore"]
        words += [design] if symmetry else [design, "--no-symmetry"]
        ran = subprocess.run(words, capture_output=True, text=True)
        if ran.returncode or ": nothing found in " not in ran.stdout:
            sys.exit(f"the program ended with {ran.returncode}: {ran.stdout}{ran.stderr}")
        with open(out) as counts:
            return round(int(re.search(r"^(?:summary|totals): (\d+)", counts.read(), re.M)[1]) / 1000)


def kept_counts():
    """The counts of bench/explore.txt by design: the count of the proved program and of the unproved program, or
    `-`."""
    if not os.path.exists(KEPT):
        return {}
    with open(KEPT) as text:
        rows = [line.split(maxsplit=2) for line in text if not line.startswith("#")]
    return {name.strip(): counts for *counts, name in rows}


def write_counts(rows):
    with open(KEPT, "w") as file:
        file.write(HEAD)
        file.writelines(f"{proved:>10} {unproved:>10}  {name}\n" for name, (proved, unproved) in rows.items())


def compare(program, column, is_written):
    """Compares the counts of a program with those in a column, or writes them there. Returns the status."""
    kept, rows, faults = kept_counts(), {}, 0
    for name, text, symmetry in counted_designs():
        now = count(program, text, symmetry)
        before = kept.get(name, ["-", "-"])
        rows[name] = [*before[:column], str(now), *before[column + 1:]]
        if before[column] == "-":
            word = "isn't kept; --write keeps it"
        else:
            word = "ok" if now <= int(before[column]) * TOLERANCE else "MORE"
        faults += word != "ok"
        print(f"{name:24} {now:>10} thousand instructions, kept {before[column]:>10}: {word}", flush=True)
    if is_written:
        write_counts(rows)
        return 0
    return int(faults > 0)


def main():
    parser = argparse.ArgumentParser(usage=__doc__.split("usage: ")[1].split("\n\n")[0])
    parser.add_argument("file", nargs="?")
    parser.add_argument("--program")
    for flag in ("--count", "--write", "--unproved"):
        parser.add_argument(flag, action="store_true")
    asked = parser.parse_args()
    program = asked.program or asked.file or PROGRAM
    if not os.path.exists(program):
        sys.exit(f"{program}: no such program")
    if asked.count:
        return compare(program, int(asked.unproved), asked.write)
    return measure(program)


if __name__ == "__main__":
    if {"-h", "--help"} & set(sys.argv[1:]):
        print(__doc__)
        sys.exit()
    sys.exit(main())
