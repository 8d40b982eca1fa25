#!/usr/bin/env python3
"""Counts the instructions of a kernel call and of a round trip, and compares them with kept counts.

    bench/instructions.py [calls | trips [KIND..]]    compares; over 2 % more is a fault, with status 1
    bench/instructions.py --write ..                  writes these counts to their file anew

If a program isn't built, it prints the command that builds it, and counts nothing, with status 2. The counts
are the same each time, and on each machine with the same C library and at least two processors.

calls (kept in bench/instructions.txt): a row is 200,000 rounds of Send, Receive and Reply by two threads, with
this many connections and pulses. It runs bench/out/qbench (bench/build qbench) under callgrind.

trips (kept in bench/trips.txt): a round trip as in bench/roundtrips.py. The server receives before the client
sends. A KIND is

    unkept   plain calls by one thread, in a kernel that keeps no history
    kernel   the same in a kernel that keeps its history
    threads  as unkept, by two threads
    calls    the calls under QNX's names, by two threads
    c        the layer for C, by two threads
    rust     the Rust package's ports, by two threads

A call that waits needs a thread for each side. Of two threads only one runs at a time (`turns.c`), and it runs
until it sleeps. The program sees one processor, so a thread that waits sleeps at once, without a poll.

Valgrind reports each instruction. The figures are means of 256 round trips, after 20 others: the instructions
in all, under the lock, and outside it. Under the lock are those after the compare-exchange that takes the lock,
up to the one that frees it. What a program does before and after its round trips doesn't count, so the freeing
of a history doesn't. A kind with over 2 % more in all, or under the lock, is a fault.

A row of a function has its own instructions, with those of the functions that are inlined into it. Instances of
a generic function are one row. `allocator` has the instructions of malloc, free and their like. A function of
the C library has those of the functions that it calls there, and `C library` has what begins at no known name,
such as memcpy. `others` has the functions of less than 1 %.
"""
import collections
import os
import pathlib
import re
import subprocess
import sys
import tempfile

import lines
import roundtrips

TOP = pathlib.Path(__file__).resolve().parent
KEPT = TOP / "instructions.txt"
KEPT_TRIPS = TOP / "trips.txt"
PROGRAM = TOP / "out" / "qbench"
ROUNDS = "qbench::rounds::Course::rounds"
ROWS = [(1, 1), (64, 1), (1024, 1), (1, 1024), (64, 1024), (1024, 1024)]
CALLS = 3 * 200_000
TOLERANCE = 1.02

# Round trips that a program makes, that it makes first, and that are counted.
TRIPS, FIRST, COUNTED = 300, 20, 256
# Each kind's program, the words around the number of its round trips, and how often a round trip takes the lock.
KINDS = {
    "unkept": (roundtrips.KERNEL, ["alone"], ["unkept"], 3),
    "kernel": (roundtrips.KERNEL, ["alone"], [], 3),
    "threads": (roundtrips.KERNEL, ["1", "1"], ["unkept"], 3),
    "calls": (roundtrips.KERNEL, ["1", "1"], ["calls", "unkept"], 2),
    "c": (roundtrips.C, ["1", "1"], [], 3),
    "rust": (roundtrips.RUST, ["1", "1"], [], 3),
}
LIBRARY, ALLOCATOR, OTHERS = "C library", "allocator", "others"
LEAST = 0.01
SPARE = 20 # the most other calls that a program makes
UNPROVED = b"unproved: built by foreign/unproved" # in programs over this library
HEAD = "# instructions of a round trip: in all, under the lock, outside it (bench/instructions.py), and by function\n"


def counted_calls():
    """The instructions a call of each row. The program runs for long, so it is ended after a part for each row."""
    with tempfile.TemporaryDirectory() as room:
        out = pathlib.Path(room) / "parts"
        callgrind = ["valgrind", "--tool=callgrind", f"--callgrind-out-file={out}", f"--toggle-collect={ROUNDS}"]
        run = subprocess.Popen([*callgrind, f"--dump-after={ROUNDS}", PROGRAM, "measure"],
                               stdout=subprocess.DEVNULL, stderr=subprocess.DEVNULL)
        last = pathlib.Path(f"{out}.{len(ROWS) + 1}")
        while run.poll() is None and not last.exists():
            try:
                run.wait(0.2)
            except subprocess.TimeoutExpired:
                pass
        run.kill()
        run.wait()
        parts = [pathlib.Path(f"{out}.{k}").read_text() for k in range(1, len(ROWS) + 1)]
    return [round(int(re.search(r"^summary: (\d+)", part, re.M)[1]) / CALLS) for part in parts]


def calls(writes):
    """Counts the calls, and writes or compares them. Returns the number of faults."""
    now = counted_calls()
    if writes:
        head = "# connections, pending pulses, instructions a call (bench/instructions.py)\n"
        KEPT.write_text(head + "".join(f"{c:5} {p:5} {n:5}\n" for (c, p), n in zip(ROWS, now)))
        return 0
    kept = [int(line.split()[2]) for line in KEPT.read_text().splitlines() if not line.startswith("#")]
    faults = 0
    for (connections, pulses), before, after in zip(ROWS, kept, now):
        word = "ok" if after <= before * TOLERANCE else "MORE"
        faults += word != "ok"
        print(f"{connections:5} connections {pulses:5} pulses: {after:5}, kept {before:5}: {word}")
    return faults


def exported(file):
    """The names of a library's functions, by address, without their versions."""
    listing = lines.Program.said("nm", "-D", "--defined-only", file)
    return {int(at, 16): name for at, name in re.findall(r"^([0-9a-f]+) [TW] ([^@\n]+)", listing, re.M)}


def try_lock_exchanges(file, names):
    """The addresses of the compare-exchanges in a C library's pthread_mutex_trylock."""
    start = next(at for at, name in names.items() if name == "pthread_mutex_trylock")
    end = min(at for at in names if at > start)
    bounds = [f"--start-address={start}", f"--stop-address={end}"]
    listing = lines.Program.said("objdump", "-d", "--no-show-raw-insn", *bounds, file)
    return {int(at, 16) for at in re.findall(r"^ *([0-9a-f]+):\s+lock cmpxchg", listing, re.M)}


class Reader:
    """Goes through the trace of a program, and counts the instructions of round trips."""

    def __init__(self, program, blocks):
        self.program, self.base, self.modules = lines.Program(program), blocks.base, blocks.modules
        self.exchanges = {self.base + it for it in self.program.exchanges}
        for base, _, _, name in self.modules:
            if "/libc.so" in name:
                self.library_base, self.names = base, exported(name)
                self.exchanges |= {base + it for it in try_lock_exchanges(name, self.names)}

    def place(self, at):
        """The program's function at an address, or the library, or `blocks` or `turns`."""
        for base, first, last, name in self.modules:
            if first <= at < last:
                if base == self.base:
                    return self.program.function(at - base)
                return LIBRARY if base == self.library_base else pathlib.Path(name).stem
        return "?"

    def entered(self, at, before):
        """The function of the C library that begins at an address, if it is one. Only the allocator is called by
        `blocks.c`."""
        return ALLOCATOR if before == "blocks" else self.names.get(at - self.library_base, LIBRARY)

    def lock_word(self, trace):
        """The word that most compare-exchanges meet, apart from words that `turns.c` reads, where threads sleep."""
        met, slept, turns, at = collections.Counter(), set(), {}, 0
        for line in trace:
            if line.startswith("I"):
                at = address_of(line)
                continue
            if at not in turns:
                turns[at] = self.place(at) == "turns"
            if turns[at]:
                slept.add(address_of(line))
            elif at in self.exchanges and line.startswith(" M"):
                met[address_of(line)] += 1
        return next(word for word, _ in met.most_common() if word not in slept)

    def counts(self, trace, word, turns):
        """The instructions of the counted round trips by function, outside the lock and under it. A round trip takes
        the lock this number of times."""
        found, places, text = (collections.Counter(), collections.Counter()), {}, f"{word:08x},"
        turn, taken, takes, frees, counting = 0, False, False, False, False
        before, name, step = "", LIBRARY, ""
        for line in trace:
            if line.startswith("I"):
                taken, takes, frees = (taken or takes) and not frees, False, False
                place = places.get(line) or places.setdefault(line, self.place(address_of(line)))
                if place == "turns":
                    continue # this thread may have paused another at any place
                if place != LIBRARY:
                    name = place
                elif before != LIBRARY:
                    name = self.entered(address_of(line), before)
                before, step = place, line
                if counting:
                    found[taken][name] += 1
            elif line.startswith(text, 3) and not takes:
                frees = taken
                if not taken and address_of(step) in self.exchanges:
                    takes, turn = True, turn + 1
                    counting = 0 <= turn - 1 - FIRST * turns < COUNTED * turns
        if not 0 <= turn - TRIPS * turns <= SPARE:
            sys.exit(f"bench/instructions.py: the lock was taken {turn} times in {TRIPS} round trips")
        return found


def address_of(line):
    """The address of a trace's line."""
    return int(line[3:].partition(",")[0], 16)


def shown(names):
    """The names of functions for people: without marks of their instances, and as Rust writes them."""
    told = subprocess.run(["c++filt"], input="\n".join(names), capture_output=True, text=True, check=True).stdout
    marks = r"::<#[0-9a-f]+>|\[[0-9a-f]+\]|::h[0-9a-f]{16}$|[.](constprop|isra|part|cold|llvm)\b.*$"
    return dict(zip(names, (re.sub(marks, "", it) for it in told.splitlines())))


def counted_trips(kind):
    """The rows of a kind: a name with the instructions in all, under the lock and outside it, the sum first."""
    program, first, last, turns = KINDS[kind]
    names = ("blocks",) if first[0] == "alone" else ("blocks", "turns")
    with tempfile.TemporaryDirectory() as room:
        words = [program, *first, str(TRIPS), *last]
        trace, blocks = lines.traced(words, pathlib.Path(room), names, BLOCKS_KEPT="1")
        reader = Reader(program, blocks)
        with open(trace) as one, open(trace) as other:
            found = reader.counts(other, reader.lock_word(one), turns)
    return rows_of(found)


def rows_of(found):
    """The rows of counts outside the lock and under it."""
    functions = collections.defaultdict(lambda: [0, 0])
    names = shown({*found[0], *found[1]} - {"blocks"})
    for taken in (0, 1):
        for name, short in names.items():
            functions[short][taken] += found[taken][name]
    whole = [sum(it) for it in zip(*functions.values())]
    few = [name for name, counts in functions.items() if sum(counts) < LEAST * sum(whole)]
    functions[OTHERS] = [sum(it) for it in zip([0, 0], *(functions.pop(name) for name in few))]
    functions["all"] = whole
    sums = ((name, (out + under, under, out)) for name, (out, under) in functions.items())
    rows = [(name, [round(it / COUNTED) for it in figures]) for name, figures in sums]
    return sorted(rows, key=lambda row: (row[0] != "all", row[0] == OTHERS, -row[1][0], row[0]))


def kept_trips():
    """The rows of each kind that are kept."""
    kept = collections.defaultdict(list)
    text = KEPT_TRIPS.read_text() if KEPT_TRIPS.exists() else ""
    for line in text.splitlines():
        if not line.startswith("#"):
            kind, *figures, name = line.split(None, 4)
            kept[kind].append((name, [int(it) for it in figures]))
    return kept


def text_of(kind, rows):
    """The rows of a kind as text."""
    return "".join(f"{kind:8}" + "".join(f"{it:7}" for it in figures) + f"  {name}\n" for name, figures in rows)


def compared(kind, rows, kept):
    """Prints the rows of a kind, and whether they take more than is kept. Returns the number of faults."""
    print(text_of(kind, rows), end="")
    if not kept:
        print(f"{kind}: nothing is kept in bench/trips.txt; --write keeps it")
        return 1
    before = dict(kept)
    more = [(name, before[name], now) for name, now in rows if name in before and
            any(a > b * TOLERANCE for a, b in zip(now[:2], before[name]))]
    is_fault = "all" in [name for name, _, _ in more]
    many, under, _ = before["all"]
    print(f"{kind}: {'MORE' if is_fault else 'ok'}: kept are {many} in all, {under} under the lock")
    for name, (many, under, _), (now, now_under, _) in more:
        print(f"{kind}: more: {now} for {many}, {now_under} for {under} under the lock: {name}")
    return int(is_fault)


def trips(kinds, writes):
    """Counts the round trips, and writes or compares them. Returns the number of faults."""
    kept, faults = kept_trips(), 0
    for kind in kinds:
        rows = counted_trips(kind)
        if writes:
            kept[kind] = rows
        else:
            faults += compared(kind, rows, kept[kind])
    if writes:
        KEPT_TRIPS.write_text(HEAD + "".join(text_of(kind, kept[kind]) for kind in KINDS if kind in kept))
    return faults


def chosen(words):
    """Whether the calls are counted, and the kinds of round trips that are."""
    if words in ([], ["calls"]):
        return True, [] if words else list(KINDS)
    if words[0] != "trips" or not set(words[1:]) <= set(KINDS):
        sys.stderr.write(__doc__)
        sys.exit(2)
    return False, words[1:] or list(KINDS)


def require(programs, writes):
    """Ends with status 2 if one of these programs isn't built, or is unproved and its counts would be written."""
    built_by = {str(PROGRAM): "bench/build qbench"} | roundtrips.BUILT_BY
    faults = []
    for program in dict.fromkeys(programs):
        name = os.path.relpath(program, TOP.parent)
        if not os.access(program, os.X_OK):
            faults.append(f"no {name}; it is built by: {built_by[program]}")
        elif writes and UNPROVED in pathlib.Path(program).read_bytes():
            faults.append(f"{name} has an unproved library, whose counts aren't kept")
    for fault in faults:
        print(f"bench/instructions.py: {fault}", file=sys.stderr)
    if faults:
        sys.exit(2)


def main():
    words = [it for it in sys.argv[1:] if it != "--write"]
    writes = "--write" in sys.argv[1:]
    counts_calls, kinds = chosen(words)
    if "c" in kinds:
        roundtrips.build_c()
    require([str(PROGRAM)] * counts_calls + [KINDS[kind][0] for kind in kinds], writes)
    faults = (calls(writes) if counts_calls else 0) + (trips(kinds, writes) if kinds else 0)
    sys.exit(1 if faults else 0)


if __name__ == "__main__":
    if {"-h", "--help"} & set(sys.argv[1:]):
        print(__doc__)
        sys.exit()
    main()
