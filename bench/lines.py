#!/usr/bin/env python3
"""Counts the cache lines that Send, Receive and Reply touch under the lock, and compares them with bench/lines.txt.

    bench/lines.py             compares; a row with more lines is a fault, with status 1
    bench/lines.py --write     writes the file anew
    bench/lines.py --each      prints each line that the three calls touch, and compares nothing
    bench/lines.py .. PROGRAM  takes another program than bench/out/qroundtrips (bench/build qroundtrips)

One thread has the ports of a client and of a server, and makes 40 round trips in a kernel that keeps no
history. In one run the server receives before the client sends. In another it receives after it, so that the
message waits in the channel's queue. Valgrind reports each load and store, and `blocks.c` each block of memory.
The distinct lines of 64 bytes are counted in the last round trip, from the store that takes the lock to the
store that frees it. It counts touched lines, written lines and moved lines. A moved line was
written last by the other thread, or the other thread touched it before this turn writes it. The beginning of a
block is chance, so a figure is the mean of four runs, in which all blocks are 0, 16, 32 and 48 bytes further
on. The figures are the same each time.

The content of a block is known from the function that takes it, and the content of the value under the lock
from the offset. A line that holds two things counts for each, and once in the sum. The stack doesn't count, and
neither does memory that a program only reads.
"""

import bisect
import collections
import os
import pathlib
import re
import subprocess
import sys
import tempfile

TOP = pathlib.Path(__file__).resolve().parent
KEPT = TOP / "lines.txt"
PROGRAM = TOP / "out" / "qroundtrips"
ROUNDS = 40
# The calls of a round trip in their order, and the words with which the program makes them in this order.
ORDERS = [(("Receive", "Send", "Reply"), []), (("Send", "Receive", "Reply"), ["ahead"])]
HEAD = "# lines under the lock (bench/lines.py): touched and written by each call and by all, and moved by all\n"
SHIFTS = (0, 16, 32, 48)
LINE = 64

# The content of a block, by the function that takes it and the number of the block among the function's blocks.
PLACES = {
    "qshared::parts::Parts::new 6": "cell",
    "qshared::parts::Parts::new 7": "cell",
    "qshared::parts::Parts::new 8": "thread",
    "qshared::shared::ports_for": "endings",
    "qshared::traced::make_at 1": "channel",
    "qshared::traced::make_at 2": "tables",
    "qshared::traced::make_at 3": "connection",
    "qshared::traced::make_at 4": "tables",
    "qkernel_state::channel::Channel::enqueue": "queue",
    "qqueue::level_heads::Lane::make": "queue",
    "qroundtrips::course::run_unkept 1": "locked",
    "qroundtrips::workers::send_call": "bytes",
    "qroundtrips::workers::receive_call": "bytes",
    "qroundtrips::workers::reply_call": "bytes",
    "qroundtrips::course::run_unkept": "bytes",
}

# The place of the kernel in the value under the lock, and its parts there. The parts are the words that each call
# writes, the tables of the index, and the heads of the tables of threads, channels and connections.
KERNEL = 0
PARTS = [(0, "kernel"), (72, "index"), (584, "tables"), (736, "log")]

# Memory that a program only reads, and memory that only its own thread touches.
STILL = {"constants", "stack"}


class Program:
    """The program's functions, by address, and its compare-exchanges."""

    def __init__(self, file):
        self.file = file
        symbols = re.findall(r"^([0-9a-f]+) [tTwW] (.*)$", self.said("nm", "-n", "--defined-only", file), re.M)
        self.functions = [(int(at, 16), name) for at, name in symbols]
        self.starts = [at for at, _ in self.functions]
        listing = self.said("objdump", "-d", "--no-show-raw-insn", file)
        self.exchanges = {int(at, 16) for at in re.findall(r"^ *([0-9a-f]+):\s+lock cmpxchg", listing, re.M)}

    @staticmethod
    def said(*words):
        return subprocess.run(words, capture_output=True, text=True, check=True).stdout

    def function(self, at):
        """The name of the function at an address of the file."""
        k = bisect.bisect(self.starts, at)
        return self.functions[k - 1][1] if k else "?"


class Blocks:
    """The blocks of memory, as `blocks.c` reports them: the places of the program and its libraries, and each
    request."""

    def __init__(self, text):
        self.modules, self.requests = [], []
        for line in text.splitlines():
            words = line.split()
            if words[0] == "module":
                self.modules.append((*(int(it, 16) for it in words[1:4]), words[4] if len(words) > 4 else ""))
            elif words[0] == "tell":
                self.tell = int(words[1], 16)
            else:
                self.requests.append((int(words[0], 16), int(words[1], 16)))
        self.base = self.modules[0][0]
        self.first, self.last = next(it[1:3] for it in self.modules if it[3].endswith("blocks.so"))
        self.live, self.starts = {}, []

    def take(self, block, size, owner):
        if block:
            self.live[block] = (size, owner)
            bisect.insort(self.starts, block)

    def give_back(self, block):
        if self.live.pop(block, None):
            self.starts.remove(block)

    def at(self, address):
        """The block of an address, with the offset in it."""
        k = bisect.bisect(self.starts, address)
        if k:
            start = self.starts[k - 1]
            size, owner = self.live[start]
            if address < start + size:
                return owner, address - start
        return None


def traced(words, room, names=("blocks",), **environment):
    """The trace of a program that is started with these words, as a file, and its blocks. The libraries with these
    names are loaded before the C library."""
    trace, told, stripped = room / "trace", room / "told", room / "program"
    libraries = [room / f"{name}.so" for name in names]
    for library in libraries:
        subprocess.run(["cc", "-O2", "-shared", "-fPIC", "-o", library, TOP / f"{library.stem}.c"], check=True)
    subprocess.run(["strip", "--strip-debug", "-o", stripped, words[0]], check=True)
    valgrind = ["valgrind", "--tool=lackey", "--trace-mem=yes", "--basic-counts=no", f"--log-file={trace}"]
    valgrind += ["--vex-guest-chase=no"] # else it reports instructions that it only tries, too
    words = [*valgrind, stripped, *words[1:]]
    environment |= {"LD_PRELOAD": " ".join(map(str, libraries)), "PATH": os.environ["PATH"]}
    with open(told, "w") as file:
        os.dup2(file.fileno(), 9)
    subprocess.run(words, env=environment, stdout=subprocess.DEVNULL, check=True, pass_fds=[9])
    return trace, Blocks(told.read_text().rpartition("begin\n")[2])


class Turn:
    """The effect of one call under the lock: the places that each line holds, with the offsets, and the writes."""

    def __init__(self):
        self.touched, self.wrote, self.shown = {}, collections.defaultdict(set), collections.defaultdict(set)

    def note(self, place, offset, address, size, writes):
        for line in range(address // LINE, (address + size - 1) // LINE + 1):
            self.touched.setdefault(line, set()).add(place)
            self.shown[line].add((place, offset))
            if writes:
                self.wrote[line].add(place)

    def lines(self, place=None):
        """The lines touched at a place, or at all places whose lines can move."""
        return {it for it, places in self.touched.items() if (place in places if place else places - STILL)}

    def written(self, place=None):
        """The lines written at a place, or at all places whose lines can move."""
        return {it for it, places in self.wrote.items() if (place in places if place else places - STILL)}


class Reader:
    """Goes through a trace, and keeps the turns at the lock."""

    def __init__(self, program, blocks):
        self.program, self.blocks = program, blocks
        self.requests = iter(blocks.requests)
        self.calls, self.taken = [], collections.Counter()
        self.turns, self.turn = [], None

    def owner(self):
        """The program's own function that takes a block, with the number of the block among the function's blocks."""
        names = (self.program.function(it - self.blocks.base) for it in reversed(self.calls))
        name = next((it for it in names if re.match(r"q\w+::", it) and "++" not in it), "?").partition("::<")[0]
        self.taken[name] += 1
        return f"{name} {self.taken[name]}"

    def place(self, address):
        """The content at an address, and its offset in its block."""
        found = self.blocks.at(address)
        if found:
            owner, offset = found
            place = PLACES.get(owner) or PLACES.get(owner.rpartition(" ")[0], owner)
            if place == "locked":
                place = next(name for start, name in reversed(PARTS) if start == 0 or start + KERNEL <= offset)
            return place, offset
        for base, first, last, name in self.blocks.modules:
            if first <= address < last:
                return ("allocator" if "/libc." in name else "constants"), address - base
        return ("stack" if address >> 36 else "allocator"), 0

    def step(self, at, before):
        """Follows calls and returns. `before` is the end of the last instruction, and whether it stored."""
        end, stored = before
        if self.calls and at == self.calls[-1]:
            self.calls.pop()
        elif at != end and stored:
            self.calls.append(end)
        if at == self.blocks.tell:
            block, size = next(self.requests)
            if size:
                self.blocks.take(block, size, self.owner())
            else:
                self.blocks.give_back(block)

    def read(self, trace, word):
        """Goes through the trace. A compare-exchange of the lock's word takes the lock, and the next access frees
        it."""
        before, apart, locking, frees = (0, False), False, False, False
        for line in trace:
            kind, (start, _, size) = line[:2], line[3:].partition(",")
            if kind == "I ":
                if frees:
                    self.turns.append(self.turn)
                    self.turn = None
                at, locking, frees = int(start, 16), False, False
                self.step(at, before)
                before = (at + int(size), False)
                apart = self.blocks.first <= at < self.blocks.last
            elif kind in (" L", " S", " M"):
                address, size = int(start, 16), int(size)
                if kind == " S" and size == 8:
                    before = (before[0], True)
                if address == word and not locking:
                    locking, frees = True, self.turn is not None
                    if at - self.blocks.base in self.program.exchanges:
                        self.turn = self.turn or Turn()
                if self.turn and not apart and not self.blocks.first <= address < self.blocks.last:
                    place = ("lock", 0) if address == word else self.place(address)
                    self.turn.note(*place, address, size, kind != " L")


def lock_word(trace, program, base):
    """The address that most compare-exchanges of the program meet: each call takes the lock, and opens one cell."""
    met, at = collections.Counter(), 0
    for line in trace:
        if line.startswith("I "):
            at = int(line[3:].partition(",")[0], 16) - base
        elif at in program.exchanges and line[:2] == " M":
            met[int(line[3:].partition(",")[0], 16)] += 1
    return met.most_common(1)[0][0]


def moved(turns, threads):
    """For each turn, the lines that another thread wrote last, or touched before this turn writes them."""
    holders, found = {}, []
    for turn, thread in zip(turns, threads):
        lines = turn.lines()
        found.append({it for it in lines if holders.get(it, {thread}) != {thread} and
                      (it in turn.wrote or thread not in holders[it])})
        for it in lines:
            holders[it] = {thread} if it in turn.wrote else holders.get(it, set()) | {thread}
    return found


def counts(places, turns, moves):
    """For each place, and for all, the lines touched and written by each call and by all three, and moved by all."""
    for place in [*places, None]:
        touched = [turn.lines(place) for turn in turns]
        written = [turn.written(place) for turn in turns]
        figures = [len(it) for it in touched] + [len(set().union(*touched))]
        figures += [len(it) for it in written] + [len(set().union(*written))]
        yield place or "all", [*figures, sum(len(it & lines) for it, lines in zip(moves, touched))]


def show(calls, turns, moves):
    """Prints each line that the calls touch, with its content and the offsets."""
    for name, turn, moving in zip(calls, turns, moves):
        print(name)
        for line in sorted(turn.lines()):
            places = collections.defaultdict(list)
            for place, offset in sorted(turn.shown[line]):
                places[place].append(str(offset))
            words = "; ".join(f"{place} {' '.join(offsets)}" for place, offsets in places.items())
            print(f"  {'written' if line in turn.wrote else 'read':8}{'moved' if line in moving else '':6} {words}")
    print()


def measured(program, calls, order, shift):
    """The turns of the last round trip, and the lines that moved in them."""
    words = [program.file, "alone", str(ROUNDS), *order, "unkept"]
    with tempfile.TemporaryDirectory() as room:
        file, blocks = traced(words, pathlib.Path(room), BLOCKS_SHIFT=str(shift))
        trace = file.read_text().splitlines()
    reader = Reader(program, blocks)
    reader.read(trace, lock_word(trace, program, blocks.base))
    # A channel is created and a connection attached first, and the kernel shut down last.
    turns = reader.turns[2:-1]
    if len(turns) != 3 * ROUNDS:
        sys.exit(f"bench/lines.py: {len(turns)} calls where {3 * ROUNDS} are made")
    # The client makes the Sends.
    return turns[-3:], moved(turns, [it == "Send" for it in calls] * ROUNDS)[-3:]


def table(calls, runs):
    """The means of some runs as text, below the names of the calls."""
    names = "".join(f"{it[:4]:>6}" for it in (*calls, "all"))
    lines = [f"#{'touched':>17}{'written':>24}{'moved':>22}", f"{'#':10}{names}{names}{'all':>6}"]
    touched = (places for turns, _ in runs for turn in turns for places in turn.touched.values())
    places = sorted(set().union(*touched) - STILL)
    for rows in zip(*(counts(places, *it) for it in runs)):
        means = [sum(it) / len(runs) for it in zip(*(figures for _, figures in rows))]
        lines.append(f"{rows[0][0]:10}" + "".join(f"{it:6.1f}" for it in means))
    return "\n".join(lines) + "\n"


def sums(text):
    """The figures of the last row of each table."""
    return [float(it) for line in text.splitlines() if line.startswith("all ") for it in line.split()[1:]]


def main():
    words = sys.argv[1:]
    files = [it for it in words if not it.startswith("--")]
    file = pathlib.Path(files[0]) if files else PROGRAM
    if not file.exists():
        sys.exit(f"bench/lines.py: no {file}; `bench/build qroundtrips` makes bench/out/qroundtrips")
    program = Program(file)
    if "--each" in words:
        for calls, order in ORDERS:
            show(calls, *measured(program, calls, order, 0))
        return
    text = HEAD
    for calls, order in ORDERS:
        text += table(calls, [measured(program, calls, order, it) for it in SHIFTS])
    if "--write" in words:
        KEPT.write_text(text)
        return
    print(text, end="")
    kept, now = sums(KEPT.read_text()), sums(text)
    more = [it for it in zip(kept, now) if it[1] > it[0]]
    print("MORE than in bench/lines.txt" if more else "ok: no more than in bench/lines.txt")
    sys.exit(1 if more else 0)


if __name__ == "__main__":
    if {"-h", "--help"} & set(sys.argv[1:]):
        print(__doc__)
        sys.exit()
    main()
