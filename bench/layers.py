#!/usr/bin/env python3
"""Counts the cache lines that Send, Receive and Reply touch under the lock of the layers for C and Rust, and compares
them with bench/layers.txt.

    bench/layers.py [LAYER..]      compares; a sum that is over 2 % greater is a fault, with status 1
    bench/layers.py --write        writes the file anew
    bench/layers.py --each LAYER   prints each line that the three calls touch, and compares nothing
    bench/layers.py .. --library FOLDER   takes the libraries of this folder (as for BALSAEUCHRE_LIB_DIR)

A LAYER is `c` or `rust`. Its bench runs with one client and one server. In a first run the client waits before
each round, so that the server receives first. In a second run the server waits, so that the client sends first.
The lines are counted as by bench/lines.py, with the same words, in each of the last 32 round trips. The
instructions under the lock are counted, too (`steps`). But here a line also moves if the other thread touched
it outside the lock. It doesn't move if this thread got it before it took the lock. `call` is the stack of the
thread that waits. Figures are means, which differ by 0.2 from run to run. The machine may have other work, but
each thread has to begin to wait within the pause.
"""

import collections
import os
import pathlib
import re
import subprocess
import sys
import tempfile

import lines

TOP = pathlib.Path(__file__).resolve().parent
FOREIGN = TOP.parent / "foreign"
KEPT = TOP / "layers.txt"
LAYERS = ("c", "rust")
ROUNDS, LAST, PAUSE, BUFFER = 44, 32, 40, 16 # round trips, counted round trips, milliseconds, bytes
ORDERS = [("Receive", "Send", "Reply"), ("Send", "Receive", "Reply")]
STACK = 1 << 20 # stacks lie further apart
TOLERANCE = 1.02

# The content of the kernel of the layer for C, by the first bytes of its parts.
PARTS = r"""
#include "layer.h"
#include <stdio.h>
int main(void) {
    printf("%zu\n", sizeof(neutrino));
#define PART(name, field) printf("%s %zu\n", name, offsetof(neutrino, field));
    PART("lock", lock) PART("kernel", library) PART("index", place_of) PART("next", next) PART("names", channels)
    PART("place", places) PART("rows", event)
}
"""


def said(*words, **more):
    return subprocess.run([str(it) for it in words], capture_output=True, text=True, check=True, **more).stdout


def built(layer, library, room):
    """The layer's bench, and where the parts of its kernel begin, with the kernel's size."""
    if layer == "rust":
        environment = os.environ | {"BALSAEUCHRE_LIB_DIR": str(library), "CARGO_TARGET_DIR": str(room / "target")}
        said("cargo", "build", "--offline", "--quiet", "--release", "--example", "bench", cwd=FOREIGN / "rust",
             env=environment)
        return room / "target/release/examples/bench", 0, []
    cc = ["cc", "-std=gnu11", "-O2", f"-I{FOREIGN}/include", f"-I{FOREIGN}/threads"]
    program, parts = room / "bench", room / "parts"
    said(*cc, "-o", program, FOREIGN / "threads/bench.c", FOREIGN / "threads/neutrino.c",
         library / "libbalsaeuchre_c.a", library / "liblibc_c.a", "-pthread")
    said(*cc, "-D_GNU_SOURCE", "-w", "-x", "c", "-o", parts, "-", input=PARTS)
    size, *rows = said(parts).splitlines()
    return program, int(size), [(int(at), name) for name, at in map(str.split, rows)]


def traced(program, room, pause):
    """The trace of the bench's loads and stores, as a file, and its blocks."""
    library, trace, told = room / "blocks.so", room / "trace", room / "told"
    said("cc", "-O2", "-shared", "-fPIC", "-o", library, TOP / "blocks.c")
    words = ["valgrind", "--tool=lackey", "--trace-mem=yes", "--basic-counts=no", f"--log-file={trace}", program]
    with open(told, "w") as file:
        os.dup2(file.fileno(), 9)
    words += ["1", "1", str(ROUNDS), str(BUFFER), str(pause)]
    subprocess.run(words, check=True, pass_fds=[9], stdout=subprocess.DEVNULL,
                   env={"LD_PRELOAD": str(library), "PATH": os.environ["PATH"], "BLOCKS_KEPT": "1"})
    return trace, lines.Blocks(told.read_text().rpartition("begin\n")[2])


class Reader:
    """Goes through a trace, and keeps the turns at the lock, each with its thread and its instructions."""

    def __init__(self, program, blocks, size, parts):
        self.blocks, self.size, self.parts = blocks, size, parts
        self.exchanges, self.takers = set(), []
        for base, _, _, name in blocks.modules:
            if base == blocks.base or "/libc.so" in name:
                code = lines.Program(name if base != blocks.base else program)
                self.exchanges |= {base + it for it in code.exchanges}
                if base == blocks.base:
                    self.own = set(self.exchanges)
                self.takers += [base + at for at, it in code.functions if it in ("rattle_alloc", "rattle_realloc")]
        self.requests = iter(blocks.requests)
        self.turns, self.threads, self.holders = [], [], {}

    def owner(self, size, by_library):
        """The content of a new block. The library takes its tables in the first turns, and later only bytes."""
        if size == self.size:
            return "layer"
        return ("library" if len(self.turns) < 12 else "bytes") if by_library else "others"

    def place(self, address, thread):
        """The content at an address, and its offset in its block."""
        if abs(address - self.threads[thread]) < STACK:
            return "stack", 0
        found = self.blocks.at(address)
        if found and found[0] == "layer":
            return next((name for at, name in reversed(self.parts) if at <= found[1]), "layer"), found[1]
        if found:
            return found
        if any(abs(address - it) < STACK for it in self.threads):
            return "call", 0
        for base, first, last, name in self.blocks.modules:
            if first <= address < last:
                return ("allocator" if "/libc." in name else "constants"), address - base
        return ("stack" if address >> 36 else "allocator"), 0

    def thread(self, address, default=None):
        """The number of the thread on whose stack an address lies. By default it is a new thread."""
        for k, known in enumerate(self.threads):
            if abs(address - known) < STACK:
                return k
        if default is None:
            self.threads.append(address)
        return len(self.threads) - 1 if default is None else default

    def comes(self, address, thread, writes):
        """Whether another thread wrote this line last, or touched it before this thread writes it."""
        line = address // lines.LINE
        before = self.holders.get(line, {thread})
        self.holders[line] = {thread} if writes else before | {thread}
        return before != {thread} and (writes or thread not in before)

    def read(self, trace, word):
        """Goes through the trace. A compare-exchange of the lock's word takes the lock, and the next access frees
        it."""
        end, stored, stack, taken, thread = 0, 0, 0, False, 0
        turn, locking, frees, apart, at = None, False, False, False, 0
        for line in open(trace):
            kind = line[:2]
            if kind == "I ":
                if frees:
                    self.turns.append(turn)
                    turn, frees = None, False
                start, _, length = line[3:].partition(",")
                at = int(start, 16)
                if at != end and stored:
                    stack = stored
                taken |= at in self.takers
                if at == self.blocks.tell:
                    block, size = next(self.requests)
                    if size:
                        self.blocks.take(block, size, self.owner(size, taken))
                        taken = False
                    else:
                        self.blocks.give_back(block)
                end, stored, locking = at + int(length), 0, False
                apart = self.blocks.first <= at < self.blocks.last
                if turn and not apart:
                    turn.steps += 1
            elif kind in (" L", " S", " M"):
                start, _, length = line[3:].partition(",")
                address, size = int(start, 16), int(length)
                if kind == " S" and size == 8:
                    stored = address
                if address == word and kind == " M" and not locking:
                    locking = True
                    if turn:
                        frees = True
                    elif at in self.exchanges:
                        turn, thread = lines.Turn(), self.thread(stack)
                        turn.steps, turn.thread, turn.moves = 0, thread, set()
                if not turn:
                    thread = self.thread(address, thread)
                if apart or self.blocks.first <= address < self.blocks.last:
                    continue
                comes = self.comes(address, thread, kind != " L")
                if turn:
                    turn.note(*self.place(address, thread), address, size, kind != " L")
                    turn.moves |= {address // lines.LINE} if comes else set()


def lock_word(trace, reader):
    """The address of the lock: the beginning of the layer's kernel, or the address of most compare-exchanges."""
    known = [block for block, size in reader.blocks.requests if size and size == reader.size]
    if known:
        return known[0]
    met, at = collections.Counter(), 0
    for line in open(trace):
        if line.startswith("I "):
            at = int(line[3:].partition(",")[0], 16)
        elif line[:2] == " M" and at in reader.own:
            met[int(line[3:].partition(",")[0], 16)] += 1
    return met.most_common(1)[0][0]


def measured(program, calls, size, parts):
    """The last round trips: the turns of each, and the lines that moved in them."""
    pause = PAUSE if calls[0] == "Receive" else -PAUSE
    with tempfile.TemporaryDirectory() as folder:
        room = pathlib.Path(folder)
        trace, blocks = traced(program, room, pause)
        reader = Reader(program, blocks, size, parts)
        reader.read(trace, lock_word(trace, reader))
    turns = reader.turns
    moves = [it.moves for it in turns]
    counts = collections.Counter(it.thread for it in turns)
    # The server makes the most calls, two a round trip, and the client makes the Sends.
    server, client = (it for it, _ in counts.most_common(2))
    around = [(k, {it.thread for it in turns[k - 1:k] + turns[k + 1:k + 3]}) for k in range(1, len(turns))]
    sends = [k for k, others in around if turns[k].thread == client and others == {server}][-LAST - 1:-1]
    if len(sends) < LAST or any(b - a != 3 for a, b in zip(sends, sends[1:])):
        sys.exit("bench/layers.py: the machine is too busy: a thread did not wait for the other")
    first = 1 if calls[0] == "Receive" else 0
    return [(turns[k - first:k - first + 3], moves[k - first:k - first + 3]) for k in sends]


def table(calls, runs):
    """The means of the round trips as text, with the instructions under the lock."""
    steps = [sum(turns[k].steps for turns, _ in runs) / len(runs) for k in range(3)]
    row = "".join(f"{it:6.0f}" for it in [*steps, sum(steps)])
    return lines.table(calls, runs) + f"{'steps':10}{row}\n"


def sums(text):
    """The figures of the last two rows of each table."""
    return [float(it) for line in text.splitlines() if line.startswith(("all ", "steps ")) for it in line.split()[1:]]


def kept(layers):
    """The part of the file about these layers."""
    parts = re.split(r"^## (\w+)\n", KEPT.read_text(), flags=re.M)
    tables = dict(zip(parts[1::2], parts[2::2]))
    return "".join(tables[it] for it in layers)


def main():
    words = sys.argv[1:]
    library = TOP.parent / "crates/balsaeuchre_c/out"
    if "--library" in words:
        at = words.index("--library")
        library = pathlib.Path(words[at + 1]).resolve()
        del words[at:at + 2]
    layers = [it for it in words if not it.startswith("--")] or LAYERS
    text, head = "", "# lines under the lock of the layers (bench/layers.py), and instructions\n"
    with tempfile.TemporaryDirectory() as folder:
        room = pathlib.Path(folder)
        if not (library / "liblibc_c.a").exists():
            (room / "lib").mkdir()
            heap = pathlib.Path(said("rt", "doc").strip()).parent / "c/liblibc_c.a"
            for file in (library / "libbalsaeuchre_c.a", heap):
                (room / "lib" / file.name).symlink_to(file)
            library = room / "lib"
        for layer in layers:
            program = built(layer, library, room)
            text += f"## {layer}\n"
            for calls in ORDERS:
                runs = measured(program[0], calls, *program[1:])
                if "--each" in words:
                    lines.show(calls, *runs[-1])
                text += table(calls, runs)
    if "--write" in words:
        KEPT.write_text(head + text)
        return
    print(text, end="")
    if "--each" in words:
        return
    more = [it for it in zip(sums(kept(layers)), sums(text)) if it[1] > it[0] * TOLERANCE]
    print("MORE than in bench/layers.txt" if more else "ok: no more than in bench/layers.txt")
    sys.exit(1 if more else 0)


if __name__ == "__main__":
    if {"-h", "--help"} & set(sys.argv[1:]):
        print(__doc__)
        sys.exit()
    main()
