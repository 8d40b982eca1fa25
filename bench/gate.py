#!/usr/bin/env python3
"""Measures the processor time of the gate, by crate and by kind of work.

    bench/gate.py run LOG [WORD..]    runs `rt ci WORD..` in this checkout and writes LOG
    bench/gate.py LOG..               prints the table of one or more logs
    bench/gate.py lanes N LOG..       prints how long their jobs take on N processors
    bench/gate.py functions NAME..    lists the functions of these built libraries, the largest first

Below the table it prints the longest chain of crates. Each of them waits for the proof of the crate before it.

LOG has a line for each process of the toolchain that the run started, with tabs between its words. The words
are the crate, the kind, the processor seconds, and the seconds from its start to its end. The kinds are
`proof`, `tests`, `seed`, `edits` and `build`. `tests` is the crate with its tests. `seed` is the proof with
which a crate's edits begin, and its check at the end. `build` are compilers and linkers. The last line,
`total`, is about the whole run.

`lanes` goes through the jobs as `rt ci` does: each job waits for the proofs of the crates below it, and an edit
also for its seed. Jobs with the longest chain after them come first, and edits fill the remaining time. A job
takes its processor seconds.

`functions` prints for each function the bytes of its lowered code, and how many drops and `?` it has. About 2,000 bytes
are a second of proof. `rt lib` builds a library into `out/rlib` of its crate, where this looks for it.

If an earlier run on this machine passed a job, its result is used again and costs nothing.
`bench/gate.py run LOG --anew` proves everything from the start. Processes are observed ten times a second, so a
figure is up to a tenth of a second a process short.
"""

import json
import os
import re
import subprocess
import sys
import time
from collections import defaultdict
from pathlib import Path

TOP = Path(__file__).resolve().parents[1]
TICKS = os.sysconf("SC_CLK_TCK")
KINDS = ("proof", "tests", "seed", "edits", "build")


def children(first):
    """The processes that this process started, and their own processes, each with its processor time in ticks."""
    parents, times = {}, {}
    for entry in os.scandir("/proc"):
        if not entry.name.isdigit():
            continue
        try:
            words = Path(f"/proc/{entry.name}/stat").read_text().rsplit(")", 1)[1].split()
        except (OSError, IndexError):
            continue
        parents[int(entry.name)] = int(words[1])
        times[int(entry.name)] = (int(words[19]), int(words[11]) + int(words[12]))
    found = {first}
    while True:
        more = {pid for pid, parent in parents.items() if parent in found} - found
        if not more:
            return {pid: times[pid] for pid in found - {first} if pid in times}
        found |= more


def job_of(pid):
    """The crate and the kind of work of a process, if it is a process of the toolchain."""
    try:
        words = Path(f"/proc/{pid}/cmdline").read_bytes().decode(errors="replace").split("\0")
        folder = os.readlink(f"/proc/{pid}/cwd")
    except OSError:
        return None
    line = " ".join(words)
    named = re.search(r"--crate-name (\w+)", line) or re.search(r"/crates/(\w+)", folder + " " + line)
    crate = named[1] if named else "-"
    if not re.search(r"(^|/)rattle$", words[0]) or "--crate-checked" in words:
        return crate, "build"
    if "rt-edit" in line or "rt-edit" in folder:
        return crate, "seed" if re.search(r"rt-edits-\S*/seed( |$)", line) else "edits"
    if words[1:2] not in (["check"], ["build"]):
        return crate, "build"
    return crate, "tests" if "--test" in words else "proof"


def write(log, jobs, spent, seen, begin):
    """Writes what was seen so far."""
    with open(log, "w") as out:
        for key, job in jobs.items():
            if job and spent[key] >= 0.1:
                out.write(f"{job[0]}\t{job[1]}\t{spent[key]:.2f}\t{seen[key][1] - seen[key][0]:.1f}\n")
        whole = os.times()
        out.write(f"total\tall\t{whole.children_user + whole.children_system:.2f}\t{time.time() - begin:.1f}\n")


def record(log, words):
    """Runs the gate, and writes what its processes took, once a minute and at the end."""
    begin = written = time.time()
    gate = subprocess.Popen(["rt", "ci", *words], cwd=TOP)
    jobs, spent, seen = {}, {}, {}
    while gate.poll() is None:
        now = time.time()
        for pid, (start, ticks) in children(gate.pid).items():
            key = pid, start
            # (a process that was just forked still has its parent's words)
            if key not in jobs or ticks < TICKS:
                jobs[key] = job_of(pid) or jobs.get(key)
            spent[key] = ticks / TICKS
            seen.setdefault(key, [now, now])[1] = now
        if now - written > 60:
            write(log, jobs, spent, seen, begin)
            written = now
        time.sleep(0.1)
    write(log, jobs, spent, seen, begin)
    return gate.returncode


def longest_chain(spent):
    """The crates of the longest chain, lowest first, and the processor seconds of their proofs."""
    chains = {}
    for line in (TOP / "crates.txt").read_text().splitlines():
        head, colon, libraries = line.partition(":")
        if colon and not line.startswith("#"):
            name = head.split()[0]
            below = max((chains[it] for it in libraries.split() if it in chains), key=lambda it: it[1], default=([], 0.0))
            chains[name] = [*below[0], name], below[1] + spent[name]["proof"]
    return max(chains.values(), key=lambda it: it[1])


def read(logs):
    """The processor seconds of each crate by kind and of each of its edits, and the whole by the system and by the
    clock."""
    spent, edits, total, wall = defaultdict(lambda: dict.fromkeys(KINDS, 0.0)), defaultdict(list), 0.0, 0.0
    for log in logs:
        for line in Path(log).read_text().splitlines():
            crate, kind, seconds, lasted = line.split("\t")
            if kind == "all":
                total, wall = total + float(seconds), wall + float(lasted)
            else:
                spent[crate][kind] += float(seconds)
                if kind == "edits":
                    edits[crate].append(float(seconds))
    return spent, edits, total, wall


def jobs_of(spent, edits):
    """Each job: its processor seconds, and the jobs that it waits for."""
    jobs, listed = {}, {}
    for line in (TOP / "crates.txt").read_text().splitlines():
        head, colon, libraries = line.partition(":")
        if colon and not line.startswith("#"):
            listed[head.split()[0]] = libraries.split()
    for crate, libraries in listed.items():
        row, below = spent[crate], [(it, "proof") for it in libraries if it in listed]
        jobs[crate, "proof"] = row["proof"] + row["build"], below
        jobs[crate, "tests"] = row["tests"], below
        jobs[crate, "seed"] = row["seed"], [(crate, "proof")]
        for at, seconds in enumerate(edits[crate]):
            jobs[crate, f"edit {at}"] = seconds, [(crate, "seed"), (crate, "tests")]
    return jobs


def lanes(number, logs):
    """Prints when the last job ends on this many processors, and how much of their time the jobs fill."""
    jobs = jobs_of(*read(logs)[:2])
    behind = {key: 0.0 for key in jobs}
    for key in reversed(jobs):
        behind[key] += jobs[key][0]
        for it in jobs[key][1]:
            behind[it] = max(behind[it], behind[key])
    left = sorted(jobs, key=lambda key: (key[1] not in ("proof", "tests"), -behind[key]))
    running, done, now = {}, set(), 0.0
    while left or running:
        for key in [it for it in left if done >= set(jobs[it][1])][: number - len(running)]:
            left.remove(key)
            running[key] = now + jobs[key][0]
        first = min(running, key=running.get)
        now = running.pop(first)
        done.add(first)
    filled = sum(seconds for seconds, _ in jobs.values()) / (number * now)
    print(f"{number} processors: {now / 60:.0f} minutes, of which their jobs fill {100 * filled:.0f} %")


def table(logs):
    """Prints the processor seconds of each crate, the dearest first."""
    spent, edits, total, wall = read(logs)
    number = {crate: len(edits[crate]) for crate in list(spent)}
    print(f"{'crate':<18}" + "".join(f"{kind:>9}" for kind in KINDS) + f"{'sum':>9}{'edits tried':>13}")
    for crate, row in sorted(spent.items(), key=lambda it: -sum(it[1].values())):
        print(f"{crate:<18}" + "".join(f"{row[kind]:9.0f}" for kind in KINDS) + f"{sum(row.values()):9.0f}{number[crate]:13}")
    sums = {kind: sum(row[kind] for row in spent.values()) for kind in KINDS}
    print(f"{'sum':<18}" + "".join(f"{sums[kind]:9.0f}" for kind in KINDS) + f"{sum(sums.values()):9.0f}{sum(number.values()):13}")
    names, seconds = longest_chain(spent)
    print(f"longest chain: {seconds:.0f} seconds of proofs: {' '.join(names)}")
    print(f"{total / 60:.0f} processor minutes by the system, {wall / 60:.0f} minutes from start to end")


def functions(names):
    """Prints the size of the lowered code of each function of these crates, the largest first."""
    found = []
    for name in names:
        code = TOP / "crates" / name / "out/rlib" / f"{name}.rlib" / "toolchain/mir.json"
        if not code.is_file():
            return f"{code.relative_to(TOP)} isn't there: run `rt lib` in crates/{name}"
        for function, parts in json.loads(code.read_text()):
            if function.startswith(f"{name}::"):
                called = [json.dumps(it["Call"][0]) for it in parts["body"] if isinstance(it, dict) and "Call" in it]
                drops = sum(bool(re.search(r'drop"|Destruct', it)) for it in called)
                tries = sum('branch"' in it for it in called)
                found.append((len(json.dumps(parts["body"])), drops, tries, function))
    print(f"{'bytes':>9}{'drops':>7}{'?':>5}  function")
    for size, drops, tries, function in sorted(found, reverse=True):
        print(f"{size:9,}{drops:7}{tries:5}  {function}")


if {"-h", "--help"} & set(sys.argv[1:2]):
    print(__doc__)
    sys.exit()
if sys.argv[1:2] == ["functions"] and len(sys.argv) > 2:
    sys.exit(functions(sys.argv[2:]))
if sys.argv[1:2] == ["lanes"] and len(sys.argv) > 3:
    sys.exit(lanes(int(sys.argv[2]), sys.argv[3:]))
if sys.argv[1:2] == ["run"] and len(sys.argv) > 2:
    sys.exit(record(sys.argv[2], sys.argv[3:]))
if len(sys.argv) < 2 or sys.argv[1].startswith("-"):
    sys.exit(__doc__)
table(sys.argv[1:])
