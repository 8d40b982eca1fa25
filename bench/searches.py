#!/usr/bin/env python3
"""Prints after how many runs each search of balsaeuchre-explore finds the failure of a program.

usage: bench/searches.py [--runs N] [--seeds N] EXPLORER PROGRAM..

A search has 1,000 runs at most. The searches by random numbers are made with the seeds 1 to 10. A column has the
median and the most of the runs until the failure, or with how many seeds it was found. `usual` is the search
without options: random runs, and then runs with delays. `delays` leaves the random runs out. `-` means that a
search found nothing. The last line has the runs of all searches, and the runs a second.

For the programs with planted bugs, see bench/normal_runs.py.
"""
import argparse
import json
import os
import statistics
import subprocess

SEARCHES = {
    "usual": [],
    "delays 3": ["--random-runs", "0"],
    "random": ["--random"],
    "PCT 3": ["--pct", "3"],
    "DPOR": ["--races"],
}
SEEDLESS = {"DPOR"}


def explore(options, program, words):
    """The run in which a search finds a failure, or 0, and its runs and seconds."""
    command = [options.explorer, "--json", "--no-shorten", "--write", "/dev/null", "--runs", str(options.runs)]
    made = subprocess.run([*command, *words, "--", program], capture_output=True, check=False)
    found = json.loads(made.stdout)
    failures = found["failures"]
    return failures[0]["run"] if failures else 0, found["runs"], found["seconds"]


def words_of(found):
    """How a search is told whose seeds found a failure in these runs."""
    hits = [run for run in found if run]
    if not hits:
        return "-"
    if len(hits) < len(found):
        return f"{len(hits)} of {len(found)}"
    return f"{hits[0]:,}" if len(hits) == 1 else f"{statistics.median(hits):,.0f}, {max(hits):,}"


def main():
    parser = argparse.ArgumentParser(description=__doc__, formatter_class=argparse.RawDescriptionHelpFormatter)
    parser.add_argument("--runs", type=int, default=1000, help="the most runs of a search")
    parser.add_argument("--seeds", type=int, default=10, help="seeds of each search")
    parser.add_argument("explorer", metavar="EXPLORER")
    parser.add_argument("programs", nargs="+", metavar="PROGRAM")
    options = parser.parse_args()
    all_runs, all_seconds = 0, 0.0
    print(" " * 16 + "".join(f"{search:<14}" for search in SEARCHES).rstrip())
    for program in options.programs:
        row = f"{os.path.basename(program):<16}"
        for search, words in SEARCHES.items():
            found = []
            for seed in range(1, 2 if search in SEEDLESS else options.seeds + 1):
                run, runs, seconds = explore(options, os.path.abspath(program), [*words, "--seed", str(seed)])
                found.append(run)
                all_runs += runs
                all_seconds += seconds
            row += f"{words_of(found):<14}"
        print(row.rstrip(), flush=True)
    print(f"{all_runs:,} runs, {all_runs / all_seconds:.0f} a second")


if __name__ == "__main__":
    main()
