#!/usr/bin/env python3
"""Times the search of plans: one memory of 11,200,000,001 candidates, and up to 1000 memories of mixed forms over a library
of look-up table RAMs and block RAMs, by one and by four workers.

Usage: bench/plans.py [PROGRAM]     PROGRAM is crates/bench_plans/out/bench_plans if left out; `rt run` in crates/bench_plans builds it.
For each case it prints the time that passes in milliseconds and peak memory, the best of five runs by each number of workers,
and the sum of the points, which is the same for all of them. Memory is never shown below what this script itself takes, some 10 MB.
"""
import os
import sys
import time

MEGABYTE = 1_000_000
WORKERS = (1, 4)


def run(words):
    """The seconds, the peak memory in bytes and the output of a run that has to end well."""
    reader, writer = os.pipe()
    start = time.monotonic()
    child = os.fork()
    if child == 0:
        os.close(reader)
        os.dup2(writer, 1)
        os.execvp(words[0], words)
    os.close(writer)
    with os.fdopen(reader, encoding="ascii") as pipe:
        output = pipe.read().strip()
    _, status, usage = os.wait4(child, 0)
    seconds = time.monotonic() - start
    if status != 0 or not output.startswith("total "):
        sys.exit(f"{' '.join(words)} ended with {os.waitstatus_to_exitcode(status)}: {output}")
    return seconds, usage.ru_maxrss * 1024, output


def best(words):
    """The least time and memory of five runs, and what they print."""
    runs = [run(words) for _ in range(5)]
    if any(output != runs[0][2] for _, _, output in runs):
        sys.exit(f"{' '.join(words)} printed different answers")
    return min(t for t, _, _ in runs), min(m for _, m, _ in runs), runs[0][2]


def main():
    program = os.path.abspath(sys.argv[1] if len(sys.argv) > 1 else "crates/bench_plans/out/bench_plans")
    heads = "".join(f"{f'{w} worker' + 's' * (w > 1) + ' ms':>15} {'memory MB':>10}" for w in WORKERS)
    print(f"{'memories':12}{heads}  points")
    seconds, memory, output = best([program, "one"])
    print(f"{'one':12}{seconds * 1000:15.1f} {memory / MEGABYTE:10.1f}{'-':>15} {'-':>10}  {output.split()[1]}", flush=True)
    for count in (125, 250, 500, 1000):
        runs = [best([program, "many", str(count), str(workers)]) for workers in WORKERS]
        if runs[0][2] != runs[1][2]:
            sys.exit(f"the answers for {count} memories differ by the number of workers")
        figures = "".join(f"{seconds * 1000:15.1f} {memory / MEGABYTE:10.1f}" for seconds, memory, _ in runs)
        print(f"{count:<12}{figures}  {runs[0][2].split()[1]}", flush=True)


if __name__ == "__main__":
    main()
