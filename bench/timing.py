"""What the benchmark scripts share: runs of a program with their time and peak memory."""
import os
import sys
import time


def run(words):
    """The seconds, the peak memory in bytes and the exit status of a run."""
    child = os.fork()
    if child == 0:
        silent = os.open(os.devnull, os.O_WRONLY)
        os.dup2(silent, 1)
        os.dup2(silent, 2)
        os.execvp(words[0], words)
    _, status, usage = os.wait4(child, 0)
    return usage.ru_utime + usage.ru_stime, usage.ru_maxrss * 1024, os.waitstatus_to_exitcode(status)


def _well(words, measured):
    """What a run measured, whose status is last and has to be 0."""
    if measured[-1] != 0:
        sys.exit(f"{' '.join(words)} ended with {measured[-1]}")
    return measured


def best(words):
    """The least processor time and memory of three runs that have to end well."""
    runs = [_well(words, run(words)) for _ in range(3)]
    return min(seconds for seconds, _, _ in runs), min(memory for _, memory, _ in runs)


def best_elapsed(words):
    """The least time by the clock of three runs that have to end well: what threads save is seen."""
    times = []
    for _ in range(3):
        begin = time.monotonic()
        _well(words, run(words))
        times.append(time.monotonic() - begin)
    return min(times)
