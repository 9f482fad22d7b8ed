#!/usr/bin/env python3
"""What the gate costs, in seconds of processor, by crate and stage.

    bench/gate.py [SECONDS] [ROWS]

Run it beside `rt ci`, in another shell. It prints a table of the dearest ROWS (25 if left out) each minute and at the end: the crate, whether it was
proved, its tests were, or its must-fail edits were tried, and the seconds. The last line has the sums. It ends when no prover was seen for SECONDS (120 if
left out).

It reads the running provers from /proc every two seconds, so what a prover uses in its last two seconds is not seen. Seconds of processor hardly depend on the
load of the machine. A whole run wants a machine on which `rt ci` has kept nothing, or `rt ci --anew` by hand (never in the gate)."""
import os
import sys
import time

TICK = os.sysconf("SC_CLK_TCK")
PAUSE = 2


def stage_of(words, folder):
    """What a prover that was started with these words, in this folder, is at."""
    if "rt-edit" in folder:
        return "edits"
    return "tests" if "--test" in words else "proof"


def prover(pid):
    """The prover with this number: when it began, its crate, its stage and its seconds; None where there is none."""
    try:
        with open(f"/proc/{pid}/cmdline", "rb") as line:
            words = line.read().decode("latin-1").split("\0")
        if not words[0].endswith("/rattle") or "--crate-name" not in words:
            return None
        with open(f"/proc/{pid}/stat") as line:
            stat = line.read()
        fields = stat[stat.rindex(")") + 2 :].split()
        folder = os.readlink(f"/proc/{pid}/cwd")
    except (OSError, IndexError, ValueError):
        return None
    crate = words[words.index("--crate-name") + 1]
    return (pid, fields[19]), (crate, stage_of(words, folder), (int(fields[11]) + int(fields[12])) / TICK)


def table(seen, rows):
    """The lines of the table."""
    of_stage, of_crate = {}, {}
    for crate, stage, used in seen.values():
        of_stage[stage] = of_stage.get(stage, 0) + used
        of_crate[crate, stage] = of_crate.get((crate, stage), 0) + used
    for (crate, stage), used in sorted(of_crate.items(), key=lambda it: -it[1])[:rows]:
        yield f"{crate:14} {stage:6} {used:7.0f} s"
    sums = [f"{stage} {used:.0f} s" for stage, used in sorted(of_stage.items())]
    yield "; ".join([*sums, f"all {sum(of_stage.values()):.0f} s"])


def main():
    given = [int(word) for word in sys.argv[1:3]]
    patience, rows = given + [120, 25][len(given) :]
    seen = {}
    last = shown = time.time()
    while time.time() - last < patience:
        found = dict(filter(None, map(prover, filter(str.isdigit, os.listdir("/proc")))))
        seen.update(found)
        if found:
            last = time.time()
        if time.time() - shown > 60:
            shown = time.time()
            print(*table(seen, rows), sep="\n", flush=True)
        time.sleep(PAUSE)
    print(*table(seen, rows), sep="\n")


if __name__ == "__main__":
    main()
