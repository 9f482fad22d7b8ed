#!/usr/bin/env python3
"""Times `ramflow sim`: events per second of designs of many cells and of many memories.

Usage: bench/sim.py [PROGRAM]     PROGRAM is crates/ramflow/out/ramflow if left out; `rt run` builds it.
Two designs: 10,000 logic cells of which every tenth is a register, and 64 memories of 16 words of 4 bits, each with a write and a
read. Each is simulated by 1 and by 16 seeds. For each it prints the seconds of a run without events (reading and building), the
seconds by the clock that the events take besides, the best of three runs, and events per second, those of all seeds together. Where Yosys is
installed its `sim` runs the same design for as many clock cycles.
"""
import os
import random
import shutil
import sys
import tempfile

from map import LIBRARY, cells, memories
from timing import best_elapsed

EVENTS = 1000


def cell_stimulus(events):
    """The chain's input changes at each edge."""
    return "".join(f"set \\w0 1'{n % 2}\nrise \\clk 0\n" for n in range(events))


def memory_stimulus(events):
    """A write or none, at any address, at each edge."""
    choice = random.Random(1)
    lines = []
    for _ in range(events):
        lines.append(f"set \\we 1'{choice.randrange(2)}\nset \\a 4'{choice.randrange(16):04b}\nset \\d 4'{choice.randrange(16):04b}\nrise \\clk 0\n")
    return "".join(lines)


DESIGNS = (("cells", 10_000, cells, cell_stimulus), ("memories", 64, memories, memory_stimulus))


def write(path, text):
    with open(path, "w", encoding="ascii") as file:
        file.write(text)


def yosys_seconds(netlist):
    """The seconds of Yosys for so many clock cycles, without those of a run of one cycle."""
    read = f"read_rtlil {netlist}; "
    runs = [best_elapsed(["yosys", "-p", f"{read}sim -q -clock clk -n {cycles} top"]) for cycles in (1, EVENTS)]
    return runs[1] - runs[0]


def main():
    program = os.path.abspath(sys.argv[1] if len(sys.argv) > 1 else "crates/ramflow/out/ramflow")
    print(f"{'design':10} {'seeds':>5} {'start s':>8} {'s':>8} {'events/s':>9}")
    with tempfile.TemporaryDirectory() as folder:
        netlist, library, stimulus, trace = [os.path.join(folder, name) for name in ("n.il", "r.lib", "s.txt", "t.txt")]
        write(library, LIBRARY)
        for name, count, design, events_of in DESIGNS:
            write(netlist, design(count))
            for seeds in (1, 16):
                words = [program, "sim", netlist, library, stimulus, trace, str(seeds)]
                write(stimulus, "")
                start = best_elapsed(words)
                write(stimulus, events_of(EVENTS))
                seconds = best_elapsed(words) - start
                print(f"{name:10} {seeds:5} {start:8.2f} {seconds:8.2f} {EVENTS * seeds / max(seconds, 1e-3):9.0f}", flush=True)
            if shutil.which("yosys"):
                seconds = yosys_seconds(netlist)
                print(f"{name:10} Yosys {'':8} {seconds:8.2f} {EVENTS / max(seconds, 1e-3):9.0f}", flush=True)


if __name__ == "__main__":
    main()
