#!/usr/bin/env python3
"""Times `ramflow map` of the shipped design on large RAM libraries, most of whose time is the reading of the library.

Usage: bench/lib.py [PROGRAM]     PROGRAM is crates/ramflow/out/ramflow if left out; `rt run` builds it.
For each library it prints seconds and peak memory, the best of three runs, and how the program ended.
A program that does not read libraries of every form yet refuses them with fault 90; the script then says so and stops.
"""
import os
import sys
import tempfile

from timing import run

MEGABYTE = 1_000_000
DESIGN = "crates/ramflow/data/design.il"


def ram(name, ports, more=""):
    return f"ram block ${name} {{ abits 4; width 4; {more} {ports} }}\n"


def largest(_size):
    """As many RAMs and variants as are taken: 64 RAMs of 256 variants."""
    text = []
    for number in range(64):
        options = "".join(f'option "O{o}" {v} {{ {"cost %d;" % (v + 2) if o == 0 else ""} }}\n' for o in range(6) for v in (0, 1))
        port = "".join(f'portoption "P{o}" {v} {{ {"rdwr old;" if o == 0 and v == 1 else ""} }}\n' for o in range(2) for v in (0, 1))
        text.append(ram(f"R{number}", f'port srsw "A" "B" {{ clock anyedge; clken; rden; wrtrans all old;\n{port} }}', options))
    return "".join(text)


def comment(size):
    """A long line that says nothing, before one RAM."""
    return "#" * (size - 100) + "\n" + ram("A", 'port ar "R" { }')


def names(size):
    """A group with more names than are taken."""
    return ram("A", "port ar " + " ".join(f'"N{n}"' for n in range(size // 10)) + " { }")


def rams(size):
    """More RAMs than are taken."""
    return "".join(ram(f"R{n}", 'port ar "R" { }') for n in range(size // 60))


def options(size):
    """Options with two values each: more variants than are taken."""
    blocks = " ".join(f'option "N{n // 2}" {n % 2} {{ }}' for n in range(size // 23))
    return ram("A", 'port ar "R" { }', blocks)


def ending(status, report):
    """How a run ended: the line that it wrote where it refused, else its exit status."""
    if status == 6:
        with open(report, encoding="ascii") as file:
            return file.readline().strip()
    return f"status {status}"


def main():
    program = os.path.abspath(sys.argv[1] if len(sys.argv) > 1 else "crates/ramflow/out/ramflow")
    print(f"{'library':10} {'MB':>5} {'seconds':>8} {'memory MB':>10}  end")
    with tempfile.TemporaryDirectory() as folder:
        library, inferred, netlist, report = (os.path.join(folder, name) for name in ("ram.lib", "a.il", "b.il", "report.txt"))
        for kind in (largest, comment, names, rams, options):
            for megabytes in (1,) if kind is largest else (1, 4, 12):
                with open(library, "w", encoding="ascii") as file:
                    size = file.write(kind(megabytes * MEGABYTE))
                runs = [run([program, "map", DESIGN, library, inferred, netlist, report, "1"]) for _ in range(3)]
                end = ending(runs[0][2], report)
                if end.startswith("refused 6 90 "):
                    sys.exit("this program does not read libraries of every form yet")
                seconds, memory = min(r[0] for r in runs), min(r[1] for r in runs)
                print(f"{kind.__name__:10} {size / MEGABYTE:5.1f} {seconds:8.2f} {memory / MEGABYTE:10.1f}  {end}", flush=True)


if __name__ == "__main__":
    main()
