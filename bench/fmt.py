#!/usr/bin/env python3
"""Times `ramflow fmt` on RTLIL texts of 1, 4 and 12 MB, beside Yosys where it is installed.

Usage: bench/fmt.py [PROGRAM]     PROGRAM is crates/ramflow/out/ramflow if left out; `rt run` builds it.
For each text it prints seconds and peak memory of each program, the best of three runs.
"""
import os
import shutil
import sys
import tempfile

from timing import best

MEGABYTE = 1_000_000
MOST_DIGITS = 4_000_000


def cells(size):
    """One module of logic cells, until the text has the size."""
    lines = ["module \\top", "  wire width 8 input 1 \\a"]
    length = 40
    number = 0
    while length < size:
        text = (
            f"  wire width 8 \\w{number}\n  cell $add $add{number}\n"
            "    parameter \\A_SIGNED 0\n    parameter \\B_SIGNED 0\n"
            "    parameter \\A_WIDTH 8\n    parameter \\B_WIDTH 8\n    parameter \\Y_WIDTH 8\n"
            f"    connect \\A \\a\n    connect \\B 8'0010{number % 2}101\n    connect \\Y \\w{number}\n  end"
        )
        lines.append(text)
        length += len(text) + 1
        number += 1
    return "\n".join(lines + ["end", ""])


def contents(size):
    """Instances with long INIT parameters, each of at most MOST_DIGITS digits."""
    lines = ["module \\top"]
    number = 0
    while size > 0:
        digits = min(size, MOST_DIGITS)
        lines.append(f"  cell \\rom $rom{number}\n    parameter \\INIT {digits}'" + "01" * (digits // 2) + "\n  end")
        size -= digits
        number += 1
    return "\n".join(lines + ["end", ""])


def wires(size):
    """One module of wires, 100,000 of them at the largest size."""
    count = max(1, 100_000 * size // (12 * MEGABYTE))
    pad = "w" * max(1, size // count - 24)
    return "\n".join(["module \\top"] + [f"  wire width 3 \\{pad}{n}" for n in range(count)] + ["end", ""])


def main():
    program = sys.argv[1] if len(sys.argv) > 1 else "crates/ramflow/out/ramflow"
    yosys = shutil.which("yosys")
    print(f"{'text':10} {'MB':>5} {'ramflow s':>10} {'times size':>11} {'yosys s':>8}")
    with tempfile.TemporaryDirectory() as folder:
        text, out = os.path.join(folder, "text.il"), os.path.join(folder, "out.il")
        for kind in (cells, contents, wires):
            for megabytes in (1, 4, 12):
                with open(text, "w", encoding="ascii") as file:
                    size = file.write(kind(megabytes * MEGABYTE))
                seconds, memory = best([os.path.abspath(program), "fmt", text, out])
                other = "-"
                if yosys:
                    other = f"{best([yosys, '-q', '-p', f'read_rtlil {text}; write_rtlil {out}'])[0]:.2f}"
                print(f"{kind.__name__:10} {size / MEGABYTE:5.1f} {seconds:10.2f} {memory / size:11.1f} {other:>8}", flush=True)


if __name__ == "__main__":
    main()
