#!/usr/bin/env python3
"""Times `ramflow map`: reading, building, mapping and writing of designs that grow.

Usage: bench/map.py [PROGRAM]     PROGRAM is crates/ramflow/out/ramflow if left out; `rt run` builds it.
Three kinds of designs, each at three sizes: one module of logic cells (100,000 at the largest), one of wires (4,000,000 net
bits), and one of memories in separate read, write and init cells (500), of which each becomes a RAM cell. For each it prints
seconds and peak memory, the best of three runs: so much for a cell, a bit or a memory at each size is linear growth.
"""
import os
import sys
import tempfile

from timing import best

LIBRARY = """ram distributed $__R16X4_ {
    abits 4;
    width 4;
    cost 4;
    init any;
    port sw "W" { clock posedge; }
    port ar "R" { }
}
"""


def cells(count):
    """A chain of inverters, with a register in the place of every tenth."""
    lines = ["module \\top", "wire input 1 \\clk", "wire input 2 \\w0"]
    for n in range(count):
        port = " output 3" if n == count - 1 else ""
        lines.append(f"wire{port} \\w{n + 1}")
        if n % 10 == 9:
            lines.append(
                f"cell $dff $r{n}\nparameter \\WIDTH 1\nparameter \\CLK_POLARITY 1\n"
                f"connect \\CLK \\clk\nconnect \\D \\w{n}\nconnect \\Q \\w{n + 1}\nend"
            )
        else:
            lines.append(
                f"cell $not $a{n}\nparameter \\A_SIGNED 0\nparameter \\A_WIDTH 1\nparameter \\Y_WIDTH 1\n"
                f"connect \\A \\w{n}\nconnect \\Y \\w{n + 1}\nend"
            )
    return "\n".join(lines + ["end", ""])


def wires(bits):
    """Wires of 500 bits, half of them joined to the others by connects."""
    pairs = bits // 1000
    lines = ["module \\top"]
    for n in range(pairs):
        lines.append(f"  wire width 500 \\a{n}\n  wire width 500 \\b{n}\n  connect \\a{n} \\b{n}")
    return "\n".join(lines + ["end", ""])


def memories(count):
    """Memories of 16 words of 4 bits, each with contents, a write and a read in separate cells."""
    lines = ["module \\top", "  wire input 1 \\clk", "  wire input 2 \\we", "  wire width 4 input 3 \\a", "  wire width 4 input 4 \\d"]
    for n in range(count):
        lines.append(
            f"  memory width 4 size 16 \\m{n}\n  wire width 4 output {n + 5} \\q{n}\n"
            f"  cell $meminit_v2 $i{n}\n    parameter \\MEMID \"\\\\m{n}\"\n    parameter \\ABITS 4\n    parameter \\WIDTH 4\n"
            f"    parameter \\WORDS 2\n    parameter \\PRIORITY 0\n    connect \\ADDR 4'0001\n    connect \\DATA 8'00100001\n"
            f"    connect \\EN 4'1111\n  end\n"
            f"  cell $memwr_v2 $w{n}\n    parameter \\MEMID \"\\\\m{n}\"\n    parameter \\ABITS 4\n    parameter \\WIDTH 4\n"
            f"    parameter \\CLK_ENABLE 1\n    parameter \\CLK_POLARITY 1\n    parameter \\PORTID 0\n    parameter \\PRIORITY_MASK 0\n"
            f"    connect \\CLK \\clk\n    connect \\EN {{ \\we \\we \\we \\we }}\n    connect \\ADDR \\a\n    connect \\DATA \\d\n  end\n"
            f"  cell $memrd $r{n}\n    parameter \\MEMID \"\\\\m{n}\"\n    parameter \\ABITS 4\n    parameter \\WIDTH 4\n"
            f"    parameter \\CLK_ENABLE 0\n    parameter \\CLK_POLARITY 0\n    parameter \\TRANSPARENT 0\n    connect \\CLK 1'x\n"
            f"    connect \\EN 1'x\n    connect \\ADDR \\a\n    connect \\DATA \\q{n}\n  end"
        )
    return "\n".join(lines + ["end", ""])


KINDS = ((cells, (25_000, 50_000, 100_000)), (wires, (1_000_000, 2_000_000, 4_000_000)), (memories, (125, 250, 500)))


def main():
    program = os.path.abspath(sys.argv[1] if len(sys.argv) > 1 else "crates/ramflow/out/ramflow")
    print(f"{'design':10} {'count':>9} {'s':>8} {'us each':>8} {'MB':>7}")
    with tempfile.TemporaryDirectory() as folder:
        design, library, *outs = [os.path.join(folder, name) for name in ("d.il", "r.lib", "i.il", "n.il", "r.txt")]
        with open(library, "w", encoding="ascii") as file:
            file.write(LIBRARY)
        for kind, sizes in KINDS:
            for count in sizes:
                with open(design, "w", encoding="ascii") as file:
                    file.write(kind(count))
                seconds, memory = best([program, "map", design, library, *outs, "1"])
                print(f"{kind.__name__:10} {count:9} {seconds:8.2f} {seconds / count * 1e6:8.1f} {memory / 1e6:7.0f}", flush=True)


if __name__ == "__main__":
    main()
