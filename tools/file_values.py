#!/usr/bin/env python3
"""Tries register files in Icarus Verilog: what they show has to be what a list of cells shows.

    tools/file_values.py

For files of many shapes it has the program of crates/files write the module, and runs it beside a list of cells with random
reads and writes, where the indices are often the same. In each cycle every read port has to show the cell at its index before
the edge; at the edge the writes are made in their order, the later stage first and within a stage the lower port first. The
script prints a line for each file, and ends with 1 where a value differs, with 2 where a file couldn't be made, and else
with 0, also where Icarus isn't there.
"""
import pathlib
import random
import shutil
import subprocess
import sys
import tempfile

TOP = pathlib.Path(__file__).resolve().parent.parent
PROGRAM = TOP / "crates/files/out/files"
CYCLES = 600

BENCH = """module bench;
  reg clk, rst;
{regs}
  integer file, got, tried, bad;
  top whole(.clk(clk), .rst(rst){ports});
  initial begin
    file = $fopen("{rows}", "r");
    clk = 0;
    rst = 1;
    #1 clk = 1;
    #1 clk = 0;
    rst = 0;
    tried = 0;
    bad = 0;
    while (!$feof(file)) begin
      got = $fscanf(file, "{format}\\n"{places});
      #1 tried = tried + 1;
      if (got != {count}{differ}) begin
        bad = bad + 1;
        if (bad < 4) $display("cycle %0d differs", tried);
      end
      #1 clk = 1;
      #1 clk = 0;
    end
    $display("%0d tried, %0d differ", tried, bad);
  end
endmodule
"""


def bench(cells, width, reads, stages, rows):
    bits = cells.bit_length() - 1
    inputs = [(f"r{n}_x", bits) for n in range(reads)]
    for n in range(len(stages)):
        inputs += [(f"w{n}_e", 1), (f"w{n}_x", bits), (f"w{n}_v", width)]
    shown = [(f"r{n}_y", width) for n in range(reads)]
    regs = "".join(f"  reg [{w - 1}:0] {n};\n" for n, w in inputs)
    regs += "".join(f"  reg [{w - 1}:0] due_{n};\n  wire [{w - 1}:0] {n};\n" for n, w in shown)
    names = [n for n, _ in inputs] + [n for n, _ in shown]
    places = [n for n, _ in inputs] + [f"due_{n}" for n, _ in shown]
    return BENCH.format(
        regs=regs.rstrip(),
        ports="".join(f", .{n}({n})" for n in names),
        rows=rows,
        format=" ".join(["%h"] * len(places)),
        places="".join(f", {p}" for p in places),
        count=len(places),
        differ="".join(f" || {n} !== due_{n}" for n, _ in shown),
    )


def rows(cells, width, reads, stages, chance):
    held = [0] * cells
    order = [p for s in range(7, 0, -1) for p in range(len(stages)) if stages[p] == s]
    lines = []
    for _ in range(CYCLES):
        index = chance.randrange(cells)
        some = lambda: index if chance.random() < 0.6 else chance.randrange(cells)
        looked = [some() for _ in range(reads)]
        writes = [(chance.random() < 0.7, some(), chance.getrandbits(width)) for _ in stages]
        values = looked[:]
        for e, x, v in writes:
            values += [int(e), x, v]
        values += [held[x] for x in looked]
        lines.append(" ".join(f"{v:x}" for v in values))
        for port in order:
            e, x, v = writes[port]
            if e:
                held[x] = v
    return "\n".join(lines) + "\n"


def tried(cells, width, reads, stages, work, chance):
    words = [str(n) for n in [cells, width, reads, *stages]]
    made = subprocess.run([PROGRAM, *words], capture_output=True, text=True)
    if not made.stdout.startswith("module top"):
        print(f"{' '.join(words)}: no file: {made.stdout}{made.stderr}".rstrip())
        sys.exit(2)
    (work / "file.v").write_text(made.stdout)
    (work / "rows").write_text(rows(cells, width, reads, stages, chance))
    (work / "bench.v").write_text(bench(cells, width, reads, stages, work / "rows"))
    subprocess.run(["iverilog", "-g2005", "-o", work / "run", work / "bench.v", work / "file.v"], check=True)
    said = subprocess.run(["vvp", "-n", work / "run"], capture_output=True, text=True, check=True).stdout.rstrip()
    print(f"{' '.join(words)}: {said}")
    return said.endswith(f"{CYCLES} tried, 0 differ")


def main():
    if not shutil.which("iverilog"):
        print("iverilog: not there, skipped")
        return 0
    if not PROGRAM.exists():
        subprocess.run(["rt", "run", "--", "2", "1", "1", "1"], cwd=TOP / "crates/files", stdout=subprocess.DEVNULL)
    chance = random.Random(7)
    right = True
    with tempfile.TemporaryDirectory() as place:
        for cells in (2, 4, 8, 16, 32, 64):
            for stages in ([1], [0], [2, 3], [3, 2], [4, 4], [7, 0], [0, 5]):
                width = chance.choice((1, 2, 8, 16, 31, 32, 64))
                reads = chance.choice((1, 2, 3, 4))
                right &= tried(cells, width, reads, stages, pathlib.Path(place), chance)
    return 0 if right else 1


sys.exit(main())
