#!/usr/bin/env python3
"""Tries units in Icarus Verilog: what they show has to be what the table of operations says.

    tools/unit_values.py [KIND ..]

For each kind and many widths it has the program of crates/kinds write the unit, and compares the unit with the table,
computed here over whole numbers, for each operation at corners and at random values. Units of several cycles are asked anew
at once or after some idle cycles, are given up now and then, and have their results taken late; the bench sees, too, that
`busy` is 1 in exactly the cycles in which it is due. The script prints a line for each unit, and ends with 1 where a value
differs, with 2 where a unit couldn't be made, and else with 0, also where Icarus isn't there.
"""
import pathlib
import random
import shutil
import subprocess
import sys
import tempfile

TOP = pathlib.Path(__file__).resolve().parent.parent
PROGRAM = TOP / "crates/kinds/out/kinds"
SAMPLES = 400  # random values for each operation
SESSIONS = 60  # random values for each operation of a unit of several cycles

BENCH = """module bench;
  reg [{s}:0] sel;
  reg [{w}:0] a, b, due;
  wire [{w}:0] y;
  integer file, got, tried, bad;
  top unit(.clk(1'b0), .rst(1'b0), .sel(sel), .a(a), .b(b), .y(y));
  initial begin
    file = $fopen("{rows}", "r");
    tried = 0;
    bad = 0;
    while (!$feof(file)) begin
      got = $fscanf(file, "%h %h %h %h\\n", sel, a, b, due);
      #1 tried = tried + 1;
      if (got != 4 || y !== due) begin
        bad = bad + 1;
        if (bad < 4) $display("sel=%0d a=%0d b=%0d shows %0d, due %0d", sel, a, b, y, due);
      end
    end
    $display("%0d tried, %0d differ", tried, bad);
  end
endmodule
"""

# A row: the operation, the operands, the value due, how many cycles the unit is idle first, for how many it is asked for
# something else and given up, and by how many the result is taken late.
SLOW_BENCH = """module bench;
  reg clk, rst, sel, go, adv;
  reg [{w}:0] a, b, due, first, second;
  wire busy;
  wire [{w}:0] y;
  integer file, got, tried, bad, idle, given, late, i;
  reg op;
  top unit(.clk(clk), .rst(rst), .sel(sel), .a(a), .b(b), .go(go), .adv(adv), .busy(busy), .y(y));
  task tick; begin #1 clk = 1; #1 clk = 0; end endtask
  task ask(input asked, input taken, input o, input [{w}:0] x, input [{w}:0] z); begin go = asked; adv = taken; sel = o; a = x; b = z; #1; end endtask
  task expect_busy(input is); if (busy !== is) begin bad = bad + 1; if (bad < 4) $display("row %0d: busy is %b", tried, busy); end endtask
  task expect_due; if (y !== due) begin bad = bad + 1; if (bad < 4) $display("sel=%0d a=%0d b=%0d shows %0d, due %0d", sel, a, b, y, due); end endtask
  initial begin
    file = $fopen("{rows}", "r");
    tried = 0;
    bad = 0;
    clk = 0;
    rst = 1;
    ask(0, 0, 0, 0, 0);
    tick;
    rst = 0;
    while (!$feof(file)) begin
      got = $fscanf(file, "%h %h %h %h %d %d %d\\n", op, first, second, due, idle, given, late);
      if (got != 7) bad = bad + 1;
      for (i = 0; i < idle; i = i + 1) begin ask(0, i[0], op, second, first); expect_busy(0); tick; end
      for (i = 0; i < given; i = i + 1) begin ask(1, 0, ~op, ~first, second); expect_busy(i < {w} + 1); tick; end
      if (given > 0) begin ask(0, 0, op, first, second); expect_busy(0); tick; end
      for (i = 0; i <= {w}; i = i + 1) begin ask(1, 0, op, first, second); expect_busy(1); tick; end
      for (i = 0; i < late; i = i + 1) begin ask(1, 0, op, first, second); expect_busy(0); expect_due; tick; end
      ask(1, 1, op, first, second); expect_busy(0); expect_due; tick;
      tried = tried + 1;
    end
    $display("%0d tried, %0d differ", tried, bad);
  end
endmodule
"""


def signed(a, w):
    return a if a < 2 ** (w - 1) else a - 2**w


def rotated(a, b, w):
    bits = format(a, f"0{w}b")
    k = b % w
    return int(bits[k:] + bits[:k], 2)


def shifted_right_signed(a, b, w):
    if b >= w:
        return 2**w - 1 if signed(a, w) < 0 else 0
    return signed(a, w) // 2**b


def zeros_above(a, w):
    return w - len(format(a, "b")) if a else w


# Each operation by its operands and the width; the result is taken modulo 2^w.
KINDS = {
    "alu": (
        "any",
        [
            lambda a, b, w: a + b,
            lambda a, b, w: a - b,
            lambda a, b, w: a & b,
            lambda a, b, w: a | b,
            lambda a, b, w: a ^ b,
            lambda a, b, w: int(a == b),
            lambda a, b, w: int(a < b),
            lambda a, b, w: int(signed(a, w) < signed(b, w)),
            lambda a, b, w: a,
        ],
    ),
    "shift": (
        "powers",
        [
            lambda a, b, w: 0 if b >= w else a * 2**b,
            lambda a, b, w: 0 if b >= w else a // 2**b,
            shifted_right_signed,
            rotated,
        ],
    ),
    "count": ("any", [lambda a, b, w: format(a, "b").count("1"), lambda a, b, w: zeros_above(a, w)]),
    "avg": ("any", [lambda a, b, w: 0 if w == 1 else (a + b) % 2**w // 2]),
    "mul": ("any", [lambda a, b, w: a * b, lambda a, b, w: a * b // 2**w]),
    "div": ("any", [lambda a, b, w: a // b if b else 2**w - 1, lambda a, b, w: a % b if b else a]),
}
SLOW = {"mul", "div"}
WIDTHS = {"any": [1, 2, 3, 5, 7, 8, 9, 16, 17, 31, 32, 33, 48, 63, 64], "powers": [1, 2, 4, 8, 16, 32, 64]}


def value(rng, w):
    """A corner, a small number, a number of few bits, or any number."""
    most = 2**w - 1
    return rng.choice([rng.choice([0, 1, most, most // 2 + 1]), rng.randint(0, min(most, 2 * w)), rng.getrandbits(w) >> rng.randrange(w), rng.getrandbits(w)])


def rows(ops, w, rng):
    for sel, op in enumerate(ops):
        for _ in range(SAMPLES):
            a, b = value(rng, w), value(rng, w)
            yield f"{sel:x} {a:x} {b:x} {op(a, b, w) % 2**w:x}\n"


def sessions(ops, w, rng):
    for _ in range(SESSIONS * len(ops)):
        sel = rng.randrange(len(ops))
        a, b = value(rng, w), value(rng, w)
        idle, given, late = rng.choice([0, 0, 1, 3]), rng.choice([0, 0, rng.randint(1, w + 3)]), rng.choice([0, 0, 1, 4])
        yield f"{sel:x} {a:x} {b:x} {ops[sel](a, b, w) % 2**w:x} {idle} {given} {late}\n"


def build_program():
    subprocess.run(["rt", "run", "--", "avg", "8"], cwd=TOP / "crates/kinds", stdout=subprocess.DEVNULL, check=True)


def agrees(work, kind, ops, w, rng):
    text = subprocess.run([PROGRAM, kind, str(w)], capture_output=True, text=True).stdout
    if not text.startswith("module top"):
        raise RuntimeError(f"{kind} {w}: not written")
    select = max(1, (len(ops) - 1).bit_length())
    (work / "unit.v").write_text(text)
    bench, lines = (SLOW_BENCH, sessions(ops, w, rng)) if kind in SLOW else (BENCH, rows(ops, w, rng))
    (work / "rows").write_text("".join(lines))
    (work / "bench.v").write_text(bench.format(s=select - 1, w=w - 1, rows=work / "rows"))
    subprocess.run(["iverilog", "-g2005", "-s", "bench", "-o", work / "bench", work / "bench.v", work / "unit.v"], check=True)
    said = subprocess.run(["vvp", "-n", work / "bench"], capture_output=True, text=True, check=True).stdout.strip()
    print(f"{kind} {w}: {said}", flush=True)
    return said.endswith(" 0 differ")


def main(kinds):
    if shutil.which("iverilog") is None:
        print("iverilog: not there, skipped")
        return 0
    if not PROGRAM.exists():
        build_program()
    rng = random.Random(1)
    good = True
    with tempfile.TemporaryDirectory() as folder:
        for kind in kinds or KINDS:
            widths, ops = KINDS[kind]
            for w in WIDTHS[widths]:
                good = agrees(pathlib.Path(folder), kind, ops, w, rng) and good
    return 0 if good else 1


if __name__ == "__main__":
    try:
        sys.exit(main(sys.argv[1:]))
    except (RuntimeError, subprocess.CalledProcessError) as fault:
        print(fault, file=sys.stderr)
        sys.exit(2)
