#!/usr/bin/env python3
"""Times the reading back and writing of large netlist texts by the proved calls of the crates ap_vr and ap_vw.

    bench/netlists.py [RUNS]

Makes netlists of 67,108,864 bytes, the most that such a text may have, and of 1/2, 1/4 and 1/8 of it: of many assigns, of many
registers, of names of 100 bytes, and of many modules with an instance of each. What is written of a netlist has to be as long as what
was read; that it is the same is proved. Those of many modules are only read: the printer takes no memory, so it looks for the module of
each instance among all before it. Then it makes texts of the same sizes that are refused: one line without end, modules without
top, wires without drivers, and a name that comes back in the last line but one. Each has to be refused with the fault that is due.

No command reads netlist texts yet, so the script makes a small program in a folder of its own, beside copies of the crates that it
stands on, and has `rt` prove and build it there. It looks at the clock around each call. The least times of RUNS (3) are printed: of
reading and of writing by the clock, and of the processor for the whole run; and the most memory that a run held.
"""
import os
import pathlib
import shutil
import subprocess
import sys
import tempfile

TOP = pathlib.Path(__file__).resolve().parent.parent
LIMIT = 67_108_864
BELOW = ["ap_text", "ap_bits", "ap_image", "ap_net", "ap_vw", "ap_vr"]
# A process of its own starts the program, since the memory of the one that starts it counts in what is told of it.
LAUNCHER = """
import os, subprocess, sys
run = subprocess.Popen(sys.argv[1:], stdout=subprocess.PIPE)
said = run.stdout.read()
used = os.wait4(run.pid, 0)[2]
print(said.decode().strip())
print(used.ru_utime + used.ru_stime, used.ru_maxrss)
"""
PROGRAM = r"""//! Reads the text of a netlist back, and writes it again where a second word asks for it. It prints how many microseconds each
//! took, and how long the written text is; or the fault, and how many microseconds it took.
#![tactic(auto)]

use ap_vr::{NetFault, read_back};
use ap_vw::write;
use std::time::Instant;
use std::{env, fs, io};

fn netlist(rt: &HostRuntime, text: &[u8], writes: bool) -> io::Result<()> {
    let start = Instant::now(rt)?;
    let answer = read_back(rt.alloc(), text);
    let read = start.elapsed(rt)?.as_micros();
    let net = match answer {
        Ok(net) => net,
        Err(NetFault::At { line, kind }) => {
            let code = kind.code();
            return println!(rt; "{read} line {line}: {code}");
        }
        Err(NetFault::NoMemory) => return println!(rt; "{read} no memory"),
    };
    let mut out = Vec::new(rt.alloc());
    if !writes {
        let modules = net.modules().len();
        return println!(rt; "{read} 0 {modules}");
    }
    let start = Instant::now(rt)?;
    if write(&net, &mut out).is_err() {
        return println!(rt; "no memory");
    }
    let written = start.elapsed(rt)?.as_micros();
    let len = out.len();
    println!(rt; "{read} {written} {len}")
}

fn main(rt: HostRuntime) -> io::Result<()> {
    let mut words = Vec::new(rt.alloc());
    for word in env::args(&rt)?.skip(1) {
        words.push(word)?;
    }
    match words.as_slice() {
        [name] => netlist(&rt, fs::read(&rt, name.as_str())?.as_slice(), false),
        [name, _write] => netlist(&rt, fs::read(&rt, name.as_str())?.as_slice(), true),
        _ => println!(rt; "usage"),
    }
}
"""


def head(filler):
    """The first lines of top. The name of a port that nothing uses fills a text up."""
    return f"module top (\n  input clk,\n  input rst,\n  input [0:0] {filler},\n  input [7:0] a,\n  output [7:0] y\n);\n"


def assigns(size):
    """Wires, each the sum of the one before it and a port."""
    def text(count, filler):
        wires = "".join(f"  wire [7:0] n{i};\n" for i in range(count))
        each = "".join(f"  assign n{i} = n{i - 1} + a;\n" for i in range(1, count))
        return head(filler) + wires + "  assign n0 = a;\n" + each + f"  assign y = n{count - 1};\nendmodule\n"
    return by_count(text, size)


def registers(size):
    """Registers, each of which takes what the one before it held."""
    def text(count, filler):
        regs = "".join(f"  reg [7:0] q{i};\n" for i in range(count))
        each = "".join(f"  always @(posedge clk) if (rst) q{i} <= 8'd0; else q{i} <= q{max(0, i - 1)};\n" for i in range(count))
        return head(filler) + regs + "  assign y = a;\n" + each + "endmodule\n"
    return by_count(text, size)


def names(size):
    """Wires with names of nearly 100 bytes."""
    def text(count, filler):
        wires = "".join(f"  wire [7:0] n{i:x>98};\n" for i in range(count))
        each = "".join(f"  assign n{i:x>98} = a;\n" for i in range(count))
        return head(filler) + wires + each + "  assign y = a;\nendmodule\n"
    return by_count(text, size)


def modules(size):
    """Modules with a port each, and an instance of each in top."""
    def text(count, filler):
        each = "".join(f"module m{i} (\n  input clk,\n  input rst,\n  output [0:0] y\n);\n  assign y = 1'd0;\nendmodule\n" for i in range(count))
        wires = "".join(f"  wire [0:0] n{i};\n" for i in range(count))
        instances = "".join(f"  m{i} u{i} (.clk(clk), .rst(rst), .y(n{i}));\n" for i in range(count))
        return each + head(filler) + wires + "  assign y = a;\n" + instances + "endmodule\n"
    return by_count(text, size)


def by_count(text, size):
    """A text of so many bytes, by the count of its parts; a port's name fills it up, as far as a name may."""
    small, large = len(text(1000, "p")), len(text(2000, "p"))
    count = max(2, (size - small) * 1000 // (large - small))
    for _ in range(8):
        made = len(text(count, "p"))
        if 0 <= size - made < 100:
            break
        one = made - len(text(count - 1, "p"))
        count += (size - made) // one
    return text(count, "p" * min(100, 1 + size - made))


def unending(size):
    """One line without end."""
    return "module " + "a" * (size - 7), "line 1: V1 BadForm"


def topless(size):
    """Modules of one name, more than a million in the longest text, none of which is top."""
    one = "module m (\n  input clk,\n  input rst,\n  input [0:0] a\n);\nendmodule\n"
    count = size // len(one)
    return one * count, f"line {6 * (count - 1) + 1}: V1 BadForm"


def undriven(size):
    """Wires without drivers."""
    first = head("p")
    count = (size - len(first)) // len("  wire [0:0] n1000000;\n")
    return first + "".join(f"  wire [0:0] n{i};\n" for i in range(count)) + "  assign y = a;\nendmodule\n", "line 8: V5 NotDriven"


def repeated(size):
    """Wires, the last of which has the name of the first."""
    first = head("p")
    count = (size - len(first)) // len("  wire [0:0] n1000000;\n")
    lines = "".join(f"  wire [0:0] n{i};\n" for i in range(count))
    return first + lines + "  wire [0:0] n0;\nendmodule\n", f"line {8 + count}: V3 TwiceNamed"


def build(room):
    """The program, made in a repository of its own."""
    of_these = [line for line in (TOP / "crates.txt").read_text().splitlines() if line.split(":")[0] in BELOW]
    (room / "crates.txt").write_text("\n".join(of_these) + "\ntiming: ap_net ap_vw ap_vr\n")
    shutil.copy(TOP / "HANDLES", room)
    for name in BELOW:
        shutil.copytree(TOP / "crates" / name, room / "crates" / name, ignore=shutil.ignore_patterns("out"))
    folder = room / "crates" / "timing"
    (folder / "src").mkdir(parents=True)
    (folder / "src" / "main.rt").write_text(PROGRAM)
    subprocess.run(["git", "init", "-q"], cwd=room, check=True)
    subprocess.run(["rt", "run", "--jobs", "1"], cwd=folder, stdout=sys.stderr, check=True)
    return folder / "out" / "timing"


def answer(program, *words):
    """What the program prints, the processor's time for the whole run, and the most memory that it held, in MiB."""
    done = subprocess.run([sys.executable, "-c", LAUNCHER, program, *words], capture_output=True, text=True, check=True)
    said, used = done.stdout.strip().rsplit("\n", 1)
    time, memory = used.split()
    return said.strip(), float(time), int(memory) // 1024


def measure(program, sort, text, writes, runs, room):
    """The least times for a netlist of this text, and the memory."""
    name = room / "text"
    name.write_text(text)
    times = []
    for _ in range(runs):
        said, used, memory = answer(program, name, *["write"] * writes)
        if len(said.split()) != 3 or writes and not said.endswith(f" {len(text)}"):
            sys.exit(f"{sort} of {len(text)} bytes: {said}")
        times.append((*(int(part) / 1e6 for part in said.split()[:2]), used))
    read, written, used = (min(column) for column in zip(*times))
    shown = f"{written:.2f}" if writes else ""
    print(f"{sort:>9} {len(text):>9} {text.count(chr(10)):>8} {read:>8.2f} {shown:>8} {used:>8.2f} {memory:>5}", flush=True)


def refuse(program, sort, text, fault, runs, room):
    """The least time in which the text is refused with this fault, and the memory."""
    name = room / "text"
    name.write_text(text)
    times = []
    for _ in range(runs):
        said, used, memory = answer(program, name)
        took, _, found = said.partition(" ")
        if found != fault:
            sys.exit(f"{sort} of {len(text)} bytes: {said}")
        times.append((int(took) / 1e6, used))
    read, used = (min(column) for column in zip(*times))
    print(f"{sort:>9} {len(text):>9} {text.count(chr(10)):>8} {read:>8.2f} {'':>8} {used:>8.2f} {memory:>5} {fault}", flush=True)


def measure_all(program, runs, room):
    print(f"{'sort':>9} {'bytes':>9} {'lines':>8} {'reading':>8} {'writing':>8} {'in all':>8} {'MiB':>5}")
    for sort in (assigns, registers, names, modules):
        for part in (8, 4, 2, 1):
            measure(program, sort.__name__, sort(LIMIT // part), sort is not modules, runs, room)
    for sort in (unending, topless, undriven, repeated):
        for part in (8, 4, 2, 1):
            text, fault = sort(LIMIT // part)
            refuse(program, sort.__name__, text, fault, runs, room)
    refuse(program, "too long", assigns(LIMIT) + "\n", "line 0: V1 BadForm", runs, room)


def main():
    runs = int(sys.argv[1]) if len(sys.argv) > 1 else 3
    with tempfile.TemporaryDirectory() as folder:
        room = pathlib.Path(folder)
        measure_all(build(room), runs, room)


if __name__ == "__main__":
    main()
