#!/usr/bin/env python3
"""Cycles per second of `asip sim`, of Icarus Verilog and of Verilator, on the same texts in one run.

    bench/sim.py [CYCLES] [PROGRAM ..]       measures; CYCLES is 200000, PROGRAM ./asip
    bench/sim.py --rows V I T N              prints the rows that Icarus shows for the text V on the image I and the trace T

The texts and their images are those that the variable SIM_TEXTS names, as pairs V=I with blanks between. Each of the three writes the same rows, which
are compared byte by byte; where they differ it ends with 1. Tools that aren't there are skipped. A time is the least of three,
without that of the same run with no cycles, so that it is the time of the cycles alone.
"""
import os, re, shutil, subprocess, sys, tempfile, time

TOP = os.path.dirname(os.path.dirname(os.path.abspath(__file__)))


def ports_of(text):
    """The ports of top: direction, width, name, without clk and rst."""
    head = text[text.index("module top ("):]
    head = head[:head.index(");")]
    return [(d, int(h) + 1, n) for d, h, n in re.findall(r"(input|output) \[(\d+):0\] (\w+)", head)]


def image_of(text):
    """The words of each part of an image."""
    parts, words = {}, None
    for line in text.split("\n"):
        tokens = line.split("#")[0].split()
        if len(tokens) == 2:
            words = parts.setdefault(tokens[1], [])
        elif tokens:
            words.append(int(tokens[0], 0))
    return parts


def trace_of(text):
    return [[int(t, 0) for t in line.split("#")[0].split()] for line in text.split("\n") if line.split("#")[0].split()]


class Outside:
    def __init__(self, text, image, trace):
        self.ports = ports_of(text)
        self.width = {n: w for _, w, n in self.ports}
        self.inputs = [n for d, _, n in self.ports if n.startswith("p_")]
        self.mems = [n[2:-3] for _, _, n in self.ports if re.fullmatch(r"m_\w+_ra", n)]
        self.groups = [n[2:-2] for _, _, n in self.ports if re.fullmatch(r"w_\w+_e", n)]
        self.image, self.trace = image_of(image), trace_of(trace)

    def memories(self):
        """The memories: name, bits of an address, of a word, and the words."""
        yield "code", self.width["iaddr"], self.width["idata"], self.image.get("code", [])
        for m in self.mems:
            yield m, self.width[f"m_{m}_ra"], self.width[f"m_{m}_rd"], self.image.get(m, [])

    def label(self, group):
        """How a write group is written in a row, and whether it has an index."""
        indexed = f"w_{group}_x" in self.width
        return (group.rsplit("_", 1)[0] + "." + group.rsplit("_", 1)[1] if indexed else group), indexed

    def verilog(self, cycles):
        lines = ["module bench;", "  reg clk = 0;", "  reg rst = 1;", "  integer i;"]
        for d, w, n in self.ports:
            given = d == "input" and (n == "mwait" or n.startswith("p_"))
            lines.append(f"  {'reg' if given else 'wire'} [{w - 1}:0] {n}{' = 0' if given else ''};")
        for m, a, w, _ in self.memories():
            lines.append(f"  reg [{w - 1}:0] mem_{m} [0:{(1 << a) - 1}];")
        lines.append("  assign idata = mem_code[iaddr];")
        for m in self.mems:
            lines.append(f"  assign m_{m}_rd = mem_{m}[m_{m}_ra];")
            lines.append(f"  always @(posedge clk) if (!rst && m_{m}_we) mem_{m}[m_{m}_wa] <= m_{m}_wd;")
        lines.append("  top dut (.clk(clk), .rst(rst), " + ", ".join(f".{n}({n})" for _, _, n in self.ports) + ");")
        lines.append("  initial begin")
        for m, a, _, words in self.memories():
            lines.append(f"    for (i = 0; i < {1 << a}; i = i + 1) mem_{m}[i] = 0;")
            lines += [f"    mem_{m}[{k}] = {word};" if word < 1 << 31 else f"    mem_{m}[{k}] = 64'd{word};" for k, word in enumerate(words)]
        lines += ["    #1 clk = 1;", "    #1 clk = 0;", "    rst = 0;", f"    for (i = 0; i < {cycles}; i = i + 1) begin"]
        given = ["mwait"] + self.inputs
        lines.append("      case (i)")
        for k, values in enumerate(self.trace):
            lines.append(f"        {k}: begin " + " ".join(f"{n} = 64'd{x};" for n, x in zip(given, values)) + " end")
        lines.append("        default: begin " + " ".join(f"{n} = 0;" for n in given) + " end")
        lines.append("      endcase")
        lines.append('      #1 $write("%0d ", i);')
        lines.append('      if (stall && kill) $write("stall+kill"); else if (stall) $write("stall"); else if (kill) $write("kill"); else $write("run");')
        for g in self.groups:
            label, indexed = self.label(g)
            if indexed:
                lines.append(f'      if (w_{g}_e) $write(" {label}[%0d]=%0d", w_{g}_x, w_{g}_v);')
            else:
                lines.append(f'      if (w_{g}_e) $write(" {label}=%0d", w_{g}_v);')
        for m in self.mems:
            lines.append(f'      if (m_{m}_we) $write(" {m}[%0d]=%0d", m_{m}_wa, m_{m}_wd);')
        lines += ['      $write("\\n");', "      #1 clk = 1;", "      #1 clk = 0;", "    end", "    $finish;", "  end", "endmodule", ""]
        return "\n".join(lines)

    def cpp(self):
        lines = ['#include "Vtop.h"', '#include "verilated.h"', "#include <cinttypes>", "#include <cstdio>", "#include <cstdlib>"]
        for m, a, _, words in self.memories():
            lines.append(f"static uint64_t mem_{m}[{1 << a}] = {{{', '.join(str(x) + 'u' for x in words) or '0'}}};")
        given = ["mwait"] + self.inputs
        rows = ", ".join("{" + ", ".join(str(x) + "u" for x in values) + "}" for values in self.trace)
        if rows:
            lines.append(f"static const uint64_t trace[][{len(given)}] = {{{rows}}};")
        lines.append("int main(int argc, char **argv) {")
        lines.append("  const uint64_t cycles = strtoull(argv[1], 0, 10);")
        lines.append("  static char buffer[1 << 16]; setvbuf(stdout, buffer, _IOFBF, sizeof buffer);")
        lines.append("  Vtop *top = new Vtop;")
        lines.append("  auto settle = [&]() { for (;;) { top->eval(); bool same = true;")
        asked = [("idata", "code", "iaddr")] + [(f"m_{m}_rd", m, f"m_{m}_ra") for m in self.mems]
        for rd, m, ra in asked:
            lines.append(f"    {{ uint64_t x = mem_{m}[top->{ra}]; if (top->{rd} != x) {{ top->{rd} = x; same = false; }} }}")
        lines.append("    if (same) break; } };")
        lines.append("  top->clk = 0; top->rst = 1; settle(); top->clk = 1; top->eval(); top->clk = 0; top->rst = 0;")
        lines.append("  for (uint64_t i = 0; i < cycles; i++) {")
        for k, n in enumerate(given):
            value = f"i < {len(self.trace)} ? trace[i][{k}] : 0" if self.trace else "0"
            lines.append(f"    top->{n} = {value};")
        lines.append('    settle(); printf("%" PRIu64 " ", i);')
        lines.append('    fputs(top->stall ? top->kill ? "stall+kill" : "stall" : top->kill ? "kill" : "run", stdout);')
        for g in self.groups:
            label, indexed = self.label(g)
            if indexed:
                lines.append(f'    if (top->w_{g}_e) printf(" {label}[%" PRIu64 "]=%" PRIu64, (uint64_t)top->w_{g}_x, (uint64_t)top->w_{g}_v);')
            else:
                lines.append(f'    if (top->w_{g}_e) printf(" {label}=%" PRIu64, (uint64_t)top->w_{g}_v);')
        for m in self.mems:
            lines.append(f'    if (top->m_{m}_we) printf(" {m}[%" PRIu64 "]=%" PRIu64, (uint64_t)top->m_{m}_wa, (uint64_t)top->m_{m}_wd);')
        lines.append("    putchar('\\n');")
        for m in self.mems:
            lines.append(f"    const bool we_{m} = top->m_{m}_we; const uint64_t wa_{m} = top->m_{m}_wa, wd_{m} = top->m_{m}_wd;")
        lines.append("    top->clk = 1; top->eval();")
        for m in self.mems:
            lines.append(f"    if (we_{m}) mem_{m}[wa_{m}] = wd_{m};")
        lines += ["    top->clk = 0;", "  }", "  fflush(stdout); return 0;", "}", ""]
        return "\n".join(lines)


def put(path, text):
    with open(path, "w") as file:
        file.write(text)


def got(path):
    with open(path) as file:
        return file.read()


def icarus(work, outside, text, cycles):
    """The command that runs the text in Icarus."""
    put(f"{work}/bench.v", outside.verilog(cycles))
    subprocess.run(["iverilog", "-g2005", "-s", "bench", "-o", f"{work}/bench.{cycles}", f"{work}/bench.v", text], check=True)
    return ["vvp", "-n", f"{work}/bench.{cycles}"]


def verilator(work, outside, text):
    put(f"{work}/main.cpp", outside.cpp())
    subprocess.run(["verilator", "-O3", "--x-assign", "fast", "--x-initial", "fast", "--noassert", "-Wno-fatal", "-Wno-lint", "--cc", "--exe", "--build",
                    "-CFLAGS", "-O3 -march=native", "--top-module", "top", "--Mdir", f"{work}/obj", "-o", "run", text, f"{work}/main.cpp"],
                   check=True, stdout=subprocess.DEVNULL)
    return [f"{work}/obj/run"]


def least(command, out, runs=3):
    """The least time of a command, whose standard output goes to a file where one is named."""
    times = []
    for _ in range(runs):
        with open(out or os.devnull, "w") as file:
            begin = time.perf_counter()
            subprocess.run(command, check=True, stdout=file)
            times.append(time.perf_counter() - begin)
    return min(times)


def measure(v, i, cycles, program):
    with tempfile.TemporaryDirectory() as work:
        put(f"{work}/t", "")
        outside = Outside(got(v), got(i), "")
        names, rates = ["asip sim"], []
        sim = lambda n, o: program + ["sim", v, i, f"{work}/t", str(n), o]
        rates.append(cycles / (least(sim(cycles, f"{work}/rows"), None) - least(sim(0, f"{work}/none"), None)))
        if shutil.which("iverilog"):
            full, none = icarus(work, outside, v, cycles), icarus(work, outside, v, 0)
            rates.append(cycles / (least(full, f"{work}/icarus") - least(none, f"{work}/none")))
            names.append("icarus")
        if shutil.which("verilator"):
            run = verilator(work, outside, v)
            rates.append(cycles / (least(run + [str(cycles)], f"{work}/verilator") - least(run + ["0"], f"{work}/none")))
            names.append("verilator")
        same = all(got(f"{work}/rows") == got(f"{work}/{n}") for n in names[1:])
        print(f"{os.path.basename(v):24}" + "".join(f" {n} {r:12.0f}/s" for n, r in zip(names, rates))
              + "".join(f" {rates[0] / r:7.2f} x {n}" for n, r in zip(names[1:], rates[1:])) + ("" if same else "  ROWS DIFFER"), flush=True)
        return same


def main():
    if sys.argv[1:2] == ["--rows"]:
        v, i, t, n = sys.argv[2:6]
        with tempfile.TemporaryDirectory() as work:
            subprocess.run(icarus(work, Outside(got(v), got(i), got(t)), v, int(n)), check=True)
        return 0
    cycles = int(sys.argv[1]) if len(sys.argv) > 1 else 200000
    program = sys.argv[2:] or [os.path.join(TOP, "asip")]
    pairs = os.environ.get("SIM_TEXTS", "").split()
    if not pairs:
        sys.exit("SIM_TEXTS names no texts")
    return 0 if all([measure(*pair.split("="), cycles, program) for pair in pairs]) else 1


sys.exit(main())
