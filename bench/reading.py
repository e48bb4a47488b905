#!/usr/bin/env python3
"""Times the reading and judging of large descriptions by the proved program.

    bench/reading.py [RUNS]

Makes a description of nearly 1,048,576 bytes that is at all limits of the language: as many registers, files, memories, inputs,
units, formats and fields, instructions and micro-operations as there may be; and three of 1/2, 1/4 and 1/8 of it, by the number of
instructions. They have no fault, and aren't of the form that is built, so `./asip gen` reads each of them whole, judges all phases, and
answers F0. The least time of RUNS (5) is printed. The time of a description of seven lines says what the start of the program costs.
"""
import os
import subprocess
import sys
import tempfile
import time

TOP = os.path.dirname(os.path.dirname(os.path.abspath(__file__)))
LIMIT = 1_048_576
INSTRUCTIONS = 256
MICRO_OPERATIONS = 64
SMALLEST = "stages 2\naddress 4\nword 8\ntransfer 1 0\nformat R op:8\ninstr NOP R op=0\nend\n"


def head():
    """The statements before the instructions: each table is full."""
    lines = ["stages 8", "address 16", "word 64", "transfer 5 4"]
    lines += [f"reg R{i} 32 {i}" for i in range(64)]
    lines += [f"file F{i} 32 64 4 2" for i in range(8)]
    lines += [f"mem M{i} 16 32" for i in range(4)]
    lines += [f"in P{i} 32" for i in range(8)]
    lines += [f"unit U{i} alu 32" for i in range(32)]
    fields = "op:8 index:6 " + " ".join(f"f{i}:3" for i in range(13)) + " rest:11"
    lines += [f"format T{i} {fields}" for i in range(32)]
    return "\n".join(lines) + "\n"


def micro_operations(number):
    """The 64 lines of an instruction: reads, a chain of units, memories and writes."""
    lines = [f"  1 a{port}{i} = F{i}.r{port} index" for port in range(2) for i in range(8)]
    lines += [f"  1 r{i} = R{(number + i) % 64}" for i in range(4)]
    lines += [f"  1 p{i} = in P{i}" for i in range(4)]
    lines += ["  2 s0 = U0.add a00 a10"]
    lines += [f"  2 s{i} = U{i}.xor s{i - 1} a{i % 2}{i % 8}" for i in range(1, 24)]
    for i in range(4):
        lines += [f"  3 x{i} = slice 15 0 s{20 + i}", f"  3 v{i} = M{i}.read x{i}"]
    return lines + [f"  4 F{i}.w0 index v{i % 4}" for i in range(8)]


def description(instructions, size):
    """A description with so many instructions, NOP and others of 64 lines, in nearly so many bytes."""
    names = [f"I{number}" for number in range(1, instructions)]
    start = head() + "instr NOP T0 op=0\nend\n"
    frames = sum(len(f"instr {name} T{number % 32} op={number}\nend\n") for number, name in enumerate(names, 1))
    width = (size - len(start) - frames) // ((instructions - 1) * MICRO_OPERATIONS)
    lines = [start]
    for number, name in enumerate(names, 1):
        lines.append(f"instr {name} T{number % 32} op={number}\n")
        for line in micro_operations(number):
            lines.append((line + " #").ljust(width - 1, "-") + "\n")
        lines.append("end\n")
    return "".join(lines)


def seconds(text, runs, room):
    """The least time in which the program reads the text and answers F0."""
    name = os.path.join(room, "d")
    with open(name, "w") as file:
        file.write(text)
    times = []
    for _ in range(runs):
        start = time.perf_counter()
        done = subprocess.run([os.path.join(TOP, "asip"), "gen", name, os.path.join(room, "v")], capture_output=True, text=True)
        times.append(time.perf_counter() - start)
        if done.returncode != 2 or not done.stdout.endswith(": F0 NotBuilt\n"):
            sys.exit(f"another answer than F0: {done.returncode} {done.stdout}{done.stderr}")
    return min(times)


def main():
    runs = int(sys.argv[1]) if len(sys.argv) > 1 else 5
    with tempfile.TemporaryDirectory() as room:
        start = seconds(SMALLEST, runs, room)
        print(f"{'bytes':>9} {'lines':>7} {'instructions':>12} {'seconds':>8}  without the start")
        print(f"{len(SMALLEST):>9} {7:>7} {1:>12} {start:>8.3f}")
        for part in (8, 4, 2, 1):
            text = description(INSTRUCTIONS // part, LIMIT // part)
            took = seconds(text, runs, room)
            count = text.count("\n")
            print(f"{len(text):>9} {count:>7} {INSTRUCTIONS // part:>12} {took:>8.3f} {took - start:>18.3f}")


main()
