#!/usr/bin/env python3
"""Times the reading and writing of large images and traces by the proved calls of the crate ap_image.

    bench/images.py [RUNS]

Makes an image and a trace of 67,108,864 bytes, the most that such a text may have, and three of 1/2, 1/4 and 1/8 of it. They
are spelled as the generator writes them, so the script asks that what is written of a value is as long as what was read. Then
it asks that a text of one byte more is refused as a whole.

No command reads images yet, so the script makes a small program in a folder of its own, beside copies of the crates that it
stands on, and has `rt` prove and build it there. It looks at the clock around each call. The least times of RUNS (3) are printed,
and the most memory that a run held.
"""
import os
import pathlib
import shutil
import subprocess
import sys
import tempfile

TOP = pathlib.Path(__file__).resolve().parent.parent
LIMIT = 67_108_864
BELOW = ["ap_text", "ap_bits", "ap_image"]
CRATES = "ap_text: ap_bits\nap_bits:\nap_image: ap_text ap_bits\ntiming: ap_bits ap_image\n"
PROGRAM = r"""//! Reads the text of an image or a trace and writes it again. It prints how many microseconds each took, and how long
//! the written text is; or the fault.
#![tactic(auto)]

use ap_bits::{Items, NoMemory};
use ap_image::{Shape, TextFault, read_image, read_trace, write_image, write_trace};
use std::alloc::Global;
use std::time::Instant;
use std::{env, fs, io};

/// 24 bits of address, words of 32 bits, no memories, and inputs of 16 and 32 bits.
fn shape_of(alloc: Global) -> Result<Option<Shape>, NoMemory> {
    let mut inputs = Items::new(alloc);
    inputs.push(16)?;
    inputs.push(32)?;
    Ok(Shape::checked(24, 32, Items::new(alloc), inputs))
}

/// The line that is printed.
fn report(rt: &HostRuntime, read: u128, written: u128, len: usize) -> io::Result<()> {
    println!(rt; "{read} {written} {len}")
}

/// A text that gave no value.
fn refused(rt: &HostRuntime, fault: TextFault) -> io::Result<()> {
    match fault {
        TextFault::At { line, kind } => {
            let code = kind.code();
            println!(rt; "line {line}: {code}")
        }
        TextFault::NoMemory => println!(rt; "no memory"),
    }
}

fn image(rt: &HostRuntime, text: &[u8], shape: &Shape) -> io::Result<()> {
    let start = Instant::now(rt)?;
    let image = match read_image(rt.alloc(), text, shape) {
        Ok(image) => image,
        Err(fault) => return refused(rt, fault),
    };
    let read = start.elapsed(rt)?;
    let mut out = Vec::new(rt.alloc());
    let start = Instant::now(rt)?;
    if write_image(rt.alloc(), &image, shape, &mut out).is_err() {
        return println!(rt; "no memory");
    }
    let written = start.elapsed(rt)?;
    report(rt, read.as_micros(), written.as_micros(), out.len())
}

fn trace(rt: &HostRuntime, text: &[u8], shape: &Shape) -> io::Result<()> {
    let start = Instant::now(rt)?;
    let trace = match read_trace(rt.alloc(), text, shape) {
        Ok(trace) => trace,
        Err(fault) => return refused(rt, fault),
    };
    let read = start.elapsed(rt)?;
    let mut out = Vec::new(rt.alloc());
    let start = Instant::now(rt)?;
    if write_trace(rt.alloc(), &trace, &mut out).is_err() {
        return println!(rt; "no memory");
    }
    let written = start.elapsed(rt)?;
    report(rt, read.as_micros(), written.as_micros(), out.len())
}

fn main(rt: HostRuntime) -> io::Result<()> {
    let Ok(Some(shape)) = shape_of(rt.alloc()) else {
        return println!(rt; "no memory");
    };
    let mut words = Vec::new(rt.alloc());
    for word in env::args(&rt)?.skip(1) {
        words.push(word)?;
    }
    let [sort, name] = words.as_slice() else {
        return println!(rt; "usage");
    };
    let text = fs::read(&rt, name.as_str())?;
    match sort.as_str() {
        "image" => image(&rt, text.as_slice(), &shape),
        _ => trace(&rt, text.as_slice(), &shape),
    }
}
"""


def word(size):
    """The line of a word, in so many bytes: from 4 to 11."""
    return "0x" + "9abcdef1"[: size - 3] + "\n"


def cycle(size):
    """The line of a cycle, in so many bytes: from 6 to 19."""
    first = min(5, (size - 4) // 2)
    return f"1 {'54321'[:first]} {'3987654321'[: size - 4 - first]}\n"


def text_of(head, line, longest, size):
    """A text of so many bytes: its head, lines of the greatest length, and two at the end that fill it up."""
    rest = size - len(head)
    count = (rest - longest - 1) // longest
    rest -= count * longest
    return head + line(longest) * count + line(rest // 2) + line(rest - rest // 2)


def text(sort, size):
    return text_of("part code\n", word, 11, size) if sort == "image" else text_of("", cycle, 19, size)


def build(room):
    """The program, made in a repository of its own."""
    (room / "crates.txt").write_text(CRATES)
    shutil.copy(TOP / "HANDLES", room)
    for name in BELOW:
        shutil.copytree(TOP / "crates" / name, room / "crates" / name, ignore=shutil.ignore_patterns("out"))
    folder = room / "crates" / "timing"
    (folder / "src").mkdir(parents=True)
    (folder / "src" / "main.rt").write_text(PROGRAM)
    subprocess.run(["git", "init", "-q"], cwd=room, check=True)
    subprocess.run(["rt", "run", "--jobs", "1"], cwd=folder, stdout=sys.stderr, check=True)
    return folder / "out" / "timing"


def answer(program, sort, name):
    """What the program prints, and the most memory that it held, in MiB."""
    with subprocess.Popen([program, sort, name], stdout=subprocess.PIPE, text=True) as run:
        said = run.stdout.read()
        _, _, used = os.wait4(run.pid, 0)
        run.returncode = 0
    return said.strip(), used.ru_maxrss // 1024


def measure(program, sort, size, runs, room):
    """The least times for a text of this size, and the memory."""
    name = room / "text"
    made = text(sort, size)
    name.write_text(made)
    times = []
    for _ in range(runs):
        said, memory = answer(program, sort, name)
        if not said.endswith(f" {size}") or said.startswith("line"):
            sys.exit(f"{sort} of {size} bytes: {said}")
        times.append(tuple(int(part) / 1e6 for part in said.split()[:2]))
    read, written = (min(column) for column in zip(*times))
    print(f"{sort:>5} {size:>9} {made.count(chr(10)):>8} {read:>8.2f} {written:>8.2f} {memory:>7}", flush=True)


def refuse_longer(program, sort, room):
    """A text of one byte more is refused as a whole."""
    name = room / "text"
    name.write_text(text(sort, LIMIT) + "\n")
    said, _ = answer(program, sort, name)
    if said != "line 0: G1 BadForm":
        sys.exit(f"{sort} of {LIMIT + 1} bytes: {said}")
    print(f"{sort:>5} {LIMIT + 1:>9} {said}")


def main():
    runs = int(sys.argv[1]) if len(sys.argv) > 1 else 3
    with tempfile.TemporaryDirectory() as folder:
        room = pathlib.Path(folder)
        program = build(room)
        print(f"{'sort':>5} {'bytes':>9} {'lines':>8} {'reading':>8} {'writing':>8} {'MiB':>7}")
        for sort in ("image", "trace"):
            for part in (8, 4, 2, 1):
                measure(program, sort, LIMIT // part, runs, room)
            refuse_longer(program, sort, room)


main()
