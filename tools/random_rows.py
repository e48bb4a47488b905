#!/usr/bin/env python3
"""The texts that `gen` writes, run by Icarus Verilog on random images and traces, against the rows of the machine.

    tools/random_rows.py ASIP PLAIN_ROWS [RUNS [SEED]] [D ..]

For each description D, which are those of examples/ if none is named, ASIP writes the text. Each of the RUNS runs (20) makes an image and a trace: most
words match an instruction, with random fields; the others are any words, and memories wait now and then. Icarus runs the text, PLAIN_ROWS,
which is what `rt run` makes of crates/plain_rows, prints the rows that are due, and each row is compared. It ends with 1 where a row
differs or a text isn't written, with 2 where Icarus isn't there, and else with 0.
"""
import glob, os, random, shutil, subprocess, sys, tempfile

TOP = os.path.dirname(os.path.dirname(os.path.abspath(__file__)))
sys.path.insert(0, os.path.join(TOP, "tools"))
from machine import Design, number

CYCLES = 300


def word_for(design, chance, bits):
    """A word, which most often matches an instruction."""
    word = chance.getrandbits(bits)
    if chance.random() < 0.9:
        instruction = chance.choice(design.instructions)
        word = word & ~instruction["mask"] | instruction["bits"]
    return word


def image_for(design, chance):
    """The text of an image with words everywhere."""
    bits = design.word[0]
    parts = [("code", 1 << design.address, lambda: word_for(design, chance, bits))]
    for name, size in design.memories.items():
        parts.append((name, size, lambda width=design.widths[name]: chance.getrandbits(width)))
    return "".join(f"part {name}\n" + "".join(f"{make()}\n" for _ in range(min(size, 1 << 10))) for name, size, make in parts)


def trace_for(design, chance):
    """The text of a trace: now and then memories wait."""
    widths = [number(width) for _, width in design.declared["in"]]
    waits = chance.choice([0, 0.1, 0.5])
    rows = ([int(chance.random() < waits)] + [chance.getrandbits(w) for w in widths] for _ in range(CYCLES))
    return "".join(" ".join(map(str, row)) + "\n" for row in rows)


def said_by(*words):
    return subprocess.run(words, stdout=subprocess.PIPE, text=True, check=True).stdout


def compare(work, description, plain, chance):
    """The number of rows of a run that differ, and the first of them."""
    design = Design(description)
    for name, text in (("image", image_for(design, chance)), ("trace", trace_for(design, chance))):
        with open(f"{work}/{name}", "w") as file:
            file.write(text)
    given = (f"{work}/image", f"{work}/trace", str(CYCLES))
    due = said_by(plain, description, *given).splitlines()
    shown = said_by(sys.executable, f"{TOP}/bench/sim.py", "--rows", f"{work}/text.v", *given).splitlines()
    wrong = [(a, b) for a, b in zip(due, shown) if a != b]
    return len(due) != len(shown) or len(due) != CYCLES, wrong


def main():
    asip, plain = map(os.path.realpath, sys.argv[1:3])
    rest = sys.argv[3:]
    runs = int(rest.pop(0)) if rest and rest[0].isdigit() else 20
    seed = int(rest.pop(0)) if rest and rest[0].isdigit() else 1
    if shutil.which("iverilog") is None:
        print("iverilog: not there, nothing was compared")
        return 2
    status = 0
    with tempfile.TemporaryDirectory() as work:
        for description in rest or sorted(glob.glob(f"{TOP}/examples/*.desc")):
            name = os.path.basename(description)
            made = subprocess.run([asip, "gen", description, f"{work}/text.v"], stdout=subprocess.PIPE, text=True)
            if made.returncode:
                print(f"{name}: gen answers {made.returncode}: {made.stdout.strip()}")
                status = 1
                continue
            chance = random.Random(f"{seed} {name}")
            for run in range(runs):
                short, wrong = compare(work, description, plain, chance)
                if short or wrong:
                    print(f"{name}, run {run}: {len(wrong)} rows differ" + (f"; due {wrong[0][0]!r}, shown {wrong[0][1]!r}" if wrong else ""))
                    status = 1
                    break
            else:
                print(f"{name}: {runs} runs of {CYCLES} cycles, no row differs")
            os.remove(f"{work}/text.v")
    return status


if __name__ == "__main__":
    sys.exit(main())
