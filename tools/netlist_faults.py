#!/usr/bin/env python3
"""Compares the faults of changed netlist texts with those that a judge finds which was written apart from the program.

    tools/netlist_faults.py [COUNT] [SEED] [PROGRAM]

The texts of `crates/vr_tests` are changed at random COUNT (2,000) times: lines dropped, doubled, moved, words and numbers exchanged,
bytes put in. For each the kind of fault and its line have to be the same; a text without fault has to be written as its own bytes. The
judge below follows the table of kinds in docs/verilog.md, by regular expressions and sets of names.

The program is the one of bench/netlists.py, which has `rt` prove and build it; or PROGRAM, where it was built before.
"""
import pathlib
import random
import re
import subprocess
import sys
import tempfile
from dataclasses import dataclass, field

TOP = pathlib.Path(__file__).resolve().parent.parent
sys.path.insert(0, str(TOP / "bench"))
import netlists  # noqa: E402  (it makes the program)

LIMIT = 67_108_864
BARRED = "module endmodule input output wire reg assign always posedge if else".split()
NAME = r"[A-Za-z][A-Za-z0-9_]{0,99}"
NUMBER = r"(?:0|[1-9][0-9]*)"
MOST = 2**64 - 1
FORMS = {
    "module": rf"module ({NAME}) \(",
    "port": rf"  (input|output) \[({NUMBER}):0\] ({NAME})(,?)",
    "wire": rf"  wire \[({NUMBER}):0\] ({NAME});",
    "reg": rf"  reg \[({NUMBER}):0\] ({NAME});",
    "assign": rf"  assign ({NAME}) = (.*);",
    "always": rf"  always @\(posedge clk\) if \(rst\) ({NAME}) <= ({NUMBER})'d({NUMBER}); else ({NAME}) <= ({NAME});",
    "instance": rf"  ({NAME}) ({NAME}) \(\.clk\(clk\), \.rst\(rst\)((?:, \.{NAME}\({NAME}\))*)\);",
}
FIXED = {"  input clk,": "clk", "  input rst,": "rst", ");": "close", "endmodule": "end"}
RIGHTS = {
    "copy": rf"({NAME})",
    "constant": rf"({NUMBER})'d({NUMBER})",
    "not": rf"~({NAME})",
    "two": rf"({NAME}) (\+|-|&|\||\^|==|<) ({NAME})",
    "choose": rf"({NAME}) \? ({NAME}) : ({NAME})",
    "cat": rf"\{{({NAME}), ({NAME})\}}",
    "slice": rf"({NAME})\[({NUMBER}):({NUMBER})\]",
}
SORTS = ["wire", "reg", "assign", "always", "instance"]


@dataclass
class Module:
    """A module: its name, its first line, and its lines by sort, each with its number before what it says."""
    name: str
    line: int
    port: list = field(default_factory=list)
    wire: list = field(default_factory=list)
    reg: list = field(default_factory=list)
    assign: list = field(default_factory=list)
    always: list = field(default_factory=list)
    instance: list = field(default_factory=list)

    def nets(self):
        """Line, name, width and sort of each net."""
        ports = [(line, name, width, "output" if way == "output" else "input") for line, way, width, name, _ in self.port]
        return ports + [(line, name, width, "wire") for line, width, name in self.wire] + [(line, name, width, "reg") for line, width, name in self.reg]

    def usable(self):
        return {"clk": (1, "input"), "rst": (1, "input")} | {name: (width, sort) for _, name, width, sort in self.nets()}


def is_name(word):
    return word not in BARRED


def is_operand(word):
    return is_name(word) and word not in ("clk", "rst")


def width_of(high):
    return int(high) + 1 if int(high) < 64 else None


def right_side(text):
    """The form of a right side, and its parts, or None."""
    for form, pattern in RIGHTS.items():
        found = re.fullmatch(pattern, text)
        if not found:
            continue
        parts = found.groups()
        if form == "constant":
            width, value = map(int, parts)
            return (form, [], (width, value)) if 1 <= width <= 64 and value <= MOST else None
        if form == "slice":
            high, low = map(int, parts[1:])
            return (form, [parts[0]], (high, low)) if is_operand(parts[0]) and max(high, low) <= MOST else None
        operands = [parts[0], parts[2]] if form == "two" else list(parts)
        return (form, operands, parts[1] if form == "two" else None) if all(map(is_operand, operands)) else None
    return None


def line_of(text):
    """The sort of a line, and what it says, or None."""
    if text in FIXED:
        return FIXED[text], ()
    for sort, pattern in FORMS.items():
        found = re.fullmatch(pattern, text)
        said = found and meaning(sort, found.groups())
        if said is not None:
            return sort, said
    return None


def meaning(sort, parts):
    if sort == "module":
        return parts if is_name(parts[0]) else None
    if sort == "port":
        way, high, name, comma = parts
        return (way, width_of(high), name, comma) if width_of(high) and is_name(name) else None
    if sort in ("wire", "reg"):
        return (width_of(parts[0]), parts[1]) if width_of(parts[0]) and is_name(parts[1]) else None
    if sort == "assign":
        right = right_side(parts[1])
        return (parts[0], right) if right and is_name(parts[0]) else None
    if sort == "always":
        register, width, value, again, source = parts
        fits = 1 <= int(width) <= 64 and int(value) <= MOST
        return (register, int(width), int(value), source) if register == again and fits and is_name(register) and is_operand(source) else None
    module, name, rest = parts
    joined = re.findall(rf", \.({NAME})\(({NAME})\)", rest)
    right = is_name(module) and is_name(name) and all(is_name(port) and is_operand(net) for port, net in joined)
    return (module, name, joined) if right else None


def is_due(place, sort, modules):
    """A line of the sort is due: in a head, where the very sort is named, or in a body, which has come to a sort of lines."""
    if isinstance(place, str):
        return sort == place
    return sort == "end" or sort in SORTS[place:] and (sort != "instance" or modules[-1].name == "top")


def modules_of(text):
    """The modules, or the line that isn't of the form due."""
    if len(text) > LIMIT:
        return None, 0
    modules, place, number = [], "module", 0
    lines = text.split("\n")
    for number, line in enumerate(lines[:-1], 1):
        found = line_of(line)
        if not found or not is_due(place, found[0], modules):
            return None, number
        sort, said = found
        if sort == "module":
            modules.append(Module(said[0], number))
        elif sort == "port" or sort in SORTS:
            getattr(modules[-1], sort).append((number, *said))
        head = {"module": "clk", "clk": "rst", "rst": "port", "close": 0, "end": "module"}
        place = ("port" if said[3] else "close") if sort == "port" else head[sort] if sort in head else SORTS.index(sort)
    if lines[-1] or place != "module" or not modules:
        return None, number + 1
    return (modules, None) if modules[-1].name == "top" else (None, modules[-1].line)


def found_among(modules, name):
    return next((module for module in modules if module.name == name), None)


def unknown(modules):
    for at, module in enumerate(modules):
        names = module.usable()
        for line, to, (_, operands, _) in module.assign:
            if any(name not in names for name in [to, *operands]):
                return line
        for line, register, _, _, source in module.always:
            if register not in names or source not in names:
                return line
        for line, of, _, joined in module.instance:
            whole = found_among(modules[:at], of)
            if not whole or [port for port, _ in joined] != [port[3] for port in whole.port] or any(net not in names for _, net in joined):
                return line
    return None


def repeated(modules):
    seen = set()
    for module in modules:
        if module.name in seen:
            return module.line
        seen.add(module.name)
        names = {"clk", "rst"}
        for line, name in [(line, name) for line, name, _, _ in module.nets()] + [(line, name) for line, _, name, _ in module.instance]:
            if name in names:
                return line
            names.add(name)
    return None


def drivers(module, earlier):
    """Line, net and whether the line is an always line, of each driver in order."""
    yield from ((line, to, False) for line, to, _ in module.assign)
    yield from ((line, register, True) for line, register, _, _, _ in module.always)
    for line, of, _, joined in module.instance:
        yield from ((line, net, False) for (_, net), port in zip(joined, found_among(earlier, of).port) if port[1] == "output")


def driven_twice(modules):
    for at, module in enumerate(modules):
        names, driven = module.usable(), set()
        for line, net, clocked in drivers(module, modules[:at]):
            if net in driven or names[net][1] == "input" or (names[net][1] == "reg") != clocked:
                return line
            driven.add(net)
    return None


def undriven(modules):
    for at, module in enumerate(modules):
        driven = {net for _, net, _ in drivers(module, modules[:at])}
        for line, name, _, sort in module.nets():
            if sort != "input" and name not in driven:
                return line
    return None


def fits(right, bits, width):
    form, operands, more = right
    widths = [width(name) for name in operands]
    if form == "constant":
        return more[0] == bits and more[1] < 2**bits
    if form == "two":
        return widths[0] == widths[1] and bits == (1 if more in ("==", "<") else widths[0])
    if form == "slice":
        return more[1] <= more[0] < widths[0] and bits == more[0] - more[1] + 1
    if form == "cat":
        return sum(widths) == bits
    return widths == ([1, bits, bits] if form == "choose" else [bits])


def misfit(modules):
    for at, module in enumerate(modules):
        names = module.usable()
        width = lambda name: names[name][0]  # noqa: E731
        for line, to, right in module.assign:
            if not fits(right, width(to), width):
                return line
        for line, register, bits, value, source in module.always:
            if bits != width(register) or value >= 2**bits or width(source) != bits:
                return line
        for line, of, _, joined in module.instance:
            if [width(net) for _, net in joined] != [port[2] for port in found_among(modules[:at], of).port]:
                return line
    return None


def judge(text):
    """The fault of a text as the program prints it, or None."""
    modules, line = modules_of(text)
    if modules is None:
        return f"line {line}: V1 BadForm"
    kinds = [(unknown, "V2 UnknownName"), (repeated, "V3 TwiceNamed"), (driven_twice, "V4 TwiceDriven"), (undriven, "V5 NotDriven"), (misfit, "V6 WidthDiffers")]
    for kind, name in kinds:
        line = kind(modules)
        if line is not None:
            return f"line {line}: {name}"
    return None


def texts():
    """The texts of the tests, and two with a gate before the small one, which has an instance of it in the second."""
    folder = TOP / "crates" / "vr_tests" / "src"
    found = [text for name in ("texts.rt", "example_tests.rt") for text in re.findall(r'"(module .*?endmodule\n)"', (folder / name).read_text(), re.DOTALL)]
    small = next(text for text in found if "  assign n1 = pc + n0;\n" in text)
    gate = next(text for text in found if text.startswith("module gate (") and text.index("input [3:0] a") < text.index("output"))
    instance = small.replace("  assign n1 = pc + n0;\n", "").replace("endmodule\n", "  gate g (.clk(clk), .rst(rst), .a(pc), .y(n1));\nendmodule\n")
    return [text for text in found if judge(text) is None] + [gate + small, gate + instance]


def changed(text):
    """The text with one change to three."""
    for _ in range(random.choice([1, 1, 1, 2, 3])):
        lines = text.split("\n")
        at, to = random.randrange(len(lines)), random.randrange(len(lines))
        line = lines[at]
        way = random.randrange(8)
        if way == 0:
            del lines[at]
        elif way == 1:
            lines.insert(at, line)
        elif way == 2:
            lines.insert(to, lines.pop(at))
        elif way == 3:
            place = random.randrange(len(line) + 1)
            lines[at] = line[:place] + random.choice(" \t0a9_;,()\r") + line[place:]
        elif way == 4:
            numbers = [0, 1, 3, 4, 7, 8, 63, 64, MOST, MOST + 1]
            lines[at] = re.sub(r"\d+", lambda number: random.choice([number[0], str(random.choice(numbers))]), line)
        else:
            pieces = re.findall(r"\w+|\W", line)
            if pieces:
                place = random.randrange(len(pieces))
                words = re.findall(r"\w+", text) if pieces[place][0].isalnum() else re.findall(r"[^\w\n]", text)
                pieces[place] = random.choice(words)
                lines[at] = "".join(pieces)
        text = "\n".join(lines)
    return text


def compare(program, count, room):
    """Compares the faults of changed texts, and counts them by their kinds."""
    from_here, name, counts = texts(), room / "text", {}
    for _ in range(count):
        text = changed(random.choice(from_here))
        name.write_text(text, newline="")
        said = subprocess.run([program, name, "write"], capture_output=True, text=True, check=True).stdout.strip()
        due = judge(text)
        right = said.split(" ", 1)[1] == due if due else len(said.split()) == 3 and said.endswith(f" {len(text)}")
        if not right:
            sys.exit(f"{said}\ndue: {due}\n{text}")
        kind = due.split(": ")[1] if due else "no fault"
        counts[kind] = counts.get(kind, 0) + 1
    print(", ".join(f"{kind}: {counts[kind]}" for kind in sorted(counts)))


def main():
    words = sys.argv[1:]
    count = int(words[0]) if words else 2000
    random.seed(int(words[1]) if len(words) > 1 else 1)
    with tempfile.TemporaryDirectory() as folder:
        room = pathlib.Path(folder)
        compare(words[2] if len(words) > 2 else netlists.build(room), count, room)


if __name__ == "__main__":
    main()
