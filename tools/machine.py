#!/usr/bin/env python3
"""The overlapped machine once more, written from docs/timing.md and docs/language.md and not from the program's code.

    tools/machine.py D I T N      prints the rows of N cycles of the description D on the image I and the trace T

It takes a description without fault for granted. What the proved program `plain_rows` prints is compared with it.
"""
import sys


def number(token):
    return int(token, 16) if token.startswith("0x") else int(token)


def lines(path):
    with open(path) as file:
        for line in file:
            tokens = line.split("#")[0].split()
            if tokens:
                yield tokens


def signed(value, width):
    return value - (1 << width) if value >> (width - 1) else value


def operation(name, width, a, b):
    ones = (1 << width) - 1
    by = b % width
    value = {
        "add": lambda: a + b, "sub": lambda: a - b, "and": lambda: a & b, "or": lambda: a | b, "xor": lambda: a ^ b,
        "eq": lambda: a == b, "ltu": lambda: a < b, "lts": lambda: signed(a, width) < signed(b, width), "pass": lambda: a,
        "sll": lambda: a << min(b, width), "srl": lambda: a >> min(b, width), "sra": lambda: signed(a, width) >> min(b, width),
        "rol": lambda: a << by | a >> (width - by), "pop": lambda: bin(a).count("1"), "clz": lambda: width - a.bit_length(),
        "avg": lambda: (a + b & ones) >> 1, "mullo": lambda: a * b, "mulhi": lambda: a * b >> width,
        "divu": lambda: a // b if b else ones, "remu": lambda: a % b if b else a,
    }[name]()
    return int(value) & ones


class Design:
    """What a description declares. An instruction has its fields, its fixed bits, and its lines with their stages."""

    def __init__(self, path):
        self.declared = {kind: [] for kind in ("reg", "file", "mem", "in", "unit")}
        self.formats, self.instructions, instruction = {}, [], None
        for tokens in lines(path):
            kind = tokens[0]
            if kind == "end":
                instruction = None
            elif instruction is not None:
                instruction["lines"].append((number(kind), tokens[1:]))
            elif kind in self.declared:
                self.declared[kind].append(tokens[1:])
            elif kind == "format":
                self.formats[tokens[1]] = self.fields(tokens[2:])
            elif kind == "instr":
                instruction = self.instruction(tokens)
                self.instructions.append(instruction)
            else:
                setattr(self, kind, [number(t) for t in tokens[1:]])
        self.count, self.address = self.stages[0], self.address[0]
        self.branch, self.slots = self.transfer
        self.widths = {name: number(width) for kind in ("reg", "file", "in") for name, width, *_ in self.declared[kind]}
        self.widths.update((name, number(width)) for name, _, width in self.declared["mem"] + self.declared["unit"])
        self.kinds = {name: kind for name, kind, _ in self.declared["unit"]}
        self.memories = {name: 1 << number(address) for name, address, _ in self.declared["mem"]}

    @staticmethod
    def fields(tokens):
        fields, low = {}, 0
        for name, width in reversed([t.split(":") for t in tokens]):
            fields[name] = low, number(width)
            low += number(width)
        return fields

    def instruction(self, tokens):
        fields, mask, bits = self.formats[tokens[2]], 0, 0
        for name, value in (t.split("=") for t in tokens[3:]):
            low, width = fields[name]
            mask |= (1 << width) - 1 << low
            bits |= number(value) << low
        return {"fields": fields, "mask": mask, "bits": bits, "lines": []}

    def matching(self, word):
        return next((i for i in self.instructions if word & i["mask"] == i["bits"]), None)

    def lines_of(self, word, stage):
        instruction = self.matching(word)
        return [] if instruction is None else [tokens for s, tokens in instruction["lines"] if s == stage]

    def groups(self):
        """The write groups and memories in the order of a row, as (what is written, port, label)."""
        written = [(stage, tokens) for i in self.instructions for stage, tokens in i["lines"]]
        for name, *_ in self.declared["reg"]:
            if any(tokens[:2] == [name, "<-"] for _, tokens in written):
                yield name, None, name
        for name, _, _, _, ports in self.declared["file"]:
            for stage in reversed(range(self.count)):
                for port in range(number(ports)):
                    if any(s == stage and tokens[0] == f"{name}.w{port}" for s, tokens in written):
                        yield name, f"w{port}", f"{name}.{port}"
        for name in self.memories:
            yield name, "write", name


class Machine:
    def __init__(self, design, image):
        self.design, self.pc = design, 0
        self.flights = [None] * design.count
        self.code = image.get("code", [])
        self.stored = {name: number(reset) for name, _, reset in design.declared["reg"]}
        self.stored.update((name, [0] * number(cells)) for name, _, cells, *_ in design.declared["file"])
        for name, size in design.memories.items():
            words = image.get(name, [])
            self.stored[name] = words + [0] * (size - len(words))

    def is_busy(self, flight, stage, wait):
        for tokens in self.design.lines_of(flight["word"], stage):
            used = tokens[2] if tokens[1:2] == ["="] else tokens[0]
            name = used.split(".")[0]
            if self.design.kinds.get(name) in ("mul", "div") and flight["waited"] < self.design.widths[name]:
                return True
            if name in self.design.memories and "." in used and wait:
                return True
        return False

    def operand(self, flight, token):
        """The value and the width of an operand."""
        if token in flight["locals"]:
            return flight["locals"][token]
        if token == "pc":
            return flight["place"], self.design.address
        if token == "link":
            return (flight["place"] + 1 + self.design.slots) % (1 << self.design.address), self.design.address
        low, width = self.design.matching(flight["word"])["fields"][token]
        return flight["word"] >> low & (1 << width) - 1, width

    def given(self, flight, tokens, inputs):
        """The value and the width of what stands behind a `=`."""
        kind, value = tokens[0], lambda k: self.operand(flight, tokens[k])
        if kind == "in":
            return inputs[tokens[1]], self.design.widths[tokens[1]]
        if kind == "const":
            return number(tokens[2]), number(tokens[1])
        if kind == "zext":
            return value(2)[0], number(tokens[1])
        if kind == "sext":
            return signed(*value(2)) & (1 << number(tokens[1])) - 1, number(tokens[1])
        if kind == "slice":
            high, low = number(tokens[1]), number(tokens[2])
            return value(3)[0] >> low & (1 << high - low + 1) - 1, high - low + 1
        if kind == "cat":
            (a, above), (b, below) = value(1), value(2)
            return a << below | b, above + below
        name, _, part = kind.partition(".")
        width = self.design.widths[name]
        if name in self.design.kinds:
            return operation(part, width, value(1)[0], value(2)[0]), width
        return self.stored[name][value(1)[0]] if part else self.stored[name], width

    def fire(self, flight, stage, inputs):
        """What a flight does in its stage: its writes as (name, port, index, value), and the target of a transfer. It gets its locals."""
        writes, target = [], None
        for tokens in self.design.lines_of(flight["word"], stage):
            value = lambda k: self.operand(flight, tokens[k])[0]
            happens = tokens[-2:-1] != ["when"] or value(-1)
            if tokens[0] == "jump" or tokens[0] == "branch" and value(1):
                target = value(-1)
            elif tokens[0] == "branch":
                pass
            elif tokens[1] == "=":
                flight["locals"][tokens[0]] = self.given(flight, tokens[2:], inputs)
            elif happens and tokens[1] == "<-":
                writes.append((tokens[0], None, None, value(2)))
            elif happens:
                name, port = tokens[0].split(".")
                writes.append((name, port, value(1), value(2)))
        return sorted(writes, key=str), target

    def cycle(self, inputs, wait):
        """One cycle: its state and its writes."""
        design = self.design
        there = [s for s in range(1, design.count) if self.flights[s]]
        if any(self.is_busy(self.flights[s], s, wait) for s in there):
            for s in there:
                self.flights[s]["waited"] += 1
            return "stall", []
        fired = {s: self.fire(self.flights[s], s, inputs) for s in there}
        target = next((t for _, t in fired.values() if t is not None), None)
        killed = [s for s in range(design.count) if target is not None and design.branch - s > design.slots]
        writes = [w for s in reversed(there) if s not in killed for w in fired[s][0]]
        fetched = {"word": self.code[self.pc] if self.pc < len(self.code) else 0, "place": self.pc, "locals": {}, "waited": 0}
        moved = [None if s in killed else f for s, f in enumerate([fetched] + self.flights[1:])]
        self.flights = [None] + moved[:-1]
        for flight in self.flights[1:]:
            if flight:
                flight["waited"] = 0
        self.pc = (self.pc + 1) % (1 << design.address) if target is None else target
        for name, _, index, value in writes:
            if index is None:
                self.stored[name] = value
            else:
                self.stored[name][index] = value
        return "run" if target is None else "kill", writes


def image_of(path):
    parts = {}
    for tokens in lines(path):
        if tokens[0] == "part":
            words = parts.setdefault(tokens[1], [])
        else:
            words.append(number(tokens[0]))
    return parts


def main():
    design = Design(sys.argv[1])
    machine = Machine(design, image_of(sys.argv[2]))
    trace = [[number(t) for t in tokens] for tokens in lines(sys.argv[3])]
    names = [name for name, _ in design.declared["in"]]
    groups = list(design.groups())
    for j in range(int(sys.argv[4])):
        wait, *ports = trace[j] if j < len(trace) else [0] * (1 + len(names))
        state, writes = machine.cycle(dict(zip(names, ports)), wait)
        shown = [f" {label}{'' if index is None else f'[{index}]'}={value}"
                 for name, port, label in groups for n, p, index, value in writes if (n, p) == (name, port)]
        print(j, state + "".join(shown))


if __name__ == "__main__":
    main()
