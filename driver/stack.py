"""How much stack each call needs, by the compiled code and as seen: stack.py OBJDUMP ARCHIVE HEADER SEEN

By the code: every way through every function is walked from its first instruction, with the bytes between the stack pointer and the
caller's frame counted; the deepest chain of calls is what an exported call needs, its return address counted, and its arguments that
stand above it not. SEEN has what driver/stack.c saw, which may not be more. What is not understood (an indirect call, another change of
the stack pointer, an unknown recursion or outside function) is an error, so that no figure is too low.

The table goes to the standard output. The exit status is 0, 1 where something is wrong, and 2 for wrong use.
"""

import re
import subprocess
import sys

FREE = 4096
RETURN = 8  # a return address
RED_ZONE = 128  # what a function may use below its stack pointer, by the convention

# Functions of the C library, which are counted with their return address alone: their frames are the platform's.
OUTSIDE = {"memcpy", "memset"}

# How many frames of a function that calls itself may stand at once: one for each persistent precondition that it goes down and one at
# the end. A table that is not refused has at most 16 of them in an event. A number has at most 20 digits, two of which are put by a frame.
FRAMES = {"decided::choose_down": 17, "spelling::put_number": 10}

LABEL = re.compile(r"[0-9a-f]+ <(.+)>:$")
CODE = re.compile(r" *([0-9a-f]+):\t(.+?) *(?:#.*)?$")
PLACED = re.compile(r"\t+[0-9a-f]+: (R_\w+)\t(.+?)([-+]0x[0-9a-f]+)?$")
TABLE = re.compile(r"RELOCATION RECORDS FOR \[\.rodata\.(.+)\]:$")
ENTRY = re.compile(r"([0-9a-f]+) R_X86_64_PC32 +\.text\.(.+)\+(0x[0-9a-f]+)$")
JUMP = re.compile(r"(j[a-z]+|call) +([0-9a-f]+) <(.+?)(?:\+0x[0-9a-f]+)?>$")
MOVE = re.compile(r"(sub|add) +\$(0x[0-9a-f]+),%rsp$")
SPOILS = re.compile(
    r"push|pop(?!cnt)|leave|enter|iret|sys|int|loop|xbegin|.*\(bad\)|.*\bl?(call|jmp|ret)|(xchg|xadd).*%[re]?sp|.*[ ,]%(rsp|esp|sp|spl)$"
)
BELOW = re.compile(r"-(0x[0-9a-f]+)\(%rsp(,)?")
PROBES = re.compile(
    r"mov +%rsp,%r11;sub +\$(0x[0-9a-f]+),%r11;sub +\$(0x[0-9a-f]+),%rsp;movq +\$0x0,\(%rsp\);cmp +%r11,%rsp;jne +(\w+) <.+>$"
)


class Wrong(Exception):
    """What is wrong with the code or with the figures."""


class Function:
    """A function: its instructions, the symbols placed in them, and where its tables of jumps lead."""

    def __init__(self, name):
        self.name = name
        self.code = []  # address and text
        self.placed = {}  # by the instruction's index: symbol and addend
        self.entries = []  # offset in the tables, and addend
        self.own = 0
        self.calls = {}  # by the callee: the most bytes in use where it is called

    def targets(self):
        """Where the tables of jumps lead: an entry counts from the start of its table, where the code refers to it."""
        starts = {add + 4 for symbol, add in self.placed.values() if symbol == ".rodata." + self.name}
        return {addend - (at - max(s for s in starts if s <= at)) for at, addend in self.entries}

    def walk(self):
        """Counts the bytes in use before each instruction, on every way to it, and keeps the deepest."""
        index = {address: i for i, (address, _) in enumerate(self.code)}
        used, open_ends = {}, [(0, RETURN)]
        while open_ends:
            at, bytes_used = open_ends.pop()
            if at >= len(self.code) or used.setdefault(at, bytes_used) != bytes_used:
                raise Wrong(f"{self.name}: ways with different stacks, or past the end, at instruction {at}")
            if bytes_used < RETURN:
                raise Wrong(f"{self.name}: the return address is given up at instruction {at}")
            ends = self.step(at, bytes_used)
            fresh = [(at + 1 if to is None else index.get(to, len(self.code)), after) for to, after in ends]
            open_ends += [end for end in fresh if used.get(end[0]) != end[1]]

    def step(self, at, used):
        """Takes one instruction: where it leads to (None is the next one), and the bytes in use there."""
        address, text = self.code[at]
        for below, index in BELOW.findall(text):
            # what is added to an index may be less than any place that is reached
            self.own = max(self.own, used + (min(int(below, 16), RED_ZONE) if index else int(below, 16)))
        self.own = max(self.own, used)
        probes = PROBES.match(";".join(text for _, text in self.code[at : at + 6]))
        if probes and int(probes[3], 16) == self.code[at + 2][0] and int(probes[1], 16) % int(probes[2], 16) == 0:
            return [(self.code[at + 6][0], used + int(probes[1], 16))]
        jump = JUMP.match(text)
        if jump:
            return self.jump(at, used, jump)
        if re.match(r"jmp +\*%\w+$", text) and self.entries:
            return [(to, used) for to in self.targets()]
        if text in ("ret", "ud2"):
            if text == "ret" and used != RETURN:
                raise Wrong(f"{self.name}: a return with {used} bytes in use at {address:x}")
            return []
        return [(None, used + self.moved(address, text))]

    def jump(self, at, used, jump):
        """Takes a jump or a call: to a placed symbol, to a place in this function, or to its beginning."""
        word, to, label = jump[1], int(jump[2], 16), jump[3]
        after = [] if word == "jmp" else [(None, used)]
        if at not in self.placed and word != "call":
            if label != self.name:
                raise Wrong(f"{self.name}: a jump to {label} that is not placed")
            return after + [(to, used)]
        symbol, addend = self.placed.get(at, (label, -4))
        if addend != -4 or (at not in self.placed and (to != 0 or label != self.name)):
            raise Wrong(f"{self.name}: '{self.code[at][1]}' leads into the midst of {symbol}")
        callee = symbol.removeprefix(".text.")
        # a jump to another function hands the return address on
        self.calls[callee] = max(self.calls.get(callee, 0), used if word == "call" else used - RETURN)
        return after

    def moved(self, address, text):
        """By how many bytes an instruction lowers the stack pointer."""
        if re.match(r"push +", text):
            return 8
        if re.match(r"pop +%(?!rsp)r\w+$", text):
            return -8
        move = MOVE.match(text)
        if move:
            number = int(move[2], 16)
            number -= (number >> 63) << 64
            return number if move[1] == "sub" else -number
        if SPOILS.match(text) and not re.match("(cmp|test)[bwlq]? ", text):
            raise Wrong(f"{self.name}: '{text}' at {address:x} is not understood")
        return 0


def read(objdump, archive):
    """The functions of the archive, walked."""
    functions, here = {}, None
    for line in told(objdump, "-dr", "--no-show-raw-insn", archive):
        if label := LABEL.match(line):
            if label[1] in functions:
                raise Wrong(f"{label[1]} is there twice")
            here = functions[label[1]] = Function(label[1])
        elif code := CODE.match(line):
            here.code.append((int(code[1], 16), code[2]))
        elif placed := PLACED.match(line):
            here.placed[len(here.code) - 1] = (placed[2], int(placed[3] or "0", 16))
        elif line.strip() and not re.match(r"In archive|Disassembly of section \.text|\S+: +file format elf64-x86-64", line):
            raise Wrong(f"the disassembly has '{line}'")
    table = None
    for line in told(objdump, "-r", archive):
        if line.startswith("RELOCATION"):
            table = TABLE.match(line)
        elif table and re.match("[0-9a-f]+ ", line):
            entry = ENTRY.match(line)
            if not entry or entry[2] != table[1]:
                raise Wrong(f"{table[1]}: its table of jumps has '{line}'")
            functions[table[1]].entries.append((int(entry[1], 16), int(entry[3], 16)))
    for function in functions.values():
        function.walk()
    return functions


def told(*command):
    """The lines that a command writes."""
    return subprocess.run(command, check=True, capture_output=True, text=True).stdout.splitlines()


def deepest(functions, name, above, known):
    """The bytes that a function needs with all it calls, and the way there: pairs of a function and its part."""
    if name in OUTSIDE:
        return RETURN, [(name, RETURN)]
    if name in above or name not in functions:
        raise Wrong(f"{name} is {'called in a circle of functions' if name in above else 'not in the archive'}")
    if name not in known:
        function = functions[name]
        inner = function.calls.get(name, 0)
        if inner and name not in FRAMES:
            raise Wrong(f"{name} calls itself, and how often is not known")
        ways = [(function.own, [(name, function.own)])]
        for callee, used in function.calls.items():
            if callee != name:
                below, way = deepest(functions, callee, above | {name}, known)
                ways.append((used + below, [(name, used)] + way))
        most, way = max(ways)
        again = inner * (FRAMES[name] - 1) if inner else 0
        known[name] = most + again, [(name, way[0][1] + again)] + way[1:]
    return known[name]


def report(functions, names, seen):
    """Writes the tables: what each call needs, and for those that need more than is free, where it goes."""
    known = {}
    need = {name: deepest(functions, "dovetrellis_" + name, frozenset(), known) for name in names}
    low = [name for name in names if seen[name] > need[name][0]]
    if low:
        raise Wrong(f"more is seen than the code shows: {', '.join(low)}")
    print("| call | stack by the code | seen | fits 4 KiB |\n|---|---|---|---|")
    for name in names:
        left = FREE - need[name][0]
        print(f"| {name} | {need[name][0]:,} | {seen[name]:,} | {f'yes, {left:,} left' if left >= 0 else f'no, {-left:,} over'} |")
    print("\n| call | the largest parts of its deepest way |\n|---|---|")
    for name in names:
        if need[name][0] > FREE:
            parts = sorted(need[name][1], key=lambda part: -part[1])[:3]
            print(f"| {name} | {', '.join(f'`{function}` {part:,}' for function, part in parts)} |")


def main(words):
    if len(words) != 4:
        print("usage: stack.py OBJDUMP ARCHIVE HEADER SEEN", file=sys.stderr)
        return 2
    objdump, archive, header, seen_file = words
    try:
        functions = read(objdump, archive)
        with open(header, encoding="utf-8") as file:
            names = re.findall(r"\bdovetrellis_(\w+)\(", file.read())
        with open(seen_file, encoding="utf-8") as file:
            seen = {name: int(count) for name, count in map(str.split, file)}
        exported = {name.removeprefix("dovetrellis_") for name in functions if name.startswith("dovetrellis_")}
        if not set(names) == exported == seen.keys():
            everywhere = set(names) & exported & seen.keys()
            raise Wrong(f"not in all of header, archive and driver/stack.c: {(set(names) | exported | seen.keys()) - everywhere}")
        report(functions, names, seen)
    except (Wrong, OSError, subprocess.CalledProcessError) as wrong:
        print(f"stack.py: {wrong}", file=sys.stderr)
        return 1
    return 0


if __name__ == "__main__":
    sys.exit(main(sys.argv[1:]))
