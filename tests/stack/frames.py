"""The stack of each function: every instruction is followed with the bytes that lie on the stack, the return address counted."""
import re
from dataclasses import dataclass, field

WORD = 8
# Functions of the C library that the compiler calls by itself. They call nothing, and count with their return address alone.
LEAVES = {"memcpy": WORD, "memmove": WORD, "memset": WORD}

INSIDE = re.compile(r"<(.+?)(?:\+0x([0-9a-f]+))?>$")
MOVED = re.compile(r"^rsp,(0x[0-9a-f]+)$")
# how an instruction sets the stack pointer: as its first operand, as the second of an exchange, or without naming it
SET = re.compile(r"^[re]?spl?(?:,|$)")
EXCHANGED = re.compile(r",[re]?spl?$")
ONLY_READING = {"cmp", "test"}
EXCHANGING = {"xchg", "xadd"}
LEAVING = {"enter", "leave"}
BELOW = re.compile(r"\[rsp(?:\+\w+\*\d)?-0x([0-9a-f]+)\]")
ENDS = {"ret", "ud2", "hlt", "int3"}


class Uncounted(Exception):
    """Code whose stack cannot be counted."""


@dataclass
class Frame:
    size: int = WORD
    # the bytes on the stack before each call, with the function that is called
    calls: set = field(default_factory=set)


class Walk:
    def __init__(self, name, library):
        self.name, self.tables = name, library.tables
        self.body = library.functions[name]
        self.index = {instruction.at: i for i, instruction in enumerate(self.body)}
        self.frame, self.depths, self.waiting = Frame(), {}, [(0, WORD)]

    def fail(self, instruction, why):
        raise Uncounted(f"{self.name}+{instruction.at:#x}: {instruction.verb} {instruction.operands}: {why}")

    def run(self):
        while self.waiting:
            at, depth = self.waiting.pop()
            if at not in self.index:
                raise Uncounted(f"{self.name}+{at:#x}: a jump to what is no instruction")
            if at not in self.depths:
                self.follow(self.body[self.index[at]], depth)
            elif self.depths[at] != depth:
                raise Uncounted(f"{self.name}+{at:#x}: reached with {self.depths[at]} and with {depth} bytes on the stack")
        return self.frame

    def follow(self, instruction, depth):
        self.depths[instruction.at] = depth
        for below in BELOW.findall(instruction.operands):
            self.frame.size = max(self.frame.size, depth + int(below, 16))
        verb = instruction.verb
        if verb in ENDS:
            if verb == "ret" and depth != WORD:
                self.fail(instruction, f"{depth - WORD} bytes are left on the stack")
            return
        if verb == "call":
            self.call(instruction, depth)
        elif verb.startswith("j"):
            self.jump(instruction, depth)
            if verb == "jmp":
                return
        after = self.moved(instruction, depth)
        self.frame.size = max(self.frame.size, after)
        self.go_on(instruction, after)

    def go_on(self, instruction, depth):
        following = self.index[instruction.at] + 1
        if following == len(self.body):
            self.fail(instruction, "runs past the end of the function")
        self.waiting.append((self.body[following].at, depth))

    def moved(self, instruction, depth):
        """The bytes on the stack after an instruction that is no jump."""
        verb, operands = instruction.verb, instruction.operands
        if verb == "push":
            return depth + WORD
        if verb == "pop" and operands != "rsp":
            return depth - WORD
        if verb in ("sub", "add") and (found := MOVED.match(operands)):
            return depth + int(found[1], 16) * (1 if verb == "sub" else -1)
        if verb in LEAVING or verb not in ONLY_READING and SET.search(operands) or verb in EXCHANGING and EXCHANGED.search(operands):
            self.fail(instruction, "sets the stack pointer in a way that is not counted")
        return depth

    def target(self, instruction):
        """The function and the place that a direct call or jump goes to."""
        if instruction.symbol:
            return instruction.symbol, instruction.offset + 4
        if found := INSIDE.search(instruction.operands):
            return found[1], int(found[2] or "0", 16)
        return None

    def call(self, instruction, depth):
        target = self.target(instruction)
        if target is None:
            self.fail(instruction, "a call through a pointer")
        if target[1] != 0:
            self.fail(instruction, "a call into a function's middle")
        self.frame.calls.add((depth, target[0]))

    def jump(self, instruction, depth):
        target = self.target(instruction)
        if target is None:
            self.waiting += [(at, depth) for at in self.table(instruction)]
        elif target[0] == self.name:
            self.waiting.append((target[1], depth))
        elif target[1] != 0 or depth != WORD:
            self.fail(instruction, "a jump into another function, with a frame left")
        else:
            # the called function takes this one's place, and its return address
            self.frame.calls.add((0, target[0]))

    def table(self, instruction):
        """Where a jump by a table may go: every entry of each table that the function names has to lie in the function."""
        entries = [entry for section, starts in self.starts().items() for entry in self.entries(section, starts)]
        if not entries or any(name != self.name for name, _ in entries):
            self.fail(instruction, "a jump through a pointer, and no table of places in the function")
        return [at for _, at in entries]

    def starts(self):
        """The places, by section, where the function's tables start: those that it names."""
        found = {}
        for instruction in self.body:
            if self.tables.get(instruction.symbol):
                found.setdefault(instruction.symbol, {0}).add(instruction.offset + 4)
        return found

    def entries(self, section, starts):
        """An entry is a distance from its table's start, so its own place in its table is taken off."""
        for name, offset, place in self.tables[section]:
            start = max(start for start in starts if start <= place)
            yield name, offset - (place - start)


def chain(name, library, frames, above=()):
    """The deepest sum of frames from a function down, and the functions on that way."""
    if name in LEAVES:
        return LEAVES[name], [name]
    if name not in library.functions:
        raise Uncounted(f"{above[-1]}: calls {name}, which is outside the library")
    if name in above:
        raise Uncounted(f"{name}: calls itself, by {' > '.join(above[above.index(name):] + (name,))}")
    if name not in frames:
        frames[name] = Walk(name, library).run()
    deepest, way = frames[name].size, []
    for depth, called in sorted(frames[name].calls):
        below, further = chain(called, library, frames, above + (name,))
        if depth + below > deepest:
            deepest, way = depth + below, further
    return deepest, [name] + way
