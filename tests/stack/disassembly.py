"""What objdump says of a compiled library: its functions, instruction by instruction, and its jump tables."""
import re
import subprocess
from dataclasses import dataclass, field

FUNCTION = re.compile(r"^[0-9a-f]+ <(.+)>:$")
INSTRUCTION = re.compile(r"^ +([0-9a-f]+):\t(.+)$")
RELOCATION = re.compile(r"^\t+[0-9a-f]+: (\S+)\t(.+)$")
TABLE = re.compile(r"^RELOCATION RECORDS FOR \[(\.rodata.*)\]:$")
ENTRY = re.compile(r"^([0-9a-f]+) (\S+) +(\S+)$")
SYMBOL = re.compile(r"^(.+?)(?:([-+])0x([0-9a-f]+))?$")
PREFIXES = {"rep", "repz", "repnz", "lock", "notrack", "bnd", "data16", "cs"}


@dataclass
class Instruction:
    at: int
    verb: str
    operands: str
    # what the linker fills in: a symbol and an offset from it
    symbol: str = ""
    offset: int = 0


@dataclass
class Library:
    functions: dict = field(default_factory=dict)
    # by their section: of each entry of its jump tables, the function and offset that it has, and its own place
    tables: dict = field(default_factory=dict)


def objdump(*words):
    return subprocess.run(["x86_64-linux-gnu-objdump", *words], check=True, capture_output=True, text=True).stdout


def symbol_of(text):
    name, sign, number = SYMBOL.match(text).groups()
    offset = int(number or "0", 16)
    return name.removeprefix(".text."), -offset if sign == "-" else offset


def instruction_of(at, text):
    words = text.split("#")[0].split(maxsplit=1)
    while len(words) == 2 and words[0] in PREFIXES:
        words = words[1].split(maxsplit=1)
    return Instruction(int(at, 16), words[0], words[1].strip() if len(words) == 2 else "")


def read_functions(text):
    functions, body = {}, None
    for line in text.splitlines():
        if found := FUNCTION.match(line):
            if found[1] in functions:
                raise ValueError(f"two functions are called {found[1]}")
            body = functions[found[1]] = []
        elif found := INSTRUCTION.match(line):
            body.append(instruction_of(found[1], found[2]))
        elif found := RELOCATION.match(line):
            body[-1].symbol, body[-1].offset = symbol_of(found[2])
    return functions


def read_tables(text):
    tables, entries = {}, None
    for line in text.splitlines():
        if found := TABLE.match(line):
            entries = tables.setdefault(found[1], [])
        elif line.startswith("RELOCATION RECORDS"):
            entries = None
        elif entries is not None and (found := ENTRY.match(line)) and found[2].startswith("R_"):
            name, offset = symbol_of(found[3])
            entries.append((name, offset, int(found[1], 16)))
    return tables


def read(path):
    return Library(
        read_functions(objdump("-dr", "--no-show-raw-insn", "-M", "intel", path)),
        read_tables(objdump("-r", path)),
    )
