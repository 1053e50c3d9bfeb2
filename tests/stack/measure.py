"""Prints the stack of each exported call: its frame, the deepest chain of frames from it down, its limit, and the way."""
import pathlib
import re
import sys

import disassembly
import frames

# No limit may be over this.
MOST = 512
LIMITS = pathlib.Path(__file__).with_name("limits")
LIBRARY = "crates/controller_c/out/libcontroller.a"
EXPORTED = re.compile(r'#\[unsafe\(no_mangle\)\]\s+pub extern "C" fn (\w+)')
PUBLIC = re.compile(r"^pub (?:use \w+::|fn )([a-z]\w*)", re.MULTILINE)
# No calls of 01: parts that stand between crates, in whose callers' frames they are counted.
PARTS = {
    f"{crate}::{name}"
    for crate, names in (
        ("port", "given_on seen stepped_on"),
        ("dock", "refused accepted standing_at spoken_at send send_bare"),
    )
    for name in names.split()
}
# A call that an exported function makes part by part.
MADE_OF = {"port::message": ("hearing::message(", "given_on(")}
ENDS = ("dock", "loading", "receiving", "answering", "confirming", "port")


def sources(root, crate):
    return "\n".join(path.read_text() for path in sorted((root / "crates" / crate / "src").glob("*.rt")))


def public_calls(root):
    for crate in ENDS:
        for name in PUBLIC.findall((root / "crates" / crate / "src/lib.rt").read_text()):
            yield f"{crate}::{name}"


def read_limits(path):
    """Each call's limit: a line for each, its name and a number of bytes."""
    lines = [line.split() for line in path.read_text().splitlines() if line and not line.startswith("#")]
    limits = {name: int(number) for name, number in lines}
    if len(limits) != len(lines):
        raise ValueError(f"{path}: a call has two limits")
    return limits


def limits_missed(exported, limits):
    """What is wrong with the limits themselves: each exported call has one, of at most MOST bytes, and nothing else does."""
    for name in exported:
        if name not in limits:
            yield f"{name} has no limit"
    for name, limit in limits.items():
        if name not in exported:
            yield f"{name} has a limit, and is not exported"
        if limit > MOST:
            yield f"{name} has a limit of {limit} bytes, over {MOST}"


def complaints(root, exported, library):
    """What is missing: a public call that nothing exports, or an exported function that the library lacks."""
    text = sources(root, "controller")
    for call in public_calls(root):
        if call not in PARTS and not all(part in text for part in MADE_OF.get(call, (f"{call}(",))):
            yield f"{call} is public, and the crate controller does not export it"
    for name in exported:
        if name not in library.functions:
            yield f"{name} is not in {LIBRARY}"


def measured(exported, library, limits):
    """Prints a line for each call; gives the chains, and what cannot be counted or is over its limit."""
    known, chains, faults = {}, {}, []
    print(f"{'call':22} {'frame':>5} {'chain':>6} {'limit':>6}  way down")
    for name in filter(library.functions.__contains__, exported):
        try:
            chains[name], way = frames.chain(name, library, known)
        except frames.Uncounted as fault:
            faults.append(str(fault))
            continue
        limit = limits.get(name, 0)
        print(f"{name:22} {known[name].size:5} {chains[name]:6} {limit:6}  {' > '.join(way)}")
        if chains[name] > limit:
            faults.append(f"{name} takes {chains[name]} bytes, over its limit of {limit}")
    return chains, faults


def main(root):
    library = disassembly.read(str(root / LIBRARY))
    exported = EXPORTED.findall(sources(root, "controller_c"))
    limits = read_limits(LIMITS)
    chains, over = measured(exported, library, limits)
    faults = [*complaints(root, exported, library), *limits_missed(exported, limits), *over]
    for fault in faults:
        print(f"stack: {fault}", file=sys.stderr)
    if chains:
        deepest = max(chains, key=chains.get)
        print(f"deepest: {chains[deepest]} bytes in {deepest}")
    return 1 if faults or not chains else 0


if __name__ == "__main__":
    sys.exit(main(pathlib.Path(sys.argv[1])))
