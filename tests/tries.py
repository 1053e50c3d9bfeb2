"""What tests/refused and tests/controls share: the places that the must-fail edits change, and checks of a crate with some of them changed. A check runs in a
copy of the crate and of all below it, in a temporary folder, since rt ci refuses sources outside the repository's crates; it begins with what a check of
the crate as it stands has left there."""
import contextlib
import fcntl
import os
import pathlib
import queue
import re
import shutil
import subprocess
import sys
import tempfile
from concurrent.futures import ThreadPoolExecutor
from dataclasses import dataclass, field

ROOT = pathlib.Path(__file__).resolve().parent.parent
PARTS = ("src", "specs", "proofs")
# The numbers of the folders in which no check runs.
FREE = queue.SimpleQueue()
WRONG = re.compile(r"# ([a-z0-9_]+) in ([\w:, ]+?): ")


class Broken(Exception):
    """What cannot be tried at all."""


@dataclass
class Change:
    file: str
    old: str
    new: str
    same: str = ""


@dataclass
class Place:
    """A wrong place: what an edit, or a part of it behind a comment, changes. Where it is of code, the functions that are wrong then are named."""

    edit: str
    said: str = ""
    name: str = ""
    functions: tuple = ()
    changes: list = field(default_factory=list)


def crates():
    """The crates that have edits, each with its edits."""
    found = {}
    for edit in sorted(ROOT.glob("crates/*/must-fail/*.edit")):
        found.setdefault(edit.parent.parent.name, []).append(edit)
    return found


def places_of(edit):
    """An edit's places, in their order."""
    places, file, old = [], "", ""
    for line in edit.read_text().split("\n"):
        if line.startswith("# same: "):
            if not places or not places[-1].changes:
                raise Broken(f"{edit}: a control stands before any 'new:'")
            places[-1].changes[-1].same = line.removeprefix("# same: ")
        elif line.startswith("#"):
            found = WRONG.match(line + " ")
            if found or not places or places[-1].changes:
                functions = tuple(found[2].split(", ")) if found else ()
                places.append(Place(edit.stem, line.removeprefix("# "), found[1] if found else "", functions))
        elif line.startswith("file: "):
            file = line.removeprefix("file: ")
        elif line.startswith("old: "):
            old = line.removeprefix("old: ")
        elif line.startswith("new:"):
            if not places:
                raise Broken(f"{edit}: no comment says what is wrong")
            places[-1].changes.append(Change(file, old, line.removeprefix("new:").removeprefix(" ")))
    return [place for place in places if place.changes]


def changed(folder, texts, changes, control=False):
    """Changes the texts of a crate's files, or gives False, and leaves them, where an old text does not stand there exactly once."""
    made = dict(texts)
    for change in changes:
        if change.file not in made:
            made[change.file] = (folder / change.file).read_text()
        if made[change.file].count(change.old) != 1:
            return False
        # what the code is named after is named alike in a proof, unless the control says otherwise
        made[change.file] = made[change.file].replace(change.old, change.same or change.new if control else change.new)
    texts.update(made)
    return True


def listed():
    """The crates of crates.txt, each with its line and the libraries that it names."""
    found = {}
    for line in (ROOT / "crates.txt").read_text().splitlines():
        line = line.split("#")[0].strip()
        if line:
            head, _, deps = line.partition(":")
            found[head.split()[0]] = line, deps.split()
    return found


def below(crate, known):
    names, left = [], [crate]
    while left:
        name = left.pop()
        if name in known and name not in names:
            names.append(name)
            left += known[name][1]
    return names


def check(folder):
    """What rt says of a crate, the status first."""
    ran = subprocess.run(
        ["rt", "check", "--jobs", "1"], cwd=folder, stdin=subprocess.DEVNULL, stdout=subprocess.PIPE, stderr=subprocess.STDOUT, text=True, errors="replace"
    )
    return ran.returncode, ran.stdout


def lanes():
    """How many checks run at a time: one a processor, each with two and a half GB that are free."""
    with open("/proc/meminfo") as it:
        free = int(re.search(r"MemAvailable:\s+(\d+)", it.read())[1])
    return max(1, min(len(os.sched_getaffinity(0)), free // 2_500_000))


@contextlib.contextmanager
def room_for_copies():
    """A folder for copies. It is always the same, since rt notes for good each folder in which a check has worked; a second run waits for it."""
    room = pathlib.Path(tempfile.gettempdir(), f"graftpigeon-tries-{os.getuid()}")
    with open(f"{room}.lock", "w") as lock:
        fcntl.flock(lock, fcntl.LOCK_EX)
        shutil.rmtree(room, ignore_errors=True)
        room.mkdir(mode=0o700)
        try:
            yield room
        finally:
            shutil.rmtree(room, ignore_errors=True)


class Copies:
    """Copies of a crate, each for one check."""

    def __init__(self, crate, room):
        self.crate, self.base, self.room = crate, room / crate, room
        known = listed()
        names = below(crate, known)
        (self.base / "crates").mkdir(parents=True)
        (self.base / "crates.txt").write_text("".join(f"{known[name][0]}\n" for name in names))
        for name in names:
            for part in PARTS:
                if (ROOT / "crates" / name / part).is_dir():
                    shutil.copytree(ROOT / "crates" / name / part, self.base / "crates" / name / part)
        self.folder = self.base / "crates" / crate
        status, said = check(self.folder)
        if status:
            raise Broken(f"{crate} is not proved as it stands:\n" + "\n".join(said.splitlines()[-5:]))

    def check(self, texts):
        """What rt says of the crate with these texts. What was made of the crates is taken by links: rt removes such a file, and writes no other into it."""
        number = FREE.get()
        at = self.room / f"try-{number}"
        try:
            shutil.copytree(self.base, at, copy_function=os.link)
            folder = at / "crates" / self.crate
            for file, text in texts.items():
                (folder / file).unlink()
                (folder / file).write_text(text)
            return check(folder)
        finally:
            shutil.rmtree(at, ignore_errors=True)
            FREE.put(number)


def run(work, *lists):
    """Runs the work with each of the arguments, some at a time, and exits where it raises Broken."""
    many = lanes()
    while not FREE.empty():
        FREE.get()
    for number in range(many):
        FREE.put(number)
    try:
        with ThreadPoolExecutor(many) as pool:
            return list(pool.map(work, *lists))
    except Broken as why:
        sys.exit(f"{pathlib.Path(sys.argv[0]).name}: {why}")
