#!/usr/bin/env python3
"""Brings this repository's own names in specs, proofs, clauses and must-fail edits to the spelling of Rattle's guides, once.

usage: python3 tools/respell.py      at the top, right after the toolchain's port.py

Functions, lemmas, fields, constructors and local names in snake case, types in upper camel case, no middle dot and no dash in a name.
A lemma that would have a definition's name gets `_lem`. What the toolchain's library names, what its check generates, functions of
src/, strings, inputs and outputs keep their names. It prints each name that had to get out of another's way.
"""

import os
import re
import sys

ROOT = os.path.join(os.path.dirname(os.path.realpath(__file__)), "..")
WORD = re.compile(r"[^\s(){}\[\],;.@:\"`]+")
USE = re.compile(r"\s*(?:pub )?(?:ghost )?use\s+([^\s{;]+)\.\{(.*?)\}", re.S)
DEFINED = re.compile(r"^\s*(?:(?:pub|abbrev|unfoldable|data|record)\s+)*([^\s(){}.,;:]+)\s+:\s", re.M)
KEBAB = re.compile(r"[a-z0-9₀-₉]-[a-z0-9A-Z]")
CAMEL = re.compile(r"[a-z][a-z0-9]*[A-Z]")


def files(*endings):
    for top in ("crates",):
        for folder, dirs, names in os.walk(os.path.join(ROOT, top)):
            dirs[:] = sorted(d for d in dirs if d != "out")
            for name in sorted(names):
                if name.endswith(endings):
                    yield os.path.join(folder, name)


def read(path):
    with open(path, encoding="utf-8") as f:
        return f.read()


def snake(word):
    word = re.sub(r"([a-z0-9])([A-Z])", r"\1_\2", word)
    return word.replace("-", "_").replace("·", "_").lower()


def respelled(word):
    joined = re.fullmatch(r"([A-Z]\w*)-as-([A-Z]\w*)", word)
    if joined:
        return joined.group(1) + joined.group(2)
    return snake(word)


def others(word):
    """What a word is called where its own spelling is another's."""
    aliased = re.fullmatch(r"([A-Z]\w*)·([\w-]+)", word)
    if aliased:
        return [snake(aliased.group(2)) + "_of_" + snake(aliased.group(1))]
    if "-as-" in word and word[0].isupper():
        return [word.replace("-as-", "As")]
    if "-" in word:
        return [snake(word) + "_lem", snake(word) + "_lem'"]
    return [snake(word) + "_of"]


def ours(module):
    return module.startswith("Rattle.") and not module.startswith("Rattle.std.")


def imported(text):
    """The names that a file has of the library."""
    found = set()
    for module, names in USE.findall(text):
        if not ours(module):
            for name in names.split(","):
                found.add(name.split(" as ")[-1].strip())
                found.add(name.split(" as ")[0].strip())
    return found


def candidates():
    """Each word of an .antt file that has a dash, a middle dot or a hump, and is none of the library's; where each word stands."""
    words, defined, places = set(), set(), {}
    for path in files(".antt"):
        text = re.sub(r"--.*", "", read(path))
        theirs = imported(text)
        defined |= set(DEFINED.findall(text))
        for found in WORD.finditer(text):
            word = found.group()
            if found.start() > 0 and text[found.start() - 1] == ".":
                continue
            places.setdefault(word, set()).add(path)
            if word.startswith(("Need-", "#", "Rattle")) or word in theirs:
                continue
            if KEBAB.search(word) or CAMEL.match(word) or ("·" in word and len(word) > 1):
                words.add(word)
    for path in files(".rt"):
        # what a clause sees: its imports, parameters, fields and constants, and no function
        text = re.sub(r"//.*", "", read(path))
        for word in re.findall(r"\b([a-z]\w*)\s*:", text) + [n.strip() for _, names in USE.findall(text) for n in re.split(r",| as ", names)]:
            places.setdefault(word, set()).add(path)
    return words, defined, places


def renaming():
    words, defined, places = candidates()
    new, bearers = {}, {}
    for word in places:
        if word not in words:
            bearers.setdefault(word, []).append(word)
    # definitions first, and aliases last: a lemma makes way for a definition, and an alias for both
    for word in sorted(words, key=lambda w: ("·" in w or "-as-" in w, "-" in w, w)):
        for name in [respelled(word)] + others(word):
            met = [other for other in bearers.get(name, []) if places[other] & places[word]]
            if not met:
                break
        else:
            raise SystemExit(f"respell: no name is left for {word}")
        if name != respelled(word):
            print(f"respell: {word} is {name}, since {respelled(word)} stands in a file with it")
        bearers.setdefault(name, []).append(word)
        new[word] = name
    # what port.py has respelled already still has its old name in edits and pages
    old = dict(new)
    for word in {w for path in files(".edit") for w in WORD.findall(read(path))} | {w for p in pages() for w in re.findall(r"`([^`\s]+)`", read(p))}:
        if word not in new and (KEBAB.search(word) or CAMEL.match(word)) and snake(word) in places:
            old[word] = snake(word)
    return new, old, defined


def pages():
    docs = os.path.join(ROOT, "docs")
    return [os.path.join(ROOT, "README.md")] + sorted(os.path.join(docs, n) for n in os.listdir(docs) if n.endswith(".md"))


def turned(text, new, theirs, spare):
    """The text with each word of new in its new spelling, but for the library's and what stands behind a dot and is no field of ours."""
    def one(found):
        word = found.group()
        if word not in new or word in theirs:
            return word
        behind_dot = found.start() > 0 and text[found.start() - 1] == "."
        return word if behind_dot and word not in spare else new[word]
    return WORD.sub(one, text)


def in_code(text, new, theirs, spare, comment):
    """Comments have names in backquotes, and definitions with a hump; strings have none."""
    out = []
    for line in text.split("\n"):
        at = line.find(comment)
        code, prose = (line, "") if at < 0 else (line[:at], line[at:])
        parts = re.split(r"(b?\"(?:[^\"\\]|\\.)*\")", code)
        code = "".join(p if k % 2 else turned(p, new, theirs, spare) for k, p in enumerate(parts))
        prose = re.sub(r"`[^`]*`", lambda m: turned(m.group(), new, set(), spare), prose)
        prose = re.sub(r"\b[a-z][a-z0-9]*[A-Z]\w*", lambda m: new.get(m.group(), m.group()), prose)
        out.append(code + prose)
    return "\n".join(out)


def in_edit(text, new, spare):
    """An edit's texts, and those of the control beside it."""
    return "\n".join(turned(line, new, set(), spare) if re.match(r"(old|new|# same): ", line) else line for line in text.split("\n"))


def in_page(text, new):
    """A page has names alone in backquotes."""
    return re.sub(r"`([^`\s]+)`", lambda m: "`" + new.get(m.group(1), m.group(1)) + "`", text)


def main():
    new, old, defined = renaming()
    for path in [*files(".antt", ".rt", ".edit"), *pages()]:
        text = read(path)
        if path.endswith(".md"):
            out = in_page(text, old)
        elif path.endswith(".edit"):
            out = in_edit(text, old, defined)
        else:
            out = in_code(text, new, imported(text), defined, "--" if path.endswith(".antt") else "//")
        if out != text:
            with open(path, "w", encoding="utf-8") as f:
                f.write(out)
    print(f"respell: {len(new)} names")


if __name__ == "__main__":
    main()
