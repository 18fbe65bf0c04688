#!/usr/bin/env python3
"""Spells the project's own definitions and lemmas as today's Rattle does: words in snake case, types and modules in camel case.

usage: python3 tools/respell.py [--list]     at the top of the repository, once, right after the kit's own script

A name is this project's where a file of crates/*/specs, or a lemma file of crates/*/proofs, declares it. The names of functions, of what
Rust declares, of strings and of the kit stay as they are. --list prints the old and the new names and what falls together, and changes nothing.
"""

import re
import subprocess
import sys
from collections import defaultdict
from pathlib import Path

MODIFIERS = r"(?:(?:pub|abbrev|unfoldable|opaque|ghost)\s+)*"
DECLARED = re.compile(rf"^\s*(?:let\s+)?{MODIFIERS}([^\s(){{}}.,;:◌λ\"]+)(?:\s+[(\{{][^:]*:[^)}}]*[)}}])*\s+:(?:\s|$)")
# a part of a name that can be respelled: letters, digits, marks, dashes and underscores
WORD = re.compile(r"[A-Za-z_][A-Za-z0-9_'₀-₉→-]*|\d+[A-Za-z_-][A-Za-z0-9_'₀-₉-]*")
STRING = re.compile(r'b?"(?:[^"\\]|\\.)*"|b?\'(?:[^\'\\]|\\.)\'')


def snake(name):
    if not (name[0].islower() or name[0].isdigit()):
        return name
    name = re.sub(r"(?<=[a-z0-9'₀-₉])(?=[A-Z])", "_", name)
    return re.sub(r"-(?=[A-Za-z0-9])", "_", name).lower()


def lemma_files(top):
    for path in sorted(top.glob("crates/*/specs/**/*.antt")):
        yield path
    for path in sorted(top.glob("crates/*/proofs/*.antt")):
        yield path


def declared(top):
    names = defaultdict(set)
    for path in lemma_files(top):
        for line in path.read_text().splitlines():
            if line.lstrip().startswith("--") or line.lstrip().startswith("use "):
                continue
            found = DECLARED.match(line)
            if found:
                names[found[1]].add(path.parts[-3] if path.parts[-2] in ("specs", "proofs") else path.parts[-4])
    return names


def imported(top, crates):
    """The names that a file takes from the kit, which keep their spelling."""
    names = set()
    for pattern in ("crates/**/*.antt", "crates/**/*.rt"):
        for path in top.glob(pattern):
            for found in re.finditer(r"use\s+([^\s;{]+)\.\{([^}]*)\}", path.read_text()):
                head = found[1].split(".")
                if head[0] == "Rattle" and len(head) > 1 and head[1] in crates and (len(head) < 4 or head[2] == "specs" and head[3] != "declared" or head[2] == "proofs" and not head[3][0].islower()):
                    continue
                for word in found[2].split(","):
                    names.add(word.split(" as ")[0].strip())
    return names


def chosen(own, kit):
    """The new name of each name; a lemma that would fall together with another name gets `_lem`."""
    names = {name: snake(name) for name in own if snake(name) != name and name not in kit}
    # two lemmas that would have the name of a definition that their files use
    names |= {"too_long": "too_long_lem", "no_step": "no_step_lem"}
    taken = {name for name in own if name not in names} | kit | {new for name, new in names.items() if "-" not in name}
    for name in sorted((name for name in names if "-" in name), key=lambda name: (not re.search("[A-Z]", name), name)):
        while names[name] in taken:
            names[name] += "_lem"
        taken.add(names[name])
    return names


def respelled(text, names, strings):
    def words(part):
        return WORD.sub(lambda m: names.get(m[0], m[0]), part)

    if not strings:
        return words(text)
    parts, at = [], 0
    for found in STRING.finditer(text):
        parts += [words(text[at : found.start()]), found[0]]
        at = found.end()
    return "".join(parts) + words(text[at:])


CAMEL = re.compile(r"(?<![A-Za-z0-9_'.-])[a-z][a-z0-9]*(?:[A-Z][a-z0-9]*)+(?![A-Za-z0-9_'-])")


def locals_respelled(text):
    """The local names of a proof file, where the new one is free in it."""
    words = set(re.findall(r"[A-Za-z_][A-Za-z0-9_]*", text))
    parts, at = [], 0
    for found in STRING.finditer(text):
        parts += [text[at : found.start()], found[0]]
        at = found.end()
    parts.append(text[at:])
    free = lambda m: snake(m[0]) if snake(m[0]) not in words else m[0]
    return "".join(part if i % 2 else CAMEL.sub(free, part) for i, part in enumerate(parts))


def main():
    top = Path(subprocess.run(["git", "rev-parse", "--show-toplevel"], capture_output=True, text=True, check=True).stdout.strip())
    crates = {path.name for path in top.glob("crates/*")}
    own, kit = declared(top), imported(top, crates)
    names = chosen(own, kit)
    if "--list" in sys.argv:
        for name, new in sorted(names.items()):
            print(name, new, ",".join(sorted(own[name])))
        for name in sorted(n for n in own if snake(n) != n and n in kit):
            print("kit's:", name, sorted(own[name]))
        together = defaultdict(set)
        for name in own:
            together[names.get(name, name)].add(name)
        for new, olds in sorted(together.items()):
            if len(olds) > 1:
                print("together:", new, {old: sorted(own[old]) for old in olds})
            if new in kit and olds != {new}:
                print("as the kit's:", new, olds)
        return 0
    for pattern in ("crates/**/*.antt", "crates/**/*.rt", "crates/*/must-fail/*.edit"):
        for path in sorted(top.glob(pattern)):
            text = path.read_text()
            new = respelled(text, names, path.suffix != ".antt")
            if path.suffix == ".antt":
                new = locals_respelled(new)
            if new != text:
                path.write_text(new)
    return 0


if __name__ == "__main__":
    raise SystemExit(main())
