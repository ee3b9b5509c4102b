#!/usr/bin/env python3
"""Respells this repository's own definitions and lemmas: words in snake case, types and modules in camel case.

usage: python3 tools/respell.py [--list] [ROOT]

It was run once, after the kit's port.py, in crates/ (sources, specs, proofs and must-fail edits). A name is turned if a .antt
file there defines it (a definition, a lemma, a constructor or a field), it begins with a small letter, and it has a capital
letter after it that begins a word; so is a name that a file gives to a module by "as". Names that speak of the sections S and T of the examples keep
that letter. --list prints the
pairs of names, old and new, and turns nothing; it stops at names that would fall together with another one.
"""

import re
import sys
from pathlib import Path

WORD = re.compile(r"(?<![\w'◌′-])[A-Za-z_][\w'′]*(?:-[\w'′]+)*")
DEFINES = re.compile(r"^\s*(?:abbrev |unfoldable )?(?:pub )?(?:abbrev |unfoldable )?([a-z][\w'′-]*) +:(?= |$)", re.M)
ALIAS = re.compile(r"\bas ([a-z]\w*[A-Z]\w*)")
# Lemmas that have a definition's new name: such a lemma's name ends in _lem.
LEMMAS = ("bit_length", "fields_in", "found_in", "in_place", "not_there")
KEPT = re.compile(r"(of|in)[-_][ST]$|-of-[ST]$")


def snake(name):
    """numberAt: number_at; byModeArm64: by_mode_arm64; found-in-T stays."""
    if KEPT.search(name):
        return name
    name = name.replace("getD", "get_or")
    return re.sub(r"(?<=[a-z0-9])([A-Z])", lambda m: "_" + m[1].lower(), name)


def files(root):
    for path in sorted((root / "crates").rglob("*")):
        if "out" not in path.relative_to(root / "crates").parts and path.suffix in (".antt", ".rt", ".edit"):
            yield path


def main(argv):
    root = Path(next((a for a in argv if not a.startswith("--")), "."))
    texts = {p: p.read_text() for p in files(root)}
    defined, words = set(), set()
    for path, text in texts.items():
        bare = re.sub(r"--.*", "", text) if path.suffix == ".antt" else re.sub(r"//.*", "", text)
        words.update(WORD.findall(bare))
        if path.suffix == ".antt":
            defined.update(DEFINES.findall(bare))
        defined.update(ALIAS.findall(bare))
    pairs = {name: snake(name) for name in defined if snake(name) != name}
    pairs.update((name, name + "_lem") for name in LEMMAS)
    new = list(pairs.values())
    fall = sorted(n for n in set(new) if new.count(n) > 1 or (n in defined and n not in pairs))
    for old in sorted(pairs):
        if "--list" in argv:
            print(old, pairs[old], "(also a word of a source)" if pairs[old] in words else "")
    if fall:
        print("fall together:", " ".join(fall))
        return 1
    if "--list" in argv:
        return 0
    for path, text in texts.items():
        turned = WORD.sub(lambda m: pairs.get(m[0], m[0]), text)
        if turned != text:
            path.write_text(turned)
    print(f"{len(pairs)} names turned")
    return 0


if __name__ == "__main__":
    raise SystemExit(main(sys.argv[1:]))
