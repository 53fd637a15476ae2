#!/usr/bin/env python3
"""Counts, in the sources of a checkout, the places that docs/DESIGN-PASS.md speaks of, a line for each point and each kind of place.

  tools/design_counts.py [-v] [CHECKOUT]     -v lists the places too
"""
import glob
import os
import re
import sys

args = [it for it in sys.argv[1:] if it != "-v"]
root = args[0] if args else os.path.join(os.path.dirname(os.path.abspath(__file__)), "..")
loud = "-v" in sys.argv
texts = {os.path.relpath(it, root + "/crates"): open(it).read() for it in sorted(glob.glob(root + "/crates/*/src/*.rt"))}
if not texts:
    sys.exit(f"no sources under {root}/crates")


def say(point, what, found):
    print(f"{point}  {len(found):3}  {what}")
    if loud:
        for it in found:
            print(f"          {it}")


def lines(pattern, skip=None):
    found = []
    for path, text in texts.items():
        for number, line in enumerate(text.split("\n"), 1):
            code = line.split("//")[0]
            if re.search(pattern, code) and not (skip and re.search(skip, code)):
                found.append(f"{path}:{number}: {line.strip()}")
    return found


# an item from its head up to the brace that closes it
def items(head):
    for path, text in texts.items():
        for start in re.finditer(head, text, re.M):
            yield path, start, text[start.start():text.index("\n}", start.start()) + 2]


ERRORS = r"\((?:Refusal|ApduStatusCode|NotDone)\)"
mixed = []
for path, head, text in items(r"^(?:pub )?enum (\w+)"):
    variants = re.findall(r"^    (\w+)(\(.*\))?(?: = \w+)?,$", text, re.M)
    carry = [it for it in variants if it[1]]
    if carry and (len(carry) < len(variants) or any(re.search(ERRORS, it[1]) for it in carry)):
        mixed.append(f"{path}: {head[1]} {{{', '.join(it[0] + it[1] for it in variants)}}}")
say("1", "enums in which some variants carry a value and some none, or one carries an error", mixed)

functions = []
for path, text in texts.items():
    for head in re.finditer(r"^ *(?:pub )?(?:extern \"C\" )?fn (\w+)(?:<[^>]*>)?\(", text, re.M):
        depth, at = 1, head.end()
        while depth:
            depth += {"(": 1, ")": -1}.get(text[at], 0)
            at += 1
        inner = text[head.end():at - 1]
        functions.append((path, head[1], [it.strip() for it in re.split(r",(?![^<(\[]*[>)\]])", inner) if it.strip()]))
say("1", "parameters and fields that are flags (bool)", lines(r"\w+: bool\b"))
names = {(path.split("/")[0], name) for path, name, _ in functions}
STEMS = r"_(strict|long|lent|by_table|two|three|four|five|plain|said|numbers|numbered|place|part|room)$"
by_stem = {}
for crate, name in sorted(names):
    by_stem.setdefault((crate, re.sub(STEMS, "", re.sub(STEMS, "", name))), []).append(name)
say("2", "functions of one crate whose names differ by a size, a table or a form alone",
    [f"{crate}: {', '.join(found)}" for (crate, _), found in by_stem.items() if len(found) > 1])

say("3", "loops by `while` or `loop`", lines(r"^ *(?:while|loop)\b"))
say("3", "loops by `for`", lines(r"^ *for\b"))

say("4", "numbers of cases by arms (`=> NUMBER`)", lines(r"=> (?:0x[0-9a-f]+|\d+),$"))
say("4", "numbers from arms (`NUMBER => `)", lines(r"^ *(?:0x[0-9a-f]+|\d+) => "))
say("4", "bytes of numbers by division", lines(r"[/%] (?:256|0x1)"))
say("4", "digits by hand", lines(r"fn (?:hex_)?digit\("))

say("5", "functions of eight parameters and more", [f"{path}: {name}, {len(given)}" for path, name, given in functions if len(given) > 7])
say("6", "buffers that are arrays, made in a function", lines(r"\[0(?:u8)?; \w+\]"))
say("7", "matches on a number or a flag that says which way", lines(r"match (?:way|kind|entry|number|p1)\b"))
