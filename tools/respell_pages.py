#!/usr/bin/env python3
"""Brings the names in the pages to the spelling of the crates, behind tools/respell.py: run once, at the top of the tree.

usage: python3 tools/respell_pages.py LANDED FILE..

A word between backquotes is turned where the crates of LANDED, a folder with the tree from before the port, have it, and today's crates
have what tools/respell.py makes of it, and no longer the word itself. Of docs/PROMISES.md the lines `- wrong:` are turned too, which have
no backquotes. What is left, as far as the crates of LANDED alone have it, is printed.
"""
import glob
import os
import re
import sys

sys.path.insert(0, os.path.dirname(os.path.abspath(__file__)))
import respell  # noqa: E402

WORD = re.compile(r"[A-Za-z][\w'′]*(?:-[\w'′]+)*")


def words_of(root):
    found = set()
    for part in ("specs/**/*.antt", "proofs/**/*.antt", "src/**/*.rt"):
        for path in glob.glob(f"{root}/crates/*/{part}", recursive=True):
            if "/out/" not in path:
                found.update(WORD.findall(respell.read(path)))
    return found


def main(argv):
    was, now, left = words_of(argv[0]), words_of("."), set()
    apart = dict(respell.APART)
    for it in respell.APART_IN.values():
        apart.update((old, new) for old, new in it.items() if old not in now)

    def one(m):
        w = m.group(0)
        if w in now or w not in was:
            return w
        new = apart.get(w) or respell.snake(w.replace("′", "'"))
        new = apart.get(new, new) if new not in now else new
        if new in now and new != w:
            return new
        left.add(w)
        return w

    for path in argv[1:]:
        # code stands apart: parts[1::2]
        parts = re.split(r"(?m)(^```[^`]*^```$)", respell.read(path))
        for i in range(0, len(parts), 2):
            marked = parts[i].split("`")
            marked[1::2] = [WORD.sub(one, it) for it in marked[1::2]]
            lines, label = "`".join(marked).split("\n"), ""
            for k, line in enumerate(lines):
                found = re.match(r"  - ([a-z]+): ", line)
                label = found[1] if found else label if line.startswith("    ") else ""
                if label == "wrong" and path.endswith("PROMISES.md"):
                    lines[k] = WORD.sub(one, line)
            parts[i] = "\n".join(lines)
        respell.write(path, "".join(parts))
    print("left:", " ".join(sorted(left)))


if __name__ == "__main__":
    main(sys.argv[1:])
