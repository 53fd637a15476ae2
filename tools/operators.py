#!/usr/bin/env python3
"""Brings the operators of this repository to what `rt ci` takes: run at the top of the tree, as often as one likes.

usage: python3 tools/operators.py [--list]

`rt ci` refuses a definition under the name of one of the library's operators, and an import of such a name by way of a crate of the
repository. So our own choice, `if t then a else b` of outcome's specs/Notation.antt, is spelled `when t then a else b`, and every
other operator is imported from std's Prelude itself. Nothing changes but the spelling. With --list nothing is written, and each
file that would be refused is named.
"""
import glob
import os
import re
import subprocess
import sys

USE = re.compile(r"(?m)^(?:(?:pub|unfoldable)\s+)*use\s[^\n]*(?:\n[ \t}][^\n]*)*")
OF_KIT = re.compile(r"(Rattle\.(\w+)\.|lib\.|mathlib\.|Prim\.|native\.)")
PRELUDE = "Rattle.std.specs.Prelude"
CHOICE = re.compile(r"(?<![\w◌.'_])if(?![\w.'_])")


def symbols_of_kit():
    """The library's operators, as its Prelude lists them."""
    page = subprocess.run(["rt", "doc"], capture_output=True, text=True, check=True).stdout.strip()
    text = open(os.path.join(os.path.dirname(page), "rattle/std/specs/Prelude.antt"), encoding="utf-8").read()
    return {it for it in re.findall(r"[^\s{},]+", re.sub(r"--.*", "", text)) if "◌" in it}


def by_code(text, turn):
    """The text with each line's code turned, and its comment left."""
    lines = []
    for line in text.split("\n"):
        code, dash, comment = line.partition("--")
        lines.append(turn(code) + dash + comment.replace("`if test then", "`when test then"))
    return "\n".join(lines)


def choose(code):
    return CHOICE.sub("when", code.replace("if◌then◌else◌", "when◌then◌else◌"))


def is_own(path, crates):
    found = OF_KIT.match(path)
    return not found or (found[2] or "") in crates


def names_of(item):
    path = re.sub(r"\A(?:(?:pub|unfoldable)\s+)*use\s+", "", item)
    listed = path[path.find("{") + 1 : path.rfind("}")] if "{" in path else path.rpartition(".")[2]
    return path, [it.strip() for it in listed.split(",") if it.strip()]


def straight(text, symbols, crates):
    """The text with every operator imported from the Prelude."""
    wanted = {}
    for item in USE.findall(text):
        path, names = names_of(item)
        moved = [it for it in names if it in symbols]
        if not moved or not is_own(path, crates):
            continue
        head = "pub use" if item.startswith("pub ") else "use"
        wanted.setdefault(head, []).extend(it for it in moved if it not in wanted.get(head, []))
        rest = [it for it in names if it not in moved]
        kept = item[: item.find("{") + 1] + ", ".join(rest) + "}" if rest else ""
        text = text.replace(item + "\n", kept + "\n" if kept else "", 1)
    for head, names in wanted.items():
        for item in USE.findall(text):
            path, there = names_of(item)
            if path.startswith(PRELUDE + ".{") and item.startswith(head + " "):
                new = f"{head} {PRELUDE}.{{{', '.join(there + [it for it in names if it not in there])}}}"
                text = text.replace(item, new, 1)
                break
        else:
            line = f"{head} {PRELUDE}.{{{', '.join(names)}}}\n"
            first = USE.search(text)
            at = first.start() if first else len(text)
            text = text[:at] + line + text[at:]
    return text


def turned(file, text, symbols, crates):
    if file.endswith(".antt"):
        return straight(by_code(text, choose), symbols, crates)
    if file.endswith(".edit"):
        out, of_antt = [], False
        for line in text.split("\n"):
            if line.startswith("file: "):
                of_antt = line.endswith(".antt")
            out.append(choose(line) if of_antt and re.match("(old|new): ", line) else line)
        return "\n".join(out)
    clause = r"(?m)^ *(?:ghost use|requires|ensures)\b.*$"
    return re.sub(clause, lambda it: choose(it[0]), text)


def main():
    symbols = symbols_of_kit()
    crates = {it.split(":")[0].split()[0] for it in open("crates.txt", encoding="utf-8") if ":" in it and not it.startswith("#")}
    files = [it for end in ("antt", "edit", "rt") for it in glob.glob(f"crates/*/*/**/*.{end}", recursive=True)]
    for file in sorted(it for it in files if it.split("/")[2] in ("specs", "proofs", "src", "must-fail")):
        text = open(file, encoding="utf-8").read()
        new = turned(file, text, symbols, crates)
        if new == text:
            continue
        print(file)
        if "--list" not in sys.argv[1:]:
            open(file, "w", encoding="utf-8").write(new)


if __name__ == "__main__":
    main()
