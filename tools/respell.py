#!/usr/bin/env python3
"""Brings the names of this repository to snake case, behind the kit's port.py: run once, at the top of the tree that port.py left.

usage: python3 tools/respell.py [--landed FOLDER]

A name of ours is a word in a file of crates/*/specs or crates/*/proofs that the file does not import from elsewhere: a definition, a
field, a lemma, a constructor, a variable. `someName` becomes `some_name`, and `some-name` becomes `some_name`; types, facts and modules
keep their capital. A lemma or a variable that would then have the name of a definition that its file knows gets `_lem`. The same words are
turned in clauses of src/, and in comments. The file specs/Contracts.antt of a crate becomes
specs/Promises.antt, since Rattle makes a module `specs.contracts` now.

With --landed, a folder that holds the tree from before port.py, the must-fail edits are turned too, and every place in them that no
longer stands in its file is printed.
"""
import glob
import os
import re
import sys

WORD = re.compile(r"[^\s(){}\[\];,.:\"⌜⌝`]+")
USE = re.compile(r"^\s*(?:pub |unfoldable )*(?:ghost )?use ([^\s{;]+?)(?:\.\{([^}]*)\}|(?: as (\S+?))?);?\s*$")
# lemmas that would have their function's name, and words that are tactics of the logic
APART = {w: w.replace("-", "_") + "_lem" for w in "apdu-back reading-back command-back decided-back alone-back old-fetch wrote-back next-back logs-in ready-back number-back numbers-back".split()}
APART_IN = {
    "crates/apdu_stated/proofs/Numbers.antt": {"written_back": "written_back_lem"},
    "crates/response_stated/proofs/Numbers.antt": {"read_back": "read_back_lem", "room_back": "room_back_lem"},
    "crates/u2f_up_stated/proofs/Numbers.antt": {"answer_back": "answer_back_lem", "step_back": "step_back_lem"},
    "crates/apdu_table_stated/proofs/AnyTable.antt": {"first_of": "first_row_of"},
}
for _p in "proofs/Lost proofs/RoomForParts proofs/Refuted proofs/Reached specs/Room specs/Sessions specs/Demands/Words specs/Demands specs/Demands/Bodies".split():
    APART_IN[f"crates/demands/{_p}.antt"] = {"first_of": "first_part_of"}
# where a rule would read badly
EXACT = {
    "oneAtATime": "one_at_a_time",
    "wantsABody": "wants_a_body",
    "askerOf8Bits": "asker_of_8_bits",
    "limitOf8Bits": "limit_of_8_bits",
    "without3E": "without_3e",
    "withoutCase3E": "without_case_3e",
    "le7ForCase2S": "le7_for_case_2s",
}
HERE = {}  # the names of the file at hand that go another way
FIELDS = set()


def is_field(code, m):
    """Whether the word stands as a record's field: behind a dot, or before `=` in a record that is written out, or where it is declared."""
    before, after = code[: m.start()], code[m.end() :]
    if before.endswith(".") and not before.endswith(" ."):
        return True
    if re.match(r"\s+=\s", after) and (re.search(r"[{;]\s*$", before) or (not before.strip() and code.rstrip().endswith(";"))):
        return True
    return bool(re.match(r"^\s+pub $", before) and after.startswith(" :"))


def snake(word, here=None):
    """The word as it is to be spelled, or the word itself."""
    if here is None:
        here = HERE
    if word in here:
        return here[word]
    if word in APART:
        return APART[word]
    if word in EXACT:
        return EXACT[word]
    first = word[0]
    if not (first.isalpha() or first == "_") or not re.search(r"[A-Za-z]", word):
        return word
    if first.isupper() or first in "λΣΠ":
        return word
    new = word
    if re.search(r"[a-z0-9'][A-Z]", new) and "-" not in new:
        new = re.sub(r"(?<=[a-z0-9'])(?=[A-Z])", "_", new)
        new = new.lower()
    if re.fullmatch(r"[^-]+(-[^-]+)+", new):
        new = new.replace("-", "_")
    return new


def own_path(path):
    return path.startswith("Rattle.") and path.split(".")[1] in CRATES


def imported(text):
    """The names that a file takes from elsewhere, and those that Rattle makes for its goals."""
    names = set()
    for line in text.splitlines():
        m = USE.match(line)
        if m and m.group(2) and not own_path(m.group(1)):
            for item in m.group(2).split(","):
                names.update(item.replace(" as ", " ").split())
    names.update(re.findall(r"(?:goal|tie|reads|lts)\.([^\s(){}\[\];,.:]+)", text))
    return names


def declared(text):
    return set(re.findall(r"(?m)^\s*(?:abbrev |unfoldable |pub )*([^\s(){}:;,.]+)\s*:", text))


def turn(text, keep, fields):
    """Every word of a file's code, line by line; of its comments the words in backquotes, and those that are spelled as no English is."""
    out = []
    for line in text.split("\n"):
        code, mark, comment = line.partition("-- ")
        out.append(words(code, keep, fields) + mark + comment_words(comment, keep))
    return "\n".join(out)


def words(code, keep, fields):
    def one(m):
        w = m.group(0)
        if w in keep:
            return w
        if w in HERE and w in FIELDS and is_field(code, m):
            return snake(w, {})
        before = code[m.start() - 1 : m.start()]
        if before == "." and code[: m.start()].rstrip(".")[-1:] != " " and w not in fields:
            return w
        return snake(w)

    return WORD.sub(one, code)


def comment_words(text, keep):
    def one(m):
        w = m.group(0)
        if w in keep or "-" in w and w not in ALL:
            return w
        return snake(w)

    parts = text.split("`")
    for i, part in enumerate(parts):
        if i % 2:
            parts[i] = WORD.sub(one, part)
        else:
            parts[i] = re.sub(r"(?<![\w/.])[a-z][a-z0-9]*(?:[A-Z][a-z0-9]*)+(?![\w/])", lambda m: snake(m.group(0)) if m.group(0) in ALL else m.group(0), part)
    return "`".join(parts)


def turn_source(text):
    """Of a file of src/ the names of ours in its imports, clauses and comments: no Rust name is spelled so."""

    def one(m):
        w = m.group(0)
        return snake(w) if w in ALL and not w[0].isupper() else w

    out = []
    for line in text.split("\n"):
        parts = line.split('"')
        if len(parts) == 1:
            line = re.sub(r"(?<![\w'-])[a-z][\w']*(?:-[\w']+)*(?![\w'-])", one, line)
        out.append(line)
    return "\n".join(out)


def contracts(text):
    text = re.sub(r"\bspecs\.Contracts\b", "specs.Promises", text)
    text = re.sub(r"(?<=_stated's )Contracts\.antt", "Promises.antt", text)
    text = re.sub(r"(?m)^(\s*pub mod )Contracts$", r"\1Promises", text)
    return re.sub(r"\bspecs/Contracts\.antt", "specs/Promises.antt", text)


def files(pattern):
    return [p for p in sorted(glob.glob("crates/*/" + pattern, recursive=True)) if "/out/" not in p]


def read(path):
    with open(path, encoding="utf-8") as f:
        return f.read()


def write(path, text):
    with open(path, "w", encoding="utf-8") as f:
        f.write(text)


def port_words(text, name):
    """What port.py does to a piece of code in a file of specs/, proofs/ or src/."""
    text = re.sub(r"Rattle·(\w+)·(?:specs|proofs)\.(specs|proofs)\b", r"Rattle.\1.\2", text)
    text = re.sub(r"Rattle·(\w+)\.", r"Rattle.\1.", text)
    text = text.replace("if_then_else_", "if◌then◌else◌")
    text = re.sub(r"(?<=[{ ,])_([^\s_,}]+)_(?=[,}])", r"◌\1◌", text)
    text = text.replace("′", "'").replace("getD", "get_or").replace("ℕ-discrete", "ℕ_discrete")
    if name.endswith(".antt"):
        text = tight(text)
    return text


def tight(text):
    """`f x .a .b y` as `(f x).a.b y`, `x .a` as `x.a`."""
    if text.lstrip().startswith(("use ", "pub .")):
        return text
    text = re.sub(r"(?<=[\w'₀-₉)\]]) (?=\.[a-z0-9][\w'-]*)", "", text)
    return re.sub(r"(?<![\w'])\(([A-Za-z]\w*(?:\.[\w'-]+)+)\)", r"\1", text)


def main(argv):
    landed = argv[1] if argv[:1] == ["--landed"] else None
    for p in files("specs/Contracts.antt"):
        os.rename(p, p.replace("Contracts.antt", "Promises.antt"))
    antt = files("specs/**/*.antt") + files("proofs/**/*.antt")
    texts = {p: contracts(read(p)) for p in antt}
    fields = set()
    for p, text in texts.items():
        fields |= declared(text)
        ALL.update(w for w in WORD.findall(text) if snake(w) != w)
    libs = set()
    for text in texts.values():
        libs |= imported(text)
    ALL.difference_update(libs - fields)
    together(texts)
    for p, text in texts.items():
        keep = imported(text)
        HERE.clear()
        HERE.update(LEMMAS)
        HERE.update(LOCAL.get(p, {}))
        HERE.update(APART_IN.get(p.replace("Contracts", "Promises"), {}))
        new = turn(text, keep, fields)
        HERE.clear()
        clash(p, text, new, keep)
        write(p, new)
    for p in files("src/**/*.rt"):
        write(p, turn_source(contracts(read(p))))
    if landed:
        edits(landed, fields)
    return 0


def together(texts):
    """Finds the lemmas and variables, spelled with a dash, that would fall together with a definition that some file of theirs knows."""
    for text in texts.values():
        for block in re.findall(r"(?m)^pub record .*\n((?:(?: .*)?\n)*)", text):
            FIELDS.update(re.findall(r"(?m)^  pub ([^\s(){}:;,.]+) :", block))
    lemmas = set()
    for p, text in texts.items():
        if "/proofs/" in p:
            lemmas |= {w for w in re.findall(r"(?m)^ {0,4}(?:pub |abbrev |unfoldable )*([^\s(){}:;,.]+) :", text) if "-" in w}
    for p, text in texts.items():
        keep = imported(text)
        code = "\n".join(line.partition("-- ")[0] for line in text.split("\n"))
        known, dashed = set(), set()
        for m in WORD.finditer(code):
            w = m.group(0)
            line = code[code.rfind("\n", 0, m.start()) + 1 :].partition("\n")[0]
            if w in keep or w[0].isupper() or snake(w, {}) == w:
                continue
            if "-" in w:
                dashed.add(w)
            elif not (code[m.start() - 1 : m.start()] == "."):
                known.add(snake(w, {}))
        for w in dashed:
            if snake(w, {}) in known and w not in APART:
                (LEMMAS if w in lemmas else LOCAL.setdefault(p, {}))[w] = snake(w, {}) + "_lem"


LEMMAS = {}
LOCAL = {}


def clash(path, text, new, keep):
    """Names of one file that were two and are one now."""
    a = [w for w in re.findall(r"(?m)^\s*(?:abbrev |unfoldable |pub )*([^\s(){}:;,.]+)\s*:", text)]
    by = {}
    for w in a:
        if w not in keep:
            by.setdefault(snake(w), set()).add(w)
    for w, olds in by.items():
        if len(olds) > 1 or (w in keep and olds != {w}):
            print(f"clash: {path}: {', '.join(sorted(olds))} -> {w}")


def edits(landed, fields):
    for e in files("must-fail/*.edit"):
        crate = os.path.dirname(os.path.dirname(e))
        was, now, out, old, name, lines = {}, {}, [], None, None, None
        for line in read(e).split("\n"):
            word, _, rest = line.partition(": ")
            if word == "file":
                name = contracts(rest)
                before = os.path.join(landed, crate, rest)
                if name not in was:
                    was[name] = read(before).split("\n")
                    now[name] = read(os.path.join(crate, name))
                    lines = None
                out.append("file: " + name)
            elif word in ("old", "new"):
                text = contracts(port_words(rest, name))
                if name.endswith(".antt"):
                    keep = imported(now[name])
                    text = words(text.partition("-- ")[0], keep, fields) + "".join(text.partition("-- ")[1:])
                else:
                    text = turn_source(text)
                if word == "old":
                    if now[name].count(text) != 1:
                        print(f"edit: {e}: {name}: stands {now[name].count(text)} times: {text}")
                    old = text
                else:
                    now[name] = now[name].replace(old, text)
                out.append(f"{word}: {text}")
            else:
                out.append(line)
        write(e, "\n".join(out))


ALL = set()
CRATES = {os.path.basename(c) for c in glob.glob("crates/*")}

if __name__ == "__main__":
    raise SystemExit(main(sys.argv[1:]))
