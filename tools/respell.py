#!/usr/bin/env python3
"""Spells the repository's own definitions and lemmas in snake case, as 'maxDepots' to 'max_depots' and 'sum-head' to 'sum_head'.

usage: respell.py [FOLDER]     in FOLDER, the top of a checkout (default: the folder that it is run in)

A name turns where an .antt file of the repository declares it, in all .antt files, and in the clauses and 'ghost use' items of
.rt files. Names that the code of src/ has, names of libraries, and the names that Rattle makes of the code, as goals and the
steps of a function's proof, keep their spelling. In comments a name turns where it has a capital or stands between backticks.
A lemma whose name would fall together with a definition's gets '_lem' at its end. A second run changes nothing.
"""

import os
import re
import sys

NAME = r'[^\s(){}.;,@"«»\[\]`]+'
DECLARED = re.compile(
    r"(?m)^ *((?:(?:pub|abbrev|unfoldable) +)*)(" + NAME + r"(?: " + NAME + r")*)(?: \{[^{}\n]*\})* :(?: |$)(.*)"
)
GENERATED = re.compile(r"\s*(?:goal|need)\.")
# behind these a name is Rattle's, in a function's own proof files
HEADS = ("goal", "c", "w", "l")
PROOF_OF_A_FUNCTION = re.compile(r"/proofs/.*/(?:Answers|Invariants)\.antt$")
WORDS = {"use", "data", "record", "module", "let", "in", "where", "pub", "abbrev", "unfoldable", "mod"}


def texts(root, endings):
    for folder, dirs, files in os.walk(os.path.join(root, "crates")):
        dirs[:] = sorted(d for d in dirs if d != "out")
        for name in sorted(files):
            if name.endswith(endings):
                yield os.path.join(folder, name)


def read(path):
    with open(path, encoding="utf-8") as f:
        return f.read()


def split_comment(line, mark):
    """The code and the comment of a line."""
    at = re.search(r"(?:^|(?<=\s))" + mark, line)
    return (line, "") if at is None else (line[: at.start()], line[at.start() :])


def code_of(text):
    return "\n".join(split_comment(line, "--(?=\\s|$)")[0] for line in text.split("\n"))


def snake(name):
    words = re.sub(r"(?<=[a-z0-9])[A-Z](?=[a-z])", lambda m: "_" + m[0].lower(), name)
    return words.replace("-", "_")


def table(root):
    """The new spelling of each name that turns."""
    declared, imported = set(), set()
    for path in texts(root, ".antt"):
        code = code_of(read(path))
        for m in DECLARED.finditer(code):
            if GENERATED.match(m[3]):
                continue
            declared.update(it for it in m[2].split() if it not in WORDS)
        for items in re.findall(r"\buse (?:Prim|borrow|denote|lib|mathlib|native|Rattle\.std)\.[^\s;{]*\{([^;{}]*)\}", code):
            imported.update(re.split(r"[,\s]+", items))
    old = {it for it in declared - imported if not it[0].isupper() and snake(it) != it}
    rows = {}
    for it in sorted(old, key=lambda name: ("-" in name, name)):
        new = snake(it)
        taken = new in rows.values() or new in declared
        rows[it] = new + "_lem" if taken and "-" in it else new
    return rows


WORD = re.compile(NAME)


def turn_code(code, rows, heads):
    def turned(m):
        word = m[0]
        if word not in rows:
            return word
        before = re.search(r"(" + NAME + r")\.$", code[: m.start()])
        if before and before[1] in heads and not re.search(r"[\w'-]\.$", code[: before.start()]):
            return word
        return rows[word]

    return WORD.sub(turned, code)


def turn_comment(comment, rows):
    capital = {old: new for old, new in rows.items() if re.search("[A-Z]", old)}
    comment = re.sub(r"`[^`]*`", lambda m: turn_code(m[0], rows, ()), comment)
    return WORD.sub(lambda m: capital.get(m[0], m[0]), comment)


def turn_antt(path, rows):
    heads = HEADS if PROOF_OF_A_FUNCTION.search(path) else ()
    lines = []
    for line in read(path).split("\n"):
        code, comment = split_comment(line, "--(?=\\s|$)")
        lines.append(turn_code(code, rows, heads) + turn_comment(comment, rows))
    return "\n".join(lines)


GHOST = re.compile(r"ghost\s+use\b[^;]*;|(?:requires|ensures|ghost)\s*\*?\s*(?:\w+\s*)?(?::|=)?\s*\{")


def turn_rt(path, rows):
    """Turns the ghost items and the clauses; the code stays."""
    text, made, at = read(path), [], 0
    for m in GHOST.finditer(text):
        if m.start() < at:
            continue
        end = m.end()
        if text[end - 1] == "{" and not m[0].startswith("ghost use"):
            depth = 1
            while depth:
                depth += {"{": 1, "}": -1}.get(text[end], 0)
                end += 1
        made += [turn_rt_comments(text[at : m.start()], rows), turn_code(text[m.start() : end], rows, ())]
        at = end
    return "".join(made) + turn_rt_comments(text[at:], rows)


def turn_rt_comments(text, rows):
    lines = []
    for line in text.split("\n"):
        at = re.match(r"^(\s*)//", line)
        lines.append(turn_comment(line, rows) if at else line)
    return "\n".join(lines)


def main():
    root = sys.argv[1] if len(sys.argv) > 1 else "."
    rows = table(root)
    changed = 0
    for path in texts(root, (".antt", ".rt")):
        new = turn_antt(path, rows) if path.endswith(".antt") else turn_rt(path, rows)
        if new != read(path):
            changed += 1
            with open(path, "w", encoding="utf-8") as f:
                f.write(new)
    print(f"{len(rows)} names, {changed} files")
    for old, new in sorted(rows.items()):
        if new.endswith("_lem"):
            print(f"{old}: {new}")


main()
