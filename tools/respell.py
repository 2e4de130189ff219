#!/usr/bin/env python3
"""Spells the repository's own definitions and lemmas in snake case, as the library does.

usage: respell.py --table FILE      writes the table of names that would change, old and new, from the crates below the current folder
       respell.py FILE              turns every crate, and what stands in backticks in the pages, by the table FILE

A name that a `use` line takes from the library stays, and so does one whose new spelling stands beside the old one in some file.
Types and modules keep their capitals. A comment changes where the name is in backticks or has a capital inside.
In a function's own proofs what stands behind a dot is Rattle's label, and stays.
"""

import glob
import os
import re
import sys

NAME = re.compile(r'[^\s(){}.;,@"«»]+')
DECLARED = re.compile(r"^\s*(?:(?:abbrev|pub|unfoldable|data|record)\s+)*([^\s(){};,.]+)(?: \{[^{}]*\}| \([^()]*\))* :(?: |$)")
GROUP = re.compile(r"^\s*(?:(?:abbrev|pub|unfoldable)\s+)*((?:[^\s(){};,.:]+ )+): ")
LIBRARY = re.compile(r"use Rattle\.std[\w.+-]*\.\{([^}]*)\}")
# Where a function and a lemma of several crates would fall together, the function gets this name.
CHOSEN = {
    "goesOn": "going_on",
    "inOrder": "in_program_order",
    "noneFree": "has_none_free",
    "oneLess": "one_fewer",
    "recordFreed": "freed_record",
    "sameText": "is_same_text",
    "takesPart": "has_part",
}
OWN_PROOF = re.compile(r"/proofs/.+/\w+\.antt$")


def sources():
    return sorted(f for kind in ("antt", "rt") for f in glob.glob(f"crates/**/*.{kind}", recursive=True) if "/out/" not in f)


def read(path):
    with open(path, encoding="utf-8") as f:
        return f.read()


def snake(name):
    if name.isupper():
        return name.replace("-", "_")
    if name[0].isupper():
        return name
    return re.sub(r"(?<=[a-z0-9₀-₉])[A-Z]", lambda m: "_" + m[0].lower(), name).replace("-", "_")


def words_of(path, text):
    """The names that could meet another in this file: of code only parameters, fields and locals, and no label of Rattle's."""
    if path.endswith(".rt"):
        code = re.sub(r"//[^\n]*", "", text)
        ghost = [n for line in re.findall(r"ghost use [^;{]*([^;]*);", code) for n in NAME.findall(line)]
        code = re.sub(r"ghost use [^;]*;", "", code)
        return set(ghost) | set(re.findall(r"\b(\w+)\s*:(?!:)", code)) | set(re.findall(r"let (?:mut )?(\w+)", code)) | set(n for n in NAME.findall(code) if "-" in n or re.search(r"[a-z][A-Z]", n))
    text = re.sub(r"(?m)(?:^|(?<=\s))--.*$", "", text)
    body = re.sub(r"(?m)^ *use .*$", lambda m: m[0][m[0].find("{") + 1 :] if "{" in m[0] else "", text)
    if OWN_PROOF.search(path):
        return {m[0] for m in NAME.finditer(body) if not (m.start() and body[m.start() - 1] == ".")}
    return set(NAME.findall(body))


def table():
    declared, library, where = set(), set(), {}
    for path in sources():
        text = read(path)
        for used in LIBRARY.findall(text):
            library.update(w.strip() for w in used.split(","))
        where[path] = words_of(path, text)
        if path.endswith(".antt") and not OWN_PROOF.search(path):
            for line in text.split("\n"):
                found = DECLARED.match(line) or GROUP.match(line)
                if found:
                    declared.update(found[1].split())
    turned = {n: CHOSEN.get(n) or snake(n) for n in declared if re.match(r"[A-Za-z]", n) and snake(n) != n and n not in library}
    # A lemma that would have its function's name gets _lem.
    spelled = {}
    for n in sorted(turned):
        spelled.setdefault(turned[n], []).append(n)
    for new, olds in spelled.items():
        lemmas = [o for o in olds if "-" in o]
        if len(olds) == 2 and len(lemmas) == 1 and any(set(olds) <= words for words in where.values()):
            turned[lemmas[0]] = new + "_lem"
    stay = {}
    for n, new in turned.items():
        for path, words in where.items():
            if n in words and (new in words or any(o != n and turned[o] == new for o in words if o in turned)):
                stay.setdefault(n, path)
    for n, path in list(stay.items()):
        new = turned[n] + "_lem"
        if "-" in n and not n.isupper() and not any(n in words and new in words for words in where.values()):
            turned[n] = new
            del stay[n]
    return {n: new for n, new in turned.items() if n not in stay}, stay


def in_code(text, names, labels):
    used = re.match(r"\s*(?:pub |ghost )*use [^{]*", text)
    start = used.end() if used else 0

    def one(m):
        if m.start() < start or labels and m.start() and text[m.start() - 1] == ".":
            return m[0]
        return names.get(m[0], m[0])

    return NAME.sub(one, text)


def in_comment(text, names):
    text = re.sub(r"`([^`]*)`", lambda m: "`" + NAME.sub(lambda n: names.get(n[0], n[0]), m[1]) + "`", text)
    return NAME.sub(lambda m: names[m[0]] if m[0] in names and re.search(r"[a-z][A-Z]", m[0]) else m[0], text)


def in_line(line, names, mark, labels):
    code, sep, comment = line, "", ""
    at = re.search(rf'(?:^|(?<=\s)){mark}', line)
    if at and line[: at.start()].count('"') % 2 == 0:
        code, sep, comment = line[: at.start()], mark, line[at.start() + len(mark) :]
    parts = code.split('"')
    parts[::2] = [in_code(p, names, labels) for p in parts[::2]]
    return '"'.join(parts) + sep + in_comment(comment, names)


def turn(names):
    changed = 0
    for path in sources():
        text = read(path)
        mark = "--" if path.endswith(".antt") else "//"
        labels = bool(OWN_PROOF.search(path))
        new = "\n".join(in_line(line, names, mark, labels) for line in text.split("\n"))
        changed += put(path, text, new)
    for path in sorted(glob.glob("*.md") + glob.glob("docs/**/*.md", recursive=True) + glob.glob("host/**/README.md", recursive=True)):
        if path.endswith("OLD_NAMES.md"):
            continue
        text = read(path)
        changed += put(path, text, "\n".join(in_comment(line, names) for line in text.split("\n")))
    print(f"{len(names)} names, {changed} files changed")


def put(path, old, new):
    if new == old:
        return 0
    with open(path, "w", encoding="utf-8") as f:
        f.write(new)
    return 1


def main(words):
    if len(words) == 2 and words[0] == "--table":
        turned, stay = table()
        with open(words[1], "w", encoding="utf-8") as f:
            f.writelines(f"{n}\t{turned[n]}\n" for n in sorted(turned))
        for n in sorted(stay):
            print(f"stays: {n}\t{stay[n]}")
        return 0
    if len(words) == 1 and os.path.isfile(words[0]):
        turn(dict(line.split("\t") for line in read(words[0]).splitlines()))
        return 0
    print(__doc__)
    return 2


if __name__ == "__main__":
    raise SystemExit(main(sys.argv[1:]))
