#!/usr/bin/env python3
"""Spells the names that this repository's own specs/ and proofs/ declare as the library's are spelled.

usage: respell.py [FOLDER]       the top of the repository; the default is the current folder

Words with dashes, as `hex-digit`, become `hex_digit`; types, as `Worked-bytes`, become `WorkedBytes`. A name turns in
a file that declares it or imports it from a crate of this repository; a field of a record turns everywhere. Names that
a library lends, and labels of goals, which the checker makes, stay. Functions of src/ keep their names, and so do
strings. Names that would fall together with a library's have a spelling of their own in APART; others that may fall
together are printed. A second run changes nothing.
"""

import os
import re
import sys

# Lemmas that would get the name of the word that they are about.
APART = {"bit-and": "bit_of_and", "bit-or": "bit_of_or", "bit-xor": "bit_of_xor", "countBy-cnt": "count_by_cnt"}
WORD = r"[A-Za-z0-9_']+(?:-[A-Za-z0-9_']+)+"
NAME = re.compile(rf"(?<![\w'-]){WORD}(?![\w'-])")
HEADS = r"(?:(?:pub|abbrev|unfoldable|record|data|mod|opaque)\s+)*"
TOP = re.compile(rf"^(?:  )*{HEADS}({WORD})\s*(?:[{{(:]|$)")
LOCAL = re.compile(rf"(?:\blet|[;,({{λ]|\bin)\s*({WORD})\s*(?::|=)")
BINDER = re.compile(rf"[({{]((?:[\w'-]+\s+)*[\w'-]+)\s*:")
LAMBDA = re.compile(r"λ\s+([^.]*)\.")
RECORD = re.compile(r"^(\s*)(?:pub\s+)?record\s")
USE = re.compile(r"\buse\s+([\w.+'-]+)\.\{([^}]*)\}")
TOKEN = re.compile(r'"(?:\\.|[^"\\])*"')


def text_files(root):
    for folder, dirs, files in os.walk(os.path.join(root, "crates")):
        dirs[:] = sorted(d for d in dirs if d not in ("out", ".git"))
        for file in sorted(files):
            if file.endswith((".antt", ".rt")):
                yield os.path.join(folder, file)


def respelled(name):
    if name in APART:
        return APART[name]
    if name[0].isupper():
        return "".join(part[:1].upper() + part[1:] for part in name.split("-"))
    return name.replace("-", "_")


def code_of(line, file):
    """A line without its comment and its strings."""
    line = TOKEN.sub('""', line)
    mark = "--" if file.endswith(".antt") else "//"
    at = re.search(rf"(?:^|(?<=\s)){mark}", line)
    return line[: at.start()] if at else line


def own_crates(root):
    return sorted(c for c in os.listdir(os.path.join(root, "crates")) if os.path.isdir(os.path.join(root, "crates", c)))


def goal_labels(text):
    return set(re.findall(r"\bgoal\.([\w'-]+)", text))


def declared(text, file):
    """The names with dashes that a file declares, and those of them that are fields of a record."""
    if not file.endswith(".antt"):
        return set(), set()
    names, fields, indent = set(), set(), None
    for line in text.split("\n"):
        code = code_of(line, file)
        if not code.strip():
            continue
        depth = len(code) - len(code.lstrip())
        top = TOP.match(code)
        if top:
            names.add(top.group(1))
            if indent is not None and depth > indent:
                fields.add(top.group(1))
        begins = RECORD.match(code)
        if begins:
            indent = len(begins.group(1))
        elif indent is not None and depth <= indent:
            indent = None
        names.update(LOCAL.findall(code))
        for group in BINDER.findall(code) + LAMBDA.findall(code):
            names.update(w for w in group.split() if re.fullmatch(WORD, w))
    labels = goal_labels(text)
    return names - labels, fields - labels


def imported(text, crates):
    """The names that a file imports, those of this repository and those of libraries."""
    own, lent = set(), set()
    for path, items in USE.findall(text):
        parts = path.split(".")
        mine = len(parts) > 1 and parts[0] == "Rattle" and parts[1] in crates
        for item in items.split(","):
            words = item.strip().split(" as ")
            (own if mine else lent).update(w.strip() for w in words)
    return own, lent


def turn(text, file, names):
    """Turns the names in code and clauses; in a comment, between backticks."""
    def name(match):
        word = match.group()
        return respelled(word) if word in names else word

    def quoted(match):
        return match.group() if match.group().startswith('"') else NAME.sub(name, match.group())

    lines = []
    for line in text.split("\n"):
        code = code_of(line, file)
        cut = line
        if TOKEN.sub('""', line) != code:
            mark = "--" if file.endswith(".antt") else "//"
            at = list(re.finditer(rf"(?:^|(?<=\s)){mark}", line))[0].start()
            cut = line[:at]
        comment = line[len(cut):]
        cut = re.sub(r'"(?:\\.|[^"\\])*"|[^"]+', quoted, cut)
        comment = re.sub(r"`[^`]*`", lambda m: NAME.sub(name, m.group()), comment)
        lines.append(cut + comment)
    return "\n".join(lines)


def main(argv):
    root = os.path.abspath(argv[0] if argv else ".")
    crates = set(own_crates(root))
    texts = {file: open(file, encoding="utf-8").read() for file in text_files(root)}
    fields = set()
    for file, text in texts.items():
        fields |= declared(text, file)[1]
    turned = 0
    for file, text in texts.items():
        names, _ = declared(text, file)
        own, lent = imported(text, crates)
        own = {n for n in own if re.fullmatch(WORD, n)}
        turn_here = (names | own | fields) - lent
        seen = set(re.findall(r"[\w']+", text)) if file.endswith(".antt") else imported(text, crates)[0] | imported(text, crates)[1]
        for old in sorted(names | own):
            if old in turn_here and old not in fields and respelled(old) in seen:
                print(f"look: {os.path.relpath(file, root)}: {old} would meet {respelled(old)}")
        new = turn(text, file, turn_here)
        if new != text:
            turned += 1
            with open(file, "w", encoding="utf-8") as out:
                out.write(new)
    print(f"respell: {turned} files changed")


if __name__ == "__main__":
    main(sys.argv[1:])
