#!/usr/bin/env python3
"""Spells this repository's own definitions and lemmas as the kit's guides do: snake case, and a dash only between two names.
A tool of a past landing: it changes the files of each FOLDER, a checkout as the kit's port.py leaves it, and is run once.

    tools/port_names.py FOLDER ..

port_names.tsv beside it has a row for each name: old, new, and where a third field stands, the end of the path of the one
file that the row is for, in place of any other row of that name. With 'not a field' behind it, the row is for the uses of
the name that are no field of a record. It turns whole words: in .antt and .rt files the code, and in their comments what
stands between backticks or has a capital inside; all of .edit files; in .md files what stands between backticks.
In the proofs of a function a name that Rattle makes, behind one of the heads c and goal, stays.
"""

import os
import re
import sys

sys.dont_write_bytecode = True

from command_line import Misuse, Trouble, expect, put, run

HERE = os.path.dirname(os.path.realpath(__file__))
WORD = re.compile(r'[^\s(){}.;:,@"«»`\[\]|&!]+')
MADE = re.compile(r"(?<![^\s(){};,])(?:c|goal)\.$")
OF_FUNCTION = re.compile(r"/proofs/.+/[^/]*$")
FIELD = re.compile(r"(?:\n|[{;])\s*$")
SPAN = re.compile(r"(`+)[^\n]*?\1")
FENCE = re.compile(r"^( *)```.*?^\1```", re.S | re.M)
COMMENT = {".antt": re.compile(r"(?<![^\s(){}.;,])--[^\n]*"), ".rt": re.compile(r'//[^\n]*|b?"(?:\\.|[^"\\])*"')}


def rows():
    everywhere, here = {}, {}
    with open(os.path.join(HERE, "port_names.tsv"), encoding="utf-8") as f:
        for line in f:
            old, new, *where = line.rstrip("\n").split("\t")
            if where:
                here.setdefault(where[0], {})[old] = new, len(where) > 1
            else:
                everywhere[old] = new
    return everywhere, here


def turned(text, table, special, of_function=False):
    def one(m):
        old = m[0]
        if of_function and MADE.search(text, max(0, m.start() - 6), m.start()):
            return old
        if old in special:
            new, no_field = special[old]
            if not no_field:
                return new
            is_field = text[m.start() - 1 : m.start()] == "." or FIELD.search(text, max(0, m.start() - 80), m.start()) and text.startswith(" = ", m.end())
            if not is_field:
                return new
        return table.get(old, old)

    return WORD.sub(one, text)


def prose(text, table):
    """A comment or a page: what stands between backticks, and words with a capital inside."""
    spans = lambda m: turned(m[0], table, {})  # noqa: E731
    text = SPAN.sub(spans, text)
    return re.sub(r"(?<![\w/.-])[a-z]\w*[a-z0-9][A-Z]\w*(?:-[\w]+)*(?![\w/-])", lambda m: table.get(m[0], m[0]), text)


def code(text, kind, table, special, of_function):
    out, at = [], 0
    for m in COMMENT[kind].finditer(text):
        out.append(turned_part(text, at, m.start(), table, special, of_function))
        out.append(prose(m[0], table) if not m[0].startswith(('"', 'b"')) else m[0])
        at = m.end()
    out.append(turned_part(text, at, len(text), table, special, of_function))
    return "".join(out)


def turned_part(text, start, end, table, special, of_function):
    # (the lookbehind of a made name and of a field needs the text before)
    head = text[max(0, start - 80) : start]
    kept = len(head)
    whole = turned(head + text[start:end], table, special, of_function)
    return whole[len(turned(head, table, special, of_function)) :] if kept else whole


def page(text, table):
    out, at = [], 0
    for m in FENCE.finditer(text):
        out += [SPAN.sub(lambda s: turned(s[0], table, {}), text[at : m.start()]), turned(m[0], table, {})]
        at = m.end()
    return "".join(out) + SPAN.sub(lambda s: turned(s[0], table, {}), text[at:])


def edit(text, table, special):
    lines = text.split("\n")
    return "\n".join(prose(it, table) if it.startswith("#") else turned(it, table, special) for it in lines)


def main(folders):
    if not folders:
        raise Misuse("FOLDER is missing")
    for top in expect(folders, *folders):
        if not os.path.isdir(top):
            raise Trouble(f"{top} is no folder")
    table, here = rows()
    changed = 0
    for top in folders:
        for folder, dirs, names in os.walk(os.path.abspath(top)):
            dirs[:] = [d for d in dirs if d not in ("out", "target", ".git") and not os.path.islink(os.path.join(folder, d))]
            for name in names:
                path, kind = os.path.join(folder, name), os.path.splitext(name)[1]
                if kind not in (".antt", ".rt", ".edit", ".md") or kind != ".md" and f"{os.sep}crates{os.sep}" not in path:
                    continue
                with open(path, encoding="utf-8") as f:
                    text = f.read()
                special = next((it for end, it in here.items() if path.endswith(os.sep + end)), {})
                if kind == ".md":
                    new = page(text, table)
                elif kind == ".edit":
                    file = re.findall(r"(?m)^file: (\S+)", text)
                    place = os.path.join(os.path.dirname(os.path.dirname(path)), file[0]) if len(set(file)) == 1 else path
                    new = edit(text, table, next((it for end, it in here.items() if place.endswith(os.sep + end)), {}))
                else:
                    new = code(text, kind, table, special, bool(OF_FUNCTION.search(path)))
                if new != text:
                    changed += 1
                    with open(path, "w", encoding="utf-8") as f:
                        f.write(new)
    put(f"port_names: {changed} files changed\n")
    return 0


if __name__ == "__main__":
    run(__doc__, main)
