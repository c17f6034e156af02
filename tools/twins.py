#!/usr/bin/env python3
"""Lists functions of src/ whose bodies are equal but for names, types and numbers.

python3 tools/twins.py [FOLDER]
"""
import collections
import pathlib
import re
import sys

WORD = re.compile(r"[A-Za-z_][A-Za-z_0-9]*|0[xX][0-9A-Fa-f_]+|[0-9][0-9_]*|\"[^\"]*\"|'[^']'|\S")
KEPT = {"if", "else", "match", "for", "in", "while", "let", "return", "mut", "fn", "true", "false", "Some", "None", "Ok", "Err"}


def functions(text):
    for head in re.finditer(r"^ *(?:pub(?:\(crate\))? )?(?:const )?fn ([a-z_0-9]+)", text, re.M):
        start = text.find("{\n", head.end())
        between = text[head.end():start]
        if start < 0 or ";\n" in between:
            continue
        depth, end = 1, start + 1
        while depth and end < len(text):
            depth += {"{": 1, "}": -1}.get(text[end], 0)
            end += 1
        yield head.group(1), text.count("\n", 0, head.start()) + 1, text[start + 1:end - 1]


def shape(body):
    names, out = {}, []
    for word in WORD.findall(re.sub(r"//.*", "", body)):
        if word in KEPT or not re.match(r"[A-Za-z_0-9\"']", word):
            out.append(word)
        else:
            out.append("n%d" % names.setdefault(word, len(names)))
    return " ".join(out)


def main():
    top = pathlib.Path(sys.argv[1] if len(sys.argv) > 1 else ".")
    found = collections.defaultdict(list)
    for path in sorted(top.glob("crates/*/src/*.rt")):
        for name, line, body in functions(path.read_text()):
            if len(body.split()) > 3:
                found[shape(body)].append("%s:%d %s" % (path.relative_to(top), line, name))
    groups = [places for places in found.values() if len(places) > 1]
    for places in groups:
        print("; ".join(places))
    print(len(groups), "groups,", sum(len(g) for g in groups), "functions")


main()
