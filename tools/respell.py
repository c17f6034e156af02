#!/usr/bin/env python3
"""Brings this repository's own definitions and lemmas to today's spelling: words in snake case, types in camel case.

usage: python3 tools/respell.py [FOLDER]    at the top of the repository, once, after the kit's own script

It goes through the sources, the definitions, the proofs and the edits, and leaves strings as they are. What Rattle or
its library names (the goals of a function, the lemmas of std) is not in the lists, and stays.
"""

import os
import re
import sys

WORDS = """
accent-string accent-symbols add-value all-bytes-back all-cells all-cells-more all-front
all-groups-back all-swap always-apart always-free and-true-left apart-true ascii-bytes ascii-place
ascii-places at-blank at-cond back-to-byte back-to-cell before-blank begin-one begin-one-append
begins-front begins-three behind-groups below-look-up below-string braille-shown by-entry by-string
byte-back byte-from-cell bytes-a-cell bytes-told capitals-end carrier-bytes carrier-name
carrier-places cell-found cell-from-byte cell-more cell-of cell-of-test cell-place cell-places
cell-with-byte cells-as-places character-of character-shown check-number checked-few clear-by
clear-three code-named code-of-append code-of-some codes-on codes-written digit-more digit-on
entry-there eqb-sym every-cell few-codes first-gap first-of-append fits-digit fixed-cell fixed-kind
flag-name follow-capital front-more granted-ok granted-room group-back group-more group-of-three
group-with has-bit has-cell has-cell-in house-check house-lawful house-refused house-strings
how-many if-room is-cell is-clear is-fixed is-granted is-neither known-free laid-lawful laid-look-up
laid-string lawful-string lawful-true length-paired length-unicode letter-of-character list-granted
list-places look-up-append look-up-more lowest-clash lowest-more lowest-number matched-or
named-by-digits neither-none no-blank no-cell-without no-higher-byte no-lower-byte no-other-cell
no-signs no-ueb-sign none-clash not-among not-both nth-map nth-map-past nth-paired nth-unicode
ok-parts on-blank on-character on-no-code one-begun one-neither one-sign open-passage open-sign
open-word or-clash or-match pair-apart paired-all paired-once paired-pairs pairwise-true
parts-of-none place-more plain-single pressed-more print-as same-as-long same-entry same-strings
single-apart starts-begins string-of string-of-append string-of-more string-true sun-and-cloud
three-cells three-more told-apart told-clear turn-blank turn-character turn-none typeform-number
ueb-codes ueb-entry ueb-lawful ueb-row ueb-rows ueb-string ueb-strings unicode-bytes unicode-cell
unicode-place unicode-places unless-gap unused-more verb-name when-granted whole-some with-digit
words-from
""".split()

TYPES = {
    "Told-apart": "ToldApart",
    "Each-law-broken": "EachLawBroken",
    "Lawful-tables": "LawfulTables",
}

RENAMED = {word: word.replace("-", "_") for word in WORDS} | TYPES

# a name of antt: a dash and an apostrophe are letters of it, a dot and a bracket are not
NAME = re.compile(r"[A-Za-z0-9_'\u2115\u2124*+<=>\u2264\u2261\u25CC-]+")
STRING = re.compile(r'b?"(?:\\.|[^"\\])*"')


def respelled(text):
    return NAME.sub(lambda name: RENAMED.get(name.group(), name.group()), text)


def outside_strings(text):
    end, parts = 0, []
    for string in STRING.finditer(text):
        parts += [respelled(text[end : string.start()]), string.group()]
        end = string.end()
    return "".join(parts) + respelled(text[end:])


def files(top):
    for folder, below, names in os.walk(os.path.join(top, "crates")):
        below[:] = sorted(name for name in below if name != "out")
        yield from (os.path.join(folder, n) for n in sorted(names) if n.endswith((".rt", ".antt", ".edit")))


def main():
    for path in files(sys.argv[1] if len(sys.argv) > 1 else "."):
        with open(path, encoding="utf-8") as file:
            old = file.read()
        new = outside_strings(old)
        if new != old:
            with open(path, "w", encoding="utf-8") as file:
                file.write(new)


if __name__ == "__main__":
    main()
