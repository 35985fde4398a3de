#!/usr/bin/env python3
"""Brings the repository's own names in specs/, proofs/ and clauses to today's spelling: words in snake case.

Run once at the top, after the kit's port.py. A name that begins with a small letter and has a capital inside becomes words
joined by `_`: in .antt files every such name, local ones too, elsewhere only those that specs/, proofs/ or a `ghost use`
declare. Strings stay, and so does Rust code, which has no such names. A definition that is a type gets a capital (TYPES).
With --check it only lists, for each file, new spellings that stood there already.
"""
import glob
import re
import sys

# lemmas that would fall together with the definition that they are about, and the files that cite them
LEMMAS = {
    "of_number": "crates/.*/proofs/",
    "each_below": "crates/lines/proofs/Lanes",
    "entry_row": "crates/reading/proofs/(Lookup|Starts)|crates/orders/proofs/Sound",
    "entry_in": "crates/reading/proofs/Lookup",
    "number_is": "crates/rules/proofs/Laws",
    "is_read": "crates/sets/proofs/Examples",
}
# one letter for a word inside a name
LETTERS = {"isMorN": "is_m_or_n", "isSorN": "is_s_or_n", "allSorN": "all_s_or_n"}
# definitions that are types and began with a small letter
TYPES = {"kept1": "Kept1", "kept2": "Kept2", "kept3": "Kept3", "kept4": "Kept4", "kept5": "Kept5"}
CHECKED = {"checked": "Checked"}
NAME = re.compile(r"(?<![A-Za-z0-9_'])[a-z][A-Za-z0-9_']*")
STRING = re.compile(r'("[^"\n]*")')
DECLARED = re.compile(r"^(?:abbrev |unfoldable |pub |data |record |ruleset )*([^\s:(]+) .*?: |^  (?:pub )?([^:\n]+) : ", re.M)
AS = re.compile(r" as ([a-z]+[A-Z][A-Za-z]*)")


def snake(name):
    if name in LETTERS:
        return LETTERS[name]
    return re.sub(r"(?<=[a-z0-9'])(?=[A-Z])|(?<=[A-Z])(?=[A-Z][a-z])", "_", name).lower()


def respell(text, wanted):
    def turn(match):
        name = match.group(0)
        return snake(name) if wanted(name) and name != name.lower() else name

    return "".join(part if part.startswith('"') else NAME.sub(turn, part) for part in STRING.split(text))


def whole(name):
    return re.compile(r"(?<![A-Za-z0-9_'-])(?<!Rattle\.)" + name + r"(?![A-Za-z0-9_'-])")


def lemmas(path, text):
    for name, files in LEMMAS.items():
        if re.match(files, path):
            text = whole(name).sub(name + "_lem", text)
    for name, files in (TYPES, "crates/judge/proofs/judge_later"), (CHECKED, "crates/serial/proofs/Frame"):
        if path.startswith(files):
            for old, new in name.items():
                text = whole(old).sub(new, text)
    return text


def main():
    proofs = sorted(glob.glob("crates/*/specs/**/*.antt", recursive=True) + glob.glob("crates/*/proofs/**/*.antt", recursive=True))
    sources = sorted(glob.glob("crates/*/src/*.rt"))
    declared = set()
    for path in proofs:
        for first, others in DECLARED.findall(open(path).read()):
            for part in (first + " " + others).split():
                declared.update(NAME.findall(part))
    for path in sources:
        declared.update(AS.findall(open(path).read()))
    others = sources + sorted(glob.glob("crates/*/must-fail/*.edit") + glob.glob("docs/*.md") + ["README.md", "CONTRIBUTING.md"])
    for path in proofs + others:
        text = open(path).read()
        wanted = (lambda name: True) if path.endswith(".antt") else declared.__contains__
        if "--check" in sys.argv:
            names = {name for part in STRING.split(text) if not part.startswith('"') for name in NAME.findall(part)}
            turned = {}
            for name in names:
                if wanted(name):
                    turned.setdefault(snake(name), []).append(name)
            for new, old in turned.items():
                if len(old) > 1:
                    print(path, new, old)
            continue
        new = respell(lemmas(path, text) if "/proofs/" in path else text, wanted)
        if new != text:
            open(path, "w").write(new)


main()
