#!/usr/bin/env python3
"""Brings this repository's own definitions and lemmas to snake case: camelCase and dashed names become words joined by `_`.

usage: python3 tools/respell.py [--list]      at the top of the repository, once, after the kit's own porting script

Names of types and facts (they begin with a capital), functions of src/, names that Rattle generates (goals, steps, invariants), strings,
comments and must-fail edits keep their spelling. A lemma whose new name would be that of a definition of a
specs/ folder gets `_lem` behind it; any other two names of one file that fall together are an error. With --list the new names are printed
and nothing is written.
"""

import os
import re
import sys

NAME = r"[^\s(){}\[\],;.:λ∷×→≡<>|«»\"]+"
SIGNATURE = re.compile(r"^(\s*)((?:(?:abbrev|unfoldable|pub) )*)(" + NAME + r") :(?: (?!goal\.)|$)")
RECORD = re.compile(r"^(?:pub )?record .* where$")
GENERATED = re.compile(r"^(?:(?:abbrev|pub) )*(" + NAME + r") : goal\.")
TOKEN = re.compile(r"[A-Za-z0-9_'\-]+")
CAMEL = re.compile(r"(?<=[a-z0-9])(?=[A-Z])")


def files(ending):
    for folder, dirs, names in os.walk("crates"):
        dirs[:] = sorted(d for d in dirs if d != "out")
        for name in sorted(names):
            if name.endswith(ending):
                yield os.path.join(folder, name)


def read(path):
    with open(path, encoding="utf-8") as f:
        return f.read()


def fits(name):
    """Whether a name is an own word that is to change: it begins with a small letter and has a dash or a capital."""
    return bool(re.fullmatch(r"[a-z][A-Za-z0-9_'\-]*", name)) and ("-" in name or bool(CAMEL.search(name)))


def snake(name):
    return CAMEL.sub("_", name.replace("-", "_")).lower()


def declared():
    """Own names to change, by whether a specs/ folder declares them; fields among them; names that Rattle generates; names that stay."""
    specs, lemmas, fields, generated, kept = set(), set(), set(), set(), set()
    for path in files(".antt"):
        record = False
        for line in read(path).splitlines():
            record = bool(RECORD.match(line)) or (record and line.startswith(" "))
            found = GENERATED.match(line)
            if found:
                generated.add(found.group(1))
                continue
            found = SIGNATURE.match(line)
            if found and fits(found.group(3)):
                (specs if "/specs/" in path else lemmas).add(found.group(3))
                if record:
                    fields.add(found.group(3))
            elif found:
                kept.add((path.split(os.sep)[1], found.group(3)))
    return specs, lemmas, fields, generated, kept


def renamings():
    specs, lemmas, fields, generated, kept = declared()
    taken = {name for _, name in kept}
    new = {}
    for name in sorted(specs):
        new[name] = snake(name)
    for name in sorted(lemmas - specs, key=lambda n: ("-" in n, n)):
        to = snake(name)
        new[name] = to + "_lem" if to in new.values() or to in taken else to
    return new, fields, generated


def code(path, line):
    """The parts of a line that are no comment and no string."""
    mark = "//" if path.endswith(".rt") else "-- "
    at = line.find(mark)
    return (line, "") if at < 0 else (line[:at], line[at:])


def turn(path, text, new, fields, generated):
    out = []
    answers = path.endswith(("Answers.antt", "Invariants.antt"))
    for line in text.split("\n"):
        head, tail = code(path, line)
        pieces = head.split('"')
        for k in range(0, len(pieces), 2):
            pieces[k] = swap(pieces[k], new, fields, generated if answers else ())
        out.append('"'.join(pieces) + tail)
    return "\n".join(out)


def swap(piece, new, fields, generated):
    def one(found):
        word, before = found.group(0), piece[: found.start()]
        dotted = re.search(r"[\w\])]\.$", before)
        if word not in new or word in generated or (dotted and "-" in word and word not in fields):
            return word
        return new[word]

    return TOKEN.sub(one, piece)


def main():
    new, fields, generated = renamings()
    if "--list" in sys.argv:
        for name, to in sorted(new.items()):
            print(name, to, "GENERATED TOO" if name in generated else "")
        return
    for path in [*files(".antt"), *files(".rt")]:
        text = read(path)
        turned = turn(path, text, new, fields, generated)
        if turned != text:
            with open(path, "w", encoding="utf-8") as f:
                f.write(turned)


if __name__ == "__main__":
    main()
