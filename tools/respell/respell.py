#!/usr/bin/env python3
"""Brings the repository's own definitions, lemmas and labels to snake case, after the kit's port.py and before anything else.

usage: python3 tools/respell/respell.py     at the top of the repository, once

names.tsv, beside this file, has a line for each name: as port.py left it, and what it becomes. A definition and a lemma that would fall
together are told apart by `_lem` behind the lemma's name. Three names are mended by hand below, because port.py took them for names of
a library: the definition `ownAt`, which it declared as `field_own` and cited as `own_at`, and the lemmas `own-at` and `number-at`, which it gave
the names of the definitions `ownAt` and `numberAt`. A name that Rattle made (a step of a function's proof, after a dot) keeps its spelling. It stops, and writes nothing, where
two names of one file would become one.
"""

import os
import re
import sys

HERE = os.path.dirname(os.path.realpath(__file__))
WORD = re.compile(r"[^\s(){}\[\],;.:\"`@⌜⌝]+")
TICKED = re.compile(r"`[^`\n]*`")
IDENTIFIER = re.compile(r"[A-Za-z_][A-Za-z0-9_]*")


def table():
    with open(os.path.join(HERE, "names.tsv"), encoding="utf-8") as f:
        return dict(line.rstrip("\n").split("\t") for line in f)


def files():
    for folder, dirs, names in os.walk("crates"):
        dirs[:] = sorted(d for d in dirs if d not in ("out", "must-fail"))
        for name in sorted(names):
            if name.endswith((".rt", ".antt")):
                yield os.path.join(folder, name)


def made_names(root):
    """The steps that Rattle named after functions and variables of the sources, as port.py left them."""
    found = set()
    for path in files():
        if path.endswith(".rt"):
            with open(path, encoding="utf-8") as f:
                found |= {w.replace("_", "-") for w in IDENTIFIER.findall(f.read()) if "_" in w}
    return found


def turn_code(text, names, made, spare):
    def one(match):
        word = match.group(0)
        after_dot = match.start() > 0 and text[match.start() - 1] == "."
        if after_dot and (spare and word in made or IDENTIFIER.fullmatch(word) and word == word.lower()):
            return word
        return names.get(word, word)

    return WORD.sub(one, text)


def turn_comment(text, names, made):
    text = TICKED.sub(lambda m: turn_code(m.group(0), names, made, False), text)
    camel = {k: v for k, v in names.items() if re.search(r"[a-z0-9][A-Z]", k)}
    return turn_code(text, camel, made, False)


def turn(path, text, names, made):
    mark = "//" if path.endswith(".rt") else "--"
    if path == os.path.join("crates", "control", "specs", "Halves.antt"):
        text = re.sub(r"\bfield_own\b", "own_at", text)
    for word, crate, module in (("number_at", "cells", "Places"), ("own_at", "numbers", "Parts")):
        declares = path == os.path.join("crates", crate, "proofs", module + ".antt")
        if declares or re.search(crate + r"\.proofs\." + module + r"\.\{[^}]*\b" + word + r"\b", text):
            text = re.sub(r"(?<![\w.'-])" + word + r"(?![\w'-])", word + "_lem", text)
    # A function of the sources keeps its name: there only words that no Rust name can be are turned.
    spelled = {k: v for k, v in names.items() if not (IDENTIFIER.fullmatch(k) and k == k.lower())}
    out = []
    for line in text.split("\n"):
        if line.lstrip().startswith(mark):
            out.append(turn_comment(line, names, made))
            continue
        code, gap, comment = line.partition("  " + mark)
        known = spelled if path.endswith(".rt") else names
        out.append(turn_code(code, known, made, path.endswith("Proof.antt")) + gap + turn_comment(comment, names, made))
    return "\n".join(out)


def words(path, text):
    mark = "//" if path.endswith(".rt") else "--"
    lines = [l for l in text.split("\n") if not l.lstrip().startswith(mark)]
    return {m.group(0) for m in re.finditer(r"(?<![^\s({\[,])" + WORD.pattern, "\n".join(lines))}


def main():
    if not os.path.isdir("crates"):
        sys.exit("respell: run it at the top of the repository")
    names = table()
    made = made_names(".")
    written, bad = {}, []
    for path in files():
        with open(path, encoding="utf-8") as f:
            old = f.read()
        new = turn(path, old, names, made)
        if path.endswith(".antt"):
            before = words(path, old)
            for word in sorted(before & set(names)):
                if names[word] in before and names[word] not in names:
                    bad.append(f"{path}: {word} and {names[word]}")
        if new != old:
            written[path] = new
    if bad:
        sys.exit("respell: two names of one file would become one:\n" + "\n".join(bad))
    for path, text in written.items():
        with open(path, "w", encoding="utf-8") as f:
            f.write(text)
    print(f"respell: {len(names)} names, {len(written)} files written")


if __name__ == "__main__":
    main()
