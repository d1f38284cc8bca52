#!/usr/bin/env python3
"""Brings the repository's own definitions and lemmas to one spelling.

usage: python3 tools/respell.py [--list]      at the top of the repository; --list prints the names and changes nothing

Functions, lemmas, fields and constructors of specs/ and proofs/, and local names, are in snake case; facts, types and
records in camel case; `X?`, which speaks of an optional tree, is `X_if_any`. The crate that writes numbers as bytes is
`number_bytes`, since the library has a crate of its old name. Functions of src/, strings, inputs and outputs keep their
names. It is written for the files as they were; on files that it has turned it changes nothing.
"""

import collections
import glob
import os
import re
import sys

OLD_CRATE, NEW_CRATE = "bytes", "number_bytes"
NAME = r"[^\s(){}\[\].,;:λ→×⊎]+"
DEFINED = re.compile(r"^[ \t]*(?:(?:pub|abbrev|unfoldable|record|data|module)[ \t]+)*((?:%s[ \t]+)+):(?=[ \t])([^\n]*)" % NAME, re.M)
TOKEN = re.compile(r"(?<![\w'?-])[A-Za-z_][\w]*(?:-[\w]+)*[?']*(?![\w'-])")
HEADED = re.compile(r"^[ \t]*(?:pub[ \t]+)?(?:record|data)[ \t]+(%s)[ \t]+[({]" % NAME, re.M)
BY_HAND = {"getD-alike": "get_or_alike", "Goes_on": "GoesOn"}
# names that one file alone knows: imported under them, bound by a `let`, or a parameter
LOCAL = """above-c cell-kind end-in front-is hours-join hours-kind join-second mark-join mid-is no-shelf setting-join setting-kind
tags-join tags-kind word-kind zero-side""".split()


def respelled(name):
    if name in BY_HAND:
        return BY_HAND[name]
    base, if_any = (name[:-1], True) if name.endswith("?") else (name, False)
    if base[:1].isupper():
        base = "".join(p[:1].upper() + p[1:] for p in base.split("-"))
        return base + ("IfAny" if if_any else "")
    return base.replace("-", "_") + ("_if_any" if if_any else "")


def own_files():
    return sorted(glob.glob("crates/*/specs/**/*.antt", recursive=True) + glob.glob("crates/*/proofs/**/*.antt", recursive=True))


def read(path):
    with open(path, encoding="utf-8") as f:
        return f.read()


def write(path, text):
    with open(path, "w", encoding="utf-8") as f:
        f.write(text)


def defined_names():
    """The own names whose spelling changes; a goal's name is the check's, and stays."""
    found, goals = set(LOCAL), set()
    for path in own_files():
        text = re.sub(r"--[^\n]*", "", read(path))
        for m in DEFINED.finditer(text):
            names = m.group(1).split()
            (goals if re.match(r"\s*goal\.", m.group(2)) else found).update(names)
        found.update(HEADED.findall(text))
    return {n: respelled(n) for n in found - goals if re.fullmatch(r"[A-Za-z_][\w'-]*\??", n) and respelled(n) != n}


def fall_together(names):
    tokens = collections.Counter()
    for path in own_files():
        tokens.update(TOKEN.findall(re.sub(r"--[^\n]*", "", read(path))))
    by_new = collections.defaultdict(set)
    for old, new in names.items():
        by_new[new].add(old)
    for new, olds in sorted(by_new.items()):
        if len(olds) > 1 or new in tokens:
            yield new, olds, tokens[new]


def turn_antt(text, names):
    def code(part):
        return TOKEN.sub(lambda m: names.get(m.group(), m.group()), part)

    lines = []
    for line in text.split("\n"):
        body, mark, comment = line.partition("--") if re.search(r"(^|\s)--(\s|$)", line) else (line, "", "")
        lines.append(code(body) + mark + code(comment))
    return "\n".join(lines)


def turn_rt(text, names):
    # `x?` in code is the operator: a name with a mark is turned in lines of contracts alone
    plain = {o: n for o, n in names.items() if not o.endswith("?")}
    lines = []
    for line in text.split("\n"):
        of_contract = re.match(r"\s*(pub )?(ghost|requires|ensures|//)", line) or "→" in line or "≡" in line
        known = names if of_contract else plain
        lines.append(TOKEN.sub(lambda m: known.get(m.group(), m.group()), line))
    return "\n".join(lines)


def turn_crate_name(text):
    text = re.sub(r"\bRattle\.%s\b" % OLD_CRATE, "Rattle." + NEW_CRATE, text)
    return re.sub(r"^(\s*(?:pub )?use )%s::" % OLD_CRATE, r"\1%s::" % NEW_CRATE, text, flags=re.M)


def main():
    names = defined_names()
    for new, olds, uses in fall_together(names):
        print(f"falls together: {new} from {sorted(olds)}, stands {uses} times already")
    if "--list" in sys.argv:
        for old, new in sorted(names.items()):
            print(f"{old} {new}")
        return
    for path in own_files():
        write(path, turn_crate_name(turn_antt(read(path), names)))
    for path in sorted(glob.glob("crates/*/src/**/*.rt", recursive=True)):
        write(path, turn_crate_name(turn_rt(read(path), names)))
    if os.path.isdir("crates/" + OLD_CRATE):
        os.rename("crates/" + OLD_CRATE, "crates/" + NEW_CRATE)
    text = read("crates.txt")
    write("crates.txt", re.sub(r"\b%s\b" % OLD_CRATE, NEW_CRATE, text))


if __name__ == "__main__":
    main()
