#!/usr/bin/env python3
"""Groups the functions of src/ whose bodies have one shape: the same tokens, once names, numbers and texts are disregarded.

Run at the top of a checkout: `shapes.py LEAST`, where LEAST is the least number of tokens of a body (8 if left out)."""
import collections
import re
import subprocess
import sys

KEPT = set("match if else for in loop while return let mut break true false Some None Ok Err self Self as".split())


def sources():
    listed = subprocess.run(["git", "ls-files", "crates/*.rt"], capture_output=True, text=True, check=True)
    return [path for path in listed.stdout.split() if "/src/" in path]


def bodies(text):
    """The name and the body of each function that has one: a body begins at the first brace that ends a line, or, after
    clauses, at a line that is only a brace."""
    for found in re.finditer(r"\bfn (\w+)", text):
        rest = text[found.end():]
        head = re.search(r"\{\n|\{\}|;\n", rest)
        if not head or head.group() == ";\n":
            continue
        if re.search(r"\n\s*(ensures|requires) ", rest[:head.end()]):
            head = re.search(r"\n\s*(\{)\n|\n\s*(\{)\}", rest)
            if not head:
                continue
        start = rest.index("{", head.start())
        yield found.group(1), rest[start:end_of_braces(rest, start)]


def end_of_braces(text, start):
    depth = 0
    for at in range(start, len(text)):
        depth += {"{": 1, "}": -1}.get(text[at], 0)
        if depth == 0:
            return at + 1
    return len(text)


def shape(body):
    def form(token):
        if token in KEPT or not re.match(r'[\w"]', token):
            return token
        return "0" if token[0].isdigit() else "x"

    return tuple(form(token) for token in re.findall(r"\"[^\"]*\"|b'.'|\w+|[^\s\w]", body))


def main():
    least = int(sys.argv[1]) if len(sys.argv) > 1 else 8
    groups = collections.defaultdict(list)
    for path in sources():
        with open(path) as file:
            text = re.sub(r"//[^\n]*", "", file.read())
        for name, body in bodies(text):
            found = shape(body)
            if len(found) >= least:
                groups[found].append(f"{path.split('/')[1]}::{name}")
    twins = [(found, names) for found, names in groups.items() if len(names) > 1]
    for found, names in twins:
        print(f"{len(names)} of {len(found)} tokens: {', '.join(names)}")
    print(f"{len(twins)} groups")


main()
