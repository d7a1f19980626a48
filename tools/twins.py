#!/usr/bin/env python3
"""Lists the functions of crates/*/src whose bodies are one up to names, numbers and texts: where a twin may be."""
import collections
import re
import subprocess
import sys

KEPT = {"if", "else", "for", "in", "match", "let", "mut", "return", "while", "true", "false", "Some", "None", "Ok", "Err"}
LEAST = 8  # tokens; a shorter body says too little


def shape(body):
    """The body with its names, numbers and texts blanked, or None where it is too short."""
    tokens = re.findall(r'[A-Za-z_]\w*|\d[\d_]*|"[^"]*"|[^\s\w]', body)
    if len(tokens) < LEAST:
        return None
    return " ".join("#" if re.match(r'[\w"]', token) and token not in KEPT else token for token in tokens)


def functions(text):
    """The name and body of each function."""
    for found in re.finditer(r"^( *)(?:pub(?:\([a-z]+\))? )?fn (\w+)", text, re.M):
        indent = found.group(1)
        body = re.compile(r"(?:^" + indent + r"\{|\{)\n(.*?)^" + indent + r"\}", re.M | re.S).search(text, found.start())
        if body:
            yield found.group(2), body.group(1)


def main():
    folder = sys.argv[1] if len(sys.argv) > 1 else "."
    files = subprocess.check_output(["git", "ls-files", "crates/*/src/*.rt"], cwd=folder, text=True).split()
    groups = collections.defaultdict(list)
    for file in files:
        with open(f"{folder}/{file}", encoding="utf-8") as source:
            for name, body in functions(source.read()):
                key = shape(body)
                if key:
                    groups[key].append(f"{file.removeprefix('crates/').replace('/src/', '/')}:{name}")
    twins = sorted((group for group in groups.values() if len(group) > 1), key=len, reverse=True)
    for group in twins:
        print(len(group), " ".join(group))
    print("functions with a twin:", sum(map(len, twins)))


main()
