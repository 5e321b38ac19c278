#!/usr/bin/env python3
"""Lists functions of crates/*/src whose bodies are one another's but for types, constants and the names that stand there.

usage: tools/twins.py        at the top of the repository
A body is taken as its words and signs: each name becomes one word, each number another and each text a third; bodies of fewer than 14
of them, and tests, are left out. What is listed is to be read: bodies of one shape may mean different things.
"""
import re
from collections import defaultdict
from pathlib import Path

WORDS = re.compile(r'"(?:[^"\\]|\\.)*"|b?\'(?:[^\'\\]|\\.)+\'|[A-Za-z_]\w*|\d[\w.]*|[^\s\w]')
FUNCTION = re.compile(r"\bfn (\w+)")
# where a body opens: alone on its line behind clauses, or behind the arguments and the answer
OPENS = re.compile(r"^\s*\{\s*$|\)(?: -> [^{;]*)? \{\s*$", re.M)
KEPT = set("fn let mut if else match while for in return true false self as loop break continue".split())
SHORTEST = 14


def shape(word):
    if word in KEPT:
        return word
    if word[0].isdigit():
        return "0"
    if word[0] in "\"'" or word.startswith("b'"):
        return "text"
    return "name" if re.match(r"[A-Za-z_]", word) else word


def body(text, start):
    """The body of the function whose name ends at `start`; nothing where it has none."""
    opens, following = OPENS.search(text, start), FUNCTION.search(text, start)
    if not opens or (following and following.start() < opens.start()):
        return ""
    first = text.rindex("{", 0, opens.end())
    depth = 0
    for i in range(first, len(text)):
        depth += (text[i] == "{") - (text[i] == "}")
        if depth == 0:
            return text[first : i + 1]
    return ""


def main():
    groups = defaultdict(list)
    for path in sorted(Path("crates").glob("*/src/**/*.rt")):
        text = re.sub(r"//.*", "", path.read_text().split("#[cfg(test)]")[0])
        for function in FUNCTION.finditer(text):
            words = WORDS.findall(body(text, function.end()))
            if SHORTEST <= len(words):
                groups[" ".join(map(shape, words))].append(f"{path.parts[1]}::{function.group(1)}")
    twins = sorted((names for names in groups.values() if 1 < len(names)), key=len, reverse=True)
    for names in twins:
        print(len(names), *names)
    print(f"{sum(map(len, twins))} functions in {len(twins)} groups")


main()
