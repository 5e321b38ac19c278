#!/usr/bin/env python3
"""The places of the design pass, counted from the words of the sources and not from their lines.

Comments, strings and clauses are set aside first, so that what is counted is code; clauses are counted by themselves.
Usage, at the top of the repository: python3 tools/places.py [-v]
"""
import collections
import pathlib
import re
import sys

VERBOSE = "-v" in sys.argv
TOKEN = re.compile(r"b?'(?:\\.|[^'\\])'|\"[^\"]*\"|'[a-z_]+|[A-Za-z_][A-Za-z_0-9]*|[0-9][0-9a-z_]*|\.\.=?|::|->|=>|[-+*/%&|^!=<>]=|&&|\|\||\S")


def clauses_of(text):
    """The text without clauses and ghost items, and the clauses."""
    kept, clauses, at = [], [], 0
    pattern = re.compile(r"\b(requires|ensures|invariant)\b[^{]*\{|\bghost\s+(?!use\b)[^{;]*\{|\bghost use\b[^;]*;")
    while True:
        found = pattern.search(text, at)
        if not found:
            kept.append(text[at:])
            return "".join(kept), clauses
        kept.append(text[at:found.start()])
        end = found.end()
        if found.group(0).endswith("{"):
            depth = 1
            while depth and end < len(text):
                depth += {"{": 1, "}": -1}.get(text[end], 0)
                end += 1
            if found.group(1):
                clauses.append((found.group(1), " ".join(text[found.end():end - 1].split())))
        at = end


def functions_of(tokens):
    """Name, parameters and body of each function, as tokens."""
    for i, word in enumerate(tokens):
        if word != "fn":
            continue
        name, j, depth = tokens[i + 1], i + 2, 0
        while j < len(tokens) and not (tokens[j] == "{" and depth == 0) and tokens[j] != ";":
            depth += {"(": 1, ")": -1, "[": 1, "]": -1}.get(tokens[j], 0)
            j += 1
        if j == len(tokens) or tokens[j] == ";":
            continue
        head, k, depth = tokens[i + 2:j], j + 1, 1
        while depth and k < len(tokens):
            depth += {"{": 1, "}": -1}.get(tokens[k], 0)
            k += 1
        yield name, head, tokens[j + 1:k - 1]


def shape_of(body):
    """A body with each name and number by the order in which it first comes: what is left where types, constants and names differ."""
    names = {}
    keep = {"if", "else", "match", "for", "in", "while", "loop", "let", "mut", "return", "as", "break", "continue", "self", "Ok", "Err", "Some", "None"}
    return tuple(w if w in keep or not re.match(r"[A-Za-z_0-9b'\"]", w) else names.setdefault(w, f"n{len(names)}") for w in body)


found = collections.defaultdict(list)
facts = collections.defaultdict(set)
shapes = collections.defaultdict(list)
for path in sorted(pathlib.Path("crates").glob("*/src/**/*.rt")):
    crate = path.parts[1]
    text = re.sub(r"//[^\n]*", "", path.read_text())
    text = re.sub(r"#!?\[[^\]]*\]", "", text)
    code, clauses = clauses_of(text)
    code = code.split("#[cfg(test)]")[0]
    for kind, clause in clauses:
        if kind == "requires":
            found["5 requires"].append(f"{crate}: {clause}")
            for part in re.split(r"×", clause):
                words = re.sub(r"\b[a-z_]+\.(now|old|entry)\b", "X.\\1", part.strip(" ()"))
                facts[words].add(f"{crate}:{clause}")
    tokens = TOKEN.findall(code)
    for i, word in enumerate(tokens):
        here = f"{crate}: {' '.join(tokens[max(0, i - 3):i + 8])}"
        if word == "enum":
            j, depth, variants = i + 1, 0, 0
            while tokens[j] != "{":
                j += 1
            body = []
            j += 1
            depth = 1
            while depth:
                depth += {"{": 1, "}": -1, "(": 1, ")": -1}.get(tokens[j], 0)
                if depth == 1 and tokens[j] not in (",", "}", ")"):
                    body.append(tokens[j])
                j += 1
            if len(body) <= 3:
                found["1 enums of at most three variants"].append(f"{crate}: {tokens[i + 1]} {body}")
        if word == "refusal" and tokens[i + 1:i + 3] == [":", "u32"]:
            found["1 a refusal as a number"].append(here)
        if word in ("==", "!=", "<") and "refusal" in tokens[max(0, i - 3):i + 3]:
            found["1 a refusal asked by number"].append(here)
        if word == "bool" and tokens[i - 1] == ":" and tokens[i - 3] in ("pub", ",", "{"):
            found["1 a flag in a struct or among parameters (7: what it switches)"].append(here)
        if word == "while":
            found["3 while"].append(here)
        if word == "loop":
            found["3 loop"].append(here)
        if word in ("..", "..=") and "for" in tokens[max(0, i - 8):i] and "in" in tokens[max(0, i - 6):i]:
            found["3 for over a range"].append(here)
        if word == "as" and tokens[i + 1] in ("u8", "u16", "u32", "u64", "usize", "i64", "i32", "u128"):
            found[f"4 as {tokens[i + 1]}"].append(here)
        if word in ("==", "!=") and tokens[i + 1] == "0" and tokens[i - 2:i] == [".", "0"]:
            found["1 an index or a number that is 0 for none"].append(here)
        if word == "struct" and "{" in tokens[i:i + 6]:
            pass
    for name, head, body in functions_of(tokens):
        if len(body) >= 12 or True:
            if len(body) >= 4:
                shapes[shape_of(body)].append(f"{crate}::{name}")
        params = " ".join(head)
        if re.search(r"\b(at|from|start|to) : usize", params) and "[ u8 ]" in params:
            found["6 a text and a place in it"].append(f"{crate}::{name}")
        if params.count(": bool") > 0 and "(" in params:
            found["7 a switch among the parameters"].append(f"{crate}::{name}")
twins = {s: n for s, n in shapes.items() if len(set(n)) > 1 and len(s) >= 12}
found["2 functions of one shape"] = sorted(" ".join(sorted(set(n))) for n in twins.values())
many = {f: n for f, n in facts.items() if len(n) >= 3}
found["5 facts that three clauses or more ask"] = [f"{len(n)}: {f}" for f, n in sorted(many.items(), key=lambda p: -len(p[1]))]
for point in sorted(found):
    print(f"{len(found[point]):5}  {point}")
    if VERBOSE:
        for place in found[point]:
            print("         " + place)
