"""Lists the pairs of parameters that stand together in three functions or more, and the clauses that stand in two or more.

Run at the top of the repository: python3 tools/together.py
"""
import collections
import glob
import itertools
import re


def closing(text, start, opens, closes):
    """Where the bracket at `start` closes; an arrow's point is no bracket."""
    depth = 0
    for place in range(start, len(text)):
        if text[place] in opens:
            depth += 1
        elif text[place] in closes and text[place - 1] != "-":
            depth -= 1
            if depth == 0:
                return place
    return start


pairs = collections.defaultdict(list)
clauses = collections.defaultdict(list)
for path in sorted(glob.glob("crates/*/src/**/*.rt", recursive=True)):
    text = re.sub(r"^\s*//.*$", "", open(path, encoding="utf-8").read(), flags=re.M)
    functions = []
    for found in re.finditer(r"\bfn (\w+)", text):
        start = found.end()
        if text[start] == "<":
            start = closing(text, start, "<", ">") + 1
        if text[start] != "(":
            continue
        functions.append((found.start(), found[1]))
        parameters = text[start + 1 : closing(text, start, "(", ")")]
        words = sorted(re.findall(r"(\w+)\s*:(?!:)", parameters))
        for pair in itertools.combinations(words, 2):
            pairs[pair].append(f"{path}:{found[1]}")
    for found in re.finditer(r"\b(?:requires|ensures)\b\s*\w*\s*\{", text):
        clause = " ".join(text[found.end() : closing(text, found.end() - 1, "{", "}")].split())
        name = [name for start, name in functions if start < found.start()][-1]
        clauses[clause].append(f"{path}:{name}")
for what, found, least in (("parameters", pairs, 3), ("clause", clauses, 2)):
    for key, places in sorted(found.items(), key=lambda item: -len(item[1])):
        if len(places) >= least:
            print(len(places), what, key if what == "clause" else " and ".join(key), *places)
