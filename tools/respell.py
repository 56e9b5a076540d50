#!/usr/bin/env python3
"""Brings the names of this repository's own definitions and lemmas to one spelling.

Run once, at the top, right after the kit's own port script. In every .antt and .rt file, strings
left alone, it turns each name of NEW and JOINED below: plain words are joined by `_`, and facts and types
are in camel case. A dash stays only where it joins two names, as in `bit-zero`.
Names that would have fallen together with another get a new word: see NEW.
"""

import os
import re

# Facts and types.
NEW = {
    "Is-cycle": "IsCycle",
    "Line-of": "LineOf",
    "One-result": "HasOneResult",  # OneResult is a variant of Outcome
    "Rows-below": "RowsBelow",
    "Sound-below": "SoundBelow",
    # `bit_or` and `bit_and` are the library's: the lemmas are on the bit of those
    "bit-or": "bit-bit_or",
    "bit-and": "bit-bit_and",
    "bit-power": "bit-pow",
}

# Definitions, fields, lemmas and local steps that join plain words.
JOINED = """
accepted-rest allow-inside allow-small allowed-acyclic among-not among-tally arc-inside at-allow at-cycle at-flaw
at-higher at-lower bit-put bit-read chain-fed chain-here chain-join chain-map clash-or-none clashing-comm
clashing-present clashing-same closed-closure closed-more closed-sound closed-step closed-via closure-same cycle-chain
cycle-map cycle-or cyclic-chain every-is few-events few-variables first-clash flaw-at from-chain from-n gather-all
gather-more has-inside joined-2 joined-3 joined-4 least-cyclic least-flawed least-formed least-higher least-is
least-lower least-one least-value member-inside member-none no-clash no-flaw no-order no-unless none-on-cycle on-cycle
or-none order-at order-inside order-projects outcome-at outcome-comes partner-of passed-add passed-skip refused-cycle
rows-add rows-skip some-on-cycle sound-below spelled-more tally-below tally-first tally-le tally-more tally-none
tally-one tally-room tally-same to-chain to-n turn-cycle turned-cycle value-comes verdict-cyclic verdict-means walk-fed
walk-next with-partner
"""

NEW.update({name: name.replace("-", "_") for name in JOINED.split()})
WORD = re.compile(r"[^\s(){}\[\],;.·`\"]+")
STRING = re.compile(r'"(?:[^"\\]|\\.)*"')


def respell(text):
    """The text with each whole name turned, strings left alone."""
    parts, at = [], 0
    for string in STRING.finditer(text):
        parts += [turned(text[at : string.start()]), string.group()]
        at = string.end()
    return "".join(parts + [turned(text[at:])])


def turned(text):
    return WORD.sub(lambda m: NEW.get(m.group(), m.group()), text)


def files():
    for folder, dirs, names in os.walk("crates"):
        dirs[:] = sorted(d for d in dirs if d != "out")
        for name in sorted(names):
            if name.endswith((".rt", ".antt")):
                yield os.path.join(folder, name)


def main():
    fell = {n for n in NEW.values() if list(NEW.values()).count(n) > 1}
    assert not fell, fell
    for path in files():
        with open(path, encoding="utf-8") as f:
            old = f.read()
        new = respell(old)
        if new != old:
            with open(path, "w", encoding="utf-8") as f:
                f.write(new)


main()
