"""Makes the places of vector loads short in a module as text: narrow.py TEXT OUT.

`wasm-opt --memory64-lowering` of binaryen 108 shortens the place of each load and store, but not of those that fill a part of a vector or
spread a number over one. Such an instruction stands on a line, and its place is the expression that begins on the next. A place that is
short already stays."""

import re
import sys

PART = re.compile(r"\(v128\.(?:load\d+(?:x\d+_[su]|_splat|_zero|_lane)|store\d+_lane)\b[^()]*(?=\()")
SHORT = "(i32.wrap_i64"


def end_of(text, start):
    """Returns where the expression ends that begins at `start`."""
    depth = 0
    for found in re.compile(r"[()]").finditer(text, start):
        depth += 1 if found.group() == "(" else -1
        if depth == 0:
            return found.end()
    raise ValueError("an expression does not end")


def narrowed(text):
    """Returns the text with each place of a vector load made short."""
    starts = [found.end() for found in PART.finditer(text) if not text.startswith(SHORT, found.end())]
    # (where one expression ends and the next begins, the end comes first)
    added = sorted([(end_of(text, start), 0, ")") for start in starts] + [(start, 1, SHORT + " ") for start in starts])
    parts, at = [], 0
    for place, _, words in added:
        parts += [text[at:place], words]
        at = place
    return "".join(parts) + text[at:]


with open(sys.argv[1]) as given:
    shorter = narrowed(given.read())
with open(sys.argv[2], "w") as out:
    out.write(shorter)
