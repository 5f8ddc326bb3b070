#!/usr/bin/env python3
"""Brings must-fail edits of the older spelling to today's: names in snake case, tight projections, clauses without brackets, today's imports.

usage: tools/turn_edits.py CRATE..    at the top of the repository; an edit whose texts all stand once in their file is left as it is

An edit is written again only where each of its texts stands exactly once in today's file; the others are printed, to be turned by hand.
Of an import only the names that the edit adds or exchanges are taken over, into the line that brings that module's names in today.
"""
import glob
import os
import re
import sys

# As in respell.py, which turned the files that the edits speak of.
GIVEN = {
    "wordsLeft": "words_to_set",
    "inOrder": "is_in_order",
    "dueIn": "due_among",
    "rowWithin": "is_row_within",
    "heldBy": "held_state",
    "inBounds": "is_in_bounds",
    "fieldsFit": "fields_in_range",
    "stepFits": "step_in_range",
    "linesAfter": "line_marks_after",
    "wordOn": "word_once_laid",
    "refusedAs": "refused_with",
    "isRead": "is_reading",
    "cutRecord": "bytes_cut_short",
    "lastLine": "last_line_of",
    "notTaken": "left_untaken",
}
KIT = {"getD": "get_or"}
KEYWORDS = {"let", "in", "record", "λ", "→", "=", ":", "∷", "&&", "||", "+", "-", "*", "/", "%", "<", "≤", "≡", "⊎", ";", ","}
PROJECTION = re.compile(r"\.[A-Za-z_]\w*")
USE = re.compile(r"^(ghost )?use ([^{]+)\.\{([^}]*)\};?$")


def name(w):
    """One word in today's spelling."""
    if re.fullmatch(r"_[^_\w]+_", w):
        return "◌" + w[1:-1] + "◌"
    if w in KIT or w in GIVEN:
        return KIT.get(w) or GIVEN[w]
    w = w.replace("′", "'").replace("-", "_") if len(w) > 1 else w
    return re.sub(r"([a-z0-9])([A-Z])", lambda m: m.group(1) + "_" + m.group(2), w).lower() if w[0].islower() and "→" not in w else w


class Group:
    def __init__(self, items, closed):
        self.items, self.closed = items, closed


def parse(words, inner=False):
    items = []
    while words:
        w = words.pop(0)
        if w == "(":
            items.append(parse(words, True))
        elif w == ")" and inner:
            return Group(items, True)
        else:
            items.append(w)
    return Group(items, False) if inner else items


def shown(item):
    if isinstance(item, str):
        return item
    inside, last = tight(item.items), item.items[-1] if item.items else None
    # a projection of one thing needs no brackets
    if item.closed and isinstance(last, str) and PROJECTION.fullmatch(last) and not KEYWORDS & {i for i in item.items if isinstance(i, str)}:
        return inside
    return "(" + inside + (")" if item.closed else "")


def tight(items):
    """The text of a row of items, each projection set on what it is taken of: the whole application before it."""
    out, start = [], 0
    for item in items:
        w = shown(item)
        if isinstance(item, str) and PROJECTION.fullmatch(w):
            of = out[start:]
            one = len(of) == 1
            out[start:] = [(of[0] if one else "(" + " ".join(of) + ")") + "." + name(w[1:])]
        else:
            w = name(w) if isinstance(item, str) else w
            out.append(w)
            if isinstance(item, str) and (w in KEYWORDS or w.endswith(".") or w in ("{", "}")):
                start = len(out)
    return re.sub(r" ([;,])", r"\1", " ".join(out))


def definition(text):
    """A text of specs/."""
    words = re.findall(r"[(){};,]|[^\s(){};,]+", text.replace("⌜", "").replace("⌝", ""))
    return tight(parse(words))


def clause(text):
    """A text of src/: a clause loses its brackets and calls what is answered `result`."""
    m = re.fullmatch(r"λ (\w+)\. ⌜ (.*) ⌝", text)
    if m:
        return definition(re.sub(r"\b%s\b" % m.group(1), "result", m.group(2)))
    return text


def imports(old, new, text):
    """The line of today's file that brings the names in, and that line with the names that the edit adds and without those that it takes out."""
    path = USE.match(old).group(2)
    was, then = ([name(n.strip()) for n in USE.match(x).group(3).split(",")] for x in (old, new))
    if path.split(".")[0] in ("Prim", "mathlib", "lib"):
        path = "Rattle.std.specs.Prelude"
    else:
        path = re.sub(r"^Rattle·(\w+)(?:·specs)?\.specs\.", r"Rattle.\1.specs.", path)
    lines = [x for x in text.split("\n") if (m := USE.match(x)) and m.group(2) == path]
    if len(lines) != 1:
        return None
    have = [n.strip() for n in USE.match(lines[0]).group(3).split(",")]
    now = [n for n in have if n in then or n not in was]
    for i, n in enumerate(then):
        if n not in was and n not in now:
            now.insert(now.index(then[i - 1]) + 1 if i and then[i - 1] in now else len(now), n)
    return lines[0], lines[0].replace("{" + USE.match(lines[0]).group(3) + "}", "{" + ", ".join(now) + "}")


def turned(top, edit):
    """The edit's lines in today's spelling, or what is left to do by hand."""
    with open(edit, encoding="utf-8") as f:
        lines = f.read().rstrip("\n").split("\n")
    text, comments, pairs, old = "", [], [], ""
    for line in lines:
        if line.startswith("file:"):
            file = line[5:].strip()
            with open(os.path.join(top, file), encoding="utf-8") as f:
                text = f.read()
            comments.append(line)
        elif line.startswith("old:"):
            old = line[4:].strip()
        elif line.startswith("new:"):
            pairs.append((old, line[4:].strip()))
        else:
            comments.append(line)
    plain = text
    if all(plain.count(o) == 1 and (plain := plain.replace(o, n)) for o, n in pairs):
        return None, None
    spell = definition if file.endswith(".antt") else clause
    fresh = []
    for old, new in pairs:
        if USE.match(old) and text.count(old) != 1:
            pair = imports(old, new, text)
            if pair is None:
                return None, f"no line brings in what {old} did"
            if pair[0] == pair[1]:
                continue
        else:
            pair = (spell(old), spell(new))
        if text.count(pair[0]) != 1:
            return None, f"{text.count(pair[0])} times: {pair[0]}"
        text = text.replace(*pair)
        fresh.append(pair)
    merged = []
    for old, new in fresh:
        if merged and merged[-1][1] == old:
            merged[-1] = (merged[-1][0], new)
        else:
            merged.append((old, new))
    return comments + [line for o, n in merged for line in ("old: " + o, "new: " + n)], None


def main():
    top = os.path.dirname(os.path.dirname(os.path.realpath(__file__)))
    for crate in sys.argv[1:]:
        folder = os.path.join(top, "crates", crate)
        for edit in sorted(glob.glob(os.path.join(folder, "must-fail", "*.edit"))):
            lines, left = turned(folder, edit)
            if left:
                print(f"by hand: {crate}/{os.path.basename(edit)}: {left}")
            elif lines:
                with open(edit, "w", encoding="utf-8") as f:
                    f.write("\n".join(lines) + "\n")
                print(f"turned: {crate}/{os.path.basename(edit)}")


main()
