#!/usr/bin/env python3
"""Brings the definitions and lemmas of the crates to snake case: pageLimit becomes page_limit, join-all becomes join_all, a prime becomes an apostrophe.

usage: tools/respell.py           at the top of the repository, once, after the kit's port.py
       tools/respell.py --list    prints the old and the new names and writes nothing

A lemma whose new name is a definition's gets _lem behind it. Names of Rattle's own, of its library and of src/ keep their spelling.
"""
import collections
import os
import re
import sys

SEP = "\\s(){}\\[\\],;.\"⟨⟩⌜⌝`:"
MARKS = r"(?:(?:pattern|unfoldable|abbrev|pub|axiom)\s+)*"
SIGNATURE = re.compile(r"^\s*" + MARKS + r"([^%s=]+(?:\s+[^%s=]+)*?) :(?=\s|$)" % (SEP, SEP))
NAMED = re.compile(r"^\s*" + MARKS + r"(?:ruleset|record|data)\s+([^%s=]+)" % SEP)
USE = re.compile(r"^\s*(?:pub )?(?:ghost )?use ([^{\n]*?)\.\{([^}]*)\}", re.M)
TOKEN = re.compile(r"[^%s]+" % SEP)
# Definitions whose name in snake case a lemma or a field has already.
GIVEN = {
    "wordsLeft": "words_to_set",
    "inOrder": "is_in_order",
    "dueIn": "due_among",
    "rowWithin": "is_row_within",
    "heldBy": "held_state",
    "inBounds": "is_in_bounds",
    "fieldsFit": "fields_in_range",
    "stepFits": "step_in_range",
    "linesAfter": "line_marks_after",
    "wordOn": "word_once_laid",
    "refusedAs": "refused_with",
    "isRead": "is_reading",
    "cutRecord": "bytes_cut_short",
    "lastLine": "last_line_of",
    "notTaken": "left_untaken",
}
GIVEN_IN = {"fetch_lay/proofs/Ordering.antt": {"inOrder": "slots_in_order"}}


def files(top, *ends):
    for folder, folders, names in os.walk(top):
        folders[:] = sorted(f for f in folders if f not in ("out", ".git", "target", "bin"))
        for n in sorted(names):
            if n.endswith(ends):
                yield os.path.join(folder, n)


def read(p):
    with open(p, encoding="utf-8") as f:
        return f.read()


def odd(n):
    """Whether a name has another spelling than snake case; types and modules keep their capital."""
    return n[0] not in "◌_" and ("-" in n[1:] or "′" in n or (n[0].islower() and re.search(r"[a-z0-9][A-Z]", n)) or (n[0].islower() and re.search(r"_[A-Z]", n)))


def snake(n):
    n = n.replace("′", "'").replace("-", "_")
    if n[0].islower() and "→" not in n:
        n = re.sub(r"([a-z0-9])([A-Z])", lambda m: m.group(1) + "_" + m.group(2), n).lower()
    return n


def declared(top):
    """The crates' own names: those of definitions and lemmas, and which of them a dash joins."""
    own, plain = collections.Counter(), set()
    for p in files(os.path.join(top, "crates"), ".antt"):
        for line in read(p).split("\n"):
            if line.lstrip().startswith(("--", "use ", "pub use ", "mod ", "pub mod ")):
                continue
            m = SIGNATURE.match(line)
            for n in m.group(1).split() if m else []:
                (own.update([n]) if odd(n) else plain.add(n))
            m = NAMED.match(line)
            if m:
                (own.update([m.group(1)]) if odd(m.group(1)) else plain.add(m.group(1)))
    return own, plain


def main():
    top = os.path.dirname(os.path.dirname(os.path.realpath(__file__)))
    own, plain = declared(top)
    for n in [n for n in own if re.match(r"^(invariant|decreases)-loop", n) or n == "main-spec"]:
        del own[n]
    new, taken = {}, set(plain)
    # definitions first, then lemmas, so that a lemma gives way
    for n in sorted(own, key=lambda n: ("-" in n, n)):
        s = GIVEN.get(n) or snake(n)
        if n in GIVEN and s in taken:
            sys.exit(f"respell: {s} is taken")
        if s in taken and not n.endswith("-spec"):
            s += "_lem"
        while s in taken and not n.endswith("-spec"):
            s += "'"
        new[n] = s
        taken.add(s)
    foreign = collections.defaultdict(set)
    crates = set(os.listdir(os.path.join(top, "crates")))
    for p in files(os.path.join(top, "crates"), ".antt", ".rt"):
        for m in USE.finditer(read(p)):
            parts = m.group(1).strip().split(".")
            if not (parts[0] == "Rattle" and len(parts) > 1 and parts[1] in crates):
                for w in m.group(2).split(","):
                    w = w.strip().split(" as ")[-1].strip()
                    if w in new:
                        foreign[p].add(w)
    if "--list" in sys.argv:
        for n in sorted(new):
            print(n, new[n], own[n])
        for p in sorted(foreign):
            print("kept in", os.path.relpath(p, top), sorted(foreign[p]))
        return
    changed = 0
    for p in list(files(os.path.join(top, "crates"), ".antt", ".rt")):
        text = read(p)
        here = next((to for end, to in GIVEN_IN.items() if p.endswith(end)), {})
        out = []
        for line in text.split("\n"):
            code, dash, comment = (line, "", "")
            mark = "--" if p.endswith(".antt") else "//"
            at = line.find(mark + " ")
            if at >= 0:
                code, comment = line[:at], line[at:]

            def turned(m, s):
                w = m.group(0)
                before = s[: m.start()]
                if w not in new or w in foreign[p]:
                    return w
                if re.search(r"\b(tie|goal|c)\.$", before) and not re.search(r"\bc\.$", before):
                    return w
                return here.get(w, new[w])

            code = TOKEN.sub(lambda m: turned(m, code), code)
            comment = re.sub(r"`([^`]*)`", lambda m: "`" + TOKEN.sub(lambda k: new.get(k.group(0), k.group(0)), m.group(1)) + "`", comment)
            out.append(code + comment)
        fresh = "\n".join(out)
        if fresh != text:
            changed += 1
            with open(p, "w", encoding="utf-8") as f:
                f.write(fresh)
    print(f"respell: {len(new)} names, {changed} files")


main()
