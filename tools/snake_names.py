#!/usr/bin/env python3
"""Spells the repository's own definitions and lemmas in snake case, and its types in camel case: `field-number` as `field_number`,
`Links-to` as `LinksTo`. Run once, at the top, right after the kit's port.py; a second run changes nothing.

What is declared in specs/ and in lemma files (proofs/*.antt) turns, in every .antt and .rt file, in must-fail edits, and in the code
spans of comments and of the pages. A name that a file brings in from the library stays in that file, and so does what a proof of a
function (proofs/F/) declares itself.
"""

import collections
import os
import re
import sys

WORD = re.compile(r'[^\s(){}.;,@"«»\x60]+')
DECLARED = re.compile(r"^\s*(?:(?:pub|unfoldable|abbrev|pattern|private|record|data|mutual|where)\s+)*(?:\{)?(\S+)(?:\s+[{(][^{}()]*[)}])*\s*:(?=\s|$)")
# Several constructors or fields of one type, as in `bracket-due becomes-due : Due`.
TOGETHER = re.compile(r"^\s*(?:pub\s+)?([^\s(){}:]+(?:\s+[^\s(){}:]+)+)\s+:\s")
TEXT = re.compile(r'"[^"\n]*"')
COMMENT = re.compile(r"(?<![^\s(){}.;,])--[^\n]*")
SPAN = re.compile(r"\x60[^\x60\n]+\x60")
LIBRARY = re.compile(r"\buse\s+(?:Rattle\.(?:std|core|std_alloc|std_collections|std_heap|std_io|libc|io|os)|Prim|[a-z]\w*)\b[^\n{;]*\{([^}]*)\}")
OWN_PROOF = re.compile(r"/proofs/.*/|/proofs/\+")


def files(ending, skip=("out", "target", ".git")):
    for folder, dirs, names in os.walk("."):
        dirs[:] = sorted(d for d in dirs if d not in skip)
        for f in sorted(names):
            if f.endswith(ending):
                yield os.path.join(folder, f)


def read(path):
    with open(path, encoding="utf-8") as f:
        return f.read()


def spelled(name):
    """The name in today's spelling."""
    head = name.lstrip("◌")
    if head[:1].isupper() and not head.startswith(KEPT_HEADS):
        first, *rest = name.split("-")
        return first + "".join(w[:1].upper() + w[1:] for w in rest)
    return name.replace("-", "_")


KEPT_HEADS = ("Iff·",)


def is_of_a_function(path):
    return bool(re.search(r"/proofs/.+/", path))


def code(text):
    return COMMENT.sub(" ", text)


def declarations(text):
    found = set()
    for line in TEXT.sub(" ", code(text)).splitlines():
        m = DECLARED.match(line)
        if m:
            found.add(m[1])
        m = TOGETHER.match(line)
        if m:
            found.update(m[1].split())
    return found


def library_names(text):
    found = set()
    for m in LIBRARY.finditer(text):
        found.update(WORD.findall(m[1]))
    return found


def main():
    texts = {p: read(p) for p in files((".antt", ".rt"))}
    table = {}
    for path, text in texts.items():
        if path.endswith(".antt") and not is_of_a_function(path):
            for name in declarations(text):
                if "-" in name and name not in LOCAL and not name.startswith("-") and re.search(r"\w-\w|\w-$|[ᶠᵉˢ'·₁₂₃]-\w", name):
                    table[name] = SPECIAL.get(name, spelled(name))
    for name in [n for n in table if "◌" in n]:
        table[name.strip("◌")] = table[name].strip("◌")
    said = collections.defaultdict(set)
    for path, text in texts.items():
        words = set(WORD.findall(code(text)))
        stays = library_names(text)
        if is_of_a_function(path):
            stays = stays | declarations(text)
        mine = {n for n in table if n in words and n not in stays}
        turned = collections.Counter(table[n] for n in mine)
        for n in mine:
            rivals = [x for x in words if x == table[n]]
            if path.endswith(".antt") and (rivals or turned[table[n]] > 1):
                said[n].add(path)
    for n, paths in sorted(said.items()):
        print(f"meets: {n} as {table[n]} in {' '.join(sorted(paths)[:4])}")
    if "--check" in sys.argv:
        print(len(table), "names")
        return
    for path, text in texts.items():
        stays = library_names(text)
        if is_of_a_function(path):
            stays = stays | declarations(text)
        new = turn_code(text, table, stays, path.endswith(".rt"))
        write(path, text, new)
    for path in files(".edit"):
        text = read(path)
        write(path, text, WORD.sub(lambda m: table.get(m[0], m[0]), text))
    for path in files(".md"):
        text = read(path)
        write(path, text, SPAN.sub(lambda m: WORD.sub(lambda w: table.get(w[0], w[0]), m[0]), text))


def turn_code(text, table, stays, is_rust):
    one = lambda m: m[0] if m[0] in stays else table.get(m[0], m[0])
    plain = lambda t: outside_texts(t, lambda part: WORD.sub(one, part))
    spans = lambda t: SPAN.sub(lambda m: WORD.sub(one, m[0]), t)
    comment = re.compile(r"//[^\n]*") if is_rust else COMMENT
    out, at = [], 0
    for m in comment.finditer(text):
        out += [plain(text[at : m.start()]), spans(m[0])]
        at = m.end()
    out.append(plain(text[at:]))
    return "".join(out)


def outside_texts(text, turn):
    """The text with what stands outside quotation marks turned."""
    out, at = [], 0
    for m in TEXT.finditer(text):
        out += [turn(text[at : m.start()]), m[0]]
        at = m.end()
    return "".join(out) + turn(text[at:])


def write(path, old, new):
    if new != old:
        with open(path, "w", encoding="utf-8") as f:
            f.write(new)


# Local names that look like declarations.
LOCAL = {"here-now", "by-assertion", "at-while", "at-if", "at-assignment", "at-second-test"}

# Where the plain spelling would meet another name.
SPECIAL = {
    "slice-val": "slice_value",
    "in-new": "in_new_list",
    "in-old": "in_old_list",
    "Statement-row": "IsStatementRow",
    "At-most": "AtMostTop",
    "All-within": "EachWithin",
}

if __name__ == "__main__":
    main()
