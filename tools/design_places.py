#!/usr/bin/env python3
"""Counts the places of src/ that docs/DESIGN-PASS.md speaks of: `tools/design_places.py [FOLDER] [--list]`, FOLDER a checkout (this one
if not given). A place is a function or a type in whose text the point's pattern stands; a file's constants that number one thing are one
place. The patterns find more than what is meant, and the page says of what is left what it is."""
import collections
import pathlib
import re
import sys

CODES = (r"\bkinds::[A-Z]|\btokens::[A-Z]|\bsymbols::[A-Z]|\brules::[A-Z]|\bparser::(?:REFUSED|NOWHERE|FULL|PART)|"
         r"\b(?:KEPT|KEPT_WITH_NUMBER|FIRST|SECOND|NEGATED_SECOND|PASSED|IS_TRUE|IS_FALSE|OTHER|BRACKET|BECOMES|AFTER|REFUSED|NOWHERE|FULL)\b|"
         r"b'[A-Za-z_]'|\b(?:refuse|refusal|no_line)\([^)]*[0-9]|Refused\(|\bnumber: [0-9]|\bnumber == 0|\bnumber != 0|fault (?:!=|==) 0|"
         r"\b(?:Outcome|Verdict|Quotient|Checked|Value|Truth)::|-> (?:Outcome|Verdict|Quotient|Checked|Value|Truth)\b")
POINTS = {
    "1 codes": CODES,
    "3 counted loops": r"(?s)\b(?:while|loop)\b.*?\b(\w+) (?:\+=|-=|= \1 [+-]) 1;",
    "4 by hand": (r"^(?:pub )?fn (?:both|either|larger|lower|first|least|within|room|chosen|one_less|below|all_but|end_within|magnitude|size|digit|wide|"
                  r"is_digit|is_letter|is_blank|byte_at|word_at|end_at|shape_at|unsigned|twos_complement|rule_word|is_rule|operator_of|related|connected|"
                  r"value_of|negated|denied|truth_stopped|value_stopped|record_at|clear|put_name|with_digit|with_byte|largest|mark_fits|is_last|is_group|"
                  r"is_leaf|is_single|is_value|fits|begins|same_block|part_fault|word)\b"),
}
TYPES = r"^(?:pub )?enum (?:Verdict|Quotient|Checked|Value|Truth|Outcome|Replacement)\b|^    (?:pub )?(?:number: usize|whole: bool|in_new: bool),"


def items(text):
    """The functions, types and runs of constants of a file, each with its first line."""
    parts = re.split(r"(?m)^(?=(?:#\[|pub fn|fn |pub extern|pub struct|struct|pub enum|enum|pub const|const|impl|    pub fn|    fn ))", text)
    joined, wait = [], ""
    for part in parts:
        if part.startswith("#["):
            wait += part
            if not re.search(r"(?m)^(?:pub |fn |struct|enum)", part):
                continue
            part = ""
        joined.append(wait + part)
        wait = ""
    return joined


def name(item):
    m = re.search(r"(?:fn|struct|enum|const|impl(?:<[^>]*>)?) +([\w<>]+)", item)
    return m.group(1) if m else "?"


def code(item):
    return re.sub(r"//[^\n]*", "", item)


def main():
    args = [a for a in sys.argv[1:] if a != "--list"]
    root = pathlib.Path(args[0] if args else ".")
    found = collections.defaultdict(list)
    wide = collections.Counter()
    for path in sorted(root.glob("crates/*/src/**/*.rt")):
        crate = path.parts[-3] if path.parts[-2] == "src" else path.parts[-4]
        text = path.read_text()
        constants = re.findall(r"(?m)^(?:pub )?const [A-Z_]+: (?:usize|u8|i32|u64) = [^;]*;", text)
        if len(constants) > 2:
            found["1 codes"].append(f"{crate}/{path.name}: {len(constants)} constants")
        for item in items(text):
            body = code(item)
            if re.search(TYPES, body, re.M):
                found["1 codes"].append(f"{crate}/{path.name}: type {name(item)}")
            elif re.search(r"\bfn ", body):
                for point, pattern in POINTS.items():
                    if re.search(pattern, body, re.M):
                        found[point].append(f"{crate}/{path.name}: {name(item)}")
                head = body.split("{", 1)[0].split("ensures")[0]
                parameters = len(re.findall(r"\b\w+: ", head.split("requires")[0].split("->")[0]))
                if parameters > 5 and "extern" not in head:
                    found["5 more than five parameters"].append(f"{crate}/{path.name}: {name(item)}")
                for clause in re.findall(r"requires(?: \w+)? \{ (.*?) \}\n", body):
                    wide[(crate, clause)] += 1
                if re.search(r"= \[[^\]]+; [0-9A-Z]+\]", body):
                    found["6 local arrays"].append(f"{crate}/{path.name}: {name(item)}")
    for (crate, clause), count in wide.items():
        if count > 2:
            found["5 a fact required by three or more"].append(f"{crate}: {count} functions require {clause}")
    for point in sorted(found):
        print(f"{point}: {len(found[point])}")
        if "--list" in sys.argv:
            for place in found[point]:
                print(f"    {place}")
    answers = sum(len(p.read_text().splitlines()) for p in root.glob("crates/*/proofs/**/*.antt") if "out" not in p.parts)
    files = sum(1 for p in root.glob("crates/*/proofs/**/*.antt") if "out" not in p.parts)
    print(f"8 proofs: {files} files, {answers} lines")


main()
