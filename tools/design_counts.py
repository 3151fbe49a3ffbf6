#!/usr/bin/env python3
"""Counts, for docs/DESIGN-PASS.md, the places in crates/*/src of the forms that the page goes through, by text alone.

usage: tools/design_counts.py [FOLDER] [POINT]    a folder with crates/, this repository else; with a point (as 3) its places are listed
"""
import glob
import os
import re
import sys

FIVE = ("s", "keys", "links", "certs", "order")
LENGTHS = {"order": ("n", "count"), "places": ("n", "m", "count"), "rows": ("n",), "sets": ("n",), "list": ("count",), "lists": ("lists_end",)}


def functions(text):
    """Each function's name, its parameters (name, type) and its body."""
    for found in re.finditer(r"(?m)^( *)(?:pub )?fn (\w+)(?:<[^>]*>)?\(", text):
        depth, at = 1, found.end()
        while depth:
            depth += {"(": 1, ")": -1}.get(text[at], 0)
            at += 1
        given = re.findall(r"(\w+): ((?:[^,\[\]()<>]|\[[^\]]*\]|<[^>]*>|\([^)]*\))+)", text[found.end() : at - 1])
        end = re.compile(r"(?m)^" + found[1] + r"\}$").search(text, at)
        yield found[2], given, text[at : end.end() if end else len(text)], text.count("\n", 0, found.start()) + 1


def places(file, text):
    """(point, line, what) for each place of the file."""
    for number, line in enumerate(text.split("\n"), 1):
        code = re.sub(r"//.*", "", line)
        if re.search(r"\b(Check|Found|Resolved|Since|UsedAuthor)::", code) and not re.search(r"(Look|PointTest)::", code):
            yield 1, number, "own Option or Result: " + code.strip()
        if re.search(r"\b(Step::Bad|Event::Cut)\b", code):
            yield 1, number, "own Option or Result: " + code.strip()
        if re.search(r"^ +(pub )?(check|ok|code|refused|has_previous|filled_rounds): ", code):
            yield 1, number, "a flag or a number beside values: " + code.strip()
        if re.search(r"^pub const (?!\w+_(BYTES|MAX|WORDS))[A-Z_]+: u32 = [0-9]+;", code) and re.search(r"refusal.rt|trace/", file):
            yield 1, number, "a number for a kind or a refusal: " + code.strip()
        if re.search(r"const \w+: (u64|u32|u8) = \w+ as ", code) or re.search(r"const PEER_LAST_WORD", code):
            yield 2, number, "a constant again in another type: " + code.strip()
        if re.search(r"fn (emit|put)_(number|digest|id)\(|fn set_(top|deps|committed)\(|fn (byte|short|number|word)_of\(|fn (slot|one_if|weight|flag|wide|armed)\(|fn (and|or)\(", code):
            yield 2, number, "one of several alike: " + code.strip()
        if re.search(r"^ +while ", code):
            yield 3, number, "a loop by hand: " + code.strip()
        if re.search(r"fn (same_digest|digest_less|less|is_lower|min|max|prev|minus|saturating_add|less_one|and|or|has_peer)\(", code):
            yield 4, number, "equality, order or arithmetic: " + code.strip()
        if re.search(r"fn (of_status|refusal_number|used_in|since_in|kind|put_.*line|write_number|put_decimal)\(", code):
            yield 4, number, "conversion or printing: " + code.strip()
        if re.search(r"match (kind|self|test|fault|counter|byte) \{", code):
            yield 7, number, "a switch: " + code.strip()
    for name, given, body, number in functions(text):
        five = [n for n, t in given if n in FIVE and re.match(r"&?(mut )?(State|\[u64\])", t)]
        if len(five) > 2:
            yield 5, number, f"{name}: {' '.join(five)}"
        held = {n for n, _ in given}
        if any(s in held and held & set(ls) for s, ls in LENGTHS.items()):
            yield 6, number, f"{name}: a slice and its length"


def main():
    words = sys.argv[1:]
    point = int(words.pop()) if words and words[-1].isdigit() else 0
    root = words[0] if words else os.path.join(os.path.dirname(os.path.abspath(__file__)), "..")
    counts = {}
    for path in sorted(glob.glob(os.path.join(root, "crates/*/src/**/*.rt"), recursive=True)):
        file = os.path.relpath(path, os.path.join(root, "crates"))
        for at, line, what in places(file, open(path).read()):
            kind = what.split(":")[0] if at in (1, 2, 3, 4, 7) else {5: "functions", 6: "functions"}[at]
            counts.setdefault((at, kind), []).append(f"{file}:{line}: {what}")
    raw = 0
    for path in glob.glob(os.path.join(root, "crates/*/proofs/**/*.antt"), recursive=True):
        raw += len(re.findall(r"-raw\b|-own\b|shared_slice_known|(?<!shared_)slice_known", open(path).read()))
    for (at, kind), found in sorted(counts.items()):
        print(f"point {at}: {len(found):4}  {kind}")
        if at == point:
            print("\n".join("    " + it for it in found))
    print(f"point 8: {raw:4}  citations of the checker's own names in proofs")


main()
