#!/usr/bin/env python3
"""Brings the repository's own names in specs/, proofs/, contracts and must-fail edits to the spelling of today's Rattle.

usage: tools/respell.py [--dry] [--map FILE]        once, at the top of the checkout, right after the port's own scripts
FILE: names as an earlier run printed them, to be taken in place of those found here (tools/respelled.txt has those of this repository).

- a name in camel case that begins small becomes snake case (`anchorId`: `anchor_id`); types keep their form;
- a dash stays between two names (`keep-length`: `keep` and `length` are both words) and becomes `_` before or after a plain word
  (`keep-elim`: `keep_elim`);
- two names that would fall together: the lemma gets `_lem`;
- names of the library, goals that Rattle names, functions of src/, text in quotes and exported names stay.
What was renamed is printed, a line each.
"""
import collections, glob, re, sys

DRY = "--dry" in sys.argv[1:]
OWN = {l.split(":")[0].split()[0] for l in open("crates.txt") if ":" in l and not l.startswith("#")}
SPECS = sorted(glob.glob("crates/*/specs/**/*.antt", recursive=True))
PROOFS = sorted(glob.glob("crates/*/proofs/**/*.antt", recursive=True))
SRC = sorted(glob.glob("crates/*/src/**/*.rt", recursive=True))
EDITS = sorted(glob.glob("crates/*/must-fail/*.edit"))
PART = r"[\w'′₀-₉]+"
NAME = re.compile(rf"[\w'′₀-₉→↔≡≢≤]+(?:-[\w'′₀-₉→↔≡≢≤]+)*")
read = {f: open(f, encoding="utf-8").read() for f in SPECS + PROOFS + SRC + EDITS}


def outside(text, change, comment):
    """change applied outside of text in quotes and of comments, and comment to those"""
    out = ""
    for line in text.split("\n"):
        code, dashes, said = re.match(r"(.*?)((?:(?<=\s)|^)(?:--|//)\s|$)(.*)$", line).groups()
        out += "".join(p if k % 2 else change(p) for k, p in enumerate(re.split(r'("[^"\n]*")', code))) + dashes + comment(said) + "\n"
    return out[:-1]


def imports(text):
    """(module, names) of each `use` line, ghost ones too"""
    for m in re.finditer(r"^\s*(?:pub )?(?:ghost )?use ([^\s{;]+?)(?:\.\{([^}]*)\})?;?\s*$", text, re.M):
        yield m.group(1), [n.strip().split(" as ")[0].strip() for n in (m.group(2) or "").split(",") if n.strip()]


def own_module(m):
    p = m.split(".")
    return p[0] == "Rattle" and len(p) > 1 and p[1] in OWN


LIBRARY = set()
for f, t in read.items():
    for m, names in imports(t):
        if not own_module(m):
            LIBRARY |= set(names)

HEAD = re.compile(r"^((?:(?:abbrev|pub|unfoldable|data|record)\s+)*)([^\s:(){}.,;λ]+)(\s[^=\n]*)?\s:\s", re.M)
words, lemmas = set(), set()
for f in SPECS:
    for m in HEAD.finditer(read[f]):
        # a plain definition in camel case is a word too: lemmas were written with dashes
        (words if re.search(r"abbrev|unfoldable|data|record", m.group(1)) or re.search(r"[a-z0-9][A-Z]", m.group(2)) else lemmas).add(m.group(2))
    for m in re.finditer(r"^(?:pub )?data [^\n]* where\n((?:[ ]+[^\n]*\n)+)", read[f], re.M):
        words |= set(re.findall(r"^\s+([^\s:]+)\s*:", m.group(1), re.M))


# fields of records: where they are declared, after a dot, and before `=` in a value
BLOCK = re.compile(r"^(?:pub )?record [^\n]* where\n((?:(?:[ ]+[^\n]*)?\n)+)", re.M)
FIELD = re.compile(r"^ +(?:pub )?([^\s:(){}]+) :", re.M)
fields = set()
for f in SPECS:
    for b in BLOCK.finditer(read[f]):
        fields |= set(FIELD.findall(b.group(1)))


def snake(part):
    if not part or not (part[0].islower() or part[0] == "_"):
        return part
    return re.sub(r"(?<=[a-z0-9'′₀-₉])([A-Z])", lambda m: "_" + m.group(1).lower(), part)


def camel_free(name):
    return "-".join(snake(p) for p in name.split("-"))


STD = set("length append map take drop set get get_or reverse true false suc zero cond eqb leb ltb not and or nil cons some none fst snd max min sum all any filter fold concat replicate mod div mul add sub le lt eq ne id".split())
known = {camel_free(w) for w in words} | STD
for f in SRC:
    known |= set(re.findall(r"\bfn (\w+)", read[f]))
known -= set("by of or not no kept in from is at".split())


def dashed(name):
    """the dashes that stand between two known words stay"""
    parts = name.split("-")
    def seg(i):                                  # fewest parts that are no words first, then the longest words
        if i == len(parts):
            return (0, 0, [])
        got = None
        for j in range(len(parts), i, -1):
            w = "_".join(parts[i:j])
            if w in known or j == i + 1:
                cost, n, rest = seg(j)
                cand = (cost + (0 if w in known else 1), n + 1, [(w, w in known)] + rest)
                if got is None or cand[:2] < got[:2]:
                    got = cand
        return got

    out = ""
    for k, (w, is_word) in enumerate(seg(0)[2]):
        if k:
            out += "-" if is_word and before else "_"
        out, before = out + w, is_word
    return out


tokens, bare = collections.Counter(), collections.Counter()


def seen(f, p):
    for m in NAME.finditer(p):
        tokens[m.group(0)] += 1
        if f in SPECS and p[m.start() - 1: m.start()] != ".":
            bare[m.group(0)] += 1
    return p


for f in SPECS + PROOFS:
    outside(read[f], lambda p: seen(f, p), lambda p: p)

# fields that are no name elsewhere
FIELDS_ONLY = {w for w in fields if w not in words and w not in lemmas}
ren = {}
for w in tokens:
    if w not in LIBRARY and camel_free(w) != w:
        ren[w] = camel_free(w)
for w in bare:
    if "-" in w and w not in LIBRARY and w[0] != "-" and not re.match(r"[A-Z]", w):
        n = dashed(camel_free(w))
        if n != w:
            ren[w] = n

# names that fall together
taken = collections.defaultdict(set)
for w in tokens:
    if w in fields and w not in words and w not in lemmas and (w in FIELDS_ONLY):
        continue
    taken[ren.get(w, w)].add(w)
for n, olds in taken.items():
    if len(olds) > 1:
        # fields and parameters of that name may stand beside a definition; of definitions and lemmas one keeps the name
        plain = {w for w in olds if "-" not in w and w not in words and w not in lemmas}
        keeps = [w for w in olds if w in words] or [w for w in olds if w in lemmas and w == n] or sorted(olds - plain) or [n]
        for w in sorted(olds - plain):
            if w != keeps[0] and w not in LIBRARY and (w in lemmas or w in ren):
                free = n + "_lem"
                while free in taken and taken[free] - {w}:
                    free += "2"
                ren[w] = free
                print(f"together: {w} and {keeps[0]}: {w} is {ren[w]}")
if "--map" in sys.argv:
    ren = dict(l.split() for l in open(sys.argv[sys.argv.index("--map") + 1], encoding="utf-8") if len(l.split()) == 2)
for w in sorted(ren):
    print(f"{w} {ren[w]}")
if DRY:
    sys.exit()

FIELDS = {w: camel_free(w).replace("-", "_") for w in fields if "-" in w or camel_free(w) != w}
CAMEL = {w: n for w, n in ren.items() if "-" not in w and camel_free(w) != w}


def swap(text, use):
    declared = [(b.start(1) + m.start(1), b.start(1) + m.end(1)) for b in BLOCK.finditer(text) for m in FIELD.finditer(b.group(1))]
    declared = {a for a, _ in declared}
    where = 0

    def one(p, base):
        def name(m):
            w = m.group(0)
            if w not in use and w not in FIELDS:
                return w
            dot = p[m.start() - 1: m.start()] == "." and p[m.start() - 2: m.start() - 1] not in ("", " ", "{")
            before = text[:base + m.start()].rstrip()[-1:]
            value = before in ("{", ";") and re.match(r"\s=\s", p[m.end():] + " ")
            if w in FIELDS and (dot or value or base + m.start() in declared):
                return FIELDS[w]
            return w if dot and w not in CAMEL else use.get(w, w)
        return NAME.sub(name, p)

    out = ""
    for line in text.split("\n"):
        code, dashes, said = re.match(r"(.*?)((?:(?<=\s)|^)(?:--|//)\s|$)(.*)$", line).groups()
        at = where
        for k, p in enumerate(re.split(r'("[^"\n]*")', code)):
            out += p if k % 2 else one(p, at)
            at += len(p)
        out += dashes + NAME.sub(lambda m: CAMEL.get(m.group(0), m.group(0)), said) + "\n"
        where += len(line) + 1
    return out[:-1]


for f, t in read.items():
    if f in SPECS:
        new = swap(t, ren)
    elif f in PROOFS:
        mine = {n for m, names in imports(t) if own_module(m) for n in names}
        new = swap(t, {w: n for w, n in ren.items() if w in CAMEL or w in mine})
    elif f in SRC:
        new = swap(t, CAMEL)
    else:
        new = swap(t, {w: n for w, n in ren.items() if w in CAMEL or w in lemmas})
    if new != t:
        open(f, "w", encoding="utf-8").write(new)
