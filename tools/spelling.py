#!/usr/bin/env python3
"""Writes the names of this repository's own definitions and lemmas in snake case, as Rattle now spells them.

usage: python3 tools/spelling.py          at the top of the repository, once, behind Rattle's own port.py (docs/PORT.md)

    answerFor, smallest-means, record fields as periodLow   ->   answer_for, smallest_means, period_low

Types, modules and constructors (CamelCase), names of Rattle's libraries, and names of src/ stay. Where a lemma and a definition would get
one name in one file, the lemma gets `_law` behind it. In must-fail edits it also turns what port.py turns elsewhere: paths, operators,
projections and list words. A second run changes nothing.
"""
import collections
import glob
import os
import re

WORD = r"[^\s(){}.;,@\"«»\[\]\\]+"
TOKEN = re.compile(r"--[^\n]*|\"(?:[^\"\\]|\\.)*\"|«[^»]*»|" + WORD)
HYPHENS = re.compile(r"^[a-z][A-Za-z0-9_₀-₉]*(-[A-Za-z0-9_₀-₉]+)+[?']*$")
CAMEL = re.compile(r"^[a-z][a-z0-9_]*[A-Z][A-Za-z0-9_₀-₉]*[?']*$")
CRATES = set(os.listdir("crates"))
SIGNATURE = re.compile(r"^\s*(?:abbrev |unfoldable |pub |private )*([^\s(){}.;,:]+(?: [^\s(){}.;,:]+)*) : ", re.M)
# Names of this repository that fall together with another one of their module though no file shows both spellings.
BY_HAND = {}


def read(path):
    with open(path, encoding="utf-8") as f:
        return f.read()


def snake(name):
    name = name.replace("-", "_")
    name = re.sub(r"([a-z0-9])([A-Z])", lambda m: m.group(1) + "_" + m.group(2).lower(), name)
    return re.sub(r"_([A-Z])([a-z0-9]|$)", lambda m: "_" + m.group(1).lower() + m.group(2), name)


def imported(text):
    """The names that a file takes from libraries, and those that it takes from this repository's crates."""
    library, own = set(), set()
    for use in re.findall(r"^\s*(?:pub |ghost )*use ([^\n;]*)", text, re.M):
        crate = re.match(r"Rattle\.(\w+)\.", use)
        names = re.search(r"\{(.*)\}", use)
        for name in names.group(1).split(",") if names else []:
            (own if crate and crate.group(1) in CRATES else library).add(name.strip().split(" as ")[0])
    return library, own


def words(text):
    return [t for t in TOKEN.findall(text) if not t.startswith(("--", '"', "«"))]


ANTT = sorted(glob.glob("crates/*/specs/**/*.antt", recursive=True) + glob.glob("crates/*/proofs/**/*.antt", recursive=True))
RT = sorted(glob.glob("crates/*/src/**/*.rt", recursive=True))
EDITS = sorted(glob.glob("crates/*/must-fail/*.edit"))
PAGES = ["README.md", *sorted(glob.glob("docs/*.md")), *sorted(glob.glob("tests/*")), *sorted(glob.glob("include/*")), *sorted(glob.glob("bench/*"))]
TEXTS = {f: read(f) for f in ANTT + RT}
IS_PROOF = {f: os.path.basename(f) == "Proof.antt" for f in TEXTS}

library = set()
for f, t in TEXTS.items():
    library |= imported(t)[0]
# What a file defines, by a signature; the names that Rattle makes, of Proof.antt, are not among them.
defined = collections.defaultdict(set)
made = {f: set(re.findall(r"^([^\s(){}.;,:]+) : (?:tie|given|goal)\.", t, re.M)) for f, t in TEXTS.items() if IS_PROOF[f]}
for f in ANTT:
    for names in SIGNATURE.findall(TEXTS[f]):
        for name in names.split():
            if not (IS_PROOF[f] and (name in made[f] or name.endswith("-spec"))):
                defined[name].add(f)
turned = {}
for f in ANTT:
    for w in words(TEXTS[f]):
        if w not in library and (CAMEL.match(w) or (HYPHENS.match(w) and (w in defined or not IS_PROOF[f]))):
            turned[w] = snake(w)
for w in re.findall(r"ghost use [^\n]*", "\n".join(TEXTS[f] for f in RT)):
    for name in words(w):
        if name not in library and CAMEL.match(name):
            turned[name] = snake(name)

# Two names of one file that fall together: the lemma is told apart.
for f in ANTT:
    there = collections.defaultdict(set)
    for w in words(TEXTS[f]):
        if w in turned or w in defined or w in library:
            there[turned.get(w, w)].add(w)
    for new, olds in there.items():
        if len(olds) > 1:
            for old in olds:
                if HYPHENS.match(old) or (old == new and not any(CAMEL.match(o) is None and o != old for o in olds) and old in defined and old not in library):
                    turned[old] = new + "_law"
turned.update(BY_HAND)


def path_head(text, at):
    """The first word of the path that a word behind a dot belongs to."""
    m = re.search(r"([^\s(){};,@\"\[\]\\]+)\.$", text[max(0, at - 300):at])
    return m.group(1).split(".")[0] if m else None


def turn(path, text):
    proof = IS_PROOF.get(path, False)
    aliases = set(re.findall(r"^\s*use Rattle\.\S+ as (\S+)", text, re.M)) - {"tie", "given", "goal"}
    own = made.get(path, set())

    def one(m):
        w = m.group(0)
        if w.startswith("--"):
            return re.sub(r"`([^`]*)`", lambda q: "`" + TOKEN.sub(lambda x: turned.get(x.group(0), x.group(0)), q.group(1)) + "`",
                          re.sub(r"\b[a-z][a-z0-9]*[A-Z]\w*", lambda x: turned.get(x.group(0), x.group(0)), w))
        if w not in turned:
            return w
        if proof and not CAMEL.match(w):
            if w in own:
                return w
            if m.start() and text[m.start() - 1] == ".":
                head = path_head(text, m.start())
                if head not in aliases and head != "Rattle":
                    return w
        return turned[w]

    return TOKEN.sub(one, text)


def turn_source(text):
    """In Rattle's own source: camel case and hyphens stand in clauses and ghost items alone; of a comment, camel case and what is quoted."""
    text = re.sub(r"(?<![\w'-])[a-z][A-Za-z0-9_]*(?:-[A-Za-z0-9_]+)*[?']*(?![\w'-])",
                  lambda m: turned.get(m.group(0), m.group(0)) if CAMEL.match(m.group(0)) else m.group(0), text)
    return text


def turn_page(text):
    text = re.sub(r"(?<![\w'./-])[a-z][a-z0-9_]*[A-Z]\w*(?![\w'(-])", lambda m: turned.get(m.group(0), m.group(0)), text)
    return re.sub(r"`([a-z][A-Za-z0-9_]*(?:-[A-Za-z0-9_]+)+)`", lambda m: "`" + turned.get(m.group(1), m.group(1)) + "`" if m.group(1) in defined else m.group(0), text)


def turn_edit(text):
    out = []
    for line in text.split("\n"):
        if re.match(r"(old|new): ", line):
            line = line.replace("·specs.specs.", ".specs.").replace("·proofs.proofs.", ".proofs.").replace("Rattle·", "Rattle.")
            line = re.sub(r"(?<![\w◌])_([+*/%≤<≡∷∙^]|\+\+|-)_(?![\w◌])", r"◌\1◌", line)
            line = re.sub(r"(?<=[\w)]) \.(?=[a-z0-9])", ".", line) if "antt" in file_of(text) else line
            line = re.sub(r"\bgetD\b", "get_or", line)
            line = re.sub(r"\btaskOf\b", "task_of", line)
            line = re.sub(r"(?<![\w'-])[a-z][a-z0-9_]*[A-Z]\w*(?![\w'-])", lambda m: turned.get(m.group(0), snake(m.group(0)) if snake(m.group(0)) in known else m.group(0)), line)
        out.append(line)
    return "\n".join(out)


def file_of(text):
    return " ".join(re.findall(r"^file: (\S+)", text, re.M))


known = set(turned.values())
for f, t in TEXTS.items():
    known |= set(words(t))
changed = 0
for f in ANTT + RT + EDITS + PAGES:
    if not os.path.isfile(f):
        continue
    old = TEXTS.get(f) or read(f)
    if f in ANTT:
        new = turn(f, old)
    elif f in RT:
        new = turn_source(old)
    elif f in EDITS:
        new = turn_edit(old)
    elif f.endswith(".md"):
        new = turn_page(old)
    else:
        new = old
    if new != old:
        changed += 1
        with open(f, "w", encoding="utf-8") as out:
            out.write(new)
print(f"spelling: {len(turned)} names, {changed} files")
