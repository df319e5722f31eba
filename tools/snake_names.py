#!/usr/bin/env python3
"""Brings the repository's own definitions and lemmas to snake case: settingsFormed becomes settings_formed. A dash that joins two names stays.

usage: tools/snake_names.py [--check]        at the top of the repository

It turns each word that specs/ or proofs/ declare (definitions, lemmas, fields, constructors, bound variables), wherever the word stands in
an .antt file, in a clause, a ghost item or a code span of an .rt file, in a must-fail edit, and in a code span of a page. Types, modules and records
keep their upper camel case. What Rattle or its library declares keeps its spelling, and so do the names that Rattle makes (behind 'tie.' and 'goal.').
It stops where two names would fall together. --check writes nothing and says what it would stop at, and where a new name is a function's or a
variable's of the code as well. Run it once, after the kit's own script.
"""

import collections
import glob
import os
import re
import sys

WORD = re.compile(r"[^\s(){}.;,@\"«»\[\]\\⟨⟩`]+")
# Names that would fall together with another, and what they are called instead.
OTHER = {
    "aboveZero": "has_fraction",
    "leftAfter": "new_left",
    "takeSet": "take_given",
}
# Lemmas that have the name that a definition gets.
LEMMAS = {
    "each_from": "each_from_lem",
    "held_in": "held_in_lem",
    "later_rows": "later_rows_lem",
}
HEAD = re.compile(r"^ *((?:(?:unfoldable|abbrev|pub|private) +)*)((?:record|data|infix[lr]?|ruleset) +)?([^\s(){}.;,:]+)((?:[ ,]+[^\s(){}.;,:]+)*) *(?::|\(|\{)")
BOUND = re.compile(r"(?:let +|λ *|[({] *)((?:[^\s(){}.;,:λ=]+ +)*[^\s(){}.;,:λ=]+) *(?:[:.=])")


def old_spelling(word):
    if not re.match(r"^[a-z][A-Za-z0-9_-]*'*$", word):
        return False
    return bool(re.search(r"[A-Z]", word))


def snake(word):
    if word in OTHER:
        return OTHER[word]
    parts = re.sub(r"([a-z0-9])([A-Z])", r"\1_\2", word)
    parts = re.sub(r"([A-Z])([A-Z][a-z])", r"\1_\2", parts)
    return parts.lower()


def read(path):
    with open(path, encoding="utf-8", newline="") as f:
        return f.read()


def plain(text):
    return "\n".join(re.sub(r"(^|\s)--( .*)?$", "", line) for line in text.split("\n"))


def own_modules(line):
    return re.match(r"^(?:ghost )?(?:pub )?use +(?:Rattle\.(%s)|(?:Rattle\.)?this)\b" % "|".join(CRATES), line)


def declared(paths):
    names = collections.defaultdict(set)
    for path in paths:
        text = plain(read(path))
        for line in text.split("\n"):
            if re.match(r"^(pub )?(ghost )?(use|mod|pub mod)\b", line):
                continue
            m = HEAD.match(line)
            if m and not re.search(r":\s*(?:tie|goal)\.", line):
                for w in [m[3]] + m[4].replace(",", " ").split():
                    if old_spelling(w):
                        names[w].add(path)
            elif m:
                for w in [m[3]]:
                    if old_spelling(w):
                        names[w].add(path)
        for m in BOUND.finditer(text):
            for w in m[1].split():
                if old_spelling(w):
                    names[w].add(path)
        for m in re.finditer(r"(?:pub |^ +)([a-z][\w'-]*) *:", text, re.M):
            if old_spelling(m[1]):
                names[m[1]].add(path)
    return names


def imported(paths):
    kit, own = collections.defaultdict(set), collections.defaultdict(set)
    for path in paths:
        for m in re.finditer(r"^(?:ghost |pub )*use +([^\s{;]+?)(?:\.\{([^}]*)\})?(?: as (\S+?))?;?\s*$", read(path), re.M):
            mine = re.match(r"Rattle\.(?:%s)\b" % "|".join(CRATES), m[1])
            for w in (m[2] or "").split(","):
                w = w.strip()
                if w:
                    for v in w.split(" as "):
                        (own if mine else kit)[v].add(path)
    return kit, own


CRATES = [line.split(":")[0].split()[0] for line in read("crates.txt").split("\n") if line.strip() and not line.startswith("#")]


def turn_words(text, table, skip_behind=True):
    out, last = [], 0
    for m in WORD.finditer(text):
        w = m[0]
        if w in table:
            before = text[max(0, m.start() - 5):m.start()]
            if skip_behind and re.search(r"(?:tie|goal)\.$", before):
                continue
            out.append(text[last:m.start()])
            out.append(table[w])
            last = m.end()
    out.append(text[last:])
    return "".join(out)


def turn_spans(text, table):
    return re.sub(r"`[^`\n]+`", lambda m: turn_words(m[0], table), text)


def turn_rt(text, table):
    """Clauses, ghost items and code spans of comments."""
    out, i = [], 0
    pattern = re.compile(r"(?:requires|ensures)\s*\*?\s*(?:\w+\s*)?\{|ghost\s+use\b[^;]*;|//[^\n]*|\"(?:\\.|[^\"\\])*\"|ghost\s*(?:\w+\s*:\s*)?\{")
    while True:
        m = pattern.search(text, i)
        if not m:
            out.append(text[i:])
            return "".join(out)
        out.append(text[i:m.start()])
        t = m[0]
        if t.startswith("//"):
            out.append(turn_spans(t, table))
            i = m.end()
        elif t.startswith('"'):
            out.append(t)
            i = m.end()
        elif t.startswith("ghost") and t.endswith(";"):
            out.append(turn_words(t, table))
            i = m.end()
        else:
            k, deep = m.end(), 1
            while deep:
                deep += (text[k] == "{") - (text[k] == "}")
                k += 1
            out.append(turn_words(text[m.start():k], table))
            i = k


def main():
    check = "--check" in sys.argv
    antt = sorted(glob.glob("crates/*/specs/**/*.antt", recursive=True) + glob.glob("crates/*/proofs/**/*.antt", recursive=True))
    rt = sorted(glob.glob("crates/*/src/**/*.rt", recursive=True))
    names = declared(antt)
    kit, own = imported(antt + rt)
    table = {}
    for w in names:
        if w in kit:
            print(f"look: {w} is the library's too, kept ({len(names[w])} files)")
            continue
        table[w] = snake(w)
    if not table:
        print("nothing to turn")
        return 0
    table.update(LEMMAS)
    bad = False
    back = collections.defaultdict(set)
    for a, b in table.items():
        back[b].add(a)
    for b, a in sorted(back.items()):
        if len(a) > 1:
            print(f"together: {sorted(a)} -> {b}")
            bad = True
    words = collections.defaultdict(set)
    for path in antt:
        for m in WORD.finditer(plain(read(path))):
            words[m[0]].add(path)
    for b, a in sorted(back.items()):
        if b in words:
            print(f"stands: {b} (from {sorted(a)}) in {sorted(words[b])[:4]}")
    rust = collections.defaultdict(set)
    for path in rt:
        t = re.sub(r"//[^\n]*", "", read(path))
        t = re.sub(r"ghost use[^;]*;", "", t)
        for m in re.finditer(r"\b((?:fn|let|let mut|const|mod|static) +)([a-z]\w*)|\b([a-z]\w*) *: *[&A-Za-z\[]", t):
            rust[m[2] or m[3]].add((m[1] or "field or parameter").strip() + " " + path)
    for b, a in sorted(back.items()):
        if b in rust and any(x in own or True for x in a):
            print(f"rust: {b} (from {sorted(a)}) in {sorted(rust[b])[:4]}")
    print(len(table), "words")
    if check:
        return 1 if bad else 0
    if bad:
        return 1
    n = 0
    for path in antt + rt + sorted(glob.glob("crates/*/must-fail/*.edit") + glob.glob("*.md") + glob.glob("docs/**/*.md", recursive=True)):
        old = read(path)
        if path.endswith(".antt"):
            new = turn_words(old, table)
        elif path.endswith(".rt"):
            new = turn_rt(old, table)
        elif path.endswith(".edit"):
            new = turn_words(old, table)
        else:
            new = turn_spans(old, table)
        if new != old:
            n += 1
            with open(path, "w", encoding="utf-8", newline="") as f:
                f.write(new)
    print(n, "files")
    return 0


sys.exit(main())
