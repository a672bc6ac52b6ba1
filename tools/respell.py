#!/usr/bin/env python3
"""Brings the repository's own definitions and lemmas to snake case: `columnsOf` to `columns_of`, `rows-listed` to `rows_listed`.

usage: python3 tools/respell.py     at the top, once, after the kit's port.py and before any edit by hand

A dash stays where it joins two names of definitions, as in `length-list_of`, or a fact and a name, as in `All-append`. A lemma that would have a
definition's name gets `_lem`. What would fall together with another word of a file keeps its spelling, and is printed. It turns whole words of
.antt files and of clauses in .rt files, must-fail edits, and the pages; functions of src/, exported names, strings and inputs stay.
"""
import collections
import glob
import re
import sys

WORD = re.compile(r"[^\s(){}.;,@\"«»`]+")
SIGN = re.compile(r"^(\s*)((?:(?:abbrev|unfoldable|pub) )*)(?:(record|data|ruleset) (?:pub )?)?([^\s(){}.;,:=]+(?: [^\s(){}.;,:=]+)*?)((?: [({][^(){}]*(?:\([^()]*\)[^(){}]*)*[)}])*) :(?= |$)")
USE = re.compile(r"use ([\w.·']+)\.\{([^}]*)\}")
BY_HAND = {"columnOf": "local_column"}
NOT = {"let", "use", "elim", "λ", "in", "module", "if", "then", "else", "--"}


def antt():
    return sorted(glob.glob("crates/*/specs/**/*.antt", recursive=True) + glob.glob("crates/*/proofs/**/*.antt", recursive=True))


def is_lemma_file(path):
    parts = path.split("/")
    return parts[2] == "specs" or len(parts) == 4


def snake(word):
    word = re.sub(r"([a-z0-9])([A-Z])", r"\1_\2", word)
    word = re.sub(r"([A-Z])([A-Z][a-z])", r"\1_\2", word)
    return word.lower()


def humps(word):
    return re.search(r"[a-z0-9][A-Z]", word) and not word[0].isupper()


def code(text):
    """The text without comments and quoted text."""
    return re.sub(r'"(?:[^"\\\n]|\\.)*"|(?<![^\s(){}.;,@"])--[^\n]*', " ", text)


def main():
    texts = {p: open(p, encoding="utf-8").read() for p in antt()}
    declared = collections.defaultdict(set)  # name -> files
    definitions = set()  # names declared in specs/ that are no lemmas
    for p, text in texts.items():
        for line in text.split("\n"):
            m = SIGN.match(line)
            if not m or line.lstrip().startswith("--"):
                continue
            for name in m.group(4).split():
                if name in NOT:
                    break
                declared[name].add(p)
                if p.split("/")[2] == "specs":
                    definitions.add(name)
    std = set()
    for text in texts.values():
        for m in USE.finditer(text):
            if m.group(1).startswith(("Rattle.std", "mathlib", "lib", "Prim", "native", "borrow")):
                std.update(w.split(" as ")[-1].strip() for w in m.group(2).split(","))
    names = {d for d in definitions if "-" not in d} | {s for s in std if s and "◌" not in s}

    def wanted(old):
        if old in BY_HAND:
            return BY_HAND[old]
        parts = [snake(x) if humps(x) else x for x in old.split("-")]
        out = parts[0]
        raw = old.split("-")
        for i in range(1, len(raw)):
            a, b = raw[i - 1], raw[i]
            fact = a[:1].isupper() or b[:1].isupper()
            both = (a in names or parts[i - 1] in names) and (b in names or parts[i] in names)
            out += ("-" if fact or both else "_") + parts[i]
        return out

    table = {}
    for name, files in declared.items():
        if not any(is_lemma_file(p) for p in files) and not humps(name):
            continue
        if "-" in name and not any(is_lemma_file(p) for p in files):
            continue
        if not re.search(r"[A-Za-z]", name) or "◌" in name:
            continue
        if name[0].isupper() and "-" not in name:
            continue
        new = wanted(name)
        if new != name:
            table[name] = new

    # a name already spelled by port.py may stand inside a longer one, as getD in getD-listOf
    words = {p: {m.group(0) for m in WORD.finditer(t) if t[m.start() - 1] != "." or m.group(0) in declared} for p, t in ((p, code(t)) for p, t in texts.items())}
    imported = {}
    for p, text in texts.items():
        got = set()
        for m in USE.finditer(text):
            if m.group(1).startswith("Rattle."):
                for item in m.group(2).split(","):
                    got.add(item.split(" as ")[0].strip())
        imported[p] = got

    def turns(p, w):
        """Whether the word w of the file p is one of ours."""
        if w not in table:
            return False
        if humps(w) and "-" not in w:
            return True
        if is_lemma_file(p):
            return True
        return w in imported[p]

    kept = set()
    for _ in range(6):
        bad = set()
        taken = collections.defaultdict(set)
        for old, new in table.items():
            taken[new].add(old)
        for new, olds in taken.items():
            if len(olds) > 1 or new in declared:
                for old in olds:
                    bad.add(old)
        for p, ws in words.items():
            for w in ws:
                if turns(p, w) and table[w] in ws and table[w] not in declared:
                    bad.add(w)
        if not bad:
            break
        for old in sorted(bad):
            new = table[old]
            rivals = [o for o in taken[new] if o != old]
            if old in definitions and "-" not in old and new not in declared and not any(o in definitions and "-" not in o for o in rivals):
                clash = [p for p, ws in words.items() if turns(p, old) and new in ws]
                if not clash:
                    continue  # the lemma gives way
            if not new.endswith("_lem") and (new in declared or rivals) and "-" in old:
                table[old] = new + "_lem"
            elif not new.endswith("_of"):
                table[old] = new + "_of"
            else:
                kept.add(old)
    for old in kept:
        table.pop(old)

    def turn(p, text, is_ours):
        def word(m):
            w = m.group(0)
            if not is_ours(w):
                return w
            if m.start() and text[m.start() - 1] == "." and "-" in w and not is_lemma_file(p):
                return w
            return table[w]
        return WORD.sub(word, text)

    for p, text in texts.items():
        new = turn(p, text, lambda w: turns(p, w))
        if new != text:
            open(p, "w", encoding="utf-8").write(new)
    camel = {o for o in table if humps(o) and "-" not in o}
    rust = re.compile(r"(?<![\w-])(" + "|".join(sorted(map(re.escape, camel), key=len, reverse=True)) + r")(?![\w-])")
    for p in sorted(glob.glob("crates/*/src/**/*.rt", recursive=True) + glob.glob("crates/*/must-fail/*.edit")):
        text = open(p, encoding="utf-8").read()
        new = rust.sub(lambda m: table[m.group(1)], text)
        if new != text:
            open(p, "w", encoding="utf-8").write(new)
    for p in ["README.md"] + sorted(glob.glob("docs/*.md")):
        text = open(p, encoding="utf-8").read()
        new = rust.sub(lambda m: table[m.group(1)], text)
        new = re.sub(r"`[^`\n]+`", lambda s: WORD.sub(lambda m: table.get(m.group(0), m.group(0)), s.group(0)), new)
        if new != text:
            open(p, "w", encoding="utf-8").write(new)
    print("respelled: %d names" % len(table))
    for old in sorted(kept):
        print("stays: " + old)
    for old, new in sorted(table.items()):
        if new.endswith(("_lem", "_of")) and new != wanted(old):
            print("gives way: %s is %s" % (old, new))


if __name__ == "__main__":
    sys.exit(main())
