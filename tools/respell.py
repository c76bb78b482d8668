#!/usr/bin/env python3
"""Respells this repository's own definitions and lemmas, as port.py does the library's: words in snake case.

usage: tools/respell.py [--check] [FOLDER]     FOLDER: the top of a checkout, the current folder if left out

A name in camel case whose first letter is small gets underscores, as wordCount to word_count and length-wordsOf to length-words_of. In a
name of specs/ with dashes, a dash stays between two names and becomes an underscore before or behind a plain word, as not-both to not_both; a
lemma keeps its dashes. A glossary's columns are set anew.
It turns whole words in crates/ (.antt, .rt and .edit files) and the code spans of README.md and docs/. A name that would meet another one
in some file stays; a line that begins 'meets:' says so. --check writes nothing. It is run once, after port.py.
"""
import os
import re
import sys

TOKEN = re.compile(r"[^\s(){}\[\].;,@\"«»`]+")
CAMEL = re.compile(r"(?:^|(?<=[^A-Za-z0-9_]))[a-z][a-z0-9]+[A-Z]|(?:^|(?<=[^A-Za-z0-9_]))[a-z][A-Z][a-z]")
DECLARED = re.compile(r"^ *(?:unfoldable |abbrev )*(?:pub )?(?:data |record )?([^\s(){}:;,.=λ]+)\s*(?:\{[^}]*\}\s*)*:\s")
# Words of the library that stand in names of lemmas.
LIBRARY = set(
    "length append take drop get_or set map reverse sum zero suc one add mul sub neg div mod pow min max cond bool"
    " subst ap refl sym cons nil front lookup fst snd".split()
)
# Names whose plain respelling would mean something else, or is a word that is taken.
CHOSEN = {
    "listAt": "nth_list",
    "valueAt1-⟨1-t⟩": "value_at1-⟨1-t⟩",
    "valueAt-⟨1-t⟩": "value_at-⟨1-t⟩",
}


def files(top):
    for folder, dirs, names in os.walk(os.path.join(top, "crates")):
        dirs[:] = sorted(d for d in dirs if d not in ("out", "target"))
        for name in sorted(names):
            if name.endswith((".antt", ".rt", ".edit")):
                yield os.path.join(folder, name)


def pages(top):
    found = [os.path.join(top, "README.md"), os.path.join(top, "samples", "README.md")]
    for folder, _, names in os.walk(os.path.join(top, "docs")):
        found += [os.path.join(folder, n) for n in sorted(names) if n.endswith(".md")]
    return [f for f in found if os.path.exists(f)]


def read(path):
    with open(path, encoding="utf-8") as f:
        return f.read()


def snake(word):
    word = word.replace("getD", "get_or")
    return re.sub(r"(?<=[a-z0-9])[A-Z]", lambda m: "_" + m[0].lower(), word)


def functions(texts):
    """The functions, crates and modules of the Rust text, which no clause can name."""
    names = set()
    for path, text in texts.items():
        if path.endswith(".rt"):
            names.add(path.split("/")[-3])
            names |= set(re.findall(r"\b(?:fn|mod) (\w+)", text))
    return names


USE = re.compile(r"\buse ([^\s;{]+)(?:\{([^}]*)\})?")


def imported(text, ours, called):
    """The names that a text imports from the library, or from this repository."""
    names = set()
    for m in USE.finditer(text):
        steps = m[1].split(".")
        if (steps[0] == "Rattle" and steps[1] in called) == ours:
            names |= set(TOKEN.findall(m[2] or ""))
    return names


def borrowed(texts, called):
    return set().union(*(imported(text, False, called) for path, text in texts.items() if not path.endswith(".edit")))


def in_walk(path):
    """Whether a file is a function's proof, whose names are Rattle's."""
    return path.endswith("Proof.antt")


def declared(texts):
    names, words, said = set(), set(), set()
    for path, text in texts.items():
        if not path.endswith(".antt") or in_walk(path):
            continue
        for line in text.split("\n"):
            m = DECLARED.match(line)
            if m and not line.lstrip().startswith("--"):
                names.add(m[1])
                if "/specs/" in path:
                    said.add(m[1])
                if "/specs/" in path and "-" not in m[1] and len(m[1]) > 1 and m[1][0].isalpha():
                    words.add(snake(m[1]) if m[1][0].islower() else m[1])
    return names, words, said


def respelled(name, words, definition):
    if name in CHOSEN:
        return CHOSEN[name]
    if "⟨" in name or "◌" in name or not re.search(r"[a-zA-Z]", name):
        return name
    if name.startswith("get_d_"):
        return "get_or-" + name[6:]
    parts = re.split(r"-", name)
    if any(p == "" for p in parts):
        return snake(name) if CAMEL.search(name) else name
    new = [snake(p) if p[0].islower() and CAMEL.search(p) else p for p in parts]
    text = new[0]
    for left, right in zip(new, new[1:]):
        both = not definition or all(w in words or w in LIBRARY for w in (left, right))
        text += ("-" if both or not left[-1].isalnum() and left[-1] != "_" or not right[0].isalpha() or right[0].isupper() and left[0].isupper() else "_") + right
    return text


def tokens(text):
    return set(TOKEN.findall(text))


def bare(text):
    """The text without comments."""
    return re.sub(r"(?m)(?:^|(?<=\s))(?:--|//).*$", "", text)


def table(texts):
    names, words, said = declared(texts)
    words |= LIBRARY
    rows, called = {}, functions(texts)
    for path, text in texts.items():
        if not path.endswith(".antt"):
            continue
        for t in tokens(bare(text)):
            if CAMEL.search(t) and t[0].islower() and (t in names or not in_walk(path)) and re.fullmatch(r"[\w'-]+", t):
                names.add(t)
    for name in sorted(names - borrowed(texts, called)):
        new = respelled(name, words, name in said)
        if new != name:
            rows[name] = new
    # A name stays where its new spelling is another's in a file that has it: of two that would meet, the one with the dash.
    last = None
    while last != len(rows):
        last = len(rows)
        for path, text in texts.items():
            if path.endswith(".edit") or in_walk(path):
                continue
            seen = {}
            for t in sorted(tokens(bare(text)), key=lambda t: ("-" in t, t)):
                new = rows.get(t, t)
                if new in seen and not (new in called and new in (t, seen[new])):
                    old = t if t in rows else seen[new]
                    print(f"meets: {old} would be {new}, in {path}", file=sys.stderr)
                    del rows[old]
                seen[new] = t
    return rows


def turned(text, rows, spans=False):
    def one(m):
        return rows.get(m[0], m[0])

    if spans:
        return re.sub(r"`[^`\n]+`", lambda m: TOKEN.sub(one, m[0]), text)
    return TOKEN.sub(one, text)


def comments(path, text, rows, called):
    """In comments a name with a dash turns only where the code of the file has it, since it may be plain English there."""
    have = tokens(bare(text))
    few = {k: v for k, v in rows.items() if k in have or CAMEL.search(k)}
    if in_walk(path):
        have = imported(text, True, called)
        rows = few = {k: v for k, v in rows.items() if k in have or CAMEL.search(k)}
    out = []
    for line in text.split("\n"):
        m = re.match(r"(.*?)((?:^|(?<=\s))(?:--|//)(?:\s.*)?)$", line)
        if m:
            out.append(turned(m[1], rows) + turned(m[2], few))
        else:
            out.append(turned(line, rows))
    return "\n".join(aligned(text.split("\n"), out))


GLOSSARY = re.compile(r"((?:--|//) {2,})(\S(?:.*?\S)?)( {2,})(\S.*)$")


def aligned(old, new):
    """The new lines, with the columns of their glossaries where a name of a block has grown."""
    at = 0
    while at < len(old):
        m = GLOSSARY.match(old[at])
        end = at
        while m and end < len(old):
            n = GLOSSARY.match(old[end])
            if not n or n.start(4) != m.start(4) or n.start(2) != m.start(2):
                break
            end += 1
        if end > at and old[at:end] != new[at:end]:
            rows = [GLOSSARY.match(line) for line in new[at:end]]
            gap = min(len(GLOSSARY.match(line)[3]) for line in old[at:end])
            width = max(len(r[2]) for r in rows) + gap
            new[at:end] = [r[1] + r[2].ljust(width) + r[4] for r in rows]
        at = max(end, at + 1)
    return new


def main():
    words = [w for w in sys.argv[1:] if w != "--check"]
    check = "--check" in sys.argv
    top = words[0] if words else "."
    texts = {p: read(p) for p in files(top)}
    rows, called = table(texts), functions(texts)
    if check:
        for old, new in sorted(rows.items()):
            print(f"{old}\t{new}")
        return
    for path, text in texts.items():
        new = comments(path, text, rows, called)
        if new != text:
            with open(path, "w", encoding="utf-8") as f:
                f.write(new)
    # In the pages stand also names that port.py respelled in the code.
    have = set().union(*(tokens(bare(read(p))) for p in texts))
    for path in pages(top):
        text = read(path)
        more = {t: snake(t) for t in tokens(text) if CAMEL.search(t) and t not in have and snake(t) in have}
        new = turned(text, more | rows, spans=True)
        if new != text:
            with open(path, "w", encoding="utf-8") as f:
                f.write(new)


if __name__ == "__main__":
    main()
