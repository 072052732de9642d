#!/usr/bin/env python3
"""Respells the repository's own words as today's Rattle spells them: words in snake case, a dash only where it joins two words.

usage: python3 tools/spelling.py, once, at the top, on what Rattle's port.py left.

It renames what specs/ and proofs/ declare: `curveTimes` becomes `curve_times`, a lemma `later-no-smaller` becomes
`later_no_smaller`, and `follow-valued`, which joins two words, stays. Functions of src/, strings, inputs and outputs keep
their names. A lemma that would get the name of another word gets `_lem`.
"""
import collections
import glob
import os
import re
import sys

PART = re.compile(r"[^\s(){}\[\];,.«»\"@`:=λ→]+")
DECLARES = re.compile(
    r"^\s*(?:(?:abbrev|unfoldable|opaque)\s+)?(?:pub\s+)?(?:(record|data|module|ruleset)\s+)?"
    r"([^\s(){}\[\];,.:=λ→∀]+)((?:\s+[^\s:=]+)*?)\s*(:|=|where)"
)
# Words that name nothing by themselves, so that a dash beside them joins no two names.
SMALL = set(
    "a an the of to at in on by is as no not and or for from with where when that its it all any one two three "
    "same both then else if so be are too yet per up down left right next last first more less again eq ne lt le "
    "gt ge ok go x y z n m k i j p q r s t b c d e f g h".split()
)
# Lemmas that stand beside a definition whose name they would get, by crate.
BESIDE = {
    "closingsheet": ["one_more"],
    "backwardinduction": ["node_at"],
    "forwardinduction": ["next_row"],
    "chances": ["too_far", "not_finite"],
    "decimal": ["not_finite"],
    "lattice": ["with_part", "row_from"],
    "layers": ["with_part"],
}
TYPES = {"finiteRow": "FiniteRow"}


def read(path):
    with open(path, encoding="utf-8") as f:
        return f.read()


def write(path, text):
    with open(path, "w", encoding="utf-8") as f:
        f.write(text)


def antts():
    return sorted(p for p in glob.glob("crates/*/**/*.antt", recursive=True) if "/out/" not in p)


def rts():
    return sorted(glob.glob("crates/*/src/**/*.rt", recursive=True))


def declared():
    """Each name that a file of specs/ or of lemmas declares, without those of a function's own proof."""
    words, goals = set(), set()
    for path in antts():
        own = path.endswith("/Proof.antt")
        for line in read(path).split("\n"):
            if line.lstrip().startswith("--") or line.startswith("use "):
                continue
            found = DECLARES.match(line)
            if found:
                (goals if own else words).add(found.group(2))
    return words, goals


def snake(word):
    return re.sub(r"(?<=[a-z0-9'])([A-Z])", lambda m: "_" + m.group(1).lower(), word)


def joined(word, known):
    """The word with a dash only where it joins two known names."""
    parts = [snake(it) if it[:1].islower() else it for it in word.split("-")]
    best = {len(parts): ([], 0)}
    for i in range(len(parts) - 1, -1, -1):
        for j in range(len(parts), i, -1):
            name = "_".join(parts[i:j])
            if j in best and (name in known or name[:1].isupper() and j == i + 1):
                rest, count = best[j]
                if i not in best or count + 1 < best[i][1]:
                    best[i] = ([name] + rest, count + 1)
    if 0 in best and best[0][1] >= 2:
        return "-".join(best[0][0])
    if parts[0][:1].isupper() and len(parts) > 1:
        return parts[0] + "-" + "_".join(parts[1:])
    return "_".join(parts)


def cited():
    """The words of Rattle's own library that files bring in, which keep their spelling."""
    own = {path.split("/")[1] for path in glob.glob("crates/*")}
    found = set()
    for path in antts() + rts():
        for module, names in re.findall(r"^(?:pub |ghost )*use ([^\s{]+?)\.\{([^}]*)\}", read(path), re.M):
            parts = module.split(".")
            if parts[0] != "Rattle" or parts[1] not in own:
                found |= {it.strip().split(" as ")[0] for it in names.split(",")}
    return found


def table():
    words, goals = declared()
    kept = cited()
    words -= kept
    renamed = {}
    taken = collections.Counter()
    every = set()
    for path in antts():
        every |= set(PART.findall(read(path)))
    functions = set()
    for path in rts():
        functions |= set(re.findall(r"\bfn (\w+)", read(path)))
    camel = sorted(w for w in words if w[:1].islower() and "-" not in w and re.search(r"[a-z0-9'][A-Z]", w))
    for word in camel:
        renamed[word] = TYPES.get(word, snake(word))
    known = {snake(w) for w in words | kept if "-" not in w} | functions
    known = {w for w in known if len(w) > 1 and w not in SMALL and not re.search(r"\d$", w)}
    fresh = set(renamed.values())
    for word in sorted(w for w in words if "-" in w.strip("-") and not w.startswith(("+", "-", "Need", "◌")) and "◌" not in w):
        if word.endswith("-spec") or word in goals:
            continue
        new = joined(word, known)
        if new == word:
            continue
        if new in every or new in fresh or new in functions:
            new += "_lem"
        if new in every or new in fresh:
            print("kept, since its name is taken:", word)
            continue
        fresh.add(new)
        renamed[word] = new
    return renamed


def in_antt(text, renamed):
    def line(it):
        if it.lstrip().startswith("--"):
            return it
        return PART.sub(lambda m: renamed.get(m.group(), m.group()), it)

    return "\n".join(line(it) for it in text.split("\n"))


def in_clauses(text, renamed):
    """Of a file of code only `ghost` items and clauses are respelled."""
    out, depth = [], 0
    for it in text.split("\n"):
        head = re.match(r"\s*(?:unsafe )?(ghost|requires|ensures|decreases|also_owns|also_shares)\b", it)
        if depth > 0 or head:
            depth += it.count("{") - it.count("}")
            it = PART.sub(lambda m: renamed.get(m.group(), m.group()), it)
        out.append(it)
    return "\n".join(out)


def in_edit(text, renamed):
    out = []
    for it in text.split("\n"):
        if re.match(r"(old|new): .*(ghost use|requires|ensures|≡|specs)", it) or re.search(r"^file: .*\.antt", text, re.M):
            if not it.startswith("file:"):
                it = PART.sub(lambda m: renamed.get(m.group(), m.group()), it)
        out.append(it)
    return "\n".join(out)


def in_page(text, renamed):
    """A page names words between backticks."""
    def code(m):
        return "`" + PART.sub(lambda k: renamed.get(k.group(), k.group()), m.group(1)) + "`"

    return re.sub(r"`([^`\n]+)`", code, text)


def main():
    for name, lemmas in BESIDE.items():
        for path in antts():
            if path.startswith(f"crates/{name}/"):
                text = read(path)
                new = in_antt(text, {it: it + "_lem" for it in lemmas if it + "_lem" not in text})
                # A path of a function's proof keeps the function's name.
                new = re.sub(r"(\.proofs(?:\.\w+)*)_lem\b", r"\1", new)
                if new != text:
                    write(path, new)
    renamed = table()
    for path in antts():
        text = read(path)
        new = in_antt(text, renamed)
        if new != text:
            write(path, new)
    for path in rts():
        text = read(path)
        new = in_clauses(text, renamed)
        if new != text:
            write(path, new)
    for path in sorted(glob.glob("crates/*/must-fail/*.edit")):
        text = read(path)
        new = in_edit(text, renamed)
        if new != text:
            write(path, new)
    for path in ["README.md"] + sorted(glob.glob("docs/*.md")):
        text = read(path)
        new = in_page(text, renamed)
        if new != text:
            write(path, new)
    if "--table" in sys.argv:
        for old, new in sorted(renamed.items()):
            print(old, new)
    print(f"{len(renamed)} words respelled")


if __name__ == "__main__":
    main()
