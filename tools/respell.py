#!/usr/bin/env python3
"""Respells this repository's own definitions and lemmas as today's Rattle spells names: words in snake case, a fact's name with its capital.

usage: python3 tools/respell.py            in the repository, once, after port.py: rewrites the files in place
       python3 tools/respell.py --list     prints old and new names, and the new ones that are in use already

A definition `geometryCount` becomes `geometry_count`. A lemma's name is cut at its dashes: a dash stays where it joins the name of a definition or a type
to another name, and becomes `_` between plain words; the name of a type keeps its capital. Names of src/, strings, inputs and outputs stay."""
import os
import re
import sys

TOKEN = re.compile(r"""[^\s(){}\[\].,;:«»"`]+""")
# Names that would meet another name in the same place, and what they are called instead.
INSTEAD = {"componentType": "component_type_of"}
# words of std that lemmas are named by
WORDS = set("length take drop get_or set map replicate append cons nil cond eqb leb ltb min max some none suc zero sum".split())


def texts(root="crates"):
    for folder, dirs, names in os.walk(root):
        dirs[:] = sorted(d for d in dirs if d != "out")
        for name in sorted(names):
            if name.endswith((".antt", ".rt", ".edit")):
                yield os.path.join(folder, name)


DECLARED = re.compile(r"""(?:unfoldable |abbrev |pub )*([^\s(){}\[\].,;:λ|=]+)((?:\s+(?:\{[^}]*\}|\([^)]*\)))*)\s*:\s""")
TYPE = re.compile(r"(?:pub )?(?:data|record|ruleset) (\S+)")


def declared():
    """The names that the .antt files declare: of types and facts (capital), of definitions, and of lemmas and fields."""
    types, definitions, others = set(), set(), set()
    for path in texts():
        if not path.endswith(".antt"):
            continue
        with open(path, encoding="utf-8") as f:
            lines = f.read().split("\n")
        for line in lines:
            s = line.strip()
            if s.startswith(("--", "use ", "let ", "where ", "| ")):
                continue
            m = TYPE.match(s)
            if m:
                (types if m.group(1)[0].isupper() else others).add(m.group(1))
                continue
            m = DECLARED.match(s)
            if not m:
                continue
            name = m.group(1)
            if ": tie." in s or s.startswith("μ"):
                continue
            if name[0].isupper():
                if s.startswith(("abbrev", "unfoldable")):
                    types.add(name)
            elif name[0].isalpha():
                (definitions if s.startswith(("abbrev", "unfoldable")) else others).add(name)
    return types, definitions, others


def snake(name):
    """camelCase to snake_case: a capital begins a word, digits stay with the word before them."""
    name = re.sub(r"(?<=[a-z0-9])([A-Z])", lambda m: "_" + m.group(1).lower(), name)
    return name


def respelled(name, types, definitions):
    if name in INSTEAD:
        return INSTEAD[name]
    if "-" not in name:
        return snake(name)
    if name.endswith("-spec"):
        return snake(name.replace("-", "_"))
    parts = name.split("-")
    new_definitions = {snake(d) for d in definitions} | definitions
    by_lower = {snake(t[0].lower() + t[1:]): t for t in types}
    out, i = [], 0
    # the longest run of parts that names a type or a definition is one piece
    while i < len(parts):
        for j in range(len(parts), i, -1):
            word = "_".join(snake(p) for p in parts[i:j])
            if word in by_lower and word not in new_definitions and (i == 0 or j > i + 1):
                out.append((by_lower[word], True))
                break
            if word in new_definitions or (j == i + 1 and word in WORDS):
                out.append((word, True))
                break
        else:
            out.append((snake(parts[i]), False))
            i += 1
            continue
        i = j
    text = out[0][0]
    for (a, named), (b, next_named) in zip(out, out[1:]):
        text += ("-" if named or next_named else "_") + b
    return text


def table():
    """Old names and new ones. A definition's name comes first: a lemma, or a name that stands already, that would have the same gets `_lem`."""
    types, definitions, others = declared()
    camel = {name for name in definitions | others if re.search("[A-Z]", name) and "-" not in name}
    pairs = {name: respelled(name, types, definitions) for name in camel}
    taken = types | definitions | set(pairs.values()) | {name for name in others if "-" not in name}
    for name in sorted(set(pairs.values()) & (definitions | others)):
        pairs[name] = name + "_lem"
    for name in sorted((definitions | others) - camel):
        if "-" in name:
            new = respelled(name, types, definitions)
            if new != name:
                pairs[name] = new + "_lem" if new in taken else new
    return pairs


NAMED = re.compile("`[^`]*`")


def rewrite(text, path, pairs):
    """In comments and pages only names between backquotes, and those with a capital inside."""
    def put(m):
        word = m.group(0)
        if word.endswith("_lem") or (path.endswith(".rt") and re.fullmatch("[a-z0-9_]+", word)):
            return word
        return pairs.get(word, word)

    def line(s):
        if path.endswith(".md") or s.lstrip().startswith(("//", "--", "#")):
            s = NAMED.sub(lambda m: TOKEN.sub(put, m.group(0)), s)
            return TOKEN.sub(lambda m: put(m) if re.search("[a-z][A-Z0-9]", m.group(0)) and not path.endswith(".md") else m.group(0), s)
        return TOKEN.sub(put, s)

    return "\n".join(line(s) for s in text.split("\n"))


def used():
    """Every token of the files, and every identifier of the Rust in them."""
    seen = {}
    for path in texts():
        with open(path, encoding="utf-8") as f:
            text = f.read()
        for m in TOKEN.finditer(text):
            seen.setdefault(m.group(0), set()).add(path)
        if path.endswith(".rt"):
            for m in re.finditer(r"[A-Za-z_][A-Za-z_0-9]*", text):
                seen.setdefault(m.group(0), set()).add(path)
    return seen


def main():
    pairs = table()
    if "--list" in sys.argv:
        seen = used()
        by_new = {}
        for old, new in pairs.items():
            by_new.setdefault(new, []).append(old)
        for old, new in sorted(pairs.items()):
            note = ""
            if len(by_new[new]) > 1:
                note += " TWICE"
            if new in seen:
                note += " USED in " + " ".join(sorted(seen[new])[:4])
            print(old, new + note)
        return
    pages = ["README.md", *(os.path.join("docs", page) for page in sorted(os.listdir("docs"))), "tests/more-edits/README.md"]
    for path in [*texts(), *texts("tests"), *pages]:
        with open(path, encoding="utf-8") as f:
            text = f.read()
        new = rewrite(text, path, pairs)
        if new != text:
            with open(path, "w", encoding="utf-8") as f:
                f.write(new)


if __name__ == "__main__":
    main()
