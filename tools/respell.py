#!/usr/bin/env python3
"""Respells the definitions and lemmas of this repository: words in snake case.

usage: tools/respell.py        at the top, once, after port.py

Names that specs/ and the lemma files of proofs/ declare are turned: `grantOf` to `grant_of`, `count-more` to `count_more`. Where two names would
fall together, the definition's takes the plain one and the lemma's gets `_lem`. Types, modules and facts keep their capitals, and names of the
functions of src/, exported names and strings stay.
"""
import collections
import os
import re

TOKEN = r"[^\s(){}.;,@\"«»`]+"
DECLARED = re.compile(
    r"(?m)^( *)((?:(?:abbrev|unfoldable|pub|private|irreducible|instance|ruleset|opaque) )*)"
    r"([^\s(){}.;,@\"«»:λ→=][^\s(){}.;,@\"«»:λ→=]*(?: [^\s(){}.;,@\"«»:λ→=]+)*)((?: \{[^{}\n]*\}| \([^()\n]*\))*) (?::|=)(?= |$)"
)
WORDS = "abbrev unfoldable pub record data use let in where mod module then else".split()
KEPT = "user+ user- solver+ solver-".split()


def files(*endings):
    for folder, dirs, names in os.walk("crates"):
        dirs[:] = [d for d in dirs if d != "out"]
        for name in names:
            if name.endswith(endings):
                yield os.path.join(folder, name)


def record_fields():
    """The fields of this repository's records, but for those spelled like a function of src/, for which proofs cite labels that Rattle makes."""
    found, functions = set(), set()
    for path in files(".rt"):
        with open(path, encoding="utf-8") as f:
            functions.update(re.findall(r"\bfn (\w+)", f.read()))
    for path in files(".antt"):
        if re.search(r"/proofs/.*/", path):
            continue
        inside = False
        with open(path, encoding="utf-8") as f:
            for line in f:
                if line.strip() and not line.startswith(" "):
                    inside = re.match(r"(pub )?(record|module)\b", line) is not None and (inside or "record" in line)
                m = re.match(r" +(?:pub )?([^\s:]+(?: [^\s:]+)*) :", line)
                if inside and m:
                    found.update(m.group(1).split())
    return {name for name in found if name.replace("-", "_") not in functions}


def spelled(name):
    if not re.match(r"[a-z]", name) or name in KEPT:
        return name
    name = re.sub(r"(?<=[a-z0-9])[A-Z]", lambda m: "_" + m[0].lower(), name)
    return re.sub(r"(?<=[A-Za-z0-9'])-(?=[A-Za-z0-9])", "_", name)


def plan():
    places = collections.defaultdict(set)
    for path in files(".antt"):
        if re.search(r"/proofs/.*/", path):
            continue
        with open(path, encoding="utf-8") as f:
            for m in DECLARED.finditer(f.read()):
                for word in m.group(3).split():
                    if word not in WORDS:
                        places[word].add(path)
    together = collections.defaultdict(list)
    for name in places:
        together[spelled(name)].append(name)

    # A definition before a lemma: a name in camel case, then one that specs/ declares.
    def rank(name):
        return (re.search(r"[A-Z]", name) is None, not any("/specs/" in p for p in places[name]), name)

    turned = {}
    for new, names in together.items():
        for name in sorted(names, key=rank)[:1]:
            turned[name] = new
        for name in sorted(names, key=rank)[1:]:
            turned[name] = new + "_lem"
    return {a: b for a, b in turned.items() if a != b}


def main():
    turned = plan()
    camel = {a for a in turned if re.search(r"[A-Z]", a)}

    fields = record_fields()
    crates = set(os.listdir("crates"))

    def antt(text):
        of_libraries = set()
        for m in re.finditer(r"(?m)^(?:pub )?use (\S+?)\.\{([^}]*)\}", text):
            if not (m[1].startswith("Rattle.") and m[1].split(".")[1] in crates):
                of_libraries.update(n.split(" as ")[-1].strip() for n in m[2].split(","))

        def put(m):
            name = m[0]
            if name in of_libraries:
                return name
            # A field behind a dot: a dashed one that no record here has is of what Rattle makes.
            if m.start() and text[m.start() - 1] == "." and "-" in name and name not in fields:
                before = text[: m.start() - 1]
                if not re.search(r"[A-Z][\w']*$", before):
                    return name
            return turned.get(name, name)

        return re.sub(TOKEN, put, text)

    def rust(text):
        out = []
        clause = False
        for line in text.split("\n"):
            bare = line.strip()
            clause = clause and not re.match(r"(\{|(pub |unsafe |extern |const )*fn\b|#)", bare) or re.match(r"(ghost use|requires|ensures)\b", bare) is not None
            names = turned if clause else {a: turned[a] for a in camel}
            parts = re.split(r'("(?:[^"\\]|\\.)*")', line)
            parts[::2] = [re.sub(TOKEN, lambda m: names.get(m[0], m[0]), p) for p in parts[::2]]
            out.append("".join(parts))
        return "\n".join(out)

    for path in sorted(files(".antt", ".rt", ".edit")):
        with open(path, encoding="utf-8") as f:
            text = f.read()
        if path.endswith(".antt"):
            new = antt(text)
        elif path.endswith(".rt"):
            new = rust(text)
        else:
            new = "\n".join(
                re.sub(TOKEN, lambda m: turned.get(m[0], m[0]), l) if re.match(r"(old|new):", l) else l for l in text.split("\n")
            )
        if new != text:
            with open(path, "w", encoding="utf-8") as f:
                f.write(new)
    with open("tools/respelled.tsv", "w", encoding="utf-8") as f:
        f.writelines(f"{a}\t{b}\n" for a, b in sorted(turned.items()))
    print(len(turned), "names")


main()
