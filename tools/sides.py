"""Lists each public signature, clause, ghost field, definition and named theorem that differs between two trees, old and new one above the other, as Markdown (docs/DESIGN-PASS.md ends with it).
usage: tools/sides.py OLD NEW      folders with crates/, README.md and docs/
A function is found again at its name in its crate, or where tools/moved.tsv says; a definition and a theorem at its name. By text alone, as the kit's contracts.py, whose reader this is."""

import collections
import os
import re
import sys

sys.path.insert(0, "/opt/rattle/port")
import contracts  # noqa: E402


def moved(root):
    """Old name to new name, CRATE::NAME each; or to a sentence that says what states the promise now."""
    pairs = {}
    with open(os.path.join(root, "tools", "moved.tsv"), encoding="utf-8") as f:
        for line in f:
            if line.strip() and not line.startswith("#"):
                old, new = line.rstrip("\n").split("\t")
                pairs[old] = new
    return pairs


def public(functions):
    """CRATE::TYPE::NAME of each public function, with its text."""
    out = {}
    for (crate, path, place, name), found in sorted(functions.items()):
        for f in found:
            if f["pub"] and not f["test"] and not f["in tests"]:
                kind = place.split(" for ")[-1].split("<")[0] + "::" if place else ""
                out[f"{crate}::{kind}{name}"] = lines(name, f)
    return out


def lines(name, f):
    rows = [f"fn {name}{f['sign']}"]
    for word in ("requires", "ensures"):
        rows += [f"    {word} {c[1]} {{ {c[2]} }}".replace("  {", " {") for c in f[word]]
    return rows


def theorems(root, crates):
    """CRATE NAME of each public lemma of proofs/, with its statement."""
    out = collections.defaultdict(list)
    for crate in crates:
        base = os.path.join(root, "crates", crate, "proofs")
        for folder, _, names in os.walk(base):
            for f in names:
                if f.endswith(".antt") and f not in ("Answers.antt", "Invariants.antt"):
                    text = open(os.path.join(folder, f), encoding="utf-8").read()
                    text = re.sub(r"--.*", "", text)
                    for m in re.finditer(r"^ *pub (?:record |unfoldable |abbrev )*([^\s:(){}]+)\s*:(.*?)(?=\n *\1(?:\s|$)|\n *unfolding |\nwhere|\n\n)", text, re.S | re.M):
                        out[crate, m[1]].append(contracts.squeeze(m[2]))
    return out


def named(root):
    """What README and docs/ name in backquotes."""
    words = set()
    for base, _, names in os.walk(os.path.join(root, "docs")):
        for f in names:
            if f.endswith(".md") and f not in ("PORT.md", "DESIGN-PASS.md"):
                words |= set(re.findall(r"`([^`\s]+)`", open(os.path.join(base, f), encoding="utf-8").read()))
    return words | set(re.findall(r"`([^`\s]+)`", open(os.path.join(root, "README.md"), encoding="utf-8").read()))


def block(title, old, new):
    print(f"\n{title}\n\n```diff")
    for sign, rows in (("-", old), ("+", new)):
        for row in rows:
            print(sign, row)
    print("```")


def functions(old, new, pairs):
    print("\n### Public functions\n\nOne that is not listed has the signature and the clauses that it had, but for nothing at all.")
    a, b = public(old[1]), public(new[1])
    taken = set()
    for name in a:
        to = pairs.get(name, name)
        if to in b:
            taken.add(to)
            if a[name] != b[to]:
                block(f"`{name}`" + (f", now `{to}`" if to != name else ""), a[name], b[to])
        else:
            block(f"`{name}`: {to if to != name else 'GONE'}", a[name], [])
    print("\nNew public functions:\n")
    for name in b:
        if name not in taken:
            block(f"`{name}`", [], b[name])


def items(title, a, b, pairs, show):
    print(f"\n### {title}")
    for key in sorted(a):
        if not show(key):
            continue
        name = "::".join(key)
        # a function's move says nothing of a definition that stands
        to = name if key in b else pairs.get(name, name)
        other = tuple(to.split("::"))
        if other in b:
            if sorted(a[key]) != sorted(b[other]):
                block(f"`{name}`" + (f", now `{to}`" if to != name else ""), a[key], b[other])
        else:
            block(f"`{name}`: {to if to != name else 'GONE'}", a[key], [])
    back = set(pairs.values())
    for key in sorted(b):
        if key not in a and show(key) and "::".join(key) not in back:
            block(f"`{'::'.join(key)}`, new", [], b[key])


def main(old_root, new_root):
    pairs = moved(new_root)
    old, new = contracts.read(old_root), contracts.read(new_root)
    functions(old, new, pairs)
    fields = lambda ghosts: {k: v for k, v in ghosts.items() if k[1] != "const"}  # noqa: E731
    items("Type invariants and ghost members", fields(old[2]), fields(new[2]), pairs, lambda key: True)
    items("Definitions", old[3], new[3], pairs, lambda key: True)
    words = named(old_root) | named(new_root)
    items("Theorems and laws that README or docs/ name", theorems(old_root, old[0]), theorems(new_root, new[0]), pairs, lambda key: key[1] in words)


if __name__ == "__main__":
    if len(sys.argv) != 3:
        sys.exit(__doc__)
    main(sys.argv[1], sys.argv[2])
