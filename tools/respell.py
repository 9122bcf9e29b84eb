#!/usr/bin/env python3
"""Brings this repository's own names to Rattle's spelling: run once, right after the kit's port.py (docs/PORT.md).

usage: tools/respell.py            at the top of the checkout

- The crate `bytes` is called `octets`: the kit has a library of the first name.
- Definitions, fields and lemmas of specs/ and proofs/ are in snake case; a dash joins two names, a plain word hangs on by an underscore.
- A name that Rattle makes, a function of src/ and a string keep their spelling.
Must-fail edits, README and docs/ get the new names as far as they name them; names that would fall together are printed, and nothing is written then.
"""
import collections
import glob
import os
import re
import sys

DECLARED = re.compile(r"^ *(?:(?:abbrev|opaque|unfoldable|pub|instance) +)*(?:record |data )?([^\s:(){},.=|→λ]+)(?: *[({][^=\n]*?)? *:(?=\s|$)", re.M)
OF_RATTLE = re.compile(r"^ *(?:pub )?(\S+) : (?:tie|goal)\.", re.M)
TOKEN = re.compile(r"(?<![\w'≡≤-])[a-z][\w'-]*(?![\w'≡≤-])")
CRATE_OLD, CRATE_NEW = "bytes", "octets"
# lemmas with an operator in their names
EQUATIONS = [
    "block-erasures≡erasures-of-block",
    "block-stream≡permitted-stream",
    "block-bytes≡read-block",
    "bool-byte≡bit",
    "call-answer≡tallies",
    "call-bytes≡read-sector",
    "call-erasures≡erasures-of-sector",
    "call-number≡0",
    "erasures≡unknown",
    "errors-self≡0",
    "errors≤touched",
    "far-self≡0",
    "joined≡each-sector",
    "part-answer≡tallies",
    "pooled-erasures≤wrong",
    "pooled-errors≡0",
    "run-closed-state≡1",
    "zero-after-the-highest≡10",
]
# the words of the library that lemmas are named after
WORDS = set(
    "length append take drop get_or set sets map sum count reverse replicate filter add sub mul div mod pow lt le eq ne suc zero nil cons mem not min max bit".split()
)
# the names that the unfinished crates capture and framing define, so that the script spells alike without them
UNFINISHED = set("ListAfter Listed NextFrame SomeOrder Stretch between bit_count bits bits_at bytes_of bytes_of_frame capture_answer capture_buffer capture_number capture_refusal capture_report capture_report_size capture_sized forward frame_byte frames_from gap in_frame in_stretch is laid_out longest_capture none order stretches_fit stretches_from sync_at sync_bits taken_in".split())
# a word that is a definition's name and stands in lemmas' names as the English word
PLAIN = set("start next first block sector row column frame part main code word".split())


def read(path):
    with open(path, encoding="utf-8") as f:
        return f.read()


def snake(word):
    if word[:1].isupper():
        return word
    return re.sub(r"(?<=[a-z0-9])([A-Z])", lambda m: "_" + m[1].lower(), word)


def base_files():
    return sorted(glob.glob("crates/*/specs/**/*.antt", recursive=True) + glob.glob("crates/*/proofs/*.antt"))


def function_files():
    return sorted(set(glob.glob("crates/*/proofs/**/*.antt", recursive=True)) - set(base_files()))


def bare(text):
    return re.sub(r"--.*", "", text)


def declared():
    found = set()
    for path in base_files():
        found.update(DECLARED.findall(bare(read(path))))
    made = {name for path in function_files() for name in OF_RATTLE.findall(read(path))}
    for path in function_files():
        found.update(set(DECLARED.findall(bare(read(path)))) - made)
    return {name for name in found if re.fullmatch(r"[A-Za-z][\w'-]*", name) and len(name) > 1}


def definitions():
    found = set()
    for path in glob.glob("crates/*/specs/**/*.antt", recursive=True):
        found.update(DECLARED.findall(bare(read(path))))
    return found


def spelling(name, known):
    if name.endswith("-spec"):
        return name.replace("-", "_")
    parts = ["get_or" if part == "getD" else snake(part) for part in name.split("-")]
    out = parts[0]
    for before, part in zip(parts, parts[1:]):
        named = lambda it: it[:1].isupper() or it in known  # noqa: E731
        out += ("-" if named(before) and named(part) else "_") + part
    return out


def table():
    known = ({snake(name) for name in definitions() if "-" not in name} | WORDS | UNFINISHED) - PLAIN
    names = declared()
    turned = {name: spelling(name, known) for name in sorted(names)}
    # A lemma that would have its function's name ends in _lem.
    in_specs = definitions()
    olds = collections.defaultdict(list)
    for old, new in turned.items():
        olds[new].append(old)
    together = {}
    for new, those in olds.items():
        if len(those) < 2:
            continue
        rank = lambda it: (it not in in_specs, "-" in it, "_" in it)  # noqa: E731
        those.sort(key=rank)
        if len(those) > 2 or rank(those[0]) == rank(those[1]) or new + "_lem" in turned.values():
            together[new] = those
        turned[those[1]] = new + "_lem"
    return {old: new for old, new in turned.items() if old != new}, together


def turn_line(line, names, dotted):
    """A line of antt or of a clause; behind a dot only what dotted allows."""

    def one(m):
        word = m[0]
        if word not in names:
            return word
        head = re.search(r"([^\s(){}.;,@]*|\))\.$", line[: m.start()])
        if head and not dotted(word, head[1]):
            return word
        return names[word]

    return TOKEN.sub(one, line)


def equations(text):
    for name in EQUATIONS:
        text = text.replace(name, name.replace("-", "_"))
    return text


def crate_renamed(text):
    text = re.sub(rf"\bRattle\.{CRATE_OLD}\.", f"Rattle.{CRATE_NEW}.", text)
    return text


def turn_antt(text, names, in_function):
    aliases = set(re.findall(r"\bas (\w+)", text))
    camel = lambda word: bool(re.search(r"[A-Z]", word.split("-")[0]))  # noqa: E731
    fields = turn_antt.fields
    dotted = (lambda word, head: camel(word) or word in fields or head in aliases) if in_function else (lambda word, head: True)
    return crate_renamed("\n".join(turn_line(line, names, dotted) for line in equations(text).split("\n")))


turn_antt.fields = set()


def turn_rust(text, names):
    # a name that was in snake case is the source's own here
    names = {old: new for old, new in names.items() if "-" in old or re.search("[A-Z]", old)}
    out = []
    for part in re.split(r'("(?:[^"\\]|\\.)*")', text):
        out.append(part if part.startswith('"') else TOKEN.sub(lambda m: names.get(m[0], m[0]), part))
    text = "".join(out)
    text = re.sub(rf"(?m)^(\s*(?:pub )?use ){CRATE_OLD}::", rf"\1{CRATE_NEW}::", text)
    text = re.sub(rf"(?m)^(\s*(?:pub )?use ){CRATE_OLD};", rf"\1{CRATE_NEW};", text)
    text = re.sub(rf"(?<![\w:.]){CRATE_OLD}::", f"{CRATE_NEW}::", text)
    return crate_renamed(text)


def turn_prose(text, names):
    """Names between backticks."""
    return re.sub(r"`[^`\n]*`", lambda m: TOKEN.sub(lambda t: names.get(t[0], t[0]), m[0]), equations(text))


def main():
    names, together = table()
    if together:
        for new, olds in sorted(together.items()):
            print("together:", new, olds)
        return 1
    turn_antt.fields = {f for path in glob.glob("crates/*/specs/**/*.antt", recursive=True) for f in re.findall(r"(?m)^  +pub ([a-z][\w'-]*) :", read(path))}
    clash = 0
    for path in base_files() + function_files() + sorted(glob.glob("crates/*/src/**/*.rt", recursive=True)):
        text = read(path)
        tokens = set(TOKEN.findall(bare(text) if path.endswith(".antt") else re.sub(r"//.*", "", text)))
        for old in tokens & set(names):
            if names[old] in tokens and path.endswith(".antt"):
                print("look:", path, old, "->", names[old], "stands there already")
                clash += 1
    if clash and "--force" not in sys.argv:
        return 1
    if "--dry" in sys.argv:
        for old, new in sorted(names.items()):
            print(old, new)
        return 0
    for path in base_files():
        turned = turn_antt(read(path), names, False)
        open(path, "w", encoding="utf-8").write(turned)
    for path in function_files():
        turned = turn_antt(read(path), names, True)
        open(path, "w", encoding="utf-8").write(turned)
    for path in glob.glob("crates/*/src/**/*.rt", recursive=True):
        turned = turn_rust(read(path), names)
        open(path, "w", encoding="utf-8").write(turned)
    for path in glob.glob("crates/*/must-fail/**/*.edit", recursive=True):
        text = read(path)
        turned = turn_rust(text, names) if "file: src/" in text else turn_antt(text, names, False)
        open(path, "w", encoding="utf-8").write(turned)
    for path in ["README.md", "docs/DECISIONS.md", "docs/PROOFS.md", "docs/PERFORMANCE.md", *glob.glob("docs/changes/*.md"), *glob.glob("docs/course/*.md")]:
        if os.path.exists(path):
            turned = turn_prose(read(path), names)
            open(path, "w", encoding="utf-8").write(turned)
    if os.path.isdir(f"crates/{CRATE_OLD}"):
        os.rename(f"crates/{CRATE_OLD}", f"crates/{CRATE_NEW}")
    lines = []
    for line in read("crates.txt").split("\n"):
        if line and not line.startswith("#"):
            line = re.sub(rf"\b{CRATE_OLD}\b", CRATE_NEW, line)
        lines.append(line)
    open("crates.txt", "w", encoding="utf-8").write("\n".join(lines))
    print(f"{len(names)} names")
    return 0


if __name__ == "__main__":
    raise SystemExit(main())
