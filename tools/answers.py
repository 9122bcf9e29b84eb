#!/usr/bin/env python3
"""Turns the older form of a function's proof, Proof.antt, into Invariants.antt and Answers.antt (docs/PORT.md).

usage: tools/answers.py CRATE..     at the top of the checkout; asks `rt check --generated` for each goal's old and new name
Answers that the check finds alone (`search rules`, `omega arith`) are dropped. What it could not turn is printed, and its Proof.antt stays.
"""
import glob
import json
import os
import re
import subprocess
import sys
import tempfile

NAME = r"[^\s(){}.;,@\"«»]+"
norm = lambda s: s.replace("_", "-")  # noqa: E731


def read(p):
    with open(p, encoding="utf-8") as f:
        return f.read()


def blocks(text):
    out, cur, comments = [], [], []
    for line in text.split("\n"):
        if line.startswith("--"):
            if cur and not cur[-1].strip() == "":
                pass
            if cur:
                out.append(cur)
                cur = []
            comments.append(line)
            continue
        sig = re.match(r"(?:(?:abbrev|unfoldable|pub) )*([^\s(){};,.]+)(?: \{[^}]*\})*(?: :| *$)", line)
        starts = line and not line[0].isspace() and (re.match(r"(use|module|mod|record|pub record|data|pub data) ", line) or (sig and " = " not in line.split(" : ")[0] and (" :" in line)))
        if starts:
            if cur:
                out.append(cur)
            cur = comments + [line]
            comments = []
        elif cur:
            cur.append(line)
        elif line.strip():
            cur = comments + [line]
            comments = []
        else:
            if comments:
                out.append(comments)
                comments = []
    if comments:
        out.append(comments)
    if cur:
        out.append(cur)
    return ["\n".join(b).rstrip("\n") for b in out]


def strip_comment(b):
    return "\n".join(l for l in b.split("\n") if not l.startswith("--"))


def split_top(s):
    """Parts of s at top-level commas."""
    parts, deep, cur = [], 0, ""
    for ch in s:
        if ch in "([{":
            deep += 1
        if ch in ")]}":
            deep -= 1
        if ch == "," and deep == 0:
            parts.append(cur.strip())
            cur = ""
        else:
            cur += ch
    if cur.strip():
        parts.append(cur.strip())
    return parts


def matching(s, i):
    deep = 0
    for k in range(i, len(s)):
        if s[k] in "([{":
            deep += 1
        if s[k] in ")]}":
            deep -= 1
            if deep == 0:
                return k
    return -1


class Function:
    def __init__(self, data, said):
        self.said = said
        self.needs = {}
        self.old_of = {}
        for old, new in data["needs"]:
            self.needs[norm(old)] = new
        self.settled = set(map(norm, data["settled"]))
        self.asked = {norm(k): v for k, v in data["asked"].items()}
        self.steps, self.fields, self.arms = {}, {}, {}
        for place, clause in zip(data["places"], data["clauses"]):
            old, new = place[2]
            if old:
                self.steps[norm(old)] = new
                k = re.fullmatch(r"At-(.*)-(keys\d+)", place[0])
                if k:
                    self.arms[norm(k[1]), k[2]] = new
            if clause and clause.get("fields"):
                self.fields[new] = clause["fields"]
        self.pre = (data["pre"] or {}).get("fields")
        self.callee = {place[2][1]: data["params"].get(place[3]) for place in data["places"] if place[3]}
        self.args = {a.split(".")[-1]: b.split(".")[-1] for a, b in data["args"] if a.startswith(".args")}
        self.places = {norm(place[0]): new for place, new in zip(data["places"], data["places_by_name"])}
        self.loops = data["loops"]
        self.typed = {norm(known): variable for place in data["typed"] for variable, known in place}
        self.changed = data["changed"]

    def need(self, name):
        n = norm(name)
        for k in (n, n.replace("overflow-", "", 1), n.replace("slice-bounds-", "part-", 1), n.replace("slice-bounds-", "slice-part-", 1), n.replace("loop-init", "loop-init")):
            if k in self.needs:
                return k, self.needs[k]
            if k in self.settled or "overflow-" + k in self.settled:
                return k, None
        return None, None

    def clause(self, fields, rest):
        """The clause that nested pairs (`.1.1.0`) or one number name, as segments; None: several, from the answer's second on."""
        n, i = len(fields), 0
        if rest[0].isdigit() and int(rest[0]) > 1:
            return ([fields[int(rest[0])]] + rest[1:] if int(rest[0]) < n else rest), None
        while i < n - 1 and rest[:1] == ["1"]:
            rest, i = rest[1:], i + 1
        if i == n - 1:
            return [fields[i]] + rest, None
        if rest[:1] == ["0"]:
            return [fields[i]] + rest[1:], None
        return (None, i) if not rest else (rest, None)

    def path(self, segs):
        """The new spelling of the segments behind c, leading before's dropped."""
        segs = [s for s in segs]
        while segs and segs[0] == "before":
            segs.pop(0)
        if not segs:
            return []
        head = segs[0]
        rest = segs[1:]
        if head == "requires" and rest and rest[0].isdigit() and self.pre and len(self.pre) > 1:
            new, k = self.clause(self.pre, rest)
            return ["requires"] + (new if new else [f"FROM-{k}"])
        if rest[:1] == ["given"] and norm(head) in self.typed:
            return ["type_inv", self.typed[norm(head)]] + rest[1:]
        if rest and (norm(head), rest[0]) in self.arms:  # what a `match` tells of the value: its variant, or that it is not an earlier arm's
            arm = self.arms[norm(head), rest[0]]
            earlier = re.match(r"in-([^-]*)", self.arms.get((norm(head), "keys1"), ""))
            return [arm, "not-" + earlier[1] if arm.startswith("in_default") and earlier else "is"] + rest[1:]
        if head == "args" and rest and rest[0] in self.args:
            rest = [self.args[rest[0]]] + rest[1:]
        plain = re.sub(r"_lem$", "", head)
        plain = plain[:1].lower() + plain[1:]
        if norm(head) not in self.steps and norm(plain) in self.steps:
            head = plain
        step = self.steps.get(norm(head))
        if step:
            head = step
            if rest[:1] in (["new"], ["auto"]) and rest[1:2] and rest[1] in "01" and self.callee.get(step):
                i = 1
                while rest[i : i + 1] == ["1"]:
                    i += 1
                params = self.callee[step]
                if rest[i : i + 1] == ["0"] and i - 1 < len(params):
                    rest = [rest[0], params[i - 1]] + rest[i + 1 :]
            if rest[:1] == ["ensures"] and len(rest) > 1 and rest[1].isdigit() and step in self.fields:
                new, k = self.clause(self.fields[step], rest[1:])
                rest = ["ensures"] + (new if new else [f"FROM-{k}"])
        return [head] + rest

    def paths(self, body):
        """Turns each path from c or from an alias; lets of bare places go."""
        aliases = {"c": []}
        lets = re.compile(rf"let ({NAME})(?: : [^=]*?)? = (c|{NAME})((?:\.{NAME})*) in\s*")
        # aliases of places and of steps, in order
        pos, out = 0, ""
        for m in re.finditer(rf"let ({NAME}) = ({NAME})((?:\.{NAME})*) in[ ]?\n?", body):
            root, segs = m[2], [s for s in m[3].split(".") if s]
            if root in aliases:
                whole = aliases[root] + segs
                w = list(whole)
                while w and w[0] == "before":
                    w.pop(0)
                told = len(w) == 2 and w[1] == "ensures" and self.steps.get(norm(w[0])) in self.fields or w == ["requires"] and self.pre
                told = told or any(x.startswith("FROM-") for x in self.path(whole)) or (w[:1] == ["requires"] and self.pre)
                if not w or (len(w) == 1 and norm(w[0]) in self.steps) or told:
                    aliases[m[1]] = whole
        names = "|".join(sorted(map(re.escape, aliases), key=len, reverse=True))

        def drop(m):
            return "" if m[1] in aliases and m[1] != "c" else m[0]

        body = re.sub(rf"let ({NAME}) = ({NAME})((?:\.{NAME})*) in[ ]?\n?[ ]*", drop, body)

        def turn(m):
            whole = aliases[m[1]] + [s for s in m[2].split(".") if s]
            new = self.path(whole)
            if not new:
                return ".".join(["c"] + whole)
            fields = self.pre if new[:1] == ["requires"] and len(new) < 3 else self.fields.get(new[0]) if new[1:2] == ["ensures"] and len(new) < 4 else None
            if new and new[-1].startswith("FROM-"):
                fields = fields[int(new[-1][5:]) :]
                new = new[:-1]
            elif new and new[-1] not in ("requires", "ensures"):
                fields = None
            if fields and len(fields) > 1:  # a record today, a tuple before
                parts = [".".join(["c"] + new + [x]) for x in fields]
                return "(" + ", (".join(parts) + ")" * (len(parts) - 1) if len(parts) > 2 else "(" + ", ".join(parts) + ")"
            return ".".join(["c"] + new)

        body = re.sub(rf"(?<![^\s(){{}};,])({names})((?:\.{NAME})*)(?![^\s(){{}}.;,])(?! = )", turn, body)
        # the test of an `if !x` speaks of x itself today
        # that a slice keeps its length is found without the name
        body = re.sub(r", c\.[^\s,()]+-1\.given(?=[,)])", "", body)
        return re.sub(r"not-(?:true|false) (?:_|[^\s()]+\.result|a\.\w+|c\.args\.\w+) (c\.if-not[^\s(),]*\.(?:true|false))", r"\1", body)


def clause_of(block):
    """name, unfolding lines, pattern after the name, body"""
    lines = strip_comment(block).split("\n")
    text = "\n".join(lines)
    sig = re.match(r"((?:(?:abbrev|unfoldable|pub) )*)([^\s(){};,]+) ?:", lines[0])
    name = sig[2]
    i = None
    for k in range(1, len(lines)):
        if re.match(re.escape(name) + r"(\s|$)", lines[k]):
            i = k
            break
    if i is None:
        return name, "", None, None
    unfolding = [l for l in lines[1:i] if l.startswith("unfolding")]
    rest = "\n".join(lines[i:])
    m = re.match(re.escape(name) + r"([^=]*?)\s=(?:\s|$)", rest)
    return name, "\n".join(unfolding), m[1].strip(), rest[m.end() :]


def as_record(body, fields):
    """The last tuple of a body, as a record of these fields."""
    at = max(body.rfind(" in\n"), body.rfind(" in "), -1)
    tail_start = 0
    deep = 0
    # the last top-level ' in'
    for k, ch in enumerate(body):
        if ch in "([{":
            deep += 1
        elif ch in ")]}":
            deep -= 1
        elif deep == 0 and re.match(r"\sin\s", body[k : k + 4]):
            tail_start = k + 4
        elif deep == 1 and False:
            pass
    head, tail = body[:tail_start], body[tail_start:]
    t = tail.strip()
    lets = head.rstrip() + "\n    " if head.strip() else ""
    rec = lambda parts: "record {\n" + "".join(f"      {f} = {p};\n" for f, p in zip(fields, parts)) + "    }"  # noqa: E731
    if t.startswith("(") and matching(t, 0) == len(t) - 1:
        parts = split_top(t[1:-1])
        while len(parts) < len(fields) and parts[-1].startswith("(") and matching(parts[-1], 0) == len(parts[-1]) - 1:
            parts = parts[:-1] + split_top(parts[-1][1:-1])
        if len(parts) < len(fields):  # the last part is a lemma that gives the clauses that are left
            more = len(fields) - len(parts) + 1
            parts = parts[:-1] + [f"({parts[-1]})" + ".1" * k + ".0" * (k < more - 1) for k in range(more)]
        if len(parts) == len(fields):
            return lets + rec(parts)
    if re.match(r"record |elim |⊎-elim|search |grind ", t):
        return None
    # a lemma that gives all clauses at once, as nested pairs
    part = lambda k: ".1" * k + ".0" * (k < len(fields) - 1)  # noqa: E731
    if not re.search(r"(?<![^\s(])_(?![^\s)])", t):
        return (lets or "\n    ") + "let all = " + t + " in\n    " + rec([f"all{part(k)}" for k in range(len(fields))])
    return lets + rec([f"({t}){part(k)}" for k in range(len(fields))])
    return None


EASY = re.compile(r"^\s*(search (rules|needs)|omega arith|tt|refl-nothing)\s*$")


def turn(crate, func_dir, data, mod):
    proof = f"{func_dir}/Proof.antt"
    text = re.sub(r"\.Is(First|Sync)-", lambda m: "." + m[1].lower() + "-", read(proof))
    # a test by `!` says today what its operand is
    text = re.sub(rf"\(not-(?:true|false) \S+ ({NAME}(?:\.{NAME})+)\)", r"\1", text)
    text = re.sub(rf"\bnot-(?:true|false) \S+ ({NAME}(?:\.{NAME})+)", r"\1", text)
    said = []
    f = Function(data, said)
    uses, inv, ans, head = [], [], [], []
    first = True
    kept = 0
    bs = blocks(text)
    for b in bs:
        s = strip_comment(b)
        if not s.strip():
            head.append(b)
            continue
        if s.startswith("use "):
            if first:
                head += [l for l in b.split("\n") if l.startswith("--")]
                first = False
            if ".Statement." in s or re.search(r"\.(Tie|Lts|Reads) as \S+$", s.rstrip()):
                continue
            uses.append(s)
            continue
        line = s.split("\n")[0] + " " + (s.split("\n")[1].strip() if "\n" in s else "")
        mi = re.search(r": tie\.(invariant|decreases)_(\S+)", line)
        mn = re.search(r": +tie\.Need-(\S+)", line)
        if mi:
            name, unf, pat, body = clause_of(b)
            k = [norm(l[0][0]) for l in f.loops].index(norm(mi[2]))
            (old, new), variables = f.loops[k]
            changed = f.changed[k]
            params = pat.split()
            want = len(variables) + sum(changed)
            if len(params) != want:
                said.append(f"invariant {name}: {len(params)} parameters, {want} due")
            sub = {}
            for p, v, ch in zip(params, variables, changed):
                sub[p] = f"l.initial.{v}" if ch else f"l.{v}"
            for p, v in zip(params[len(variables) :], [v for v, ch in zip(variables, changed) if ch]):
                sub[p] = f"l.{v}"
            names = "|".join(sorted(map(re.escape, sub), key=len, reverse=True))
            body = re.sub(rf"(?<![^\s(){{}};,])({names})(?![^\s(){{}}.;,])|(?<![^\s(){{}};,.])({names})(?=\.)", lambda m: sub[m[1] or m[2]], body) if sub else body
            kind = "invariant" if mi[1].startswith("inv") else "decreases"
            label = f"{kind}-{new}"
            inv.append(f"abbrev pub {label} : goal.{label}\n" + (unf + "\n" if unf else "") + f"{label} l =" + ("" if body.startswith("\n") else " ") + body.rstrip())
            continue
        if mn:
            old, new = f.need(mn[1])
            if old is None:
                said.append(f"no goal for {mn[1]}")
                ans.append("-- LEFT " + b.replace("\n", "\n-- "))
                continue
            if new is None:
                continue
            name, unf, pat, body = clause_of(b)
            if body is None:
                said.append(f"no clause of {mn[1]}")
                continue
            if EASY.match(body) and not unf:
                continue
            args = [a for a in pat.split()[1:] if a != "κs"]
            body = f.paths(body).lstrip(" ")
            if re.match(r"\s*omega \(arith", body) and "slice_known" in body or re.fullmatch(r"\s*(let \S+ = \S+ in\s*)*omega \(arith[^∙]*_known-[^∙]*\)\s*", body):
                continue
            fields = f.asked.get(old)
            if fields and len(fields) > 1:
                r = as_record(body, fields)
                if r is None:
                    said.append(f"{new}: a record of {fields} is due")
                else:
                    body = r
            if "\n" in body.strip() and not body.startswith("\n") and not body.startswith("record"):
                body = "\n    " + body
            comment = "\n".join(l for l in b.split("\n") if l.startswith("--"))
            ans.append((comment + "\n" if comment else "") + f"pub {new} : goal.{new}\n" + (unf + "\n" if unf else "") + " ".join([new, "c", *args, "="]) + ("" if body.startswith("\n") else " ") + body.rstrip())
            kept += 1
            continue
        if re.search(r": \{M : Type 1\} → statement M|statement M", line):
            continue
        at = re.match(r"abbrev (\S+) : Type 0\n\1 =\s+lts\.([^\s(){}]+)[^\n]*(\n .*)*$", s)
        if at and norm(at[2]) in f.places:
            ans.append(f"abbrev {at[1]} : Type 0\n{at[1]} = goal.{f.places[norm(at[2])]}")
            continue
        if re.search(r"\bc\.", s):
            b = f.paths(b)
        ans.append(b)
        if "tie." in b or "lts." in b:
            said.append("a helper names tie.: " + line[:80])
    # a pattern's parameter has its own name today
    respelled = lambda s: re.sub(r"\.(t\d+)\b", lambda m: "." + f.args.get(m[1], m[1]), s)  # noqa: E731
    ans, inv = list(map(respelled, ans)), list(map(respelled, inv))
    top = [l for l in head if l.strip()]
    top = [re.sub(r"`bytes::", "`octets::", l) for l in top]
    # a short name that an invariant uses, in both files
    named = [b for b in ans if re.match(r"(--.*\n)*abbrev ", b)]
    told = "\n".join(inv)
    inv = [b for b in named if re.search(r"(?<![^\s(])" + re.escape(re.search(r"^abbrev (\S+)", b, re.M)[1]) + r"(?![^\s)])", told)] + inv
    out = []
    if inv:
        out.append(("Invariants.antt", "\n".join(top + uses + [f"use {mod}.Given as goal"]) + "\n\n" + "\n\n".join(inv) + "\n"))
    if kept:
        out.append(("Answers.antt", "\n".join(top + uses + [f"use {mod}.Goals as goal"]) + "\n\n" + "\n\n".join(ans) + "\n"))
    return out, said


def main():
    for crate in sys.argv[1:]:
        d = tempfile.mkdtemp()
        r = subprocess.run(["rt", "check", "--generated", d, "--old-names"], cwd=f"crates/{crate}", capture_output=True, text=True)
        if not os.path.exists(d + "/names.json"):
            print(crate, "no names:", r.stdout[-2000:], r.stderr[-500:])
            continue
        names = json.load(open(d + "/names.json"))
        for key, data in sorted(names.items()):
            m = re.match(rf"Rattle-{crate}-proofs\.(.*)\.Lts$", key)
            if not m:
                continue
            place = m[1].replace(".", "/")
            func_dir = f"crates/{crate}/proofs/{place}"
            if not os.path.exists(func_dir + "/Proof.antt"):
                continue
            if "tie.spec" not in read(func_dir + "/Proof.antt"):
                print(f"{crate} {place}: a walk by hand")
                continue
            try:
                out, said = turn(crate, func_dir, data, f"Rattle.{crate}.proofs.{m[1]}")
            except Exception as e:  # noqa: BLE001
                print(f"{crate} {place}: {type(e).__name__} {e}")
                continue
            for s in said:
                print(f"{crate} {place}: {s}")
            old = f"/tmp/oldproofs/{crate}/{place}"
            os.makedirs(old, exist_ok=True)
            os.rename(func_dir + "/Proof.antt", old + "/Proof.antt")
            for file, t in out:
                open(f"{func_dir}/{file}", "w", encoding="utf-8").write(t)
            print(f"{crate} {place}: {' '.join(n for n, _ in out) or 'nothing needed'}")


if __name__ == "__main__":
    main()
