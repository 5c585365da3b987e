#!/usr/bin/env python3
"""Turns a crate's Proof.antt files, which answer goals by position, into Invariants.antt and Answers.antt, which answer them by name.

usage: python3 tools/convert.py NAME [FUNCTION ..]      at the top, after port.py and respell.py, once the crates below NAME are proved

It asks `rt check --generated --old-names` for each goal's and each step's old and new name. Answers that only say `search rules` are left out.
What it could not turn it prints. rt check decides.
"""
import glob
import json
import os
import re
import shutil
import subprocess
import sys
import tempfile

W = r"[^\s(){}.;,\"«»\[\]\\`]+"


def alike(s):
    s = re.sub(r"_lem$", "", s)
    return re.sub(r"[-_]", "", s).lower()


def contracts():
    """By function: its ensures labels, its requires labels, the names of its &mut parameters."""
    out = {}
    for p in glob.glob("crates/*/src/**/*.rt", recursive=True):
        crate = p.split("/")[1]
        t = open(p, encoding="utf-8").read()
        for m in re.finditer(r"\bfn ([a-z_0-9]+)\s*(?:<[^>]*>)?\(([^{]*?)\)(?:\s*->\s*[^{\n]*?)?\s*((?:\n\s*(?:requires|ensures)[^\n]*)*)\n?\s*\{", t):
            body = m[3]
            ens = re.findall(r"ensures ([a-z_0-9]+) \{", body)
            req = re.findall(r"requires ([a-z_0-9]+) \{", body)
            muts = re.findall(r"([a-z_0-9]+): &(?:'[a-z]+ )?mut ", m[2])
            out.setdefault(m[1], {})[crate] = (ens, req, muts)
    return out


CON = None


def of_callee(path):
    crate, name = path.split("::")[0], path.split("::")[-1]
    d = CON.get(name, {})
    return d.get(crate) or (list(d.values())[0] if len(d) == 1 else ([], [], []))


def top_blocks(text):
    """Splits into (head line(s), whole text, name, type) for each declaration, and the imports and comments before."""
    lines = text.split("\n")
    blocks, cur = [], []
    for l in lines:
        if l.strip() == "" and cur and not (cur and cur[-1].rstrip().endswith("where")):
            blocks.append("\n".join(cur))
            cur = []
        elif l.strip() == "":
            continue
        else:
            cur.append(l)
    if cur:
        blocks.append("\n".join(cur))
    return blocks


HEAD = re.compile(r"(?s)^((?:--[^\n]*\n)*)((?:pattern |unfoldable |abbrev |pub )*)(" + W + r")(?: \{[^}]*\})? :\s(.*)$")


def split_decl(block):
    m = HEAD.match(block)
    if not m:
        return None
    name = m[3]
    rest = m[4]
    # the type runs to the line that begins with `unfolding` or the name
    i = re.search(r"(?m)^(unfolding |" + re.escape(name) + r"(?:\s|$))", rest)
    if not i:
        return None
    return m[1], m[2], name, rest[: i.start()].strip(), rest[i.start() :]


def split_args(t):
    out, depth, cur = [], 0, ""
    for ch in t:
        if ch in "([{":
            depth += 1
        if ch in ")]}":
            depth -= 1
        if ch.isspace() and depth == 0:
            if cur:
                out.append(cur)
                cur = ""
        else:
            cur += ch
    if cur:
        out.append(cur)
    return out


def split_tuple(t):
    """The parts of `( a, b )`, or None."""
    t = t.strip()
    if not (t.startswith("(") and t.endswith(")")):
        return None
    out, depth, cur = [], 0, ""
    for i, ch in enumerate(t):
        if ch in "([{":
            depth += 1
            if depth == 1 and i == 0:
                continue
        if ch in ")]}":
            depth -= 1
            if depth == 0 and i != len(t) - 1:
                return None
            if depth == 0:
                continue
        if ch == "," and depth == 1:
            out.append(cur)
            cur = ""
        else:
            cur += ch
    if cur.strip():
        out.append(cur)
    return out if len(out) > 1 else None


def lets_and_end(body):
    """Cuts a body at its last ` in` of the leading lets, outside brackets."""
    depth, last = 0, 0
    if not body.lstrip().startswith("let "):
        return "", body
    # nested lets within brackets do not count
    i, n_let, n_in = 0, 0, 0
    pos = 0
    tok = re.compile(r"[()\[\]{}]|\blet\b|\bin\b")
    for m in tok.finditer(body):
        ch = m[0]
        if ch in "([{":
            depth += 1
        elif ch in ")]}":
            depth -= 1
        elif depth == 0 and ch == "let":
            n_let += 1
        elif depth == 0 and ch == "in":
            before = body[: m.start()]
            n_in += 1
            if n_in == n_let:
                pos = m.end()
    return body[:pos], body[pos:]


def project(body, i, n):
    lets, end = lets_and_end(body)
    cut = i
    parts = split_tuple(end)
    if parts and len(parts) == n:
        return lets + "\n    " + parts[i].strip()
    if parts and n == 3 and len(parts) == 2:
        if i == 0:
            return lets + "\n    " + parts[0].strip()
        inner = split_tuple(parts[1])
        if inner and len(inner) == 2:
            return lets + "\n    " + inner[i - 1].strip()
        return lets + f"\n    ({parts[1].strip()}).{i - 1}"
    path = [".0", ".1"] if n == 2 else [".0", ".1.0", ".1.1"] if n == 3 else [".0", ".1.0", ".1.1.0", ".1.1.1"]
    e = end.strip()
    return lets + "\n    (" + e + ")" + path[i]


def turn_steps(body, steps, callee, var, moved, arms):
    """`c.before.before.if1.true` -> `c.if-x-y.true`"""

    def one(m):
        chain = m[0].split(".")
        head, rest = chain[0], chain[1:]
        while rest and rest[0] == "before":
            rest = rest[1:]
        if not rest:
            return head
        key = alike(rest[0])
        if rest[0] in ("args", "requires", "ranges", "lifetimes", "type_inv", "well_formed"):
            return ".".join([head] + rest)
        for (step, path), (new, field) in arms.items():
            if step == key and path and tuple(rest[1 : 1 + len(path)]) == path:
                return ".".join([head, new, field] + rest[1 + len(path) :])
        if key in steps:
            new = steps[key]
            path = callee.get(key)
            rest = [new] + rest[1:]
            if path:
                ens, _req, muts = of_callee(path)
                if len(rest) > 2 and rest[1] == "ensures" and len(ens) > 1:
                    if rest[2] == "0":
                        rest[2:3] = [ens[0]]
                    elif rest[2] == "1" and len(ens) == 2:
                        rest[2:3] = [ens[1]]
                    elif rest[2] == "1" and len(rest) > 3 and rest[3] in "01" and len(ens) == 3:
                        rest[2:4] = [ens[1 + int(rest[3])]]
                    elif rest[2] in "012" and len(ens) == 3:
                        rest[2:3] = [ens[int(rest[2])]]
                if len(rest) > 2 and rest[1] in ("new", "auto") and rest[2].isdigit() and muts:
                    if len(muts) == 1 or rest[2] == "0":
                        rest[2:3] = [muts[0]]
                        # a single one stood as a pair with the unit
                    elif rest[2] == "1":
                        k, j = 2, 1
                        if len(rest) > 3 and rest[3] == "0":
                            rest[2:4] = [muts[1]]
                        elif len(muts) == 2:
                            rest[2:3] = [muts[1]]
            return ".".join([head] + rest)
        moved.append(m[0])
        return ".".join([head] + rest)

    return re.sub(r"(?<![\w.'-])" + re.escape(var) + r"((?:\." + W + r")+)", one, body)


def clean_use(lines, fn, drop):
    out = []
    for l in lines:
        if re.search(r"\.Tie as tie$|\.Statement\.\{statement\}$", l.strip()):
            continue
        out.append(l)
    return out


def main():
    global CON
    crate = sys.argv[1]
    only = sys.argv[2:]
    CON = contracts()
    tmp = tempfile.mkdtemp(prefix="convert-")
    here = os.path.join("crates", crate)
    # the names come from the code alone: proof files stand aside meanwhile
    said = subprocess.run(["rt", "check", "--generated", tmp, "--old-names"], cwd=here, capture_output=True, text=True)
    try:
        names = json.load(open(os.path.join(tmp, "names.json")))
    except OSError:
        print(said.stdout[-2000:], said.stderr[-2000:])
        return 2
    for p in sorted(glob.glob(os.path.join(here, "proofs", "**", "Proof.antt"), recursive=True)):
        folder = os.path.dirname(p)
        rel = os.path.relpath(folder, os.path.join(here, "proofs"))
        fn = rel.replace("/", ".")
        if only and rel not in only and os.path.basename(rel) not in only:
            continue
        text = open(p, encoding="utf-8").read()
        if "Tie as tie" not in text:
            print(f"by hand: {p}: walks the code")
            continue
        of = names.get(f"Rattle-{crate}-proofs.{fn}.Lts")
        if of is None:
            print(f"no names: {p}")
            continue
        needs = [(o, n) for o, n in of["needs"]]
        need_of = {}
        for o, n in needs:
            need_of.setdefault(alike(o), n)
        steps, callee = {}, {}
        for _place, _parent, names_of, path, _x in of["places"]:
            o, n = names_of
            if o:
                steps.setdefault(alike(o), n)
                if path:
                    callee[alike(o)] = path
        arms = {}
        for arm in of["arms"]:
            if arm:
                for field, old_step, path in arm[2]:
                    arms[(alike(old_step), tuple(path))] = (arm[0], field)
        known = {}
        for each in of["typed"]:
            for v, s in each:
                known[steps.get(alike(s), s)] = v
        loops = [((o, n), vs) for (o, n), vs in of["loops"]]
        blocks = top_blocks(text)
        uses, comment, decls = [], [], []
        for b in blocks:
            ls = b.split("\n")
            if all(l.startswith(("use ", "--")) for l in ls):
                uses += [l for l in ls if l.startswith("use ")]
                comment += [l for l in ls if l.startswith("--")]
                continue
            d = split_decl(b)
            if d is None:
                print(f"{rel}: could not read a block: {b[:80]!r}")
                decls.append(("raw", b))
            else:
                decls.append(("decl", d))
        invs, answers, helpers, spec = [], [], [], None
        by_name = {}
        for kind, d in decls:
            if kind == "raw":
                helpers.append(d)
                continue
            com, marks, name, ty, body = d
            if ty.startswith("tie.invariant-") or ty.startswith("tie.decreases-"):
                invs.append((name, ty, body, com))
            elif ty.startswith("tie.Need-"):
                old = ty.split()[0][len("tie.Need-") :]
                answers.append((name, old, body, com))
            elif "statement" in ty and "tie.spec" in body:
                spec = body
            else:
                helpers.append(com + marks + name + " : " + ty + "\n" + body)
        places = {alike(o[0]): n for o, n in zip(of["places"], of["places_by_name"])}
        helpers = [re.sub(r"tie\.([A-Z]" + W + r")", lambda q: "goal." + places.get(alike(q[1]), q[1]), h) for h in helpers]
        # inline answers, by position
        if spec:
            m = re.search(r"(?s)\(tie\.spec\s*(.*)\)\s*$", spec)
            args = split_args(m[1]) if m else []
            named = {a[0] for a in answers} | {i[0] for i in invs} | {s.split(" :")[0].split()[-1] for s in helpers}
            lam = [a for a in args if a.startswith("(")]
            opened = "".join(x + "\n" for x in spec.split("\n") if x.startswith("unfolding "))
            easy = ["(λ c. search rules)", "(λ c κs. search rules)"] + ([] if opened else ["(λ c. omega arith)", "(λ c. refl)"])
            if any(re.sub(r"\s+", " ", a) not in easy for a in lam):
                own = [a for a in args if not (a in {i[0] for i in invs})]
                if len(own) == len(needs):
                    for a, (o, n) in zip(own, needs):
                        if a.startswith("("):
                            mm = re.match(r"(?s)^\(λ ([^.]*?)\. (.*)\)$", a)
                            if mm and mm[2].strip() != "search rules":
                                answers.append((n, o, f"{opened}{n} {mm[1]} = {mm[2]}", ""))
                else:
                    print(f"{rel}: {len(own)} answers by position, {len(needs)} goals")
                    k = [a for a in own if a.startswith("(") and "search rules" not in a]
                    todo = [n for o, n in needs if n.startswith("returns")]
                    if len(k) == len(todo):
                        for a, n in zip(k, todo):
                            mm = re.match(r"(?s)^\(λ ([^.]*?)\. (.*)\)$", a)
                            o = [x for x, y in needs if y == n][0]
                            answers.append((n, o, f"{opened}{n} {mm[1]} = {mm[2]}", ""))
        # invariants
        inv_out = []
        for name, ty, body, com in invs:
            kind, old = re.match(r"tie\.(invariant|decreases)-(\S+)", ty).groups()
            hit = [(o, n, vs, of["changed"][k]) for k, ((o, n), vs) in enumerate(loops) if alike(o) == alike(old)]
            if not hit:
                print(f"{rel}: no loop {old}; loops are {[x[0] for x in loops]}")
                continue
            _o, new, vs, changed = hit[0]
            m = re.match(r"(?s)^(unfolding [^\n]*\n)?" + re.escape(name) + r"((?: [^=]*?)?) =(.*)$", body)
            if not m:
                print(f"{rel}: could not read {name}")
                continue
            params = m[2].split()
            targets = ["l.initial." + v for v in vs] + ["l." + v for v, ch in zip(vs, changed) if ch]
            for k, v in enumerate(vs):
                if not changed[k]:
                    targets[k] = "l." + v
            if len(params) != len(targets):
                print(f"{rel}: {name} has {len(params)} parameters {params}, and {len(targets)} places {targets}")
            table = dict(zip(params, targets))
            table.pop("_", None)
            text_ = re.sub(r"(?<![\w.'₀-₉-])(" + "|".join(re.escape(x) for x in sorted(table, key=len, reverse=True)) + r")(?![\w'₀-₉-])", lambda q: table[q[1]], m[3]) if table else m[3]
            inv_out.append(f"{com}abbrev pub {kind}-{new} : goal.{kind}-{new}\n{m[1] or ''}{kind}-{new} l ={text_}")
        # answers
        ans_out = []
        moved = []
        for name, old, body, com in answers:
            new = need_of.get(alike(old)) or next((x for x in of["settled"] if alike(x) == alike(old)), None)
            m = re.match(r"(?s)^((?:unfolding [^\n]*\n)?)" + re.escape(name) + r"((?: [^=]*?)?) =(.*)$", body)
            if not m:
                print(f"{rel}: could not read {name}")
                continue
            params = m[2].split()
            text_ = m[3].strip()
            if text_ == "search rules" or (text_ in ("omega arith", "refl") and not m[1]):
                continue
            if new is None:
                print(f"{rel}: no goal now for {old}: {text_[:60]!r}")
                continue
            if len(params) == 0:
                text_ = "(" + text_ + ") c"
                params = ["c"]
            text_ = turn_steps(m[3], steps, callee, params[0], moved, arms)
            # of `if !x` the new name states x, and the old one `not x`
            text_ = re.sub(r"\b" + params[0] + r"\.if-not-[\w-]+\.(?:true|false)(?![\w-])", lambda q: "(ap not " + q[0] + ")", text_)
            # what is known of a slice's bytes stands with its parameter now
            text_ = re.sub(r"\b" + params[0] + r"\.((?:shared_)?slice_known[\w-]*)\.given\b", lambda q: params[0] + ".type_inv." + known.get(q[1], "SLICE"), text_)
            clauses = of["asked"].get(new) or next((v for k, v in of["asked"].items() if alike(k) == alike(old)), None)
            if clauses:
                for i, cl in enumerate(clauses):
                    b = project(text_.strip() if "\n" not in text_ else text_, i, len(clauses))
                    ans_out.append(f"{com}pub {new}-clause-{cl} : goal.{new}-clause-{cl}\n{m[1]}{new}-clause-{cl} {params[0]} = {b.strip()}")
            else:
                ans_out.append(f"{com}pub {new} : goal.{new}\n{m[1]}{new} {params[0]} ={text_}")
        if moved:
            print(f"{rel}: steps without a new name: {sorted(set(moved))[:6]}")
        uses = clean_use(uses, fn, None)
        uses = [u for u in uses if not re.search(r"\.\{statement\}", u)]
        path = f"Rattle.{crate}.proofs.{fn}"
        if inv_out:
            with open(os.path.join(folder, "Invariants.antt"), "w", encoding="utf-8") as f:
                f.write("\n".join(comment + uses + [f"use {path}.Given as goal", ""]) + "\n" + "\n\n".join(inv_out) + "\n")
        body = "\n\n".join(helpers + ans_out)
        if "(ap not c.if-not-" in body:
            uses.append("use Rattle.std.proofs.Common.{not}")
            if not any(re.search(r"[{ ]ap[,}]", u) for u in uses):
                uses.append("use Rattle.std.proofs.Common.{ap}")
        if body.strip():
            extra = []
            if "κ" in body and False:
                extra = []
            with open(os.path.join(folder, "Answers.antt"), "w", encoding="utf-8") as f:
                f.write("\n".join(comment + uses + [f"use {path}.Goals as goal", ""]) + "\n" + body + "\n")
        os.remove(p)
        if not inv_out and not body.strip():
            os.rmdir(folder)
    shutil.rmtree(tmp)
    return 0


if __name__ == "__main__":
    raise SystemExit(main())
