#!/usr/bin/env python3
"""Brings this repository's own definitions, fields and lemmas to Rattle's spelling: words in snake case, a dash only where it joins two names.

usage: python3 tools/respell.py         at the top, once, on what port.py wrote (docs/PORT.md)

Camel case becomes snake case (`writeNumber`, `write_number`). In a name with dashes each dash stays whose two sides are both the name of a
definition, of a function of the source or of a word of std (`length-window`); every other dash becomes `_` (`all-left`, `all_left`). Names of
types, modules, functions of the source, files and programs' texts stay. It reads crates/ and the pages, writes
files in place, and prints the names that fall together: those that it prints stand in no file together. --check writes nothing, --names lists.
"""
import glob
import re
import sys

W = r"[^\s(){}.;,@\"«»\[\]\\`]+"
HEAD = re.compile(r"(?m)^((?:pattern |unfoldable |abbrev |pub |axiom )*)(" + W + r")((?: \{[^}]*\}| \([^)]*\))*) :(?= |$)(.*)")
FIELD = re.compile(r"(?m)^  (?:pub )?(" + W + r") :(?= |$)(.*)")
FUNCTION = re.compile(r"\bfn ([a-z_0-9]+)")
MADE = re.compile(r"^(invariant|decreases)-")
# words of std and of antt that lemmas' names are made of
STD = set(
    """append nil cons zero suc length take drop take_drop replicate map reverse sum get_or set leb eqb cond mod div mul add sub pow
    le lt eq xor window splice refl sym ap mem some none true false le_refl""".split()
)
# A name that would fall together with another one, or with a word that is in scope beside it.
OTHERWISE = {
    "inStep": "is_in_step",
    "noStore": "no_such_store",
    "no-order": "order_none",
    "runs-for": "for_runs",
    "newest-whole": "newest-whole",
    "whole-entry": "whole-entry",
    "no-block": "block_none",
}
# lemmas in a module with parameters, which stand where a record's fields do
for name in "added-all area-bytes area-offset block-answer block-bytes block-given block-left block-told by-group copy-bytes data-end data-range data-start in-month in-year mend-groups other-area other-side picked-at plan-found record-bytes sector-at sector-bytes sector-on update-groups copy-on on-device part-given".split():
    OTHERWISE[name] = name.replace("-", "_") + "_lem"
# Lemmas that had no dash and now have a definition's name beside them: the folder, the name.
LOCAL = [
    ("allocation/proofs/Demand", "is_free"),
    ("segments/proofs/Sectors", "is_free"),
    ("amseokbin/proofs/Bare", "copy_told"),
    ("amseokbin/proofs/Telling", "copy_told"),
    ("amseokbin/proofs/Telling", "taken_in"),
    ("claims/proofs/Unread", "part_bytes"),
    ("claims/proofs/Unread", "part_left"),
    ("copy/proofs/Demand", "entry_in"),
    ("discovery/proofs/Examining", "step_both"),
    ("format/proofs/Numbering", "bytes_on"),
    ("format/proofs/Writing", "bytes_on"),
    ("items/proofs/Making", "record_of"),
    ("mend/proofs/Giving", "none_number"),
    ("mend/proofs/Demand", "none_number"),
    ("record/proofs/Demand", "block_size"),
    ("record/proofs/Demand", "head_bytes"),
    ("text/proofs/Decimals", "is_digit"),
]


def snake(name):
    s = re.sub(r"([a-z0-9])([A-Z])", lambda m: m[1] + "_" + m[2].lower(), name)
    return s


def is_camel(name):
    return bool(re.match(r"[a-z]", name)) and bool(re.search(r"[a-z0-9][A-Z]", name))


def sources():
    return sorted(glob.glob("crates/*/src/**/*.rt", recursive=True))


def proof_files():
    return sorted(glob.glob("crates/*/specs/*.antt")) + sorted(glob.glob("crates/*/proofs/**/*.antt", recursive=True))


def main():
    texts = {}
    for p in proof_files() + sources() + sorted(glob.glob("crates/*/must-fail/*.edit")):
        with open(p, encoding="utf-8") as f:
            texts[p] = f.read()
    pages = {}
    for p in ["README.md"] + sorted(glob.glob("docs/*.md")):
        with open(p, encoding="utf-8") as f:
            pages[p] = f.read()
    stale = dict(texts)
    for place, name in LOCAL:
        crate, rest = place.split("/", 1)
        p = f"crates/{crate}/{rest}.antt"
        texts[p] = re.sub(r"(?<![\w.-])" + name + r"(?![\w'-])", name + "_lem", texts[p])
    functions = set()
    for p in sources():
        functions.update(FUNCTION.findall(texts[p]))
    declared, fields, answers = {}, {}, set()
    for p in proof_files():
        for m in HEAD.finditer(texts[p]):
            name, kind = m[2], m[4].strip()
            if MADE.match(name):
                continue
            if kind.startswith(("tie.", "goal.")) or "statement" in kind:
                answers.add(name)
                continue
            declared.setdefault(name, []).append(p)
        for m in FIELD.finditer(texts[p]):
            fields.setdefault(m[1], []).append(p)
    definitions = {snake(n) for n, ps in declared.items() if n[:1].islower() and "-" not in n and any("/specs/" in p for p in ps)}
    known = {n for n in definitions | functions | STD if len(n) > 1}

    def respelled(name):
        if name in OTHERWISE:
            return OTHERWISE[name]
        # an upper-case first letter is a type, or a type at the head of a lemma's name
        parts = [snake(x) if is_camel(x) else x for x in name.split("-")]
        units, i = [], 0
        while i < len(parts):
            n = next(n for n in range(len(parts) - i, 0, -1) if n == 1 or "_".join(parts[i : i + n]) in known)
            units.append("_".join(parts[i : i + n]))
            i += n
        out = units[0]
        for i in range(1, len(units)):
            both = units[i - 1] in known and units[i] in known
            head = i == 1 and re.match(r"[A-Z]", units[0])
            out += ("-" if both or head else "_") + units[i]
        return out

    names = {"elseRefuse": "else_refuse", "◌elseRefuse◌": "◌else_refuse◌"}
    for n in list(declared) + list(fields):
        if re.fullmatch(r"[\w'₀-₉-]+", n) and (is_camel(n) or "-" in n):
            new = respelled(n)
            if new != n:
                names[n] = new
    # a lemma that would have a definition's name ends in _lem
    taken = {names.get(n, n) for n, ps in declared.items() if any("/specs/" in p for p in ps)} | {names.get(n, n) for n in fields}
    for n in list(names):
        in_specs = n in fields or any("/specs/" in p for p in declared.get(n, []))
        if not in_specs and names[n] in taken:
            names[n] += "_lem"
    # names that fall together
    back = {}
    for n, new in names.items():
        back.setdefault(new, set()).add(n)
    bad = 0
    every = set(declared) | set(fields)
    for new, olds in sorted(back.items()):
        if new in every:
            olds = olds | {new}
        if len(olds) > 1:
            places = {o: {q.split("/")[1] for q in declared.get(o, []) + fields.get(o, [])} for o in olds}
            print("together:", new, places)
            bad += 1
    token = re.compile(r"\"(?:[^\"\\\n]|\\.)*\"|" + W)

    def turn(text, source):
        out, at = [], 0
        in_code = not source
        for m in token.finditer(text):
            t = m[0]
            new = names.get(t)
            if new is None:
                continue
            before = text[m.start() - 1] if m.start() else "\n"
            if before == ".":
                owner = re.search(r"([^\s(){};,.]+)\.$", text[: m.start()])
                of_module = owner and re.match(r"[A-Z]", owner[1])
                if not of_module and t not in fields and "-" in t:
                    continue
            if source and "-" in t:
                line = text[text.rfind("\n", 0, m.start()) + 1 : m.start()]
                if "//" not in line and "ghost use" not in line:
                    continue
            out.append(text[at : m.start()])
            out.append(new)
            at = m.end()
        out.append(text[at:])
        return "".join(out)

    changed = 0
    for p, t in texts.items():
        new = turn(t, p.endswith(".rt"))
        fresh = {names[x] for x in set(token.findall(t)) if x in names}
        stood = {m[0] for m in token.finditer(t) if t[m.start() - 1 : m.start()] != "." and not re.match(r"\s*\(|\.", t[m.end() :]) and t[: m.start()].split()[-1:] != ["fn"]}
        for x in sorted(fresh & stood):
            print("stood already:", p, x)
            bad += 1
        if new != stale[p]:
            changed += 1
            if "--check" not in sys.argv:
                with open(p, "w", encoding="utf-8") as f:
                    f.write(new)
    for p, t in pages.items():
        new = re.sub(r"`([^`\n]+)`", lambda m: "`" + re.sub(W, lambda w: names.get(w[0], w[0]), m[1]) + "`", t)
        if new != t:
            changed += 1
            if "--check" not in sys.argv:
                with open(p, "w", encoding="utf-8") as f:
                    f.write(new)
    print(f"respell: {len(names)} names, {changed} files")
    if "--names" in sys.argv:
        for n, new in sorted(names.items()):
            print(n, new)
    return 1 if bad else 0


if __name__ == "__main__":
    raise SystemExit(main())
