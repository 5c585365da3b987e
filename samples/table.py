#!/usr/bin/env python3
"""Makes the checksum's lookup table from the polynomial, which is a constant of layout.py: a function for each row, in
crates/shifts/src/lib.rt, and its proof, which computes each entry, in crates/shifts/proofs/.

    python3 samples/table.py            compares them with the ones that are stored; status 1 where they differ
    python3 samples/table.py print      prints the rows as they stand in the source
    python3 samples/table.py write      puts rows and proofs into their files

A row has, for each byte or half of a byte, what is left of it in the register once so many bits have gone.
"""
import sys
from pathlib import Path

from layout import POLYNOMIAL, shifted

CRATE = Path(__file__).resolve().parent.parent / "crates" / "shifts"
HEAD = """\
// The checksum's lookup table, which samples/table.py makes: a function for each row. It gives what is left of a number's lowest byte, or
// of half of it, in the register once so many bits have gone. The entries follow from the polynomial; the proofs compute each of them.
// A `match` is compiled to constant data. A row that is asked for in one place alone is then a load there.
// Ten functions and not one over the number of bits: the rows differ in every entry, and one function would hold all of them.
#![tactic(auto, unfolding(crate::specs::Shifts::polynomial, crate::specs::Shifts::shift, crate::specs::Shifts::shifts))]

ghost use Rattle.std.specs.Prelude.{◌≡◌, ◌%◌};
ghost use Rattle.shifts.specs.Shifts.{shifts};
"""
# The names of rows: of how many bits, and which shifts there are of them.
ROWS = {"byte": (8, (64, 56, 48, 40, 32, 24, 16, 8)), "half": (4, (8, 4))}


def rows():
    for name, (bits, all_shifts) in ROWS.items():
        yield from ((name, bits, gone) for gone in all_shifts)


def source(name, bits, gone):
    size = 1 << bits
    arms = "".join(f"        {value if value < size - 1 else '_'} => 0x{shifted(value, gone):08X},\n" for value in range(size))
    return (f"\n// What is left of the lowest {bits} bits once {gone} have gone.\n"
            f"pub fn {name}_{gone}(x: u32) -> u32\n"
            f"    ensures {{ result ≡ shifts {gone} (x % {size}) }}\n"
            f"{{\n    match x % {size} {{\n{arms}    }}\n}}\n")


def proof(name, bits, gone):
    size = 1 << bits
    return (f"-- `shifts::{name}_{gone}` meets its contract: each listed arm computes, and the last has the one number that they leave.\n"
            "-- Made by samples/table.py.\n"
            "use Rattle.std.proofs.Common.{◌≤◌, ◌%◌, refl, arith}\n"
            "use Rattle.shifts.specs.Shifts.{polynomial, shift, shifts}\n"
            "use Rattle.shifts.proofs.Arms.{last_arm}\n"
            f"use Rattle.shifts.proofs.{name}_{gone}.Goals as goal\n\n"
            "pub returns-in_default : goal.returns-in_default\n"
            "unfolding polynomial shift shifts\n"
            f"returns-in_default c = last_arm {gone} _ {size - 1} _ (let l : {size - 1} ≤ c.args.x % {size} = omega arith in l) refl\n")


def files():
    yield CRATE / "src" / "lib.rt", HEAD + "".join(source(*row) for row in rows())
    for name, bits, gone in rows():
        yield CRATE / "proofs" / f"{name}_{gone}" / "Answers.antt", proof(name, bits, gone)


def main():
    words = sys.argv[1:]
    if words == ["print"]:
        print("".join(source(*row) for row in rows()), end="")
        return
    if words == ["write"]:
        for path, text in files():
            path.parent.mkdir(parents=True, exist_ok=True)
            path.write_text(text, encoding="utf-8")
    elif words:
        sys.exit(__doc__)
    for path, text in files():
        made, stored = text.split("\n"), path.read_text(encoding="utf-8").split("\n") if path.exists() else []
        if made != stored:
            at = next((i for i, (a, b) in enumerate(zip(made, stored)) if a != b), min(len(made), len(stored)))
            sys.exit(f"table: line {at + 1} of {path} is not that of the polynomial {POLYNOMIAL:#010x}:"
                     f" {''.join(stored[at:at + 1]).strip()!r} and not {''.join(made[at:at + 1]).strip()!r}")
    kept = {path.parent.name for path in (CRATE / "proofs").glob("*/Answers.antt")}
    if kept != {f"{name}_{gone}" for name, _, gone in rows()}:
        sys.exit(f"table: other rows have a proof than are made: {' '.join(sorted(kept))}")
    print(f"table: {len(list(rows()))} rows, {sum(1 << bits for _, bits, _ in rows())} entries")


if __name__ == "__main__":
    main()
