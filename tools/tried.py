#!/usr/bin/env python3
"""Frames whose listing by the definition is compared with the Rust's: writes crates/tried/proofs/Tried.antt from tools/frames.txt.

usage: tools/tried.py ANSWER < tools/frames.txt > crates/tried/proofs/Tried.antt
ANSWER is the judge's listing program; every number that is compared comes from it. frames.txt has, to a line:
  = STATEMENT          starts a statement
  # TEXT               says what the next frame is for
  NAME ROWS HEX        a frame, and the rows of room"""
import os, re, subprocess, sys

ROOT = os.path.dirname(os.path.dirname(os.path.abspath(__file__)))
HEAD = """-- Frames on which the definition gives what the Rust gives, as `ac3/specs/Listing.antt` says it in short.
-- Made by tools/tried.py from tools/frames.txt. Assumes nothing.
use mathlib.Core.List.{List, [], ◌∷◌, ◌++◌}
use mathlib.Core.Path.{◌≡◌, refl}
use Prim.Native.Nat.{ℕ}"""


def checksum(rows):
    h = 0
    for row in rows:
        for x in row:
            h = (h * 1000003 + x + 1) % (2**61 - 1)
    return h


def expected(answer, data, room):
    """What the Rust answers: rows, bit, checksum, refusal, and the name and block (plus one) that it tells; or 0 and the rest of the summary."""
    run = subprocess.run([answer, "--rows", room, "--summary"], input=data, capture_output=True, check=True)
    *lines, last, summary = run.stdout.decode().splitlines()
    rows = [[int(n) for n in line.split()] for line in lines]
    word, *numbers = last.split()
    summary = [int(n) for n in summary.split()[1:]]
    if word == "refused":
        number, count, bit, name, block = map(int, numbers)
        assert not any(summary), "a refusal's summary is all zeros"
        return [count, bit, checksum(rows), number, name, block + 1]
    count, size, bit, *rest = summary
    return [count, bit, checksum(rows), 0, size] + rest


CRATES = ("bits", "syntax", "tables", "alloc", "slots", "parameters", "exponents", "mantissas", "header", "channels", "ac3")


def used(start):
    """The specs files that a listing computes with, as (crate, file): what `start` uses, and what that uses."""
    found, todo = set(), [start]
    while todo:
        crate, file = todo.pop()
        path = f"{ROOT}/crates/{crate}/specs/{file}.antt"
        if crate in CRATES and (crate, file) not in found and os.path.exists(path):
            found.add((crate, file))
            todo += re.findall(r"^use Rattle\.(\w+)\.specs\.(\w+)\b", open(path).read(), re.M)
    return found


def unfoldable():
    """All that a listing computes with, as module: names."""
    found = {}
    for crate, file in sorted(used(("ac3", "Listing")), key=lambda f: (CRATES.index(f[0]), f[1])):
        names = re.findall(r"^\s*unfoldable pub (\S+) :", open(f"{ROOT}/crates/{crate}/specs/{file}.antt").read(), re.M)
        if names:
            found[f"Rattle.{crate}.specs.{file}"] = names
    return found


def written(hexed):
    """The bytes in antt, 64 to a line."""
    lines = [hexed[i : i + 128] for i in range(0, len(hexed), 128)]
    return "\n    ++ ".join(f"bytes {len(line) // 2} 0x{line}" for line in lines) or "[]"


def main():
    names = unfoldable()
    all_names = [n for ns in names.values() for n in ns]
    tag = lambda module, n: n if all_names.count(n) == 1 else f"{module.split('.')[-1]}-{n}"
    frames, statements, comment = [], [], None
    for line in sys.stdin.read().splitlines():
        if line.startswith("= "):
            statements.append((line[2:], []))
        elif line.startswith("# "):
            comment = line[2:]
        elif line:
            name, room, hexed = line.split()
            hexed = hexed.replace("-", "")
            if not any(f[0] == name for f in frames):
                frames.append((name, hexed, comment))
            want = expected(sys.argv[1], bytes.fromhex(hexed), room)
            statements[-1][1].append(f"(listing {room} {name} ≡ {' ∷ '.join(map(str, want))} ∷ [])")
    print(HEAD)
    for module, ns in names.items():
        print(f"use {module}.{{" + ", ".join(n if tag(module, n) == n else f"{n} as {tag(module, n)}" for n in ns) + "}")
    print("use Rattle.ac3.specs.Listing.{listing}")
    for name, hexed, comment in frames:
        print(f"\n-- {comment}\nabbrev {name} : List ℕ\n{name} =\n    {written(hexed)}")
    for name, parts in statements:
        print(f"\n{name} :\n    " + "\n    × ".join(parts))
        print("unfolding " + " ".join(tag(m, n) for m, ns in names.items() for n in ns))
        print(f"{name} = (" + ", ".join("refl" for _ in parts) + ")")


main()
