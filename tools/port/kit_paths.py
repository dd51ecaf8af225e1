#!/usr/bin/env python3
"""Turns imports of the kit's inner modules (mathlib.Core.Path, lib.ListN, Prim.Native.Nat ..) into imports of the two pages that pass those names on:
Rattle.std.specs.Prelude, and for what only proofs cite Rattle.std.proofs.Common. One line for each page; what neither passes on keeps its path.

usage: python3 kit_paths.py [--kit FOLDER]     at the top of the repository, after port.py and respell.py; no name changes, only where it is taken from
"""
import glob
import os
import re
import subprocess
import sys

if "-h" in sys.argv or "--help" in sys.argv:
    print(__doc__)
    raise SystemExit(0)
args = sys.argv[1:]
kit = args[args.index("--kit") + 1] if "--kit" in args else os.path.dirname(
    subprocess.run(["rt", "doc"], capture_output=True, text=True).stdout.strip().split("\n")[-1])
USE = re.compile(r"^use (?P<path>[\w.'-]+)\.\{(?P<names>[^}]*)\}\s*$")
INNER = re.compile(r"^(mathlib|lib|native|Prim|borrow|Rattle\.std)\.")
PRELUDE, COMMON = "Rattle.std.specs.Prelude", "Rattle.std.proofs.Common"
BOOL = "Rattle.std.proofs.lemmas.Bool"


def passed_on(file):
    """The names that a page of the kit passes on, each with the module it comes from."""
    out = {}
    for line in open(file, encoding="utf-8"):
        m = re.match(r"^pub use ([\w.'-]+)\.\{([^}]*)\}", line)
        if m:
            for n in m[2].split(","):
                out[n.strip()] = m[1]
    return out


def page(path):
    words = path.split(".")[1:]
    return f"{kit}/rattle/{'/'.join(words)}.antt"


prelude = passed_on(page(PRELUDE))
common = passed_on(page(COMMON))
tests = passed_on(page(BOOL))
# the libraries of mathematics that one page passes on whole, as Rattle.std.proofs.Math.NAME
whole = {m[1]: "Rattle.std.proofs.Math." + m[1].split(".")[-1]
         for m in re.finditer(r"^pub use ([\w.'-]+)$", open(page("Rattle.std.proofs.Math"), encoding="utf-8").read(), re.M)}


def origin(name, path, seen=()):
    """The inner module that a page's name comes from, through further pages."""
    names = passed_on(page(path)) if path.startswith("Rattle.") and os.path.exists(page(path)) else {}
    return origin(name, names[name]) if name in names else path


def place(name, path, in_specs):
    """Where a name that stands in the module `path` is taken from."""
    plain = name.split(" as ")[0].strip()
    pages = [(PRELUDE, prelude), (COMMON, common)] if in_specs else [(COMMON, common)]
    for p, names in pages:
        if plain in names and (path == p or path.startswith("Rattle.std") or origin(plain, p) == path):
            return p
    return BOOL if tests.get(plain) == path else whole.get(path, path)


def turn(text, in_specs):
    out, lines, at = {}, [], None
    for line in text.split("\n"):
        m = USE.match(line)
        if m and INNER.match(m["path"]):
            if at is None:
                at = len(lines)
                lines.append(None)
            for n in m["names"].split(","):
                names = out.setdefault(place(n.strip(), m["path"], in_specs), [])
                if n.strip() and n.strip() not in names:
                    names.append(n.strip())
        else:
            lines.append(line)
    if at is None:
        return text
    order = sorted(out, key=lambda p: (p != PRELUDE, p != COMMON, p))
    lines[at:at + 1] = [f"use {p}.{{{', '.join(out[p])}}}" for p in order]
    return "\n".join(lines)


left, changed = {}, 0
for f in sorted(glob.glob("crates/*/specs/**/*.antt", recursive=True) + glob.glob("crates/*/proofs/**/*.antt", recursive=True)):
    t = open(f, encoding="utf-8").read()
    u = turn(t, "/specs/" in f)
    if u != t:
        changed += 1
        open(f, "w", encoding="utf-8").write(u)
    for line in u.split("\n"):
        m = USE.match(line)
        if m and INNER.match(m["path"]) and m["path"] not in (PRELUDE, COMMON):
            for n in m["names"].split(","):
                left[(m["path"], n.strip())] = left.get((m["path"], n.strip()), 0) + 1
print("files changed:", changed)
for (p, n), k in sorted(left.items()):
    print("stays:", p, n, k)
