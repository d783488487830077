#!/usr/bin/env python3
"""Respells the definitions of this repository's specs as the toolchain's style has them: a type or a fact in upper camel case (Same-screen becomes
SameScreen), everything else in snake case (with-window becomes with_window). A type or a fact of proofs/ is respelled as one of specs/; the name of a
lemma keeps the dashes that join names, and a definition's name inside it is respelled (with-window-keys becomes with_window-keys).

Run at the top of the repository, once, after the toolchain's own script: python3 tools/respell.py [--show]
It stops, with nothing written, where a new name stands somewhere already and is no function of src/ (which may share the name of what it computes).
"""
import re
import sys
from pathlib import Path

DECLARED = re.compile(r"^\s*(?:pub |abbrev pub |unfoldable pub |abbrev |unfoldable )?(?:record |data )?([^\s:{}()]+)\s*:(?:\s|$)", re.M)
RECORD = re.compile(r"^\s*(?:pub )?(?:record|data) ([^\s:(){}]+)", re.M)
BEFORE = r"(?<![^\s(){};,.@λ`'\"\[\]|])"
BEHIND = r"(?![^\s(){};,.:`'\"\[\]|])"


def respelled(name):
    if name[0].isupper():
        return "".join(part[0].upper() + part[1:] for part in re.split("[-_]", name))
    return name.replace("-", "_")


def declared(folder, inner):
    names = set()
    for path in sorted(Path("crates").glob(f"*/{folder}")):
        text = path.read_text()
        found = DECLARED.findall(text) + RECORD.findall(text)
        names |= {n for n in found if ("-" in n[1:] or n[0].isupper() and "_" in n) and n[0] not in "-(" and re.fullmatch(r"[^◌()]+", n)}
    return {n for n in names if inner(n)}


def table():
    definitions = declared("specs/**/*.antt", lambda n: True)
    names = {n: respelled(n) for n in definitions}
    lemmas = declared("proofs/*.antt", lambda n: n not in definitions)
    for lemma in lemmas:
        if lemma[0].isupper():
            names[lemma] = respelled(lemma)
            continue
        parts, out, k = lemma.split("-"), [], 0
        while k < len(parts):
            for m in range(len(parts), k, -1):
                whole = "-".join(parts[k:m])
                if m - k > 1 and whole in definitions:
                    out.append(respelled(whole))
                    k = m
                    break
            else:
                out.append(parts[k])
                k += 1
        new = "-".join(out)
        if new != lemma:
            names[lemma] = new
    return names


def main():
    names = table()
    files = [p for pattern in ("*/specs/**/*.antt", "*/proofs/**/*.antt", "*/src/**/*.rt") for p in sorted(Path("crates").glob(pattern)) if p.is_file()]
    texts = {p: p.read_text() for p in files}
    if "--show" in sys.argv:
        for old, new in sorted(names.items()):
            print(old, new)
        return 0
    clash = []
    back = {}
    for old, new in names.items():
        if new in back:
            clash.append(f"{old} and {back[new]} both become {new}")
        back[new] = old
    functions = set(re.findall(r"\bfn (\w+)", "\n".join(t for p, t in texts.items() if p.suffix == ".rt")))
    every = re.compile(BEFORE + "(" + "|".join(re.escape(n) for n in sorted(back, key=len, reverse=True)) + ")" + BEHIND)
    for p, text in texts.items():
        for m in every.finditer(text):
            if m.group(1) in functions:
                continue
            clash.append(f"{p}: {m.group(1)} stands already")
    if clash:
        print("\n".join(sorted(set(clash))), file=sys.stderr)
        return 1
    change = re.compile(BEFORE + "(" + "|".join(re.escape(n) for n in sorted(names, key=len, reverse=True)) + ")" + BEHIND)
    count = 0
    for p, text in texts.items():
        new, n = change.subn(lambda m: names[m.group(1)], text)
        if n:
            p.write_text(new)
            count += n
    print(f"{len(names)} names, {count} places")
    return 0


if __name__ == "__main__":
    sys.exit(main())
