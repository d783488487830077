#!/usr/bin/env python3
# Counts, in the sources of a commit or of the working tree, the places that docs/DESIGN-PASS.md speaks of.
#   python3 tools/forms.py [-v] [COMMIT]      (-v prints each place)
import collections
import re
import subprocess
import sys


def git(*words):
    return subprocess.run(("git",) + words, check=True, capture_output=True, text=True).stdout


def sources(commit):
    if commit:
        names = git("ls-tree", "-r", "--name-only", commit).split("\n")
    else:
        names = git("ls-files", "-co", "--exclude-standard").split("\n")
    for name in sorted(names):
        if re.fullmatch(r"crates/[^/]+/src/.*\.rt", name):
            yield name, git("show", commit + ":" + name) if commit else open(name).read()


def bare(text):
    # comments and what stands between quotes are no code
    text = re.sub(r"//[^\n]*", "", text)
    return re.sub(r'"(\\.|[^"\\\n])*"', '""', text)


LINES = {
    "1 numbers for kinds": r"\b(kind|which|slice): u8",
    "3 loops by hand": r"\bwhile |\bloop \{|\bfor \w+ in .*\.\.",
    "4 a match that maps": r"\bNone => None\b|\bErr\(_\) => |\bSome\((\w+|\(.*\))\) => Some\b|\bOk\(\w+\) => (Some|Ok)\b|\bErr\((\w+)\) => (return )?Err\b"
                           r"|\bimpl.* Drop for ",
    "4 numbers of words by hand": r"[%/*] (256|65536|16777216)\b|\b(256|65536|16777216) \*|(as i32|as i64|n) [+-] (32768|65536|4294967296)\b",
    "6 arrays in structs": r"^\s+(pub |pub\(crate\) )?\w+: \[(u8|u16|u32|bool|Option<\w+>); \w+\],",
    "5 a premise on the memory": r"Good \(sizes_of z\)",
    "7 a switch on a step": r"\bmatch (op|axis|self\.how) \{",
}

HEAD = re.compile(r"\bfn (\w+)(?:<[^(]*>)?\(")


def closing(text, start, pair):
    # where what opens just before `start` closes
    depth = 1
    while depth and start < len(text):
        depth += {pair[0]: 1, pair[1]: -1}.get(text[start], 0)
        start += 1
    return start


def functions(text):
    for m in HEAD.finditer(text):
        end = closing(text, m.end(), "()")
        params = [p.strip() for p in text[m.end():end - 1].split(",") if p.strip()]
        requires = []
        # the clauses, each between braces; then the body
        while True:
            clause = re.compile(r"[^{};]*?\b(requires|ensures)\b *\w* *\{", re.S).match(text, end)
            if not clause:
                break
            close = closing(text, clause.end(), "{}")
            if clause.group(1) == "requires":
                requires.append(re.sub(r"\s+", " ", text[clause.end():close - 1]).strip())
            end = close
        body = re.compile(r"[^{};]*\{").match(text, end)
        if body:
            yield text.count("\n", 0, m.start()) + 1, m.group(1), params, requires, text[body.end():closing(text, body.end(), "{}") - 1]


def shape(params, body):
    # a function without its names of types and of variants, its numbers and the functions that it calls
    text = ", ".join(re.sub(r":.*", "", p) for p in params) + "|" + body
    text = re.sub(r"\s+", " ", text)
    text = re.sub(r"\b[A-Z]\w*\b|\b\d\w*\b|\b[iu](8|16|32|64|size)\b", "T", text)
    text = re.sub(r"\b[a-z_]\w*(?=\()", "f", text)
    return text


def main():
    words = [w for w in sys.argv[1:] if w != "-v"]
    places = collections.defaultdict(list)
    shapes, facts = collections.defaultdict(list), collections.defaultdict(list)
    for name, text in sources(words[0] if words else None):
        code = bare(text)
        for number, line in enumerate(code.split("\n"), 1):
            for title, pattern in LINES.items():
                if re.search(pattern, line):
                    places[title].append(f"{name}:{number}: {line.strip()}")
        for number, fn, params, requires, body in functions(code):
            if len(params) > 6:
                places["5 more than six parameters"].append(f"{name}:{number}: {fn}")
            if len(body.split()) > 12:
                shapes[shape(params, body)].append(f"{name}:{number}: {fn}")
            for fact in {part.strip(" ()") for r in requires for part in r.split(" × ")}:
                facts[(name.split("/")[1], fact)].append(f"{name}:{number}: {fn}")
    for twins in shapes.values():
        if len(twins) > 1:
            places["2 functions of one shape"].append(" = ".join(twins))
    for (crate, fact), fns in facts.items():
        if len(fns) > 2:
            places["5 a fact in three contracts"].append(f"{crate}: {fact}: " + ", ".join(fns))
    for title in sorted(places):
        print(len(places[title]), title)
        if "-v" in sys.argv:
            for place in places[title]:
                print("   ", place)


main()
