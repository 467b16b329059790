#!/usr/bin/env python3
"""Counts the places in crates/*/src that an older form of the language leaves, by point of docs/DESIGN-PASS.md.

    python3 tools/places.py [COMMIT] [--list]

Without a commit it reads the files as they stand. Each pattern counts once for each line or function that it fits; what a pattern can't see is in the
page's second column, which was counted by reading. --list prints each place.
"""
import re
import subprocess
import sys

args = [a for a in sys.argv[1:] if a != "--list"]
listed = "--list" in sys.argv


def files():
    if args:
        names = subprocess.run(["git", "ls-tree", "-r", "--name-only", args[0]], capture_output=True, text=True, check=True).stdout.split()
        for name in names:
            if re.match(r"crates/\w+/src/.*\.rt$", name):
                yield name, subprocess.run(["git", "show", f"{args[0]}:{name}"], capture_output=True, text=True, check=True).stdout
    else:
        names = subprocess.run(["git", "ls-files", "crates"], capture_output=True, text=True, check=True).stdout.split()
        for name in names:
            if re.match(r"crates/\w+/src/.*\.rt$", name):
                yield name, open(name).read()


def lines(pattern):
    found = re.compile(pattern)
    return lambda text: [n for n, line in enumerate(text.split("\n"), 1) if found.search(line) and not line.strip().startswith("//")]


def spans(pattern):
    found = re.compile(pattern, re.S | re.M)
    return lambda text: [text.count("\n", 0, m.start()) + 1 for m in found.finditer(text)]


POINTS = {
    "1 functions that return a number which means nothing": spans(r"fn \w+\(\) -> u8\n"),
    "1 a bool that tells of a refusal, of a difference or of the end": lambda text: spans(r"///[^\n]*\b(False|false) (where|at|if)\b[^\n]*\n(\s*///[^\n]*\n)*\s*(#\[[^\n]*\n\s*)?(pub(\(crate\))? )?fn [^{;]*-> (\w+::)?(Result<)?bool")(text),
    "1 own enum of the shape of Option or Result": spans(r"enum (Lines|Outcome|End|After)(<'a>)? \{[^}]*\}"),
    "1 Option or Result taken apart by a match that a method says": spans(r"(Some\(\w+\) => \*?\w+,\s*None =>|None => None,|Ok\(\(\)\) => Ok\(\(\)\)|Ok\(\(\)\) => \{|Some\((\w+)\) => Some\(\2 as|Ok\(\w+\) => \w+,\s*Err\(|Err\((\w+)\) => (return )?Err\((self|Fault))"),
    "1 numbers in place of kinds, by a match": spans(r"match (kind|n|kind_number) \{\s*(//[^\n]*\n\s*)?\d+ =>"),
    "3 while over an index, or a counter stepped by hand": lines(r"while (i|left|b - a|before|low) ?[<>]|\b(i|left|before|count|number|turn|from|index|n) (\+=|-=) 1\b|^\s*(number|count|turn|breaks|left|rest) = \1\.saturating_(add|sub)"),
    "3 for over a range, or enumerate, that indexes another thing": spans(r"for (\w+) in [\w.]+\.\.[^{]*\{[^}]*\[\1( \*|\])|for \((\w+), \w+\) in [^{]*enumerate\(\) \{[^}]*\[\3\]"),
    "3 items pushed one by one": spans(r"for [^{]*\{\s*\w+(\.\w+)*\.push\([^;]*;\s*\}"),
    "4 copies, defaults, sums and comparisons by hand": spans(r"fn (copy\(&self|is_same\(|alike\(|none\(\) ->|add\(&mut self, more)|pub fn new\(\) -> \w+ \{\s*\w+ \{\s*(\w+: (0|false|None|\[0; 64\]|u64::MAX|true|\w+::new\(\)),\s*)+\}"),
    "4 conversions of an enum by hand": spans(r"fn (from_number|number|named|said|words)\((n: u64|self|place|kept|number: u64)"),
    "5 functions that take registers, memory and row apart": spans(r"fn \w+(<[^>]*>)?\([^)]*registers: &(mut )?Registers,[^)]*memory: &(mut )?\[u64\][^)]*\)"),
    "6 a buffer with its length beside it, or two fields told apart by a number": spans(r"lines: \[u64; 64\]|bytes: Vec<u8>,\s*records: u64|first: Tape,\s*second: Tape"),
    "7 functions that differ in a step": spans(r"fn (inserts|deletes|copies|rotations|searches|slashed|questioned|lettered|front|shows|carries)\("),
}



def code(text):
    """The lines of code with their numbers, without comments, imports and blank lines."""
    for n, line in enumerate(text.split("\n"), 1):
        line = line.strip()
        if len(line) > 3 and not line.startswith(("//", "use ", "ghost use ", "pub use ", "mod ", "#[")):
            yield n, line


def twins(texts, run=6):
    """Places where at least six lines of code stand once more, in the same order: in another file, or further down in the same one."""
    seen = {}
    places = []
    for name, text in texts:
        rows = list(code(text))
        n = 0
        while n + run <= len(rows):
            key = tuple(line for _, line in rows[n:n + run])
            if key in seen:
                places.append((name, rows[n][0]))
                other_rows, other = seen[key]
                while n < len(rows) and other < len(other_rows) and rows[n][1] == other_rows[other][1]:
                    n, other = n + 1, other + 1
                continue
            n += 1
        for n in range(len(rows) - run + 1):
            seen.setdefault(tuple(line for _, line in rows[n:n + run]), (rows, n))
    return places


def facts(texts):
    """Facts that the contracts of three or more functions of one crate ask of a value."""
    count = {}
    for name, text in texts:
        crate = name.split("/")[1]
        for clause in re.findall(r"^\s*requires(?: \w+)? \{ (.*) \}$", text, re.M):
            parts = {part.strip(" ()") for part in clause.split(" × ")}
            for part in parts:
                key = (crate, re.sub(r"\b(\w+)\.(now|old|entry)\b", r"\1", part))
                count[key] = count.get(key, 0) + 1
    return [(f"crates/{crate}", f"{n} functions: {fact}") for (crate, fact), n in sorted(count.items()) if n >= 3]


texts = list(files())
results = [(name, [(f, n) for f, text in texts for n in find(text)]) for name, find in POINTS.items()]
results.append(("2 six or more lines of code that stand once more", twins(texts)))
results.append(("5 facts asked of a value by three or more functions of a crate", facts(texts)))
for name, places in sorted(results):
    print(f"{len(places):4}  {name}")
    if listed:
        for f, n in places:
            print(f"        {f}:{n}")
