#!/usr/bin/env python3
"""Brings the repository's own definitions and lemmas to today's spelling: types and facts in camel case, all else in snake case; a dash only joins two names.

usage: python3 tools/respell.py [FOLDER]      rewrites FOLDER (this folder by default) in place, once, after port.py; prints the names that changed
       python3 tools/respell.py --list [FOLDER]   only prints them

Names are those declared in crates/*/specs/*.antt and in the lemma files crates/*/proofs/*.antt. Names of functions of src/, goals' names (proofs/F/), strings and
comments' prose stay as they are.
"""
import os
import re
import sys

NAME = r"[A-Za-z_ℕ𝓛][\w'\-+*]*"
TOKEN = re.compile(r"(?<![\w'\-])[A-Za-z][\w']*(?:-[\w']+)+(?![\w'\-])")
DECLARED = re.compile(r"^(\s*)(?:abbrev\s+|unfoldable\s+)?(?:pub\s+)?(record\s+|data\s+)?([A-Za-z][\w'\-]*)((?:\s*\([^:]*:[^)]*\)|\s*\{[^:]*:[^}]*\})*)\s*:\s*(.*)$")
# words of std that lemmas join to ours by a dash
STD = set("length take drop append map filter reverse set get get_or replicate suc zero add sub mul div mod not lt le eq eqb nat_eq nat_le nat_lt ltb "
          "slice_index slice_set slice_range slice_index_or list nil cons swap fill elem sum".split())
# definitions whose names are plain words in a lemma's name
PLAIN = set("or and is in has any all each every those put set from one no pick none some left same after first last next lost found now rest new old with by planned inside beside sides weighs committed spliced cut".split())
# the repository's first spelling of std's words
OLD = {"getD": "get_or"}


def files(top, kinds):
    for folder, dirs, names in os.walk(os.path.join(top, "crates")):
        dirs[:] = sorted(d for d in dirs if d != "out")
        for n in sorted(names):
            if n.endswith(kinds):
                yield os.path.join(folder, n)


def is_lemma_file(path):
    return re.search(r"/proofs/[^/]+\.antt$", path) is not None


def declarations(top):
    """Each declared name: whether it is a type, and whether a lemma."""
    found = {}
    for path in files(top, ".antt"):
        lemma = is_lemma_file(path)
        if not lemma and not re.search(r"/specs/[^/]+\.antt$", path):
            continue
        lines = open(path, encoding="utf-8").read().split("\n")
        for i, line in enumerate(lines):
            if line.lstrip().startswith(("--", "use ", "λ", "pick", "|")):
                continue
            m = DECLARED.match(line)
            if not m:
                continue
            indent, kind, name, _, rest = m.groups()
            if indent and not kind and not re.match(r"^  (pub )?[A-Za-z]", line):
                continue
            j = i + 1
            while j < len(lines) and lines[j].startswith("    "):
                rest += " " + lines[j].strip()
                j += 1
            a_type = bool(kind) or re.search(r"(^|→ )Type \{?\w+\}?\s*(where)?\s*(--.*)?$", rest.strip()) is not None
            old = found.get(name)
            found[name] = (a_type or (old and old[0]), lemma and (old is None or old[1]))
    for path in files(top, (".antt", ".rt")):
        for line in open(path, encoding="utf-8"):
            if "use Rattle." in line:
                for name in re.findall(r" as ([A-Za-z][\w'\-]*)", line):
                    found.setdefault(name, (name[0].isupper(), False))
    return found


def camel(name):
    return "".join(p[:1].upper() + p[1:] for p in re.split(r"[-_]", name))


def spelled(name, a_type, lemma, known):
    if a_type:
        return camel(name)
    parts = name.split("-")
    if not lemma:
        if name[0].isupper():
            return camel(name) if all(p[:1].isupper() or p[:1].islower() for p in parts) else name
        return "_".join(parts)
    # a lemma: the longest known names among its words; a dash between two of these
    out, i = [], 0
    while i < len(parts):
        for j in range(len(parts), i, -1):
            joined = "-".join(parts[i:j])
            if (joined in known and joined not in PLAIN) or (j - i == 1 and (parts[i] in STD or parts[i] in OLD)):
                word = known.get(joined) or OLD.get(joined, joined)
                out.append((word, True))
                i = j
                break
        else:
            out.append((parts[i], False))
            i += 1
    text = out[0][0]
    for (a, named), (b, also) in zip(out, out[1:]):
        text += ("-" if named and also else "_") + b
    return text


def changes(top):
    found = declarations(top)
    known = {n: spelled(n, t, False, {}) for n, (t, lemma) in found.items() if not lemma}
    table = {}
    for n, (t, lemma) in sorted(found.items()):
        new = spelled(n, t, lemma, known)
        if new != n:
            table[n] = new
    return table, found


def turned(text, table, path):
    out = []
    for line in text.split("\n"):
        if path.endswith(".rt") and line.lstrip().startswith("//"):
            out.append(line)
            continue
        code, comment = line, ""
        if path.endswith(".antt") and "--" in line:
            at = re.search(r"(^|\s)--(\s|$)", line)
            if at:
                code, comment = line[: at.start()], line[at.start():]
        if path.endswith(".rt"):
            bits = re.split(r'("(?:[^"\\]|\\.)*")', code)
        else:
            bits = [code]
        bits = [b if b.startswith('"') else WORD.sub(lambda m: table.get(m.group(0), m.group(0)), b) for b in bits]
        comment = DASHED.sub(lambda m: table.get(m.group(0), m.group(0)), comment)
        out.append("".join(bits) + comment)
    return "\n".join(out)


WORD = re.compile(r"(?<![\w'\-])[A-Za-z][\w'\-]*")
DASHED = re.compile(r"(?<![\w'\-])[A-Za-z][\w']*(?:-[\w']+)+(?![\w'\-])")


def main():
    words = sys.argv[1:]
    only = "--list" in words
    words = [w for w in words if w != "--list"]
    top = words[0] if words else "."
    table, found = changes(top)
    after = {}
    for n in found:
        after.setdefault(table.get(n, n), []).append(n)
    for n, new in table.items():
        print(f"{n} -> {new}")
    for new, olds in sorted(after.items()):
        if len(olds) > 1:
            print(f"FALL TOGETHER: {new}: {' '.join(olds)}")
    if only:
        return
    for path in files(top, (".antt", ".rt", ".edit")):
        text = open(path, encoding="utf-8").read()
        new = turned(text, table, path)
        if new != text:
            open(path, "w", encoding="utf-8").write(new)


if __name__ == "__main__":
    main()
