#!/usr/bin/env python3
"""Prints, old and new side by side, what changed since a commit of what crates promise.

    python3 tools/promises.py COMMIT

Four tables of markdown: public types; public functions, with their clauses; definitions and statements of specs/; lemmas of proofs/. Of types and
functions, only those of libraries: nothing sees into a program. An item that is new isn't listed, nor a law that only no longer returns a number. What a
rename alone changed is listed, as it is another spelling.
"""
import re
import subprocess
import sys

OLD = sys.argv[1]
PROGRAMS = ("editor", "core_editor", "reader", "player", "house_bench", "lines_bench")
CLAUSE = re.compile(r"^\s*(requires|ensures|ghost \w+_(gives|law)|invariant)\b")


def show(commit, name):
    return subprocess.run(["git", "show", f"{commit}:{name}"], capture_output=True, text=True, check=True).stdout


def files(commit, pattern):
    names = subprocess.run(["git", "ls-tree", "-r", "--name-only", commit], capture_output=True, text=True, check=True).stdout.split()
    return [(name.split("/")[1], name, show(commit, name)) for name in names if re.match(pattern, name)]


def squeezed(text):
    return re.sub(r"\s+", " ", text).strip()


def signature(rows, at):
    """The head of a function from a row on, and its clauses."""
    head, clauses = "", []
    for row in rows[at:]:
        if CLAUSE.match(row):
            clauses.append(squeezed(row))
        elif row.strip() in ("{", "") or clauses:
            break
        else:
            head += row.strip() + " "
            if row.rstrip().endswith(("{", ";")):
                break
    return squeezed(re.sub(r"\( | ,? ?\)|,\s*\)", lambda m: "(" if m[0] == "( " else ")", head.rstrip(" {;"))), sorted(clauses)


def functions(commit):
    found = {}
    for crate, name, text in files(commit, r"crates/\w+/src/.*\.rt$"):
        rows = text.split("\n")
        owner = ""
        for at, row in enumerate(rows):
            block = re.match(r"(?:pub )?(?:unsafe )?(impl|trait)\b(.*?)\{?$", row)
            if block:
                owner = squeezed(re.sub(r"^<[^>]*>", "", block[2]))
            elif re.match(r"\S", row) and row != "}":
                owner = owner if row.startswith(("where", ")")) else ""
            fn = re.match(r"\s*(pub )?(?:const )?fn (\w+)", row)
            if fn and crate not in PROGRAMS and (fn[1] or " for " in owner):
                plain = re.sub(r"<'\w+>|<u32>|<u64>", "", owner)
                found.setdefault((crate, f"{plain} {fn[2]}".strip()), []).append(signature(rows, at))
    return found


def types(commit):
    found = {}
    for crate, name, text in files(commit, r"crates/\w+/src/.*\.rt$"):
        if crate in PROGRAMS:
            continue
        code = re.sub(r"^\s*//.*\n", "", text, flags=re.M)
        for m in re.finditer(r"((?:^#\[[^\n]*\n)*)^pub (struct|enum|trait|type|const) (\w+)([^;{]*)(;|\{(?:[^{}]|\{[^{}]*\})*\}|\{)", code, re.M):
            found.setdefault((crate, f"{m[2]} {m[3]}"), []).append(squeezed(m[0]))
    return found


HEAD = re.compile(r"((?:abbrev|unfoldable|opaque|pub|record|data) )*([^\s:=()]+)(?: :| \(|$)")


def items(commit, part):
    """What stands in specs/ or proofs/: all of a definition, and of a proof only what it states."""
    found = {}
    for crate, name, text in files(commit, rf"crates/\w+/{part}/.*\.antt$"):
        if re.search(r"/(Answers|Invariants)\.antt$", name):
            continue
        inside, item = False, None
        for row in text.split("\n"):
            if re.match(r"module\b", row):
                inside = True
            elif re.match(r"\S", row):
                inside = False
            row = re.sub(r"^  ", "", row) if inside else row
            if not row.strip() or row.strip().startswith("--") or re.match(r"(use|pub mod|module)\b", row):
                continue
            head = HEAD.match(row)
            if head and (head[1] or re.match(r"\S+ :", row)):
                item = [row]
                found.setdefault((crate, head[2]), []).append(item)
            elif item and (part == "specs" or re.match(r"\s", row)) and (part == "specs" or item[-1] is not None):
                item.append(row)
            elif item and part == "proofs" and item[-1] is not None:
                item.append(None)
    return {key: [squeezed(" ".join(row for row in item if row)) for item in values] for key, values in found.items()}


def cell(values):
    text = "; ".join(values).replace("|", "\\|")
    return f"`{text}`" if text else "–"


def differences(old, new, flat=lambda x: [x]):
    for key in sorted(set(old) | set(new)):
        before = [x for v in old.get(key, []) for x in flat(v)]
        after = [x for v in new.get(key, []) for x in flat(v)]
        gone, come = [x for x in before if x not in after], [x for x in after if x not in before]
        law = [x.removesuffix(" -> u8") for x in gone] == come and len(gone) == 1
        if gone and not law:
            yield key, gone, come


def table(title, old, new, flat=lambda x: [x]):
    print(f"\n### {title}\n\n| Crate | Item | Then | Now |\n|---|---|---|---|")
    for (crate, item), gone, come in differences(old, new, flat):
        print(f"| {crate} | {item} | {cell(gone)} | {cell(come)} |")


table("Public types and constants", types(OLD), types("HEAD"))
table("Public functions", functions(OLD), functions("HEAD"), lambda f: [f[0]] + f[1])
table("Definitions and statements of specs/", items(OLD, "specs"), items("HEAD", "specs"))
table("Lemmas of proofs/", items(OLD, "proofs"), items("HEAD", "proofs"))
