#!/usr/bin/env python3
"""Brings the names of goals, and of the facts that they know, in proofs/F/*.antt to those that Rattle makes today.

usage: python3 tools/goals.py CRATE..     at the top of the repository; rewrites in place and prints how many files changed

A name is taken for another one of the checker's if both are the same but for - and _; names from src/ keep their underscores, and the repository's own lemmas their
dashes. What is left the check names: `rt check` in the crate's folder says what it asks for in place of a name that it doesn't know.
"""
import json
import os
import re
import subprocess
import sys
import tempfile

HERE = os.path.dirname(os.path.abspath(__file__))
sys.path.insert(0, HERE)
sys.dont_write_bytecode = True
import respell  # noqa: E402

TOKEN = re.compile(r"(?<![\w'\-·])[A-Za-z][\w']*(?:[-+][\w']+)*(?![\w'\-])")
# names of std that goals are made of
STD = set("""type_inv copy_from_slice is_empty from_residual shared_slice_known mut_slice_known slice_known as_slice as_mut_slice shared_slice to_be_bytes from_be_bytes
split_at split_at_mut to_vec saturating_sub saturating_add wrapping_add wrapping_sub wrapping_mul is_some is_none split_first split_last next_back""".split())
# words of Rattle's that join their parts otherwise than they did
WORDS = [
    (r"\boverflow-(add|sub|mul|shl|shr|cast|neg|step)-", r"overflow_\1-"),
    (r"\bin-(default|ok|err)\b", r"in_\1"),
    (r"\b(slice|offset)-bounds\b", r"\1_bounds"),
    (r"\bnonzero-(div|rem)\b", r"nonzero_\1"),
    (r"·(\d)", r"-\1"),
]


def plain(name):
    return re.sub(r"[-_]+", "-", name)


def by_plain(names):
    """Names by their plain form, where only one has it."""
    table = {}
    for name in names:
        table.setdefault(plain(name), set()).add(name)
    return {key: next(iter(found)) for key, found in table.items() if len(found) == 1}


def strings(value):
    if isinstance(value, str):
        yield value
    elif isinstance(value, list):
        for it in value:
            yield from strings(it)
    elif isinstance(value, dict):
        for key, it in value.items():
            yield key
            yield from strings(it)


def asked(crate):
    """What the checker says of each function: its folder below proofs/, and every name it makes for it."""
    with tempfile.TemporaryDirectory() as to:
        words = ["rt", "check", "--generated", to, "--old-names"]
        said = subprocess.run(words, cwd=f"crates/{crate}", stdout=subprocess.PIPE, stderr=subprocess.STDOUT, text=True).stdout
        path = os.path.join(to, "names.json")
        if not os.path.exists(path):
            raise SystemExit(f"{crate}: the checker made no names\n{said[-2000:]}")
        with open(path) as it:
            data = json.load(it)
    for key, value in data.items():
        m = re.match(rf"Rattle-{crate}-proofs\.(.*)\.Lts$", key)
        if m:
            yield m.group(1).replace(".", "/"), set(strings(value))


def source_names(crate):
    """Names with an underscore in src/, the longest first, as pairs of their dashed form and themselves."""
    names = set(STD)
    for folder, _, files in os.walk(f"crates/{crate}/src"):
        for f in files:
            with open(os.path.join(folder, f)) as it:
                names |= set(re.findall(r"[A-Za-z]\w*_\w+", it.read()))
    return sorted(((n.replace("_", "-"), n) for n in names), key=lambda pair: -len(pair[0]))


class Turn:
    """Turns the names of one function's proof files."""

    def __init__(self, known, own, sources):
        self.known = known
        self.own = own
        self.sources = sources
        self.asked = by_plain({part for name in known for part in [name, *re.split(r"\+|-via-", name)]})
        self.lemmas = by_plain(n for n in own if "-" in n)

    def made(self, m):
        """A name of the checker's, whole or part by part."""
        word = m.group(0)
        if "-" not in word or word in self.known:
            return word
        whole = self.asked.get(plain(word))
        if whole:
            return whole
        return "".join(part if part in ("-via-", "+") else self.asked.get(plain(part), part) for part in re.split(r"(-via-|\+)", word))

    def written(self, m):
        """A name of a lemma of the repository's, or one made of names of src/."""
        word = m.group(0)
        if word in self.known or word in self.own:
            return word
        is_field = m.start() > 0 and m.string[m.start() - 1] == "."
        if not is_field and plain(word) in self.lemmas and plain(word) not in self.asked:
            return self.lemmas[plain(word)]
        for dashed, name in self.sources:
            if dashed in word:
                word = re.sub(rf"(?<![A-Za-z0-9]){re.escape(dashed)}(?![A-Za-z0-9])", name, word)
        return word

    def line(self, line, how):
        """A line with its names turned, but for what a use line takes from std, and for its path."""
        if line.startswith("use Rattle.std"):
            return line
        m = re.match(r"(use Rattle\.[^{ ]*)(.*)$", line)
        return m.group(1) + TOKEN.sub(how, m.group(2)) if m else TOKEN.sub(how, line)

    def text(self, text):
        text = "\n".join(self.line(line, self.made) for line in text.split("\n"))
        for old, new in WORDS:
            text = re.sub(old, new, text)
        return "\n".join(self.line(line, self.written) for line in text.split("\n"))


def turn_crate(crate, own):
    changed = 0
    sources = source_names(crate)
    for function, known in asked(crate):
        folder = f"crates/{crate}/proofs/{function}"
        files = sorted(f for f in os.listdir(folder) if f.endswith(".antt")) if os.path.isdir(folder) else []
        turn = Turn(known, own, sources)
        for f in files:
            path = os.path.join(folder, f)
            with open(path) as it:
                text = it.read()
            new = turn.text(text)
            if new != text:
                changed += 1
                with open(path, "w") as it:
                    it.write(new)
    print(f"{crate}: {changed} files")


def main():
    own = set(respell.declarations(".")) | set(respell.changes(".")[0].values())
    for crate in sys.argv[1:]:
        turn_crate(crate, own)


if __name__ == "__main__":
    main()
