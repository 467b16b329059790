#!/usr/bin/env python3
"""Starts the editor on damaged pairs of files and sees that it always ends by itself, with status 0 or 1.

    tests/damage.py [PAIRS [SEED]]

Pairs are made by the editor itself, which is killed in the middle for half of them, and then damaged: records overwritten, cut out, swapped, put in twice, single bytes changed, bytes cut off or put behind. Where the rules below see the damage the editor has to end with status 1,
name the file and the record, and leave both files as they were.
"""
import os
import random
import shutil
import signal
import subprocess
import sys
import tempfile
import time

HERE = os.path.dirname(os.path.dirname(os.path.abspath(__file__)))
EDITOR = os.path.join(HERE, "crates", "core_editor", "out", "core_editor")
PAGE = 512
SECONDS = 20
PROBE = b"%p\nf\n$=\na\nnew\n.\n%d\n"


def number(page, at, size=4):
    return int.from_bytes(page[at:at + size], "big")


class Rules:
    """What a file's records may be, one after the other: the rules of crates/inspection, written a second time."""

    def __init__(self):
        self.entries = self.pending = self.generation = 0
        self.files = []
        self.due = None

    def piece(self, page, owner):
        part, long = page[1], number(page, 2, 2)
        parts = 1 + max(long - 1, 0) // 503
        here = (owner, part, long)
        if long > 1024 or part >= parts:
            return False
        if here != self.due if self.due else part != 0:
            return False
        self.due = (owner, part + 1, long) if part + 1 < parts else None
        return True

    def came(self, page):
        kind, first, last = number(page, 9), number(page, 13), number(page, 17)
        if kind == 0:
            return 0
        if kind == 1:
            return self.pending
        start, gone = number(page, 1), number(page, 5)
        beside = first <= last and (last <= start or start + gone <= first)
        return last - first if beside and last <= self.entries else None

    def commit(self, page):
        came = self.came(page)
        start, gone = number(page, 1), number(page, 5)
        if self.due or came is None or start + gone > self.entries:
            return False
        self.entries += came - gone
        self.pending = 0
        if number(page, 33) >= 2:
            slot = number(page, 37)
            if slot >= 64 or slot > len(self.files):
                return False
            self.files[slot:slot + 1] = [number(page, 41)]
        count, current = number(page, 21), number(page, 25)
        return self.entries <= 524288 and sum(self.files) + count <= self.entries and current <= count

    def head(self, page, first):
        self.generation, self.entries = number(page, 1), number(page, 5)
        return first and 1 <= self.generation <= 3 and self.entries <= 524288

    def sealed(self, page, first):
        kind = page[0]
        if kind == 1:
            return self.head(page, first)
        if first or kind not in (2, 3, 4):
            return False
        if kind == 4:
            return self.commit(page)
        if kind == 2:
            self.pending += page[1] == 0
            return self.piece(page, None)
        return number(page, 4) < self.entries and self.piece(page, number(page, 4))


def first_wrong(data):
    """The number of the first record that can't be, or None; and the generation."""
    rules = Rules()
    pages = [data[at:at + PAGE] for at in range(0, len(data), PAGE)]
    for i, page in enumerate(pages):
        if len(page) < PAGE or page[511] != 1:
            return (None if i == len(pages) - 1 else i), rules.generation
        if not rules.sealed(page, i == 0):
            return i, rules.generation
    return None, rules.generation


def visible(files):
    """Which file is named, and which record of it; None where no damage can be seen."""
    seen = [first_wrong(data) for data in files]
    for name, (record, _) in zip(("house.0", "house.1"), seen):
        if record is not None:
            return name, record
    if seen[0][1] == seen[1][1] != 0:
        return "house.1", 0
    return None


def run(folder, typed):
    started = time.time()
    done = subprocess.run([EDITOR, "--room", "1024"], cwd=folder, input=typed, capture_output=True, timeout=SECONDS)
    return done, time.time() - started


def day(rnd, commands):
    """Typed commands of all kinds, with short lines and long ones."""
    typed = []
    for _ in range(commands):
        kind = rnd.choice("aaaicdjwe")
        if kind in "aic":
            lines = [b"x" * rnd.choice((0, 3, 20, 400, 503, 504, 1006, 1007, 1024)) for _ in range(rnd.randint(1, 4))]
            typed += [kind.encode()] + lines + [b"."]
        elif kind == "w":
            typed.append(b"w f%d" % rnd.randint(0, 5))
        elif kind == "e" and rnd.random() < 0.3:
            typed.append(b"e f%d" % rnd.randint(0, 5))
        else:
            typed.append(b"%d%s" % (rnd.randint(1, 9), kind.encode()))
    return b"\n".join(typed) + b"\n"


def killed_pair(rnd, folder):
    """A pair as the editor leaves it when it is killed while it works."""
    typed = day(rnd, 4000)
    with open(os.path.join(folder, "typed"), "wb") as file:
        file.write(typed)
    with open(os.path.join(folder, "typed"), "rb") as file:
        process = subprocess.Popen([EDITOR, "--room", "1024"], cwd=folder, stdin=file, stdout=subprocess.DEVNULL, stderr=subprocess.DEVNULL)
        time.sleep(rnd.uniform(0.05, 1.0))
        process.send_signal(signal.SIGKILL)
        process.wait()
    os.remove(os.path.join(folder, "typed"))


def ended_pair(rnd, folder):
    run(folder, day(rnd, rnd.randint(1, 60)))


def read_pair(folder):
    return [open(os.path.join(folder, name), "rb").read() for name in ("house.0", "house.1")]


def write_pair(folder, files):
    for name, data in zip(("house.0", "house.1"), files):
        with open(os.path.join(folder, name), "wb") as file:
            file.write(data)


def overwrite(rnd, data):
    at = rnd.randrange(len(data))
    size = rnd.choice((1, 1, 4, 60, 512, 2000))
    return data[:at] + rnd.randbytes(min(size, len(data) - at)) + data[at + size:]


def in_record(rnd, data):
    """A byte of a record's numbers is changed, its seal stays."""
    at = rnd.randrange(max(len(data) // PAGE, 1)) * PAGE + rnd.randrange(60)
    if at >= len(data):
        return data
    return data[:at] + bytes([rnd.choice((0, 1, 2, 3, 4, 255, rnd.randrange(256)))]) + data[at + 1:]


def records_moved(rnd, data):
    pages = [data[at:at + PAGE] for at in range(0, len(data), PAGE)]
    i, j = rnd.randrange(len(pages)), rnd.randrange(len(pages))
    what = rnd.choice(("out", "swap", "twice", "sealed"))
    if what == "out":
        del pages[i:i + rnd.choice((1, 1, 5))]
    elif what == "swap":
        pages[i], pages[j] = pages[j], pages[i]
    elif what == "twice":
        pages.insert(j, pages[i])
    else:
        pages[i] = rnd.randbytes(511) + b"\1"
    return b"".join(pages)


def cut(rnd, data):
    return data[:rnd.randrange(len(data))]


def behind(rnd, data):
    """Zeros or other bytes behind the end."""
    size = rnd.choice((1, 100, 511, 512, 513, 1024, 1500))
    return data + (bytes(size) if rnd.random() < 0.7 else rnd.randbytes(size))


def damaged(rnd, files):
    files = list(files)
    for _ in range(rnd.choice((1, 1, 2))):
        which = rnd.choice([i for i in (0, 1) if files[i]] or [0])
        if not files[which]:
            files[which] = rnd.randbytes(rnd.randrange(1, 2000))
            continue
        files[which] = rnd.choice((overwrite, in_record, in_record, records_moved, records_moved, cut, behind))(rnd, files[which])
    if rnd.random() < 0.05:
        files[1] = files[0]
    if rnd.random() < 0.05:
        files.reverse()
    return files


def look(folder, files):
    """One pair: an error message, or None, and whether the damage was seen."""
    write_pair(folder, files)
    expected = visible(files)
    try:
        done, took = run(folder, PROBE)
    except subprocess.TimeoutExpired:
        return "it doesn't end", expected
    said = done.stderr.decode(errors="replace")
    if done.returncode not in (0, 1):
        return f"status {done.returncode}: {said}", expected
    if set(os.listdir(folder)) != {"house.0", "house.1"}:
        return "another file is left over", expected
    if expected is None and "is damaged" in said:
        return f"refused without a reason: {said}", expected
    if expected is not None:
        name, record = expected
        if done.returncode != 1 or f"{name}: it is damaged at record {record}:" not in said:
            return f"{name} is damaged at record {record}; status {done.returncode}, {said}", expected
        if read_pair(folder) != files:
            return "damaged files were changed", expected
    return None, expected


def main():
    pairs = int(sys.argv[1]) if len(sys.argv) > 1 else 300
    seed = int(sys.argv[2]) if len(sys.argv) > 2 else 1
    rnd = random.Random(seed)
    seen = failed = refused = 0
    slowest = 0.0
    with tempfile.TemporaryDirectory() as folder:
        sound = []
        for i in range(12):
            shutil.rmtree(folder)
            os.mkdir(folder)
            (killed_pair if i % 2 else ended_pair)(rnd, folder)
            sound.append(read_pair(folder))
        for files in sound:
            problem, expected = look(folder, files)
            if problem or expected:
                failed += 1
                print(f"a sound pair: {problem}, {expected}")
        for i in range(pairs):
            started = time.time()
            problem, expected = look(folder, damaged(rnd, rnd.choice(sound)))
            slowest = max(slowest, time.time() - started)
            seen += 1
            refused += expected is not None
            if problem:
                failed += 1
                print(f"pair {i} of seed {seed}: {problem}")
    print(f"{seen} damaged pairs, {refused} refused by their records, {failed} failures, the slowest took {slowest:.1f} s")
    return 1 if failed else 0


if __name__ == "__main__":
    sys.exit(main())
