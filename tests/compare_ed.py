#!/usr/bin/env python3
"""How long the same commands take in GNU ed and in this editor.

    tests/compare_ed.py [COMMANDS [LINES ...]]

Both get the same commands on the same text, by default 10,000 on 10,000 lines and on 500,000. What both show has to be the same.
Starting on the text (ed reads it from a file, the editor wakes up on its own two) is measured by itself and taken off.
The editor runs with its syncs, and once more over a library, built here by cc and put before libc by LD_PRELOAD, whose fsync and fdatasync do nothing.
ed syncs nothing and keeps all in memory and in an unnamed file until w.
"""
import os
import random
import subprocess
import sys
import tempfile
import time

HERE = os.path.dirname(os.path.dirname(os.path.abspath(__file__)))
EDITOR = os.path.join(HERE, "crates", "core_editor", "out", "core_editor")
ROOM = "1048576"
NO_SYNC = "int fsync(int fd) { return 0; }\nint fdatasync(int fd) { return 0; }\n"


def some_commands(rnd, lines, commands):
    """Commands that are right for both, all over the text: half of them show, half change a line or a few."""
    typed = []
    count = lines
    for _ in range(commands):
        kind = rnd.choice("pppp=aaicdj")
        at = rnd.randint(1, count - 10)
        if kind == "p":
            typed.append(f"{at},{at + rnd.choice((0, 0, 0, 5))}p")
        elif kind == "=":
            typed.append(f"{at}+3=")
        elif kind in "ai":
            typed += [f"{at}{kind}", "n" * rnd.randint(1, 3), "."]
            count += 1
        elif kind == "c":
            typed += [f"{at},{at + 1}c", "c", "cc", "."]
        elif kind == "d":
            typed.append(f"{at}d")
            count -= 1
        else:
            typed.append(f"{at},{at + 1}j")
            count -= 1
    return ("\n".join(typed) + "\n").encode()


def loading(text):
    """Commands that type a text, each with some 60,000 bytes."""
    typed = []
    for at in range(0, len(text), 15000):
        typed += [b"$a"] + text[at:at + 15000] + [b"."]
    return b"\n".join(typed) + b"\n"


def timed(words, typed, folder, env=None):
    started = time.time()
    done = subprocess.run(words, input=typed, cwd=folder, env=env, capture_output=True)
    took = time.time() - started
    if done.returncode:
        raise SystemExit(f"{words} ends with {done.returncode}: {done.stderr.decode()[:300]}")
    return took, done.stdout


def silent(folder):
    """The environment in which nothing is synced."""
    source, library = os.path.join(folder, "quiet.c"), os.path.join(folder, "quiet.so")
    with open(source, "w") as file:
        file.write(NO_SYNC)
    subprocess.run(["cc", "-shared", "-fPIC", "-o", library, source], check=True)
    return dict(os.environ, LD_PRELOAD=library)


def ed(folder, typed):
    words = ["ed", "-s", "text"]
    start, _ = timed(words, b"Q\n", folder)
    took, shown = timed(words, typed + b"Q\n", folder)
    return start, took - start, shown


def ours(folder, typed, load, env):
    """Beginning, waking up, the commands; the house is new."""
    words = [EDITOR, "--room", ROOM]
    for name in ("house.0", "house.1"):
        if os.path.exists(os.path.join(folder, name)):
            os.remove(os.path.join(folder, name))
    begun, said = timed(words, load, folder, env)
    if said:
        raise SystemExit(f"the text is refused: {said[:100]}")
    start, _ = timed(words, b"", folder, env)
    took, shown = timed(words, typed, folder, env)
    return begun, start, took - start, shown


def compare(commands, lines):
    rnd = random.Random(lines)
    text = [b"%d" % (i % 10) for i in range(lines)]
    typed = some_commands(rnd, lines, commands)
    with tempfile.TemporaryDirectory() as folder:
        with open(os.path.join(folder, "text"), "wb") as file:
            file.write(b"\n".join(text) + b"\n")
        ed_start, ed_took, ed_shown = ed(folder, typed)
        print(f"{lines} lines, {commands} commands: ed starts in {ed_start:.2f} s and takes {ed_took:.2f} s")
        for what, env in (("without sync", silent(folder)), ("with sync", None)):
            begun, start, took, shown = ours(folder, typed, loading(text), env)
            same = "the same is shown" if shown == ed_shown else "ANOTHER OUTPUT"
            print(f"  editor {what}: the text typed in {begun:.2f} s, wakes up in {start:.2f} s, takes {took:.2f} s, "
                  f"{took / ed_took:.1f} times ed, {1000 * took / commands:.2f} ms a command; {same}", flush=True)
            if shown != ed_shown:
                return 1
    return 0


def main():
    commands = int(sys.argv[1]) if len(sys.argv) > 1 else 10000
    sizes = [int(word) for word in sys.argv[2:]] or [10000, 500000]
    return max(compare(commands, lines) for lines in sizes)


if __name__ == "__main__":
    sys.exit(main())
