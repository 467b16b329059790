#!/usr/bin/env python3
"""Types long days into the editor, kills it at random moments with SIGKILL, starts it again and compares.

    tests/kill.py [KILLS [SEED]]

A model in this file does what each command should do. After each command `.=` is typed, whose answer says that the command before it has ended. After a
kill the text, the current line and the files have to be those after the last command that ended, or after the one behind it; and what was
shown until then has to be what the model shows. Some kills come while the editor wakes up.
A kill leaves the disk's cache as it is: this tests the order of what is written, and not the syncs.
"""
import os
import random
import signal
import subprocess
import sys
import tempfile
import time

HERE = os.path.dirname(os.path.dirname(os.path.abspath(__file__)))
EDITOR = os.path.join(HERE, "crates", "core_editor", "out", "core_editor")
LONGEST = 1024


class State:
    """A text, its current line from 1 on, and the files."""

    def __init__(self, lines=(), current=0, files=()):
        self.lines, self.current, self.files = list(lines), current, dict(files)

    def copy(self):
        return State(self.lines, self.current, self.files)

    def put(self, after, upto, lines):
        self.lines[after:upto] = lines

    def give(self, kind, first, last, lines):
        if kind == "c":
            if not 1 <= first <= last <= len(self.lines):
                return ["refused 4"]
            self.put(first - 1, last, lines)
            self.current = first - 1 + len(lines) if lines else min(first, len(self.lines))
            return []
        if not 0 <= last <= len(self.lines):
            return ["refused 4"]
        at = last if kind == "a" else max(last - 1, 0)
        self.put(at, at, lines)
        self.current = at + len(lines) if lines else last
        return []

    def change(self, kind, first, last):
        if not 1 <= first <= last <= len(self.lines):
            return ["refused 4"]
        if kind == "d":
            self.put(first - 1, last, [])
            self.current = min(first, len(self.lines))
            return []
        joined = b"".join(self.lines[first - 1:last])
        if len(joined) > LONGEST:
            return ["refused 7"]
        self.put(first - 1, last, [joined])
        self.current = first
        return []

    def write(self, name):
        if name not in self.files and len(self.files) == 64:
            return ["refused 7"]
        self.files[name] = list(self.lines)
        return [str(len(self.lines))]

    def edit(self, name):
        if name not in self.files:
            return ["refused 3"]
        self.lines = list(self.files[name])
        self.current = len(self.lines)
        return [str(len(self.lines))]

    def do(self, command):
        """Does a command; the rows that it shows come back."""
        kind = command[0]
        if kind in "aic":
            return self.give(*command)
        if kind in "dj":
            return self.change(*command)
        return self.write(command[1]) if kind == "w" else self.edit(command[1])

    def shown(self):
        """What .=, f and %p show."""
        rows = [b"%d" % self.current]
        rows += [name.encode() + b" %d" % len(lines) for name, lines in self.files.items()]
        rows += list(self.lines) or [b"refused 4"]
        return b"".join(row + b"\n" for row in rows)


def typed(command):
    kind = command[0]
    if kind in "we":
        return f"{kind} {command[1]}\n.=\n".encode()
    first, last = command[1], command[2]
    text = f"{first},{last}{kind}\n".encode()
    if kind in "aic":
        if kind in "ai":
            text = f"{last}{kind}\n".encode()
        text += b"".join(line + b"\n" for line in command[3]) + b".\n"
    return text + b".=\n"


def some_line(rnd):
    size = rnd.choice((0, 1, 5, 12, 30, 60, 60, 200, 503, 504, 1006, 1007, 1024))
    return bytes(rnd.choice(b"abcdefgh ,;0123") for _ in range(size)).replace(b".", b",")


def some_command(rnd, state, largest):
    count = len(state.lines)
    kind = rnd.choice("aaiiccdjjwwee" if count < largest else "cdddddjjjwwe")
    if kind in "we":
        return kind, f"file {rnd.randint(0, 8)}"
    first = rnd.randint(0 if kind in "ai" else 1, max(count, 1))
    last = min(first + rnd.choice((0, 0, 1, 3, 10)), count + rnd.choice((0, 0, 0, 1)))
    if kind in "dj":
        return kind, first, last
    return kind, first, first if kind in "ai" else last, [some_line(rnd) for _ in range(rnd.choice((0, 1, 1, 2, 5, 12)))]


def some_day(rnd, state, largest, commands):
    """Commands as they come, with the model a step ahead so that most are not refused."""
    state = state.copy()
    day = []
    for _ in range(commands):
        command = some_command(rnd, state, largest)
        state.do(command)
        day.append(command)
    return day


def start(folder, room, path):
    with open(path, "rb") as file:
        return subprocess.Popen([EDITOR, "--room", str(room)], cwd=folder, stdin=file, stdout=subprocess.PIPE, stderr=subprocess.PIPE)


def kill(process, wanted, pause):
    """Kills it a moment after so many rows; what it had shown until then, and whether it had ended by itself."""
    out = b""
    while out.count(b"\n") < wanted:
        more = os.read(process.stdout.fileno(), 4096)
        if not more:
            break
        out += more
    time.sleep(pause)
    ended = process.poll() is not None
    process.send_signal(signal.SIGKILL)
    rest, said = process.communicate()
    if said:
        raise SystemExit(f"the editor says {said.decode()}")
    return out + rest, ended


def follow(state, day, rows):
    """The states that may be there after what was shown: the last that was told of, and the next."""
    at = 0
    for command in day:
        after = state.copy()
        expected = after.do(command)
        if at < len(rows) and rows[at] == "refused 8":
            after, expected = state.copy(), ["refused 8"]
        expected.append(str(after.current))
        here = rows[at:at + len(expected)]
        if here != expected[:len(here)]:
            raise SystemExit(f"shown {here}, expected {expected}, for {command}")
        if len(here) < len(expected):
            return state, after
        at += len(expected)
        state = after
    return state, state


def look(folder, room):
    """The current line, the files and the text of an editor that is started again. Showing the text makes its last line the current one."""
    done = subprocess.run([EDITOR, "--room", str(room)], cwd=folder, input=b".=\nf\n%p\n", capture_output=True, timeout=60)
    if done.returncode:
        raise SystemExit(f"the editor ends with {done.returncode}: {done.stderr.decode()}")
    return done.stdout


class Tally:
    def __init__(self):
        self.kills = self.before = self.after = self.both = self.waking = self.commands = 0


def one_kill(rnd, folder, room, largest, state, tally):
    day = some_day(rnd, state, largest, rnd.choice((40, 300, 600)))
    path = os.path.join(folder, "typed")
    with open(path, "wb") as file:
        file.write(b"".join(typed(command) for command in day))
    process = start(folder, room, path)
    wanted = rnd.randrange(len(day)) if rnd.random() < 0.8 else 0
    out, ended = kill(process, wanted, rnd.random() * (0.004 if wanted else 0.03))
    rows = out.decode().split("\n")[:-1]
    old, new = follow(state, day, rows)
    tally.kills += not ended
    tally.waking += not rows
    tally.commands += len([row for row in rows])
    seen = look(folder, room)
    is_old, is_new = seen == old.shown(), seen == new.shown()
    if not is_old and not is_new:
        for name, state in ("before", old), ("after", new):
            wanted = state.shown().split(b"\n")
            found = seen.split(b"\n")
            odd = [i for i in range(max(len(wanted), len(found))) if wanted[i:i + 1] != found[i:i + 1]]
            print(f"{name}: {len(wanted)} rows wanted, {len(found)} found, other from row {odd[0]} on: {wanted[odd[0]:odd[0] + 3]}, {found[odd[0]:odd[0] + 3]}")
        raise SystemExit(f"neither before nor after {day[len([row for row in rows]) // 2 - 2:][:5]}")
    tally.both += is_old and is_new
    tally.before += is_old and not is_new
    tally.after += is_new and not is_old
    found = new if is_new else old
    found.current = len(found.lines)
    return found


def main():
    kills = int(sys.argv[1]) if len(sys.argv) > 1 else 300
    seed = int(sys.argv[2]) if len(sys.argv) > 2 else 1
    rnd = random.Random(seed)
    tally = Tally()
    while tally.kills < kills:
        room, largest = rnd.choice(((1024, 20), (1024, 60), (4096, 60), (65536, 400)))
        with tempfile.TemporaryDirectory() as folder:
            state = State()
            for _ in range(20):
                state = one_kill(rnd, folder, room, largest, state, tally)
                if tally.kills >= kills:
                    break
    print(f"{tally.kills} kills, {tally.waking} of them before the first command had ended, {tally.commands} rows compared; then found: the state before the "
          f"command {tally.before} times, after it {tally.after}, both the same {tally.both}; no difference")
    return 0


if __name__ == "__main__":
    sys.exit(main())
