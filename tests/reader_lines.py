#!/usr/bin/env python3
"""Writes crates/reader/stdin and crates/reader/stdout.

Each row is what is typed, and how it is read by the rules of docs/COMMANDS.md: written by hand,
not taken from the program. A row may give lines: they follow in the input, up to a line with a dot.
"""
import os

SHOWN = "made the current line and shown"
CUT = "something is missing at its end"
LONG = "it has more than 65535 bytes"
MOST, KEPT = 80, 32


def no(why):
    return "can't be read, " + (why if isinstance(why, str) else f"byte {why} doesn't fit")


def quoted(bs):
    def one(b):
        return "\\n" if b == 10 else chr(b) if 32 <= b <= 126 else f"\\x{b:02x}"
    if len(bs) <= MOST:
        return "".join(map(one, bs))
    return "".join(map(one, bs[:KEPT])) + f"... ({len(bs)} bytes)"


A32 = "a" * 32
N64, N65 = b"n" * 64, b"n" * 65

ROWS = [
    # nothing, and each form of address, alone
    ("", f"the next line, {SHOWN}"),
    (".", f"the current line, {SHOWN}"),
    ("$", f"the last line, {SHOWN}"),
    ("7", f"line 7, {SHOWN}"),
    ("0", f"line 0, {SHOWN}"),
    ("007", f"line 7, {SHOWN}"),
    ("123456789", f"line 123456789, {SHOWN}"),
    ("000000001", f"line 1, {SHOWN}"),
    ("1234567890", no(10)),
    ("0000000001", no(10)),
    ("'a", f"the line marked a, {SHOWN}"),
    ("'z", f"the line marked z, {SHOWN}"),
    ("'", no(CUT)),
    ("'A", no(2)),
    ("'`", no(2)),
    ("'{", no(2)),
    ("'ab", no(3)),
    ("/milk/", f"the next line with /milk/, {SHOWN}"),
    ("?milk?", f"the line before with /milk/, {SHOWN}"),
    ("//", f"the next line with the last pattern, {SHOWN}"),
    ("??", f"the line before with the last pattern, {SHOWN}"),
    ("/a\\/b/", f"the next line with /a\\/b/, {SHOWN}"),
    ("?a\\?b?", f"the line before with /a\\?b/, {SHOWN}"),
    ("/a?b/", f"the next line with /a?b/, {SHOWN}"),
    ("?a/b?", f"the line before with /a/b/, {SHOWN}"),
    ("/a\\\\/", f"the next line with /a\\\\/, {SHOWN}"),
    ("/a\\\\/p", "the next line with /a\\\\/, shown"),
    ("/a\\/", no(CUT)),
    ("/abc\\", no(CUT)),
    ("/abc", no(CUT)),
    ("/", no(CUT)),
    ("?abc", no(CUT)),
    ("?abc\\", no(CUT)),
    ("/[]a]/", f"the next line with /[]a]/, {SHOWN}"),
    ("/[]\\/]/", f"the next line with /[]\\/]/, {SHOWN}"),
    ("/[]/]/", no(5)),
    (b"/\xff\x80/", f"the next line with /\\xff\\x80/, {SHOWN}"),
    # steps
    ("+", f"the current line and 1 on, {SHOWN}"),
    ("-", f"the current line and 1 back, {SHOWN}"),
    ("+3", f"the current line and 3 on, {SHOWN}"),
    ("-12", f"the current line and 12 back, {SHOWN}"),
    ("++", f"the current line and 2 on, {SHOWN}"),
    ("---", f"the current line and 3 back, {SHOWN}"),
    ("+2-1+4", f"the current line and 6 on and 1 back, {SHOWN}"),
    ("7+0", f"line 7, {SHOWN}"),
    ("$-2", f"the last line and 2 back, {SHOWN}"),
    (".+5", f"the current line and 5 on, {SHOWN}"),
    ("'a+", f"the line marked a and 1 on, {SHOWN}"),
    ("/x/-3", f"the next line with /x/ and 3 back, {SHOWN}"),
    ("?x?++", f"the line before with /x/ and 2 on, {SHOWN}"),
    ("+999999999+999999999", f"the current line and 1999999998 on, {SHOWN}"),
    ("+123456789", f"the current line and 123456789 on, {SHOWN}"),
    ("+1234567890", no(11)),
    ("5-1234567890", no(12)),
    ("5.", no(2)),
    ("5 6", no(2)),
    ("5'a", no(2)),
    # ranges
    ("2,5p", "lines 2 to 5, shown"),
    ("2;5p", "from line 2, made the current line, to line 5, shown"),
    ("5,2p", "lines 5 to 2, shown"),
    ("%p", "all lines, shown"),
    (",p", "all lines, shown"),
    ("%", f"all lines, {SHOWN}"),
    (",", f"all lines, {SHOWN}"),
    ("2,p", "from line 2 to the current line, shown"),
    ("2;p", "from line 2, made the current line, to the current line, shown"),
    ("1,", f"from line 1 to the current line, {SHOWN}"),
    (".,$p", "from the current line to the last line, shown"),
    ("$,1p", "from the last line to line 1, shown"),
    ("+1,+2p", "from the current line and 1 on to the current line and 2 on, shown"),
    ("3;+2p", "from line 3, made the current line, to the current line and 2 on, shown"),
    ("2,3+1p", "from line 2 to line 3 and 1 on, shown"),
    ("/a/,/b/p", "from the next line with /a/ to the next line with /b/, shown"),
    ("?a?;?b?p", "from the line before with /a/, made the current line, to the line before with /b/, shown"),
    ("'a,'bp", "from the line marked a to the line marked b, shown"),
    ("123456789,987654321d", "lines 123456789 to 987654321, deleted"),
    ("1,1234567890p", no(12)),
    (",5p", no(2)),
    (";p", no(1)),
    ("%,p", no(2)),
    ("%%", no(2)),
    ("1,2,3p", no(4)),
    ("1,%p", no(3)),
    ("2, 5p", no(3)),
    ("1,/ab", no(CUT)),
    ("1,'", no(CUT)),
    # a, i, c
    ("a", "the current line, with no line put after it", []),
    ("a", 'the current line, with 1 line ("milk") put after it', ["milk"]),
    ("3i", 'line 3, with 2 lines ("one", "two") put before it', ["one", "two"]),
    ("2,4c", 'lines 2 to 4, replaced by 1 line ("")', [""]),
    ("0a", 'line 0, with 4 lines ("x", "", "y", ...) put after it', ["x", "", "y", "z"]),
    ("2;3i", 'from line 2, made the current line, to line 3, with 3 lines ("..", " .", ". ") put before it', ["..", " .", ". "]),
    ("$c", "the last line, replaced by no line", []),
    ("%c", 'all lines, replaced by 2 lines ("", "")', ["", ""]),
    ("a", 'the current line, with 1 line ("\\xe4pfel") put after it', [b"\xe4pfel"]),
    ("i", f'the current line, with 1 line ("{A32}... (1024 bytes)") put before it', ["a" * 1024]),
    ("i", f'the current line, with 2 lines ("b", "{A32}... (1025 bytes)"; not all short enough) put before it', ["b", "a" * 1025]),
    ("ax", no(2)),
    ("a ", no(2)),
    ("1,2i2", no(5)),
    # d, j
    ("d", "the current line, deleted"),
    ("1,3d", "lines 1 to 3, deleted"),
    ("dd", no(2)),
    ("D", no(1)),
    ("j", "the current line and the next, joined into one"),
    ("1,3j", "lines 1 to 3, joined into one"),
    ("j1", no(2)),
    # m, t
    ("12,15m3", "lines 12 to 15, moved after line 3"),
    ("m0", "the current line, moved after line 0"),
    ("m", "the current line, moved after the current line"),
    ("m'a", "the current line, moved after the line marked a"),
    ("1m/x/+1", "line 1, moved after the next line with /x/ and 1 on"),
    ("m-", "the current line, moved after the current line and 1 back"),
    ("1m2,3", no(4)),
    ("1m$x", no(4)),
    ("m1234567890", no(11)),
    ("m/x", no(CUT)),
    ("m%", no(2)),
    ("$t0", "the last line, copied after line 0"),
    ("t", "the current line, copied after the current line"),
    ("2,3t?q?-2", "lines 2 to 3, copied after the line before with /q/ and 2 back"),
    ("t$", "the current line, copied after the last line"),
    # k, p, n, =
    ("ka", "the current line, marked a"),
    ("5kz", "line 5, marked z"),
    ("k", no(CUT)),
    ("kA", no(2)),
    ("kab", no(3)),
    ("k1", no(2)),
    ("p", "the current line, shown"),
    ("pp", no(2)),
    ("n", "the current line, shown with numbers"),
    ("%n", "all lines, shown with numbers"),
    ("=", "the last line, its number shown"),
    ("/x/=", "the next line with /x/, its number shown"),
    ("==", no(2)),
    # s
    ("s/a/b/", 'the current line, the first match of /a/ replaced by "b"'),
    ("%s/a/b/g", 'all lines, every match of /a/ replaced by "b"'),
    ("s/a/b/1", 'the current line, the first match of /a/ replaced by "b"'),
    ("s/a/b/2", 'the current line, match 2 of /a/ replaced by "b"'),
    ("s/a/b/999", 'the current line, match 999 of /a/ replaced by "b"'),
    ("s/a/b/01", 'the current line, the first match of /a/ replaced by "b"'),
    ("s/a/b/1000", no(10)),
    ("s/a/b/0", no(CUT)),
    ("s/a/b/000", no(9)),
    ("s//x/", 'the current line, the first match of the last pattern replaced by "x"'),
    ("s/a//", 'the current line, the first match of /a/ replaced by ""'),
    ("s///g", 'the current line, every match of the last pattern replaced by ""'),
    ("s/a\\/b/c\\/d/g", 'the current line, every match of /a\\/b/ replaced by "c\\/d"'),
    ("s/[0-9]+/<&>/", 'the current line, the first match of /[0-9]+/ replaced by "<&>"'),
    ("s/[]a]/x/", 'the current line, the first match of /[]a]/ replaced by "x"'),
    ("s/[/]/x/", no(7)),
    ("2;4s/a/b\\\\/3", 'from line 2, made the current line, to line 4, match 3 of /a/ replaced by "b\\\\"'),
    ("s/a/b\\/", no(CUT)),
    ("s/a/b", no(CUT)),
    ("s/a/", no(CUT)),
    ("s/a", no(CUT)),
    ("s", no(CUT)),
    ("s,a,b,", no(2)),
    ("s/a/b/gg", no(8)),
    ("s/a/b/2g", no(8)),
    ("s/a/b/ ", no(7)),
    # g, v
    ("g/milk/d", "all lines, for each with /milk/: the current line, deleted"),
    # the examples of docs/COMMANDS.md that stand nowhere else
    ("2;+3p", "from line 2, made the current line, to the current line and 3 on, shown"),
    ("g/milk/s/1/2/", 'all lines, for each with /milk/: the current line, the first match of /1/ replaced by "2"'),
    ("v/milk/m0", "all lines, for each without /milk/: the current line, moved after line 0"),
    ("g/x/", f"all lines, for each with /x/: the line itself, {SHOWN}"),
    ("v//", f"all lines, for each without the last pattern: the line itself, {SHOWN}"),
    ("1,5g/milk/s/a/b/", 'lines 1 to 5, for each with /milk/: the current line, the first match of /a/ replaced by "b"'),
    ("g/milk/s/<?[12]>?/x/", 'all lines, for each with /milk/: the current line, the first match of /<?[12]>?/ replaced by "x"'),
    ("2;/q/v/x/p", "from line 2, made the current line, to the next line with /q/, for each without /x/: the current line, shown"),
    ("g/a\\/b/p", "all lines, for each with /a\\/b/: the current line, shown"),
    ("g/x/1,2m$", "all lines, for each with /x/: lines 1 to 2, moved after the last line"),
    ("g/x/,n", "all lines, for each with /x/: all lines, shown with numbers"),
    ("g/x/5", f"all lines, for each with /x/: line 5, {SHOWN}"),
    ("g/x/.", f"all lines, for each with /x/: the current line, {SHOWN}"),
    ("g/x/ka", "all lines, for each with /x/: the current line, marked a"),
    ("g/x/=", "all lines, for each with /x/: the last line, its number shown"),
    ("g/x/j", "all lines, for each with /x/: the current line and the next, joined into one"),
    ("g/x/t.", "all lines, for each with /x/: the current line, copied after the current line"),
    ("%g/x/a", 'all lines, for each with /x/: the current line, with 2 lines ("y", "z") put after it', ["y", "z"]),
    ("v/x/i", "all lines, for each without /x/: the current line, with no line put before it", []),
    ("7v/x/2c", 'line 7, for each without /x/: line 2, replaced by 1 line ("y")', ["y"]),
    ("g/x/g/y/p", no(5)),
    ("g/x/v/y/p", no(5)),
    ("g/x/u", no(5)),
    ("g/x/U", no(5)),
    ("g/x/w f", no(5)),
    ("g/x/e f", no(5)),
    ("g/x/r f", no(5)),
    ("g/x/f", no(5)),
    ("g/x", no(CUT)),
    ("g", no(CUT)),
    ("v", no(CUT)),
    ("g/x/k", no(CUT)),
    ("g/x/s/a", no(CUT)),
    ("gx", no(2)),
    ("g?x?p", no(2)),
    # u, U
    ("u", "the last change taken back"),
    ("U", "what was taken back last done again"),
    ("3u", "the last change taken back (the range is left aside)"),
    ("%U", "what was taken back last done again (the range is left aside)"),
    ("uu", no(2)),
    # w, e, r, f
    ("w list", 'all lines, written to the file "list"'),
    ("2,3w a b", 'lines 2 to 3, written to the file "a b"'),
    ("w  x", 'all lines, written to the file " x"'),
    (b"w " + N64, f'all lines, written to the file "{"n" * 64}"'),
    (b"w " + N65, no(67)),
    (b"w caf\xc3\xa9", 'all lines, written to the file "caf\\xc3\\xa9"'),
    ("w", no(CUT)),
    ("w ", no(CUT)),
    ("wlist", no(2)),
    ("e list", 'the text replaced by the file "list"'),
    ("1,2e list", 'the text replaced by the file "list" (the range is left aside)'),
    (b"e " + N64, f'the text replaced by the file "{"n" * 64}"'),
    (b"e " + N65, no(67)),
    ("e", no(CUT)),
    ("r list", 'the last line, with the lines of the file "list" put after it'),
    ("0r list", 'line 0, with the lines of the file "list" put after it'),
    ("rlist", no(2)),
    (b"r " + N65, no(67)),
    ("f", "the files listed"),
    ("%f", "the files listed (the range is left aside)"),
    ("f list", no(2)),
    # no command
    ("x", no(1)),
    ("12x", no(3)),
    ("q", no(1)),
    (" p", no(1)),
    ("P", no(1)),
    (b"\x80", no(1)),
    (b"\x00", no(1)),
    (b"p\xff", no(2)),
    (b"p\r", no(2)),
    # as long as can be, and one byte more
    ("/" + "a" * 65533 + "/", f"the next line with /{A32}... (65533 bytes)/, {SHOWN}"),
    ("/" + "a" * 65534 + "/", no(LONG)),
    ("/" + "a" * 65534, no(65535)),
    ("a", 'the current line, with 32767 lines ("a", "a", "a", ...) put after it', ["a"] * 32767),
    ("1a", no(LONG), ["a"] * 32767),
    # the end of the input ends given lines
    ("$a", 'the last line, with 1 line ("last") put after it', ["last"]),
]


def raw(x):
    return x if isinstance(x, bytes) else x.encode("ascii")


typed, said = [], []
for i, row in enumerate(ROWS):
    line, words = raw(row[0]), row[1]
    typed.append(line)
    if len(row) == 3:
        given = [raw(g) for g in row[2]]
        typed += given
        line = b"\n".join([line] + given)
        if i + 1 < len(ROWS):
            typed.append(b".")
    said.append(f"{quoted(line)}: {words}\n")

root = os.path.join(os.path.dirname(os.path.abspath(__file__)), "..", "crates", "reader")
with open(os.path.join(root, "stdin"), "wb") as f:
    f.write(b"\n".join(typed))
with open(os.path.join(root, "stdout"), "wb") as f:
    f.write("".join(said).encode("ascii"))
print(len(ROWS), "rows")
