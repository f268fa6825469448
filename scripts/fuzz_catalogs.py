#!/usr/bin/env python3
"""Runs the built program on mutated catalogs: cut, doubled, with bytes flipped, deep brackets, long names, huge numbers.

usage: scripts/fuzz_catalogs.py [PROGRAM] [COUNT] [SEED]

Wanted of each run: it ends within ten seconds and by no signal; its status is one of the table; at status 2, 3, 4, 5 and 8 and,
but for the broken rules of `check`, a refusal of `resolve` and an answer of `verify`, at 1 nothing stands on `out`; at each
status above 0 but 6 the first line on `err` begins with `olmctl: `. It prints its seed, its counts by command and status,
and each run that isn't as wanted, whose input it keeps below scripts/work.
"""
import collections
import os
import pathlib
import random
import subprocess
import sys

top = pathlib.Path(__file__).resolve().parent.parent
program = sys.argv[1] if len(sys.argv) > 1 else str(top / "crates/olmctl/out/olmctl")
count = int(sys.argv[2]) if len(sys.argv) > 2 else 3000
seed = int(sys.argv[3]) if len(sys.argv) > 3 else 20261201
dice = random.Random(seed)
kept = top / "scripts/work"


def sources():
    texts = [path.read_bytes() for path in sorted(top.glob("examples/runs/*/stdin"))]
    texts += [path.read_bytes() for path in sorted(top.glob("examples/catalog/*/catalog.json"))]
    return [text for text in texts if text.startswith(b"{")]


def cut(text):
    return text[: dice.randrange(len(text) + 1)]


def without_a_piece(text):
    begin = dice.randrange(len(text) + 1)
    return text[:begin] + text[begin + dice.randrange(1, 40):]


def doubled(text):
    begin = dice.randrange(len(text))
    end = dice.randrange(begin, len(text)) + 1
    return text[:end] + text[begin:end] + text[end:]


def line_doubled(text):
    lines = text.splitlines(keepends=True)
    lines.insert(dice.randrange(len(lines) + 1), dice.choice(lines))
    return b"".join(lines)


def lines_exchanged(text):
    lines = text.splitlines(keepends=True)
    dice.shuffle(lines)
    return b"".join(lines)


def flipped(text):
    data = bytearray(text)
    for _ in range(dice.randrange(1, 6)):
        data[dice.randrange(len(data))] = dice.randrange(256)
    return bytes(data)


def deep(text):
    depth = dice.choice([10, 127, 128, 129, 1000, 100000])
    at = dice.randrange(len(text) + 1)
    bracket, closing = dice.choice([(b"[", b"]"), (b'{"a":', b"}")])
    return text[:at] + bracket * depth + b"1" + closing * dice.choice([depth, depth - 1, 0]) + text[at:]


def renamed(text):
    quoted = text.split(b'"')
    at = dice.randrange(1, len(quoted), 2) if len(quoted) > 2 else 0
    quoted[at] = dice.choice([b"", b"a" * 253, b"a" * 254, b"a" * 100000, b"a/b", b"\xff", b"\\u0000", b"A", b"-", b" ", b"99999999999999999999.0.0", b">=1.0.0 <", b"|| ||"])
    return b'"'.join(quoted)


def key_changed(text):
    words = [b"name", b"package", b"entries", b"replaces", b"skips", b"skipRange", b"properties", b"type", b"value", b"schema", b"image", b"defaultChannel"]
    return text.replace(dice.choice(words), dice.choice(words), dice.randrange(1, 3))


def numbered(text):
    quoted = text.split(b'"')
    at = dice.randrange(1, len(quoted), 2) if len(quoted) > 2 else 0
    number = dice.choice([b"1e999999", b"-0", b"0" * 50, b"9" * 400, b"null", b"true", b"[]", b"{}", b"1.5"])
    return b'"'.join(quoted[:at])[:-1 if at else None] + number + b'"'.join(quoted[at + 1:])[1 if at else 0:] if at else text + number


mutations = [cut, without_a_piece, doubled, line_doubled, lines_exchanged, flipped, deep, renamed, key_changed, numbered]


def commands(text):
    names = [name.decode("ascii", "ignore") or "x" for name in (b"argo", b"base", b"c", b"db", b"web", b"metrics-operator")]
    package = dice.choice(names)
    channel = dice.choice(["stable", "s", "alpha", "candidate"])
    return dice.choice([
        ["check", "@"],
        ["graph", "@", package, channel],
        ["resolve", "@", package, channel],
        ["resolve", "--budget=%d" % dice.choice([1, 2, 10, 10000]), "@", package, channel],
    ])


def verdict(words, status, out, err):
    if status < 0:
        return "signal %d" % -status
    if status not in (0, 1, 2, 3, 4, 5, 6, 8):
        return "status %d" % status
    if status in (2, 3, 4, 5, 8) and out:
        return "output at status %d" % status
    if status == 1 and out and err.startswith(b"olmctl: catalog rules") and words[0] != "check":
        return "output for a broken rule"
    if status == 1 and words[0] == "graph" and out:
        return "output of a channel that isn't there"
    if status not in (0, 6) and not err.startswith(b"olmctl: "):
        return "no line on err"
    if status in (0, 6) and (err or not out):
        return "a line on err, or no output, at status %d" % status
    return None


def main():
    texts = sources()
    statuses = collections.Counter()
    faults = collections.Counter()
    wrong = 0
    for number in range(count):
        text = dice.choice(texts)
        for _ in range(dice.choice([1, 1, 1, 2, 3])):
            text = dice.choice(mutations)(text) if text else dice.choice(texts)
        words = commands(text)
        try:
            ran = subprocess.run([program] + words, input=text, capture_output=True, timeout=10, cwd=top)
            fault = verdict(words, ran.returncode, ran.stdout, ran.stderr)
            statuses[(words[0], ran.returncode)] += 1
            if ran.returncode == 3:
                faults[ran.stderr.split()[-1].decode("utf8", "replace")] += 1
        except subprocess.TimeoutExpired:
            fault = "no end within ten seconds"
        if fault:
            wrong += 1
            os.makedirs(kept, exist_ok=True)
            (kept / ("fuzz_%d_%d" % (seed, number))).write_bytes(text)
            print("run %d, %s: %s" % (number, " ".join(words), fault))
    print("seed %d, %d runs, %d not as wanted" % (seed, count, wrong))
    for (command, status), runs in sorted(statuses.items()):
        print("%s status %d: %d" % (command, status, runs))
    print("last words of the lines at status 3: " + ", ".join("%s %d" % pair for pair in sorted(faults.items())))
    return wrong != 0


sys.exit(main())
