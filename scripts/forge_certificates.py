#!/usr/bin/env python3
"""Prints certificates by `resolve` over catalogs made by dice, changes one token of each at a time, and has `verify` look at them.

usage: scripts/forge_certificates.py [PROGRAM] [CATALOGS] [SEED]

Wanted: `resolve` chooses what the model of scripts/model.py chooses; `verify` prints of the true certificate and of each forged
one the line that the model has for it, be it accepted or the first fault. One token is a number (one up, one down, 0 and a
large one), a sign (turned), a word (exchanged), any token or line left out or doubled. It prints its seed and its counts, and
each difference, whose files it keeps below scripts/work.
"""
import collections
import pathlib
import random
import re
import subprocess
import sys
import tempfile

import model

top = pathlib.Path(__file__).resolve().parent.parent
program = sys.argv[1] if len(sys.argv) > 1 else str(top / "crates/olmctl/out/olmctl")
catalogs = int(sys.argv[2]) if len(sys.argv) > 2 else 100
seed = int(sys.argv[3]) if len(sys.argv) > 3 else 20261201
dice = random.Random(seed)



def some_catalog():
    names = ["a", "b", "c", "d", "e"][: dice.randrange(2, 6)]
    packages = []
    for name in names:
        versions = [(number, 0, 0) for number in range(dice.randrange(1, 4), 0, -1)]
        entries = []
        for place, version in enumerate(versions):
            needs = []
            for other in dice.sample(names, dice.randrange(0, 3)):
                if other != name or dice.random() < 0.1:
                    low = dice.randrange(0, 4)
                    needs.append(("package", other, (low, 0, 0), (low + dice.randrange(1, 4), 0, 0)))
            if dice.random() < 0.2:
                needs.append(("kind", dice.choice("KLM")))
            gives = sorted(set(dice.choice("KLM") for _ in range(dice.randrange(0, 3))))
            below = versions[place + 1] if place + 1 < len(versions) else None
            entries.append({"name": "%s.v%d.0.0" % (name, version[0]), "version": version, "needs": needs, "gives": gives,
                            "replaces": "%s.v%d.0.0" % (name, below[0]) if below else None})
        channels = {"s": entries}
        if dice.random() < 0.3:
            channels["t"] = entries[-1:]
        packages.append({"name": name, "default": dice.choice(sorted(channels)), "channels": channels})
    return packages


def forged(text):
    """Each text that differs in one token or line, with no text twice."""
    found = {}
    tokens = re.split(r"([+\-]|[0-9]+|[ \n(),.:LG])", text)
    places = [place for place, token in enumerate(tokens) if token]
    for place in places:
        token = tokens[place]
        others = ["", token + token]
        if token.isdigit():
            others += [str(int(token) + 1), str(max(int(token) - 1, 0)), "0", "0" + token, "4294967296"]
        elif token in "+-":
            others.append("-" if token == "+" else "+")
        elif token in ("L", "G"):
            others.append("L" if token == "G" else "G")
        elif token in ("chosen", "refused", "undecided"):
            others += ["chosen", "refused", "undecided"]
        for other in others:
            found["".join(tokens[:place] + [other] + tokens[place + 1:])] = None
    lines = text.splitlines(keepends=True)
    for place in range(len(lines)):
        found["".join(lines[:place] + lines[place + 1:])] = None
        found["".join(lines[: place + 1] + lines[place:])] = None
    found.pop(text, None)
    return list(found)


def run(words, text, folder):
    return subprocess.run([program] + words, input=text.encode(), capture_output=True, timeout=60, cwd=folder)


def main():
    counts = collections.Counter()
    words = collections.Counter()
    different = 0

    def differs(what, catalog, text):
        nonlocal different
        different += 1
        kept = top / "scripts/work"
        kept.mkdir(parents=True, exist_ok=True)
        (kept / ("catalog_%d" % different)).write_text(catalog)
        (kept / ("certificate_%d" % different)).write_text(text)
        print("difference %d: %s" % (different, what))

    for _ in range(catalogs):
        packages = some_catalog()
        catalog = model.stream(packages)
        problem, entries = model.problem_of(packages, "a", "s")
        best = model.best_walk(problem)
        with tempfile.TemporaryDirectory() as folder:
            (pathlib.Path(folder) / "c").mkdir()
            (pathlib.Path(folder) / "c/catalog.json").write_text(catalog)
            ran = run(["resolve", "c", "a", "s"], "", folder)
            out = ran.stdout.decode()
            certificate = out[out.find("certificate"):]
            wanted = "refused\n"
            if best is not None:
                chosen = model.walk(problem, best)[0]
                wanted = "chosen\n" + "".join(
                    "take olm/catalog %s %s %s %d.%d.%d\n" % ((entries[v - 1][0], entries[v - 1][1], entries[v - 1][2]["name"]) + entries[v - 1][2]["version"])
                    for v in chosen[1:])
            counts[out.split("\n", 1)[0]] += 1
            if out[: len(out) - len(certificate)] != wanted or ran.returncode != (best is None):
                differs("resolve, wanted %r" % wanted, catalog, out)
                continue
            texts = forged(certificate)
            if len(texts) > 60:
                texts = dice.sample(texts, 60)
            for text in [certificate] + texts:
                line = model.verdict_of(problem, text)
                ran = run(["verify", "c", "a", "s"], text, folder)
                counts["verified"] += 1
                words[re.sub(r" [0-9]+", "", line)] += 1
                if ran.stdout.decode() != line + "\n" or ran.returncode != (not line.startswith("accepted")):
                    differs("verify, wanted %r, printed %r" % (line, ran.stdout.decode()), catalog, text)
    print("seed %d, %d catalogs: %s; %d different" % (seed, catalogs, ", ".join("%s %d" % pair for pair in sorted(counts.items())), different))
    for word, number in sorted(words.items()):
        print("%6d %s" % (number, word))
    return different != 0


sys.exit(main())
