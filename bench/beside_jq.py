#!/usr/bin/env python3
"""Reads and checks catalogs of 60 MiB by the built program, and the same bytes by jq and by a plain parse of each line.

usage: bench/beside_jq.py [PROGRAM]

The first catalog has deprecations and blobs of an unknown schema, which are read and are under no rule, so `check` does little
but read. The second has packages of ten bundles of about 1.5 KiB each, and breaks no rule. The plain parse is that of Python's
json module, which is written in C. It prints the least of three times of each and the ratios. Run it after `rt run` in
crates/olmctl.
"""
import json
import pathlib
import subprocess
import sys
import time

from check_growth import of_packages, work

top = pathlib.Path(__file__).resolve().parent.parent
program = sys.argv[1] if len(sys.argv) > 1 else str(top / "crates/olmctl/out/olmctl")


def deprecations():
    path = work / "deprecations.json"
    if not path.exists():
        with path.open("w") as file:
            size = number = 0
            while size < 60 << 20:
                name = "p%06d" % number
                text = ('{"schema":"olm.deprecations","package":"%s","entries":[{"reference":{"schema":"olm.bundle","name":"%s.v1.0.0"},"message":'
                        '"Version 1.0.0 of %s is no longer mended."}]}\n{"schema":"example.note","package":"%s","properties":[{"type":"olm.maturity","value":"alpha"}]}\n' % ((name,) * 4))
                file.write(text)
                size += len(text)
                number += 1
    return path


def least(action):
    times = []
    for _ in range(3):
        begin = time.monotonic()
        action()
        times.append(time.monotonic() - begin)
    return min(times)


def by_program(words, path):
    with path.open("rb") as file:
        subprocess.run(words, stdin=file, stdout=subprocess.DEVNULL, check=True)


def plain(path):
    with path.open("rb") as file:
        for line in file:
            json.loads(line)


if __name__ == "__main__":
    work.mkdir(parents=True, exist_ok=True)
    for path in (deprecations(), of_packages(60)):
        ours = least(lambda: by_program([program, "check", "@"], path))
        jq = least(lambda: by_program(["jq", "-c", "-n", "reduce inputs as $x (0;.+1)"], path))
        parse = least(lambda: plain(path))
        print("%s, %d bytes: check %.2f s, jq %.2f s (ratio %.2f), plain parse %.2f s (ratio %.2f)" % (path.stem, path.stat().st_size, ours, jq, ours / jq, parse, ours / parse), flush=True)
