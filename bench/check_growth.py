#!/usr/bin/env python3
"""How the time and the memory of `check` and `graph` grow with the catalog.

usage: bench/check_growth.py [PROGRAM]

Catalogs of 1, 4, 16 and 60 MiB of packages with ten bundles each, and catalogs with one channel of 1,000, 4,000 and 16,000
entries, the first half on the chain and the others skipped by the head. It prints for each the least time of three runs, its
ratio to the row above and that of the bytes, and the most memory. Run it after `rt run` in crates/olmctl.
"""
import os
import pathlib
import subprocess
import sys
import time

top = pathlib.Path(__file__).resolve().parent.parent
program = sys.argv[1] if len(sys.argv) > 1 else str(top / "crates/olmctl/out/olmctl")
work = top / "bench/work"
WORDS = "Keeps the resources of a cluster as they are asked for, and says so. " * 20


def bundle(package, name, version, words):
    return (
        '{"schema":"olm.bundle","package":"%s","name":"%s","image":"registry.example/%s","properties":[{"type":"olm.package","value":'
        '{"packageName":"%s","version":"%s"}},{"type":"olm.gvk","value":{"group":"%s.example","version":"v1","kind":"Thing"}},'
        '{"type":"olm.csv.metadata","value":{"description":"%s"}}]}\n' % (package, name, name, package, version, package, words))


def package_of_ten(number):
    name = "p%05d" % number
    entries = ",".join(
        '{"name":"%s.v1.%d.0"%s}' % (name, v, ',"replaces":"%s.v1.%d.0"' % (name, v - 1) if v else "") for v in range(9, -1, -1))
    text = '{"schema":"olm.package","name":"%s","defaultChannel":"stable"}\n' % name
    text += '{"schema":"olm.channel","package":"%s","name":"stable","entries":[%s]}\n' % (name, entries)
    return text + "".join(bundle(name, "%s.v1.%d.0" % (name, v), "1.%d.0" % v, WORDS) for v in range(10))


def of_packages(mebibytes):
    path = work / ("packages_%d.json" % mebibytes)
    if not path.exists():
        with path.open("w") as file:
            size = number = 0
            while size < mebibytes << 20:
                text = package_of_ten(number)
                if size + len(text) > 64 << 20:
                    break
                file.write(text)
                size += len(text)
                number += 1
    return path


def of_one_channel(count):
    path = work / ("channel_%d.json" % count)
    if not path.exists():
        half = count // 2
        name = lambda number: "p.v1.%d.0" % number
        skips = ",".join('"%s"' % name(number) for number in range(half))
        entries = ['{"name":"%s","replaces":"%s","skips":[%s]}' % (name(count - 1), name(count - 2), skips)]
        entries += ['{"name":"%s","replaces":"%s"}' % (name(number), name(number - 1)) for number in range(count - 2, half, -1)]
        entries += ['{"name":"%s"}' % name(number) for number in range(half, -1, -1)]
        with path.open("w") as file:
            file.write('{"schema":"olm.package","name":"p","defaultChannel":"s"}\n')
            file.write('{"schema":"olm.channel","package":"p","name":"s","entries":[%s]}\n' % ",".join(entries))
            for number in range(count):
                file.write(bundle("p", name(number), "1.%d.0" % number, ""))
    return path


def measure(words, path):
    """The least time of three runs, and the most memory in MiB."""
    least = most = None
    for _ in range(3):
        with path.open("rb") as file:
            begin = time.monotonic()
            child = subprocess.Popen([program] + words, stdin=file, stdout=subprocess.DEVNULL, stderr=subprocess.PIPE)
            _, _, used = os.wait4(child.pid, 0)
            taken = time.monotonic() - begin
        least = taken if least is None else min(least, taken)
        most = used.ru_maxrss / 1024
    return least, most


def table(title, words, paths):
    print("%s\n| Catalog | Bytes | Seconds | Ratio of bytes | Ratio of times | MiB |\n|---|---|---|---|---|---|" % title)
    before = None
    for path in paths:
        size = path.stat().st_size
        seconds, memory = measure(words, path)
        ratios = "%.1f | %.1f" % (size / before[0], seconds / before[1]) if before else " | "
        print("| %s | %d | %.2f | %s | %.0f |" % (path.stem, size, seconds, ratios, memory), flush=True)
        before = (size, seconds)


if __name__ == "__main__":
    work.mkdir(parents=True, exist_ok=True)
    channels = [of_one_channel(count) for count in (1000, 4000, 16000)]
    table("check, packages", ["check", "@"], [of_packages(size) for size in (1, 4, 16, 60)])
    table("check, one channel", ["check", "@"], channels)
    table("graph, one channel", ["graph", "@", "p", "s"], channels)
