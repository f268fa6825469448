#!/usr/bin/env python3
"""How the time of `resolve` and `verify` grows with the catalog and with what is reached.

usage: bench/resolve_growth.py [PROGRAM]

Catalogs of 100 to 1,600 packages with two versions each. In the wide ones the first package asks for each of the others; in the
long ones each version asks for the next package. Every second head can't be taken, since it asks for a package at a version
that isn't there. It prints the seconds of both commands, their ratio to the row above, and the certificate's lines. Run it after
`rt run` in crates/olmctl.
"""
import pathlib
import subprocess
import sys
import tempfile
import time

top = pathlib.Path(__file__).resolve().parent.parent
program = sys.argv[1] if len(sys.argv) > 1 else str(top / "crates/olmctl/out/olmctl")
sizes = [int(size) for size in sys.argv[2:]] or [100, 200, 400, 800, 1600]


def need(name, span):
    return ',{"type":"olm.package.required","value":{"packageName":"%s","versionRange":"%s"}}' % (name, span)


def bundle(name, version, more):
    return (
        '{"schema":"olm.bundle","package":"%s","name":"%s.v%d.0.0","image":"q/%s:%d","properties":'
        '[{"type":"olm.package","value":{"packageName":"%s","version":"%d.0.0"}}%s]}\n' % (name, name, version, name, version, name, version, more))


def catalog(count, is_long):
    text = []
    for number in range(count):
        name = "p%05d" % number
        text.append('{"schema":"olm.package","name":"%s","defaultChannel":"s"}\n' % name)
        text.append('{"schema":"olm.channel","package":"%s","name":"s","entries":[{"name":"%s.v2.0.0","replaces":"%s.v1.0.0"},{"name":"%s.v1.0.0"}]}\n' % ((name,) * 4))
        following = ""
        if is_long and number + 1 < count:
            following = need("p%05d" % (number + 1), ">=1.0.0")
        elif not is_long and number == 0:
            following = "".join(need("p%05d" % other, ">=1.0.0") for other in range(1, count))
        lacking = need("p%05d" % number, ">=9.0.0") if number % 2 else ""
        text.append(bundle(name, 2, following + lacking))
        text.append(bundle(name, 1, following))
    return "".join(text)


def timed(words, text, folder):
    begin = time.monotonic()
    ran = subprocess.run([program] + words, input=text, capture_output=True, cwd=folder)
    return time.monotonic() - begin, ran.stdout.decode()


for is_long in (False, True):
    print("%s\n| Packages | resolve, s | Ratio | verify, s | Ratio | Certificate's lines | Answer |\n|---|---|---|---|---|---|---|" % ("long" if is_long else "wide"))
    before = None
    for count in sizes:
        with tempfile.TemporaryDirectory() as folder:
            (pathlib.Path(folder) / "c").mkdir()
            (pathlib.Path(folder) / "c/catalog.json").write_text(catalog(count, is_long))
            resolving, out = timed(["resolve", "c", "p00000", "s"], b"", folder)
            certificate = out[out.find("certificate"):]
            verifying, verdict = timed(["verify", "c", "p00000", "s"], certificate.encode(), folder)
        ratios = ("%.1f" % (resolving / before[0]), "%.1f" % (verifying / before[1])) if before else ("", "")
        print("| %d | %.3f | %s | %.3f | %s | %d | %s |" % (count, resolving, ratios[0], verifying, ratios[1], certificate.count("\n"), verdict.strip()), flush=True)
        before = (resolving, verifying)
